"""Writes the two texts of a made pair, which `bbeq --make N` compares without reading a file.

The specification is an adder of N bits that is built of N full adders, the carry going from each to
the next. In the implementation the one in the middle is an instance of a module without a body.
Scripts that need the texts of a report which begins with `make N` are given these."""
import os

from bbeq_tools.cli import Fault, run_script
from bbeq_tools.developing.adders import WIDEST, made_texts
from bbeq_tools.words import Words


def command():
    parser = Words(prog="made", description=__doc__.split("\n\n")[0])
    parser.add_argument("width", metavar="N", help=f"how many bits the adder has, 1 to {WIDEST}")
    parser.add_argument("-o", "--output", default=".", metavar="FOLDER",
                        help="where to write spec.v and impl.v (otherwise here)")
    words = parser.parse_args()
    if (not words.width.isdecimal() or not words.width.isascii()
            or not 1 <= int(words.width) <= WIDEST):
        raise Fault(f"{words.width} is no width from 1 to {WIDEST}")
    os.makedirs(words.output, exist_ok=True)
    for name, text in zip(("spec.v", "impl.v"), made_texts(int(words.width))):
        with open(os.path.join(words.output, name), "w", encoding="ascii") as file:
            file.write(text)


def main():
    run_script("made", command)
