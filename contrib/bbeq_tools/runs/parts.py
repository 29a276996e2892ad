"""Writes the independent parts of a specification and an implementation, each as two texts of its
own.

Outputs and next states belong together where a box has a path to both. A part has those that belong
together, with the ports, registers, boxes and gates that these need alone; outputs that no box
feeds stand in parts with others that read the same inputs. `run` compares the parts and joins what
they say."""
import gc
import os
import subprocess
import sys

from bbeq_tools.cli import Fault, Misuse, run_script
from bbeq_tools.program import find_program
from bbeq_tools.runs.folders import COLUMNS, check_folder, hashes, locked, rows, write_parts
from bbeq_tools.runs.parting import pair_of
from bbeq_tools.verilog.language import bit_text
from bbeq_tools.words import Words


def parse_words():
    parser = Words(prog="parts", description=__doc__.split("\n\n")[0], epilog="The program is "
                   "$BBEQ, or bbeq on the PATH, or the one that was built in this repository. "
                   "Where it refuses the pair, its line is shown, and nothing is written.")
    parser.add_argument("specification", metavar="SPEC", help="the specification")
    parser.add_argument("implementation", metavar="IMPL", help="the implementation")
    parser.add_argument("-o", "--output", required=True, metavar="FOLDER",
                        help="where to write: a new folder, or one with parts of the same files")
    parser.add_argument("--top-spec", metavar="NAME", help="the top module, as for bbeq")
    parser.add_argument("--top-impl", metavar="NAME", help="the top module, as for bbeq")
    parser.add_argument("--outputs", type=int, metavar="N", help="put outputs that no box feeds "
                        "into parts of N (otherwise those that read the same inputs, at most 64)")
    parser.add_argument("--shared", action="store_true",
                        help="put boxes of one module into one part, as bbeq's --shared needs it")
    parser.add_argument("--care", metavar="NAME", help="keep this output of the specification in "
                        "each part, as bbeq's --care needs it")
    parser.add_argument("--invariant", metavar="NAME", help="refused, since an invariant is one of "
                        "the whole specification")
    words = parser.parse_args()
    if words.invariant is not None:
        raise Misuse(WHOLE.format(words.invariant))
    if words.outputs is not None and words.outputs < 1:
        parser.error("--outputs is 1 or more")
    return words


WHOLE = ("an invariant is one of the whole specification: whether an event keeps it depends on "
         "registers of all parts. `bbeq SPEC IMPL --invariant {0} --to ternary` says whether it is "
         "kept; if so, parts with --care {0} are compared at the same vectors")
# What is told last: but for the number of its inputs and pins the pair fits, and parts have fewer.
TOO_MANY = "refused pair pins\n"


def check_pair(words):
    """Has the program read the pair; what it refuses is shown as it says it."""
    program = find_program()
    if not program:
        raise Fault("bbeq is not there; run ./bbeq once, or set BBEQ")
    given = {"top-spec": words.top_spec, "top-impl": words.top_impl, "care": words.care}
    options = [f"--{option}={value}" for option, value in given.items() if value is not None]
    # Nothing is looked for, since a budget of no clauses is too small for any pair.
    options += ["--from=expand", "--to=expand", "--clauses=0"]
    done = subprocess.run([program, *options, "--", words.specification, words.implementation],
                          capture_output=True, text=True, errors="replace", check=False)
    if done.returncode not in (0, 1, 3) and done.stdout != TOO_MANY:
        sys.stdout.write(done.stdout)
        sys.stderr.write(done.stderr)
        if not done.stdout:
            raise Fault(f"bbeq ended with {done.returncode}")
        sys.stdout.flush()
        sys.exit(done.returncode if done.returncode >= 0 else 128 - done.returncode)


def description(pair, parts, words):
    """What `run` has to know of the pair: the order of its inputs, and its boxes."""
    read = {path for part in parts for path in part.boxes}
    files = [os.path.abspath(path) for path in (words.specification, words.implementation)]
    boxes = [{"path": box.path, "module": box.module.name, "is_read": box.path in read,
              "inputs": len(box.parts),
              "outputs": [bit_text(net.name, index) for net, index in box.module.pins("output")]}
             for box in pair.boxes_in_order()]
    cut_for = ["--shared"] * words.shared + ([f"--care={words.care}"] if words.care else [])
    return {"files": files, "hashes": hashes(files), "words": cut_for, "inputs": pair.order,
            "boxes": boxes}


def table(parts):
    lines = [COLUMNS, *rows(parts)]
    widths = [max(map(len, column)) for column in zip(*lines)]
    return "".join("  ".join(word.rjust(width) for word, width in zip(line, widths)) + "\n"
                   for line in lines)


def command():
    gc.disable()  # A text is millions of small objects, and next to none of them is dropped.
    words = parse_words()
    check_folder(words.output,
                 [os.path.abspath(path) for path in (words.specification, words.implementation)])
    check_pair(words)
    pair = pair_of(words.specification, words.implementation, (words.top_spec, words.top_impl),
                   words.care)
    parts = sorted(map(pair.part, pair.parts(words.outputs, words.shared)),
                   key=lambda part: (part.log2, part.kept))
    os.makedirs(words.output, exist_ok=True)
    with locked(os.path.join(words.output, "lock")):
        write_parts(words.output, description(pair, parts, words), parts)
    sys.stdout.write(table(parts))


def main():
    run_script("parts", command)
