"""The output of the specification that says where two texts have to agree, as it is named to a
script: the care output of a report, or its invariant."""
import argparse
import sys
from typing import List, Optional, Sequence

from bbeq_tools.cli import Fault
from bbeq_tools.words import Words

# What became of an invariant, where no check ran.
UNKEPT = {"broken": "an event does not keep the invariant, so no check ran; `page` shows the event",
          "open": "whether each event keeps the invariant is unknown, so no check ran"}


def add_care_words(parser: Words) -> None:
    words = parser.add_mutually_exclusive_group()
    words.add_argument("--care", metavar="NAME",
                       help="the output that says where the two have to agree, as for bbeq")
    words.add_argument("--invariant", metavar="NAME",
                       help="the same, of a report that begins with `invariant kept`")


def invariant_word(lines: Sequence[str]) -> Optional[str]:
    """`kept`, `broken` or `open`, where a report begins with what became of an invariant."""
    words = lines[0].split(" ") if lines else []
    return words[1] if words[0:1] == ["invariant"] and len(words) == 2 else None


def why_open(lines: Sequence[str]) -> str:
    """What an open verdict comes of, where no check ran, to be put behind it."""
    why = UNKEPT.get(invariant_word(lines) or "")
    return f" ({why})" if why else ""


def care_of_report(script: str, words: argparse.Namespace, lines: List[str],
                   meaning: str) -> Optional[str]:
    """The name of the output. Where it is an invariant, it is said what that means here; a report
    that has one, and words that name none, are a fault, and so are words for another report."""
    name: Optional[str] = words.invariant or words.care
    has_invariant = invariant_word(lines) is not None
    if has_invariant and name is None:
        raise Fault("the report begins with what became of an invariant: name it here too, by "
                    "--invariant NAME")
    if words.invariant and lines and not has_invariant:
        raise Fault("the report does not begin with `invariant kept`, so it is not one with "
                    "--invariant")
    if has_invariant and not words.invariant:
        words.care, words.invariant = None, name
    if words.invariant:
        print(f"{script}: {meaning.format(name)}", file=sys.stderr)
    return name
