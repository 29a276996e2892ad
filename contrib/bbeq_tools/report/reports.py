"""What the scripts of this folder read from a report of bbeq (docs/REPORT.md): its lines, its
tables, its vectors, and the filled implementation behind its verdict."""
import sys
from typing import Dict, List, Optional, Tuple

from bbeq_tools.cli import Fault
from bbeq_tools.report.printed import is_verdict
from bbeq_tools.words import Words

Lines = List[str]
Tables = Dict[str, List[Tuple[str, str]]]
# The check, what is wrong as its kind and name, and the bits of the inputs.
Vector = Tuple[Optional[str], Optional[Tuple[str, str]], Dict[str, str]]
OTHER = "the report is of other texts: run bbeq on these and give its report"


def add_report_words(parser: Words) -> None:
    """The words of a script that shows a report of two texts."""
    parser.add_argument("report", metavar="REPORT",
                        help="a file with what bbeq printed; - is standard input")
    parser.add_argument("specification", metavar="SPEC", help="the specification that bbeq read")
    parser.add_argument("implementation", metavar="IMPL", help="the implementation that bbeq read")
    parser.add_argument("--top-spec", help="the top module, as for bbeq")
    parser.add_argument("--top-impl", help="the top module, as for bbeq")


def all_lines(path: str) -> Tuple[Lines, bool]:
    """All lines of a report, and whether its last one is whole; `-` is standard input. A report
    that is empty, cut or refused is a fault."""
    try:
        if path == "-":
            text = sys.stdin.read()
        else:
            with open(path, encoding="latin-1") as file:
                text = file.read()
    except OSError as error:
        raise Fault(f"{path}: {error.strerror}") from None
    lines = text.splitlines()
    if not lines:
        raise Fault(f"{path}: the report is empty")
    if lines[0].startswith(("refused ", "unread ")):
        raise Fault(f"{path}: the run was refused, so there is nothing to show: {lines[0]}")
    if not any(is_verdict(line) for line in lines):
        raise Fault(f"{path}: the report has no verdict: give what bbeq printed, the whole of it")
    return lines, text.endswith("\n")


def verdict_place(lines: Lines) -> int:
    return next(place for place, line in enumerate(lines) if is_verdict(line))


def read_report(path: str) -> Lines:
    """The lines of a report up to its verdict."""
    lines, _ = all_lines(path)
    return lines[:verdict_place(lines) + 1]


def read_filled(path: str) -> str:
    """The filled implementation that stands behind the verdict of a report."""
    return filled_in(path, *all_lines(path))


def filled_in(path: str, lines: Lines, is_whole: bool) -> str:
    """The same, of the lines of a report."""
    place = verdict_place(lines)
    behind = lines[place + 1:]
    if verdict(lines) != "repairable":
        raise Fault(f"{path}: no filled implementation, since the verdict is {verdict(lines)}")
    if not behind:
        raise Fault(f"{path}: the report has no filled implementation: run bbeq with --fill")
    if not is_whole:
        raise Fault(f"{path}: the filled implementation is cut: give what bbeq printed, "
                    "the whole of it")
    if behind[0] == "fill toolarge":
        raise Fault(f"{path}: the filled implementation would be too large; `fill REPORT IMPL` "
                    "has no such bound")
    if behind[0].startswith("fill clash "):
        raise Fault(f"{path}: two nets of the filled implementation would be called "
                    f"{behind[0][11:]}: rename a port or a register")
    if behind[0] != "fill" or behind[-1] != "endmodule":
        raise Fault(f"{path}: the filled implementation is cut: give what bbeq printed, "
                    "the whole of it")
    return "\n".join(behind[1:]) + "\n"


def other_texts(lines: Lines) -> str:
    """What to say where the tables of a report do not fit the texts that were given."""
    if lines[0].startswith("make "):
        return f"the report is of a made pair: give the texts that `made {lines[0][5:]}` writes"
    return OTHER


def verdict(lines: Lines) -> str:
    return lines[verdict_place(lines)].split()[1]


def tables(lines: Lines) -> Tables:
    """The tables by the path of their box: a list of (pin, bits), in the order of the report."""
    found: Tables = {}
    for line in lines:
        words = line.split()
        if words[:1] == ["table"]:
            if len(words) != 4 or set(words[3]) - {"0", "1"}:
                raise Fault(f"`{line[:60]}` is no table line")
            found.setdefault(words[1], []).append((words[2], words[3]))
    return found


def vectors(lines: Lines) -> List[Vector]:
    """The vectors: for each `input` line what is said before it (the check, and the output or
    register that is wrong) and the bit of each input. An event that breaks an invariant is none."""
    if lines and lines[0] == "invariant broken":
        return []
    found: List[Vector] = []
    check: Optional[str] = None
    wrong: Optional[Tuple[str, str]] = None
    for line in lines:
        words = line.split(" ")
        if words[0] in ("rung", "output", "next") and (len(words) < 2 or not words[1]):
            raise Fault(f"`{line[:60]}` names nothing")
        if words[0] == "rung":
            check, wrong = words[1], None
        elif words[0] in ("output", "next"):
            wrong = (words[0], words[1])
        elif words[0] == "input":
            pairs = [word.rsplit("=", 1) for word in words[1:]]
            if any(len(pair) != 2 or pair[1] not in ("0", "1") for pair in pairs):
                raise Fault(f"`{line[:60]}` is no line of inputs")
            bits = {name: bit for name, bit in pairs}
            if len(bits) < len(pairs):
                raise Fault(f"`{line[:60]}` has one name twice, for an input and for a "
                            "register; rename one")
            found.append((check, wrong, bits))
    return found
