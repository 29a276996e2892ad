"""A report as what it says: its checks with the lines of each, its verdict, and what stands before
and after these."""
import sys
from typing import Dict, List, NamedTuple, Optional

from bbeq_tools.cli import Fault
from bbeq_tools.report.cared import invariant_word
from bbeq_tools.report.reports import Tables, Vector, is_verdict, tables, vectors

PROOF = ("vector ", "clause ", "step ")  # Lines of the proof of an expansion.


class Check(NamedTuple):
    """A check: its name, its result, and its lines, those of a proof left out, which are counted
    by their first word."""

    name: str
    result: str
    lines: List[str]
    proof: Dict[str, int]


class Account(NamedTuple):
    """A report. `verdict` is `repairable`, `error`, `open`, `refused`, `unread` or `rup`; `head`
    has the lines before the checks, and `filled` the text of the finished circuit."""

    lines: List[str]
    verdict: str
    head: List[str]
    checks: List[Check]
    filled: Optional[str]
    tables: Tables
    vectors: List[Vector]

    @property
    def last(self) -> Optional[Check]:
        return self.checks[-1] if self.checks else None

    @property
    def invariant(self) -> Optional[str]:
        """What became of an invariant: `kept`, `broken`, `open`, or nothing where there is none."""
        return invariant_word(self.lines)

    def made(self) -> Optional[str]:
        """The number of bits of a made pair."""
        return next((line[5:] for line in self.head if line.startswith("make ")), None)


def read_lines(path: str) -> List[str]:
    try:
        if path == "-":
            text = sys.stdin.read()
        else:
            with open(path, encoding="latin-1", newline="\n") as file:
                text = file.read()
    except OSError as error:
        raise Fault(f"{path}: {error.strerror}") from None
    lines = text.split("\n")
    return lines if lines[-1] else lines[:-1]


def read_account(path: str) -> Account:
    """The account of a report; `-` is standard input."""
    lines = read_lines(path)
    if not lines:
        raise Fault(f"{path}: the report is empty")
    word = lines[0].split(" ")[0]
    if word in ("refused", "unread", "rup"):
        return Account(lines[:1], word, [], [], None, {}, [])
    place = next((at for at, line in enumerate(lines) if is_verdict(line)), None)
    if place is None:
        raise Fault(f"{path}: the report has no verdict: give what bbeq printed, the whole of it")
    body, after = lines[:place], lines[place + 1:]
    first = next((at for at, line in enumerate(body) if line.startswith("rung ")), len(body))
    filled = "\n".join(after[1:]) + "\n" if after[:1] == ["fill"] else None
    return Account(lines[:place + 1] + (after[:1] if filled is None else []),
                   lines[place].split(" ")[1], body[:first], checks_of(path, body[first:]), filled,
                   tables(body), vectors(body))


def checks_of(path: str, lines: List[str]) -> List[Check]:
    found: List[Check] = []
    for line in lines:
        if line.startswith("rung "):
            words = line.split(" ")
            if len(words) != 3 or not words[1] or not words[2]:
                raise Fault(f"{path}: `{line[:60]}` is no line of a check")
            found.append(Check(words[1], words[2], [], {}))
        elif line.startswith(PROOF):
            word = line.split(" ")[0]
            found[-1].proof[word] = found[-1].proof.get(word, 0) + 1
        else:
            found[-1].lines.append(line)
    return found
