"""Checks an LRAT proof that a formula in DIMACS has no assignment.

It stands here because a machine may have no other checker. It knows nothing of bbeq: it reads the
two files, and takes a clause only where its hints, one after another, leave each one literal and
the last none, once the clause is denied. Clauses whose proof needs more than propagation (RAT) are
refused; bbeq's proofs have none."""
import argparse
import sys
from typing import Dict, List, NoReturn, Tuple

Clauses = Dict[int, List[int]]  # By their numbers.


class Wrong(Exception):
    """What is wrong, as one line."""


NOT_VERIFIED, WRONG_WORDS, UNREAD = 1, 64, 125  # Statuses.


def fail(message: str, status: int) -> NoReturn:
    print(f"lrat: {message}", file=sys.stderr)
    sys.exit(status)


class Words(argparse.ArgumentParser):
    def error(self, message: str) -> NoReturn:
        fail(f"{message} (lrat --help lists the words)", WRONG_WORDS)


def parse_words() -> argparse.Namespace:
    parser = Words(prog="lrat", description=(__doc__ or "").split("\n\n")[0])
    parser.add_argument("cnf", metavar="CNF", help="the formula, in DIMACS")
    parser.add_argument("proof", metavar="LRAT", help="the proof")
    return parser.parse_args()


def read_cnf(path: str) -> Clauses:
    """The clauses by their numbers, from 1."""
    with open(path, encoding="ascii") as file:
        words = [word for line in file if not line.startswith("c") for word in line.split()]
    if words[:2] != ["p", "cnf"] or len(words) < 4:
        raise Wrong(f"{path}: there is no line p cnf")
    clauses: Clauses = {}
    clause: List[int] = []
    for word in words[4:]:
        if word == "0":
            clauses[len(clauses) + 1] = clause
            clause = []
        else:
            clause.append(int(word))
    if clause or len(clauses) != int(words[3]):
        raise Wrong(f"{path}: there are {len(clauses)} clauses, and the first line says {words[3]}")
    return clauses


def follows(clause: List[int], hints: List[int], clauses: Clauses) -> bool:
    """The clause follows by propagation along the hints."""
    false = set(clause)
    for hint in hints:
        if hint not in clauses:
            return False
        open_ones = {literal for literal in clauses[hint] if literal not in false}
        if not open_ones:
            return True
        if len(open_ones) > 1:
            return False
        false.add(-open_ones.pop())
    return False


def split_at_zero(words: List[int]) -> Tuple[List[int], List[int]]:
    if 0 not in words:
        raise ValueError
    return words[:words.index(0)], words[words.index(0) + 1:]


def check_line(line: str, clauses: Clauses) -> bool:
    """Takes one line of the proof; true where it gives the empty clause."""
    words = line.split()
    number = int(words[0])
    if words[1:2] == ["d"]:
        for word in words[2:-1]:
            clauses.pop(int(word), None)
        return False
    clause, rest = split_at_zero([int(word) for word in words[1:]])
    hints, rest = split_at_zero(rest)
    if rest or number in clauses:
        raise ValueError
    if not follows(clause, hints, clauses):
        raise Wrong(f"clause {number} does not follow from its hints")
    clauses[number] = clause
    return not clause


def check(words: argparse.Namespace) -> None:
    clauses = read_cnf(words.cnf)
    given = len(clauses)
    with open(words.proof, encoding="ascii") as file:
        for at, line in enumerate(file, 1):
            try:
                if line.strip() and check_line(line, clauses):
                    print(f"verified: {given} clauses, and the empty clause in {at} steps")
                    return
            except (ValueError, IndexError):
                raise Wrong(f"{words.proof}: line {at} has not the form of LRAT") from None
            except Wrong as wrong:
                raise Wrong(f"{words.proof}: line {at}: {wrong}") from None
    raise Wrong(f"{words.proof}: the proof ends without the empty clause")


def main() -> None:
    try:
        check(parse_words())
    except UnicodeDecodeError:
        fail("a file is no text of ASCII", NOT_VERIFIED)
    except OSError as error:
        fail(f"{error.filename or 'standard output'}: {error.strerror}", UNREAD)
    except MemoryError:
        fail("there is no memory left", UNREAD)
    except (Wrong, ValueError) as wrong:
        fail(str(wrong), NOT_VERIFIED)
