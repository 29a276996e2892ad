"""Runs the checks of bbeq one by one, and tells of each as it ends.

The program prints its report at the end, as a whole. This script runs it once for each check, with
a line on standard error as it ends: what it said, its seconds and its memory. The joined report on
standard output is the program's own for the same words, but for which of several tables or vectors
`expand` shows. A check that takes longer than its limit is ended and left out: where no other
decides then, no verdict is printed, and the status is 7."""
import json
import sys
import time
from itertools import dropwhile, takewhile

from bbeq_tools.cli import Fault, Output, run_script
from bbeq_tools.program import find_program
from bbeq_tools.report.printed import print_report
from bbeq_tools.runs.program_words import CHECKS, add_program_words, program_words
from bbeq_tools.runs.timed import finished
from bbeq_tools.words import Words

LEFT_OUT = 7  # A check was ended at its limit, and those before it leave the question open.
STATUSES = {"repairable": 0, "error": 1, "open": 3}


def parse_words():
    parser = Words(prog="ladder", description=__doc__.split("\n\n")[0],
                   epilog="The program is $BBEQ, or bbeq on the PATH, or the one that was built in "
                   "this repository. The status is the program's own, or 7 where a check was ended "
                   "at its limit and no other decides; then no verdict is printed.")
    parser.add_argument("specification", metavar="SPEC", help="the specification")
    parser.add_argument("implementation", metavar="IMPL", help="the implementation")
    parser.add_argument("--from", dest="first", choices=CHECKS, default="ternary",
                        help="the first check, as for bbeq")
    parser.add_argument("--to", dest="last", choices=CHECKS, default="expand",
                        help="the last check, as for bbeq")
    parser.add_argument("--all", action="store_true", help="go on after a mistake, as for bbeq")
    add_program_words(parser)
    parser.add_argument("--limit", type=float, metavar="SECONDS",
                        help="end a check that takes longer")
    parser.add_argument("--json", metavar="FILE",
                        help="write what each check said, its seconds and its memory as JSON, too")
    words = parser.parse_args()
    if CHECKS.index(words.first) > CHECKS.index(words.last):
        parser.error("--from stands behind --to")
    if words.limit is not None and words.limit <= 0:
        parser.error("--limit is more than 0")
    words.others = program_words(words)
    return words


class Check:
    """One check: its lines, its seconds, and its memory in bytes. `lines` is None where its time
    was over."""

    def __init__(self, program, words, name):
        self.name = name
        command = [program, *words.others, "--from", name, "--to", name, "--", words.specification,
                   words.implementation]
        start = time.monotonic()
        self.text, self.status, self.memory, ended = finished(command, words.limit)
        self.seconds = time.monotonic() - start
        self.lines = None if ended else self.text.splitlines()

    @property
    def result(self):
        """What the check said: the last word of its line. None runs where an invariant is not kept,
        and then the line says this."""
        if self.lines is None:
            return "no answer in time"
        return self.report()[0].split()[2] if self.report() else self.lines[0]

    def is_refused(self):
        """The run was refused, or a file could not be read, or there was no memory: no check was
        run."""
        return self.lines is not None and not any(line.startswith("verdict ")
                                                  for line in self.lines)

    def is_last(self, are_all_wanted):
        return (self.result == "repair" or self.result == "error" and not are_all_wanted
                or self.lines is not None and not self.report())

    def front(self):
        """The lines before that of the check, which speak of the invariant."""
        return list(takewhile(is_before, self.lines or ()))

    def report(self):
        lines = dropwhile(is_before, self.lines or ())
        return [line for line in lines if not line.startswith("verdict ")]


def is_before(line):
    return not line.startswith(("rung ", "verdict "))


def climb(program, words):
    """The checks one after another: up to a repair, and up to a mistake unless all are asked
    for."""
    for name in CHECKS[CHECKS.index(words.first):CHECKS.index(words.last) + 1]:
        check = Check(program, words, name)
        yield check
        if check.is_refused() or check.is_last(words.all):
            return


def told(check):
    memory = f"{check.memory / 1e6:.0f} MB" if check.lines is not None else ""
    return f"{check.name} {check.result} {check.seconds:.2f} s {memory}".rstrip()


def verdict_of(checks):
    """The verdict, or None where a check that might decide was ended."""
    results = [check.result for check in checks]
    if "error" in results or "repair" in results:
        return "error" if "error" in results else "repairable"
    return None if any(check.lines is None for check in checks) else "open"


def as_json(checks, verdict):
    return json.dumps({"verdict": verdict, "status": STATUSES.get(verdict, LEFT_OUT),
                       "checks": [{"check": check.name, "result": check.result,
                                   "lines": check.report()[1:], "seconds": round(check.seconds, 3),
                                   "bytes": check.memory} for check in checks]}, indent=1) + "\n"


def command():
    words = parse_words()
    program = find_program()
    if not program:
        raise Fault("bbeq is not there; run ./bbeq once, or set BBEQ")
    output = Output(words.json, [words.specification, words.implementation],
                    "utf-8") if words.json else None
    checks = []
    for check in climb(program, words):
        if check.is_refused():
            sys.stdout.write(check.text)
            sys.exit(check.status if check.status >= 0 else 128 - check.status)
        checks.append(check)
        print(told(check), file=sys.stderr, flush=True)
    verdict = verdict_of(checks)
    lines = [*checks[0].front(), *(line for check in checks for line in check.report())]
    told_all = "".join(f"{line}\n" for line in lines)
    print_report(told_all + (f"verdict {verdict}\n" if verdict else ""))
    if output:
        output.write(as_json(checks, verdict))
    sys.stdout.flush()
    sys.exit(STATUSES.get(verdict, LEFT_OUT))


def main():
    run_script("ladder", command)
