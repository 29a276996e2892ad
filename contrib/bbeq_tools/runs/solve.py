"""Runs bbeq on a pair in several ways at once, and prints the report of the first that decides.

The check `expand` with ever more clauses, the checks by diagrams with ever more nodes, these with
the specification's ports in the order of `order`, and the independent parts of the pair: which of
them decides soon nobody knows before. A line on standard error each few seconds says what runs and
what was found. The report and the status are those of one run of bbeq, or of `run` on the parts."""
import os
import sys
import time

from bbeq_tools.cli import Fault, run_script
from bbeq_tools.program import find_program
from bbeq_tools.report.printed import print_report
from bbeq_tools.runs.climbs import MOST_CLAUSES, MOST_NODES
from bbeq_tools.runs.guard import Guard
from bbeq_tools.runs.portfolio import Portfolio, available_memory, told_bytes, told_found
from bbeq_tools.runs.program_words import FLAGS, VALUES, add_program_words, program_words
from bbeq_tools.runs.ways import BY_ORDER, BY_PARTS, READING, Request, ways_of

TOO_LONG = 7  # The seconds of --limit were over.
PLAIN = "abcdefghijklmnopqrstuvwxyzABCDEFGHIJKLMNOPQRSTUVWXYZ0123456789@%+=:,./-_"
HELPS = {"nodes": f"at most so many nodes in a check by diagrams (default {MOST_NODES})",
         "clauses": f"at most so many clauses in `expand` (default {MOST_CLAUSES})"}


class Given:
    """The words, as a parser gives them."""

    def __init__(self):
        self.specification = self.implementation = self.limit = self.jobs = None
        self.fill = False
        for option in VALUES:
            setattr(self, option.replace("-", "_"), None)
        for option in FLAGS:
            setattr(self, option, False)


def plain_words(words):
    """The words where they are two files and perhaps two usual options, or None: the parser of all
    takes longer to load than a small run of bbeq."""
    given, files, left = Given(), [], iter(words)
    for word in left:
        if word in ("--limit", "--jobs"):
            value = next(left, "")
            if not value.isdecimal() or not int(value):
                return None
            setattr(given, word[2:], int(value))
        elif word.startswith("-"):
            return None
        else:
            files.append(word)
    if len(files) != 2:
        return None
    given.specification, given.implementation = files
    return given


def parsed_words():
    from bbeq_tools.words import Words
    parser = Words(prog="solve", description=__doc__.split("\n\n")[0], allow_abbrev=False,
                   epilog="The status is that of the run whose report is printed, or 7 where the "
                   "seconds of --limit were over. A run that a signal ends gives no answer; where "
                   "all end so, the status is 125. All runs together take at most half of the "
                   "memory that is free. The program is $BBEQ, or bbeq on the PATH, or the one "
                   "that was built in this repository.")
    parser.add_argument("specification", metavar="SPEC", help="the specification")
    parser.add_argument("implementation", metavar="IMPL", help="the implementation")
    parser.add_argument("--limit", type=float, metavar="SECONDS",
                        help="end without a verdict after these seconds")
    parser.add_argument("--jobs", type=int, metavar="N",
                        help="how many runs go at once (otherwise one a processor); the others "
                        "take turns with them")
    add_program_words(parser, HELPS)
    parser.add_argument("--fill", action="store_true",
                        help="print the finished circuit, where the boxes can be filled")
    words = parser.parse_args()
    for option, most in (("nodes", MOST_NODES), ("clauses", MOST_CLAUSES)):
        value = getattr(words, option)
        if value is not None and not (value.isdecimal() and 0 < int(value) <= most):
            parser.error(f"--{option} is a number from 1 to {most}")
    if words.limit is not None and not words.limit > 0:
        parser.error("--limit is more than 0")
    if words.jobs is not None and words.jobs < 1:
        parser.error("--jobs is 1 or more")
    return words


def parse_words():
    words = plain_words(sys.argv[1:]) or parsed_words()
    words.jobs = words.jobs or len(os.sched_getaffinity(0))
    words.others = program_words(words, ("nodes", "clauses")) + ["--fill"] * words.fill
    return words


def say(text):
    print(f"solve: {text}", file=sys.stderr, flush=True)


def lasting(path, folder):
    """A file that can be read again: a pipe is copied."""
    if os.path.exists(path) and not os.path.isfile(path) and not os.path.isdir(path):
        copy = os.path.join(folder, f"copy{len(os.listdir(folder))}.v")
        with open(path, "rb") as source, open(copy, "wb") as target:
            while part := source.read(1 << 20):
                target.write(part)
        return copy
    return path


def cause(answer, request):
    """What a line that refuses a pair leaves unsaid, or None."""
    words = [*(answer.report.split() if answer.status in (2, 4) else []), "", ""]
    path = request.implementation if words[1] == "impl" else request.specification
    if words[0] == "unread":
        try:
            with open(path, "rb") as file:
                file.read()
        except OSError as error:
            return f"{path}: {error.strerror}"
    if words[2:3] in (["token"], ["statement"]):
        return f"{path} is no netlist that bbeq reads; of RTL `gates` makes one"
    if words[1:3] in (["pair", "register"], ["pair", "port"]):
        return "`names SPEC IMPL` lists all that one of the two lacks, with likely partners"
    if words[1:3] == ["pair", "specbox"]:
        return f"{path} has an empty module; the specification, which has none, comes first"
    return None


def finish(answer):
    """Prints a report, and ends with its status."""
    print_report(answer.report)
    sys.exit(answer.status)


def told_words(words):
    """The words, as a shell takes them."""
    if all(word and not word.strip(PLAIN) for word in words):
        return " ".join(words)
    import shlex
    return shlex.join(words)


def told_way(turn, request):
    """How the answer came, so that it can come again. A report may be of another pair than that of
    the two files."""
    attempt = turn.found[-1][0]
    if turn.name == BY_PARTS:
        return "its independent parts, whose reports are joined (`parts`, `run`)"
    files = {request.specification: "SPEC", request.implementation: "IMPL",
             os.path.join(request.folder, "ordered.v"): "ORDERED"}
    words = [files.get(word, word) for word in attempt.command[1:] if word != "--"]
    source = ", where `order SPEC` writes ORDERED" if turn.name == BY_ORDER else ""
    return f"bbeq {told_words(words)}{source}"


def tell_open(portfolio, request, why):
    """What the runs found that decided nothing, and what none of them tried."""
    from bbeq_tools.runs.untried import untried
    say(f"nothing decided{why}")
    for found in portfolio.found():
        say(f"  {told_found(found)}")
    if portfolio.unfinished:
        say(f"  still running: {'; '.join(portfolio.unfinished)}")
    for line in untried(request, portfolio):
        say(f"  try {line}")


def answers_of(portfolio, are_wanted):
    """The open answers of the ways that are wanted, each with the memory of its attempt."""
    return [(attempt.memory, answer) for turn in portfolio.turns if are_wanted(turn.name)
            for attempt, answer, _ in turn.found if answer.status == 3]


def farthest(portfolio):
    """The open report of the run on the two files that had the largest budget."""
    whole = answers_of(portfolio, lambda name: name not in (READING, BY_PARTS, BY_ORDER))
    if not whole and any(answer.signal for _, answer, _ in portfolio.found()):
        raise Fault("no answer: signals ended the runs, as the kernel's where memory is short")
    whole = whole or answers_of(portfolio, READING.__eq__)
    if not whole:
        raise Fault("no answer: there is too little memory for a run")
    return max(whole, key=lambda found: found[0])[1]


def answer_of(portfolio, request, began, until):
    """The answer that decides, or None; how it came is said."""
    turn = portfolio.solve(until)
    if turn is None:
        return None
    seconds = time.monotonic() - began
    if turn.answer.status == 1 and "\ninput " not in turn.answer.report:
        # An error with a vector is worth more, and the run that finds most of them is the shortest.
        turn = portfolio.decided_soon(READING, seconds) or turn
    portfolio.kill()
    why = (f"{turn.answer.verdict} after {seconds:.1f} s by {told_way(turn, request)}"
           if turn.name != READING else cause(turn.answer, request))
    if why:
        say(why)
    return turn.answer


def solve(words, program, folder, guard):
    began = time.monotonic()
    until = began + words.limit if words.limit else None
    files = [lasting(path, folder) for path in (words.specification, words.implementation)]
    budget = available_memory() // 2
    request = Request(program, tuple(words.others), *files, folder, budget,
                      int(words.nodes or MOST_NODES), int(words.clauses or MOST_CLAUSES))
    portfolio = Portfolio(ways_of(request, words.fill or words.proof), words.jobs, budget, guard,
                          {BY_PARTS: 0.5, BY_ORDER: 1.0})
    try:
        answer = answer_of(portfolio, request, began, until)
        if answer:
            finish(answer)
    finally:
        portfolio.close()
    if until is not None and time.monotonic() >= until:
        if not any(turn.found for turn in portfolio.turns):
            say(f"nothing decided in {words.limit:g} s, in which the pair was not read; --limit "
                "more")
        else:
            tell_open(portfolio, request,
                      f" in {words.limit:g} s; a larger --limit gives the runs more time")
        sys.exit(TOO_LONG)
    tell_open(portfolio, request,
              f": each run has ended, with at most {told_bytes(budget)} of memory")
    finish(farthest(portfolio))


def temporary_place():
    places = (os.environ.get("TMPDIR"), "/tmp", "/var/tmp", os.getcwd())
    return next((place for place in places
                 if place and os.path.isdir(place) and os.access(place, os.W_OK | os.X_OK)), "/tmp")


def command():
    words = parse_words()
    program = find_program()
    if not program:
        raise Fault("bbeq is not there; run ./bbeq once, or set BBEQ")
    folder = os.path.join(temporary_place(), f"bbeq-solve{os.urandom(8).hex()}")
    guard = Guard(folder)
    try:
        os.mkdir(folder, 0o700)
        solve(words, os.path.realpath(program), folder, guard)
    finally:
        guard.close()


def main():
    run_script("solve", command)
