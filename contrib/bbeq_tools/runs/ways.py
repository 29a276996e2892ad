"""The ways in which `solve` asks the program: each is a generator that yields its runs one after
another, is sent the answer of each, and returns the answer that decides, or None."""
import os
from collections import namedtuple

from bbeq_tools.cli import python_call
from bbeq_tools.runs.answers import Answer
from bbeq_tools.runs.climbs import (MOST_CLAUSES, MOST_NODES, budgets, order_command,
                                    wants_clauses)

FIRST_CLAUSES = 20_000
FEW_CLAUSES = (200_000, 2_000_000)
FIRST_NODES = 100_000
CLAUSE_BYTES, NODE_BYTES, TEXT_BYTES = 400, 24, 20  # Of memory, for each byte of the texts too.
LEAST_BYTES = 50_000_000
READING, FEW, BY_PARTS, BY_ORDER = "reading", "few clauses", "parts", "ordered"

# A run: what it is called, its command, how much memory it may take, whether it is no run of the
# program, so that what it says on standard error is of no use, and whether it is worth telling
# where it was open.
Attempt = namedtuple("Attempt", "label command memory is_quiet is_told",
                     defaults=(LEAST_BYTES, False, True))


class Request(namedtuple("Request", """program words specification implementation folder memory
                                       most_nodes most_clauses""",
                         defaults=(MOST_NODES, MOST_CLAUSES))):
    """What is asked: the program, the words for all its runs, the two files, a folder for texts
    that are made, the memory for all runs together, and the most nodes and clauses."""

    def attempt(self, label, words, memory=0):
        command = (self.program, *self.words, *words, "--", self.specification, self.implementation)
        return Attempt(label, command, self.reading_memory() + memory)

    def reading_memory(self):
        """What the program takes to read the two files."""
        return LEAST_BYTES + TEXT_BYTES * sum(
            os.path.getsize(path) for path in (self.specification, self.implementation)
            if os.path.exists(path))

    def clause_budgets(self):
        """At once as many clauses as half of the memory has room for: with fewer a run takes fewer
        vectors at once, so it may need more turns, or end too early."""
        return growing(max(FIRST_CLAUSES, self.memory // 2 // CLAUSE_BYTES), self.most_clauses, 100)

    def few_clause_budgets(self):
        """Far fewer than those; none where there is no box, since vectors are added for boxes."""
        return [few for few in FEW_CLAUSES
                if 4 * few <= self.clause_budgets()[0] and self.may_have_boxes()]

    def may_have_boxes(self):
        """Whether the implementation has a second module, which may be empty."""
        try:
            with open(self.implementation, "rb") as file:
                return file.read().count(b"endmodule") > 1
        except OSError:
            return False

    def node_budgets(self, is_one):
        """The same where there is one check. Of several the earlier ones should give up soon, since
        a later one may need fewer nodes."""
        room = self.memory // 8 // NODE_BYTES if is_one else 0
        return growing(max(FIRST_NODES, room), self.most_nodes, 16)

    def top(self, side):
        found = [word.partition("=")[2]
                 for word in self.words if word.startswith(f"--top-{side}=")]
        return found[0] if found else None


def by_reading(request):
    """The cheapest check: what it refuses ends all."""
    answer = yield request.attempt("ternary", ("--to=ternary",))._replace(is_told=False)
    return answer if answer.status != 3 and not answer.signal else None


def growing(first, most, factor):
    """Budgets up to the most that there may be, without one that is nearly as large."""
    return [budget for budget in budgets(min(first, most), most, factor)
            if budget == most or 4 * budget <= most]


def by_few_clauses(request):
    """`expand` adds vectors while its clauses have room. Where few vectors suffice, to make the
    clauses of the others takes most of a run."""
    return (yield from by_clauses(request, request.few_clause_budgets()))


def by_clauses(request, budgets=None):
    for clauses in request.clause_budgets() if budgets is None else budgets:
        answer = yield request.attempt(f"expand with {clauses} clauses",
                                       ("--from=expand", f"--clauses={clauses}"),
                                       clauses * CLAUSE_BYTES)
        if answer.is_decided or not wants_clauses(answer.report):
            return answer if answer.is_decided else None
    return None


def by_nodes(request, first, last, note=""):
    """The checks by diagrams from the first to the last. With more nodes they go on at the first
    that had too few."""
    for nodes in request.node_budgets(first == last):
        label = last if first == last else f"{first} to {last}"
        answer = yield request.attempt(f"{label}{note} with {nodes} nodes",
                                       (f"--from={first}", f"--to={last}", f"--nodes={nodes}"),
                                       nodes * NODE_BYTES)
        lines = answer.report.splitlines()
        if answer.is_decided or f"rung {last} nodes" not in lines:
            return answer if answer.is_decided else None
        first = next(line.split()[1] for line in lines
                     if line.startswith("rung ") and line.endswith(" nodes"))
    return None


def by_order(request):
    """The checks by diagrams, with the specification's ports in another order."""
    path = os.path.join(request.folder, "ordered.v")
    command = order_command(request.specification, request.top("spec"), path)
    answer = yield Attempt("order", tuple(command), is_quiet=True)
    from bbeq_tools.runs.kept import contents
    if answer.status != 0 or contents(path) == contents(request.specification):
        return None
    ordered = request._replace(specification=path)
    return (yield from by_nodes(ordered, "symbolic", "input", ", ports ordered,"))


def by_parts(request):
    """The independent parts of the pair, each by clauses and by nodes in turn; one that is wrong
    decides, and else all have to be decided. An invariant is one of the whole specification."""
    if any(word.partition("=")[0] == "--invariant" for word in request.words):
        return None
    folder = os.path.join(request.folder, "parts")
    own = [word for word in request.words if word.partition("=")[0] in ("--shared", "--care",
                                                                        "--top-spec", "--top-impl")]
    answer = yield Attempt("parts", (*python_call("runs.parts"), "-o", folder, *own, "--",
                                     request.specification, request.implementation),
                           is_quiet=True)
    from bbeq_tools.runs.folders import read_parts
    from bbeq_tools.runs.joined import joined
    pair = read_parts(folder) if answer.status == 0 else {"parts": 1}
    if pair["parts"] < 2:
        return None
    numbers = range(1, pair["parts"] + 1)
    ways = {number: in_turn(part_request(request, number), number) for number in numbers}
    answers = yield from all_parts(ways)
    if answers is None:
        return None
    lines, status = joined(pair, [answers.get(number) for number in numbers])
    answer = Answer(status, 0.0, 0, "".join(f"{line}\n" for line in lines))
    return answer if answer.is_decided else None


def part_request(request, number):
    """A part has a top of its own, and is called by its number. Its budgets grow from the least,
    since its checks take turns."""
    place = os.path.join(request.folder, "parts", str(number))
    words = tuple(word for word in request.words if not word.startswith("--top-"))
    return request._replace(words=words, specification=os.path.join(place, "spec.v"),
                            implementation=os.path.join(place, "impl.v"), memory=0)


def in_turn(request, number):
    """A run by clauses and one by nodes in turn, until one decides or both have ended."""
    ways = [by_clauses(request), by_nodes(request, "symbolic", "input")]
    answers = {way: None for way in ways}
    while ways:
        for way in list(ways):
            try:
                attempt = way.send(answers[way])
            except StopIteration as end:
                ways.remove(way)
                if end.value:
                    return end.value
            else:
                answers[way] = yield attempt._replace(label=f"part {number} {attempt.label}")
                if answers[way].is_decided:
                    return answers[way]
    return None


def all_parts(ways):
    """A run of each part in turn; the answers by the parts, or None where a part cannot be decided
    and none is wrong."""
    found, answers, is_open = {}, {number: None for number in ways}, False
    while ways:
        for number in list(ways):
            try:
                attempt = ways[number].send(answers[number])
            except StopIteration as end:
                del ways[number]
                if end.value is None:
                    is_open = True
                    continue
                found[number] = end.value
                if end.value.verdict == "error":
                    return found
            else:
                answers[number] = yield attempt
    return None if is_open else found


def ways_of(request, is_whole):
    """The ways by their names, those that promise most first. A report that is to have more than
    the lines on the pair is never joined of parts."""
    found = {READING: by_reading(request), "expand": by_clauses(request),
             "input": by_nodes(request, "input", "input"),
             "symbolic to output": by_nodes(request, "symbolic", "output"),
             FEW: by_few_clauses(request)}
    if not is_whole:
        found[BY_PARTS] = by_parts(request)
    return {**found, BY_ORDER: by_order(request)}
