"""What is left to try of a pair that `solve` leaves open, by what its runs had and said; what one
of them did is not named (docs/REPORT.md, "Where the verdict is open")."""
from typing import NamedTuple

from bbeq_tools.cli import Fault
from bbeq_tools.runs.climbs import MOST_CLAUSES, MOST_NODES, value_of, wants_clauses, wants_nodes
from bbeq_tools.runs.joined import MOST_TABLE_BITS
from bbeq_tools.runs.ways import BY_PARTS
from bbeq_tools.verilog.language import read_modules, top_of

PATTERNS, MANY_PATTERNS = "32", 4096
MOST_ONE_BOX = 15  # Input pins of one box in the place of several that `input` may decide.
NETLISTS = ("symbolic", "local", "output")  # Checks whose diagrams are those of the netlists.


def untried(request, portfolio):
    """Lines, each with what to try and the numbers for which it is named."""
    reports = [report for turn in portfolio.turns if turn.name != BY_PARTS
               for report in last_open(turn)]
    if any(report.startswith("invariant broken\n") for report in reports):
        yield "another invariant: the event that is shown breaks this one"
        return
    yield from budget_lines(request, reports)
    yield from memory_lines(portfolio.found())
    boxes = boxes_in(request)
    if "--shared" not in request.words and len({box.module for box in boxes}) < len(boxes):
        yield ("--shared, if one content is to do for all boxes of a module; `verdict error` then "
               "does not exclude contents that differ")
    yield from box_lines(boxes)
    drawn = value_of(request.words, "patterns", PATTERNS)
    wants_diagrams = any(f"rung {check} nodes" in report.splitlines()
                         for report in reports for check in NETLISTS)
    # Where `symbolic` has looked at all vectors, drawn ones find no more.
    if int(drawn) < MANY_PATTERNS and wants_diagrams and not has_ended(portfolio, "symbolic"):
        yield (f"--patterns {MANY_PATTERNS}, with several values of --seed: `ternary`, which needs "
               f"no diagrams, drew {drawn} vectors")
    yield ("a smaller pair: both cut at nets and registers of one name (docs/REPORT.md, \"Fewer "
           "inputs and registers\")")


def last_open(turn):
    """The last report of a way that was open, if there is one."""
    return [answer.report for _, answer, _ in turn.found if answer.status == 3][-1:]


def has_ended(portfolio, check):
    """Whether a run on the whole pair had enough for this check, which found no mistake."""
    return any(f"rung {check} none" in answer.report.splitlines() for turn in portfolio.turns
               if turn.name != BY_PARTS for _, answer, _ in turn.found)


def budget_lines(request, reports):
    """Larger budgets, where the words allowed less than there may be."""
    if any(map(wants_clauses, reports)) and request.most_clauses < MOST_CLAUSES:
        yield f"--clauses {MOST_CLAUSES}: `expand` had at most {request.most_clauses}"
    if any(map(wants_nodes, reports)) and request.most_nodes < MOST_NODES:
        yield f"--nodes {MOST_NODES}: diagrams had at most {request.most_nodes}"


def memory_lines(found):
    """Runs that were not made, or ended, since there was too little memory."""
    short = [attempt.label for attempt, answer, _ in found if answer.status is None]
    ended = [attempt.label for attempt, answer, _ in found if answer.signal]
    if short:
        yield f"more free memory, for want of which {counted(short)} not made or ended: {short[0]}"
    if ended:
        yield f"more free memory, if it is why {counted(ended)} ended by a signal: {ended[0]}"


def counted(runs):
    return "a run was" if len(runs) == 1 else f"{len(runs)} runs were"


class Box(NamedTuple):
    path: str
    module: str
    ins: int
    outs: int

    @property
    def bits(self):
        """Of its table."""
        return self.outs << self.ins


def boxes_in(request):
    """The boxes of the implementation; none where this reader does not take the text."""
    try:
        _, modules = read_modules(request.implementation)
        top = top_of(request.implementation, modules, request.top("impl"))
    except Fault:
        return []
    return list(boxes_below(modules, top, ""))


def boxes_below(modules, module, path):
    for instance in module.instances:
        below = modules.get(instance.module)
        if below is not None and below.is_box():
            yield Box(f"{path}{instance.name}", below.name, len(below.pins("input")),
                      len(below.pins("output")))
        elif below is not None:
            yield from boxes_below(modules, below, f"{path}{instance.name}.")


def box_lines(boxes):
    """Fewer pins at the box with the largest table, and one box in the place of several."""
    widest = max(boxes, key=lambda box: box.bits, default=None)
    if widest and widest.bits > 1:
        yield (f"fewer pins at box {widest.path}: its {widest.ins} input and {widest.outs} output "
               f"pins make a table of 2^{widest.ins} rows, which each input pin less halves")
    one = Box("", "", sum(box.ins for box in boxes), sum(box.outs for box in boxes))
    if len(boxes) > 1 and one.ins <= MOST_ONE_BOX and one.bits <= MOST_TABLE_BITS:
        yield (f"one box with the {one.ins} input and {one.outs} output pins of the {len(boxes)} "
               "boxes: `input` may decide it (docs/REPORT.md, \"Make one box of the boxes\")")
