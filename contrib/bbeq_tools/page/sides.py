"""The two designs of a report, and what each of their bits is at its vector: 0, 1, or x where the
boxes leave it open."""
from functools import reduce
from typing import Any, Dict, Iterable, List, NamedTuple, Optional, Tuple

from bbeq_tools.cli import Fault
from bbeq_tools.report.reports import OTHER
from bbeq_tools.verilog.flat import CONSTANTS, GATES, INVERTING, Box, Cell, Flat

Item = Tuple[str, str]  # `output` or `next`, and a text.
OPEN = "x"
INVERTED = {"0": "1", "1": "0", OPEN: OPEN}


def conjunction(left: str, right: str) -> str:
    return "0" if "0" in (left, right) else OPEN if OPEN in (left, right) else "1"


def disjunction(left: str, right: str) -> str:
    return "1" if "1" in (left, right) else OPEN if OPEN in (left, right) else "0"


def difference(left: str, right: str) -> str:
    return OPEN if OPEN in (left, right) else "01"[left != right]


FOLDS = {"&": conjunction, "|": disjunction, "^": difference,
         "~^": lambda left, right: INVERTED[difference(left, right)]}
FOLDS["^~"] = FOLDS["~^"]


def choice(condition: str, then: str, otherwise: str) -> str:
    if condition == OPEN:
        return then if then == otherwise else OPEN
    return then if condition == "1" else otherwise


class Signals:
    """The bits of a design at a vector, as far as these values need them; without a vector none is
    known."""

    def __init__(self, flat: Flat, vector: Optional[Dict[str, str]], values: Iterable[Any]) -> None:
        self.flat, self.known = flat, {}
        for bit in flat.cone(values):
            if bit in flat.given:
                self.known[bit] = vector.get(flat.given[bit], OPEN) if vector else OPEN
            else:
                driver = flat.sources[bit]
                self.known[bit] = OPEN if isinstance(driver, Box) or not vector else self.of(driver)

    known: Dict[Any, str]

    def of(self, part: Any) -> str:
        """The bit of a constant, of a bit or of a cell."""
        if isinstance(part, Cell):
            return self.of_cell(part)
        if part in CONSTANTS:
            return part[-1]
        end = self.flat.end(part)
        return end[-1] if end in CONSTANTS else self.known[end]

    def of_cell(self, cell: Cell) -> str:
        bits = [self.of(part) for part in cell.parts]
        if cell.word == "?":
            return choice(*bits)
        if cell.word == "~":
            return INVERTED[bits[0]]
        if cell.word in GATES:
            bit = reduce(FOLDS[GATES[cell.word]], bits)
            return INVERTED[bit] if cell.word in INVERTING else bit
        return reduce(lambda bit, step: FOLDS[step[0]](bit, step[1]),
                      zip(cell.operators, bits[1:]), bits[0])


class Numbers(NamedTuple):
    """How large a design is; `clauses` are those of a vector, as docs/REPORT.md counts them."""

    inputs: int
    registers: int
    outputs: int
    boxes: int
    cells: int
    clauses: int


class Side:
    """A design, what is compared of it, and its bits at a vector."""

    def __init__(self, name: str, path: str, top: Optional[str]) -> None:
        self.name, self.path, self.flat = name, path, Flat(path, top)
        try:
            self.values = {("output", text): self.flat.value_of("output", text)
                           for text in self.flat.outputs}
            self.values |= {("next", text): self.flat.value_of("next", text)
                            for text in self.flat.states}
        except KeyError as error:
            raise Fault(f"{path}: {error} has no driver; give the text that bbeq read") from None
        self.signals: Optional[Signals] = None

    def look(self, vector: Optional[Dict[str, str]]) -> None:
        """Takes the bits at a vector."""
        self.signals = Signals(self.flat, vector, self.values.values())

    def bit(self, item: Item) -> str:
        assert self.signals
        return self.signals.of(self.values[item]) if item in self.values else OPEN

    def given(self) -> List[str]:
        return [*self.flat.inputs, *self.flat.states]

    def numbers(self) -> Numbers:
        flat, cells = self.flat, 0
        clauses = 2 + len(self.given()) + len(flat.outputs) + len(flat.states)
        for source in [*flat.sources.values(), *(stored[2] for stored in flat.stored.values())]:
            if isinstance(source, Cell):
                counts = source.counts()
                cells, clauses = cells + counts[0], clauses + counts[1]
        clauses += sum(len(box.outs) << len(box.parts) + 1 for box in flat.boxes)
        return Numbers(len(flat.inputs), len(flat.states), len(flat.outputs), len(flat.boxes),
                       cells, clauses)


def check_fit(vector: Dict[str, str], sides: Iterable[Side]) -> None:
    """The vector has a bit for each input and each register of both, and for nothing else."""
    for side in sides:
        names = set(side.given())
        for name in [*(names - set(vector)), *(set(vector) - names)]:
            raise Fault(f"{side.path}: {name} is only in one of the text and the report; {OTHER}")
