"""The waves of both designs as SVG: a row for each input, register and output; what differs is
red, and what a box leaves open is hatched."""
from typing import Iterable, List, Optional

from bbeq_tools.page.markup import (Markup, counted, element, folded, joined, shortened, visible)
from bbeq_tools.page.sides import OPEN
from bbeq_tools.page.traces import Trace, Traces, value_text

ROW, HIGH, LOW = 24.0, 5.0, 18.0  # The height of a row, and where its levels are in it.
NAMES, LEAD, SLOT, GAP = 190.0, 16.0, 92.0, 34.0
LETTERS = 25  # Of a name.
FIRST, MOST, BITS = 40, 400, 8  # Rows that are shown at once and at all, and bits of a bus.


class Picture:
    """The rows of one picture; with registers there are two cycles."""

    def __init__(self, slots: int) -> None:
        self.slots, self.rows, self.shown = slots, 0, []
        self.panel = LEAD + SLOT * slots

    shown: List[Markup]

    def left(self, side: int) -> float:
        return NAMES + side * (self.panel + GAP)

    def width(self) -> float:
        return self.left(1) + self.panel + 70

    def text(self, x: float, words: str, class_: Optional[str] = None) -> None:
        self.shown.append(element("text", words, x=x, y=self.rows * ROW + 16, class_=class_))

    def head(self) -> None:
        for side, title in enumerate(("Specification", "Implementation")):
            self.text(self.left(side) + LEAD, title, "head")
        self.rows += 1

    def title(self, words: str) -> None:
        self.text(0, words, "group")
        if self.slots > 1:
            for side in (0, 1):
                for slot, word in enumerate(("this cycle", "next")):
                    self.text(self.left(side) + LEAD + SLOT * slot + 4, word, "faint")
        self.rows += 1

    def row(self, trace: Trace, is_bit: bool = False) -> None:
        """The row of a trace."""
        top, is_wrong = self.rows * ROW, bool(trace.wrong)
        if is_wrong or trace.named:
            self.shown.append(element("rect", x=0.0, y=top + 1, width=self.width(), height=ROW - 2,
                                      class_="band"))
        name = shortened(trace.name, LETTERS)
        self.shown.append(element("text", element("title", visible(trace.name)), name,
                                  x=14.0 if is_bit else 4.0, y=top + 16,
                                  class_="signal wrong" if is_wrong or trace.named else "signal"))
        for side in (0, 1):
            cycles = [trace.now[side], *(text[side] for text in [trace.following] if text)]
            self.signal(self.left(side), cycles, bool(trace.following), is_wrong and side == 1)
        if trace.named:
            self.text(self.left(1) + self.panel + 4, "reported", "mark")
        self.rows += 1

    def signal(self, x: float, cycles: List[str], is_state: bool, is_wrong: bool) -> None:
        """The wave of one design: nothing is known before the vector."""
        top = self.rows * ROW
        self.shown.append(element("rect", x=x, y=top + HIGH, width=LEAD, height=LOW - HIGH,
                                  class_="open"))
        before = OPEN
        for slot, bits in enumerate(cycles):
            marked = is_wrong and (slot > 0 or not is_state)
            left, class_ = x + LEAD + slot * SLOT, "wave wrong" if marked else "wave"
            if len(bits) == 1 and bits in "01":
                self.level(left, top, bits, before, class_)
            elif bits.strip():
                self.bus(left, top, bits, class_)
            before = bits

    def level(self, x: float, top: float, bit: str, before: str, class_: str) -> None:
        y = top + (HIGH if bit == "1" else LOW)
        start = (f"M{x:.4g},{top + (HIGH if before == '1' else LOW):.5g} V{y:.5g}"
                 if before in ("0", "1") else f"M{x:.4g},{y:.5g}")
        self.shown.append(element("path", d=f"{start} H{x + SLOT:.5g}", class_=class_))
        self.shown.append(element("text", bit, x=x + SLOT / 2,
                                  y=y + (-4 if bit == "0" else 12), class_=f"digit {class_}"))

    def bus(self, x: float, top: float, bits: str, class_: str) -> None:
        """A bus, or a bit that is open."""
        is_open, middle = set(bits) == {OPEN}, top + (HIGH + LOW) / 2
        corner = 4.0
        points = [(x, middle), (x + corner, top + HIGH), (x + SLOT - corner, top + HIGH),
                  (x + SLOT, middle), (x + SLOT - corner, top + LOW), (x + corner, top + LOW)]
        shape = " ".join(f"{at:.5g},{y:.5g}" for at, y in points)
        words = OPEN if is_open else shortened(value_text(bits), 13)
        self.shown += [element("polygon", points=shape,
                               class_=f"{class_}{' open' if is_open else ''}"),
                       element("text", element("title", bits), words, x=x + SLOT / 2, y=middle + 4,
                               class_=f"digit {class_}")]

    def svg(self, about: str) -> Markup:
        height = self.rows * ROW + 4
        return element("div", element("svg", element("title", about), *self.shown, class_="waves",
                                      role="img", viewBox=f"0 0 {self.width():.5g} {height:.5g}",
                                      width=self.width(), height=height), class_="scroll")


def rows_of(trace: Trace) -> Iterable[Trace]:
    """A trace, and below a bus the bits of it that are wrong."""
    yield trace
    if trace.width() > 1:
        for place in sorted({*trace.wrong, *trace.named})[:BITS]:
            yield trace.bit(place)


def ordered(traces: List[Trace]) -> List[Trace]:
    """Where there are many, what is wrong first."""
    if len(traces) <= FIRST:
        return traces
    return sorted(traces, key=lambda trace: not (trace.wrong or trace.named))


def drawn(title: str, traces: List[Trace], slots: int) -> Markup:
    picture = Picture(slots)
    picture.head()
    picture.title(title)
    for trace in traces:
        for row in rows_of(trace):
            picture.row(row, row is not trace)
    return picture.svg(f"{title} of both designs at the vector")


def waves(traces: Traces) -> Markup:
    """The pictures of inputs, registers and outputs."""
    picture, rest = Picture(2 if traces.registers else 1), []
    picture.head()
    for title, found in (("Outputs", traces.outputs), ("Registers", traces.registers),
                         ("Inputs", traces.inputs)):
        if not found:
            continue
        picture.title(title)
        listed = ordered(found)
        for trace in listed[:FIRST]:
            for row in rows_of(trace):
                picture.row(row, row is not trace)
        if listed[FIRST:]:
            left = listed[FIRST:MOST]
            words = counted(len(left), f"more row of {title.lower()}",
                            f"more rows of {title.lower()}")
            if len(listed) > MOST:
                words += f"; {len(listed) - MOST:,} are left out of this page"
            rest.append(folded(words, drawn(title, left, picture.slots)))
    return joined([picture.svg("Both designs at the vector"), *rest])
