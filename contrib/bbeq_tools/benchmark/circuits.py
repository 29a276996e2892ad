"""Circuits that are built gate by gate: their values at many vectors at once, and their texts."""
from functools import reduce
from operator import and_, or_, xor
from typing import Callable, Dict, Iterator, List, Mapping, NamedTuple, Optional, Sequence, Tuple

WORDS = {"and": and_, "nand": and_, "or": or_, "nor": or_, "xor": xor, "xnor": xor}
INVERTING = ("nand", "nor", "xnor", "not")
NO_GATES = ("source", "0", "1", "pin")
A_LINE = 12  # Names of a declaration that stand on one line.
Bits = List[int]  # Places in the list of gates, the least significant bit first.
Contents = Callable[["Circuit", Bits], Bits]
Known = Tuple[int, int]  # The vectors at which a bit is known to be 1, and those where it is 0.


class Gate(NamedTuple):
    """What makes a bit: a gate, a constant, an input or register, or an output pin of a box, whose
    operands are then the numbers of the box and of the pin."""

    kind: str
    ins: Tuple[int, ...] = ()


class Box(NamedTuple):
    """A box: its module, what its input pins are given, how many output pins it has, and the
    contents that it lacks."""

    module: str
    ins: Tuple[int, ...]
    outs: int
    lacks: "Circuit"


class Circuit:
    """A netlist. `sources` has the bits of inputs and registers by their texts, `ends` those of
    outputs, and of registers what they take next."""

    def __init__(self, name: str, has_boxes: bool = False) -> None:
        self.name, self.has_boxes = name, has_boxes
        self.gates: List[Gate] = []
        self.boxes: List[Box] = []
        self.sources: Dict[str, int] = {}
        self.ends: Dict[str, int] = {}
        self.nets: Dict[str, Tuple[str, int]] = {}  # Ports and registers: their kinds and widths.

    # How it is built.

    def add(self, kind: str, *ins: int) -> int:
        self.gates.append(Gate(kind, ins))
        return len(self.gates) - 1

    def all_of(self, kind: str, bits: Sequence[int]) -> int:
        """A tree of gates of two operands over some bits."""
        found = list(bits)
        while len(found) > 1:
            found = [self.add(kind, *found[at:at + 2]) if at + 1 < len(found) else found[at]
                     for at in range(0, len(found), 2)]
        return found[0]

    def word(self, name: str, width: int, kind: str = "input") -> Bits:
        """An input or a register of so many bits."""
        self.nets[name] = kind, width
        texts = [text_of(name, width, at) for at in range(width)]
        self.sources.update({text: self.add("source") for text in texts})
        return [self.sources[text] for text in texts]

    def bit(self, name: str) -> int:
        return self.word(name, 1)[0]

    def register(self, name: str, width: int) -> Bits:
        if "clk" not in self.nets:
            self.bit("clk")
        return self.word(name, width, "reg")

    def drive(self, name: str, bits: Sequence[int]) -> None:
        """Drives an output, or says what a register takes next."""
        self.nets.setdefault(name, ("output", len(bits)))
        self.ends.update({text_of(name, len(bits), at): bit for at, bit in enumerate(bits)})

    def box(self, module: str, ins: Sequence[int], contents: Contents) -> Bits:
        """A box; in a circuit without boxes the contents that it lacks."""
        if not self.has_boxes:
            return contents(self, list(ins))
        lacks = Circuit(module)
        outs = contents(lacks, lacks.word("i", len(ins)))
        lacks.drive("o", outs)
        self.boxes.append(Box(module, tuple(ins), len(outs), lacks))
        return [self.add("pin", len(self.boxes) - 1, pin) for pin in range(len(outs))]

    def changed(self, at: int, gate: Gate) -> "Circuit":
        """The same circuit with another gate in one place."""
        other = Circuit(self.name, self.has_boxes)
        other.gates = [*self.gates[:at], gate, *self.gates[at + 1:]]
        other.boxes, other.sources = self.boxes, self.sources
        other.ends, other.nets = self.ends, self.nets
        return other

    # What it gives.

    def size(self) -> int:
        return sum(gate.kind not in NO_GATES for gate in self.gates)

    def values(self, given: Mapping[str, int], ones: int,
               tables: Optional[Mapping[Tuple[int, int, int], bool]] = None) -> Dict[str, int]:
        """The ends at as many vectors as `ones` has bits, where each source has an integer with a
        bit for each vector. A bit of a table that is not given is 0."""
        found: List[int] = []
        rows: Dict[int, List[int]] = {}
        sources = {bit: given[text] for text, bit in self.sources.items()}
        for at, (kind, ins) in enumerate(self.gates):
            if kind == "source":
                found.append(sources[at])
            elif kind == "pin":
                box, pin = ins
                if box not in rows:
                    rows[box] = rows_of([found[bit] for bit in self.boxes[box].ins], ones)
                found.append(sum(1 << place for place, row in enumerate(rows[box])
                                 if (tables or {}).get((box, pin, row))))
            else:
                found.append(value_of(kind, [found[bit] for bit in ins], ones))
        return {text: found[bit] for text, bit in self.ends.items()}

    def known(self, given: Mapping[str, int], ones: int) -> Dict[str, Known]:
        """What is known of the ends while the boxes are unknown."""
        found: List[Known] = []
        sources = {bit: (given[text], ones ^ given[text]) for text, bit in self.sources.items()}
        for at, (kind, ins) in enumerate(self.gates):
            if kind == "source":
                found.append(sources[at])
            elif kind == "pin":
                found.append((0, 0))
            else:
                found.append(known_of(kind, [found[bit] for bit in ins], ones))
        return {text: found[bit] for text, bit in self.ends.items()}

    def tables(self) -> Dict[Tuple[int, int, int], bool]:
        """The tables of what the boxes lack."""
        found = {}
        for number, box in enumerate(self.boxes):
            for row in range(1 << len(box.ins)):
                given = {text: row >> pin & 1 for pin, text in enumerate(box.lacks.sources)}
                outs = box.lacks.values(given, 1).values()
                found.update({(number, pin, row): bool(out) for pin, out in enumerate(outs)})
        return found

    # Its text.

    def spelt(self) -> List[str]:
        """The name of each bit."""
        names = [f"1'b{kind}" if kind in "01" else f"n{at}"
                 for at, (kind, _) in enumerate(self.gates)]
        for text, bit in self.sources.items():
            names[bit] = text
        return names

    def text(self) -> str:
        ports = [name for name, (kind, _) in self.nets.items() if kind != "reg"]
        head = f"module {self.name}({', '.join(ports)});"
        body = [line for part in (self.declarations(), self.gate_lines(), self.end_lines())
                for line in part]
        return "\n".join([head, *(f"  {line}" for line in body), "endmodule",
                          *self.modules(), ""])

    def declarations(self) -> Iterator[str]:
        for name, (kind, width) in self.nets.items():
            yield f"{kind} {range_of(width)}{name};"
        wires = [f"n{at}" for at, gate in enumerate(self.gates) if gate.kind not in NO_GATES[:3]]
        for at in range(0, len(wires), A_LINE):
            yield f"wire {', '.join(wires[at:at + A_LINE])};"

    def gate_lines(self) -> Iterator[str]:
        names = self.spelt()
        for at, (kind, ins) in enumerate(self.gates):
            if kind == "mux":
                choice, then, otherwise = (names[bit] for bit in ins)
                yield f"assign n{at} = {choice} ? {then} : {otherwise};"
            elif kind == "pin" and ins[1] == 0:
                box = self.boxes[ins[0]]
                pins = [f"{{{', '.join(bits)}}}" for bits in (
                    [names[bit] for bit in reversed(box.ins)],
                    [f"n{at + pin}" for pin in reversed(range(box.outs))])]
                yield f"{box.module} u{ins[0]}({', '.join(pins)});"
            elif kind not in NO_GATES:
                yield f"{kind}(n{at}, {', '.join(names[bit] for bit in ins)});"

    def end_lines(self) -> Iterator[str]:
        names = self.spelt()
        for text, bit in self.ends.items():
            if self.nets[text.partition("[")[0]][0] == "reg":
                yield f"always @(posedge clk) {text} <= {names[bit]};"
            else:
                yield f"assign {text} = {names[bit]};"

    def modules(self) -> Iterator[str]:
        """The empty modules of the boxes."""
        for module, box in {box.module: box for box in self.boxes}.items():
            yield (f"module {module}(i, o); input {range_of(len(box.ins))}i; "
                   f"output {range_of(box.outs)}o; endmodule")


def text_of(name: str, width: int, at: int) -> str:
    return f"{name}[{at}]" if width > 1 else name


def range_of(width: int) -> str:
    return f"[{width - 1}:0] " if width > 1 else ""


def rows_of(ins: Sequence[int], ones: int) -> List[int]:
    """Which row of its tables a box with these input pins gives at each vector; the first pin is
    the least significant bit."""
    return [sum((value >> place & 1) << pin for pin, value in enumerate(ins))
            for place in range(ones.bit_length())]


def value_of(kind: str, ins: Sequence[int], ones: int) -> int:
    if kind in "01":
        return ones if kind == "1" else 0
    if kind == "mux":
        choice, then, otherwise = ins
        return choice & then | ~choice & otherwise
    value = reduce(WORDS[kind], ins) if kind in WORDS else ins[0]
    return ones ^ value if kind in INVERTING else value


def known_of(kind: str, ins: Sequence[Known], ones: int) -> Known:
    if kind in "01":
        return (ones, 0) if kind == "1" else (0, ones)
    if kind == "mux":
        (choose, leave), then, otherwise = ins
        one, zero = (choose & then[side] | leave & otherwise[side] | then[side] & otherwise[side]
                     for side in (0, 1))
    elif kind in ("xor", "xnor"):
        both = reduce(and_, (one | zero for one, zero in ins))
        one = reduce(xor, (one for one, _ in ins)) & both
        zero = both ^ one
    else:
        first, second = (and_, or_) if kind in ("and", "nand", "not") else (or_, and_)
        one = reduce(first, (one for one, _ in ins))
        zero = reduce(second, (zero for _, zero in ins))
    return (zero, one) if kind in INVERTING else (one, zero)
