"""A design without its instances, bit by bit: what drives each bit, the registers and the boxes, by
the texts by which bbeq pairs them (docs/LANGUAGE.md, and docs/REPORT.md on what is counted)."""
from typing import Any, Dict, Iterable, Iterator, List, Optional, Sequence, Tuple

from bbeq_tools.cli import Fault
from bbeq_tools.verilog.fan_in import FanIn
from bbeq_tools.verilog.language import (Expression, Module, Register, bit_text, read_modules,
                                         top_of)

# Of an operator of two operands; the last two are an Xor and a Not.
CLAUSES = {"&": 3, "|": 3, "^": 4, "~^": 6, "^~": 6}
GATES = {"and": "&", "nand": "&", "or": "|", "nor": "|", "xor": "^", "xnor": "^"}
INVERTING = ("nand", "nor", "xnor", "not")
CONSTANTS = ("1'b0", "1'b1")


class Cell:
    """A gate or an operator with its operands: constants, bits, or cells that stand in the same
    expression."""

    __slots__ = ("word", "parts", "operators")

    def __init__(self, word: str, parts: List[Any], operators: Sequence[str] = ()) -> None:
        self.word, self.parts, self.operators = word, parts, operators

    def bits(self) -> Iterator[Any]:
        """The bits that it is made from."""
        for part in self.parts:
            if isinstance(part, Cell):
                yield from part.bits()
            elif part not in CONSTANTS:
                yield part

    def counts(self) -> Tuple[int, int]:
        """How many cells bbeq makes of it, and how many clauses at a vector."""
        if self.word == "?":
            cells, clauses = 1, 4
        elif self.word == "~":
            cells, clauses = 1, 2
        elif self.word in GATES:
            inverts, steps = self.word in INVERTING, len(self.parts) - 1
            cells, clauses = steps + inverts, CLAUSES[GATES[self.word]] * steps + 2 * inverts
        else:
            cells, clauses = sum(map(len, self.operators)), sum(CLAUSES[operator]
                                                                for operator in self.operators)
        below = [part.counts() for part in self.parts if isinstance(part, Cell)]
        return cells + sum(count for count, _ in below), clauses + sum(count for _, count in below)


class Box:
    """A box: its path, its module, what its input pins are given, and the bits that it drives, in
    the order of the header."""

    __slots__ = ("path", "module", "parts", "outs")

    def __init__(self, path: str, module: Module, parts: List[Any], outs: List[Any]) -> None:
        self.path, self.module, self.parts, self.outs = path, module, parts, outs

    bits = Cell.bits


class Flat(FanIn):
    """A text as bits. `sources` has for each bit that is driven a constant, another bit, a cell or
    a box; `inputs`, `outputs` and `states` have the bits of ports and registers by their texts."""

    def __init__(self, path: str, name: Optional[str]) -> None:
        self.text, modules = read_modules(path)
        self.top = top_of(path, modules, name)
        self.boxes: List[Box] = []
        self.stored: Dict[Any, Any] = {}
        self.ends: Dict[Any, Any] = {}
        self.below: Dict[Any, Tuple[Any, ...]] = {}
        super().__init__(modules, self.top)
        self.inputs, self.outputs = ({bit_text(net.name, index): ("", net.name, index) for net,
                                      index in self.top.pins(direction)}
                                     for direction in ("input", "output"))
        self.given = {bit: text for text, bit in self.inputs.items()} | {bit: text_of(bit)
                                                                         for bit in self.stored}
        self.states = {text_of(bit): bit for bit in self.stored}
        self.check_names(path)

    def check_names(self, path: str) -> None:
        """A flat text has one name for each input, output, register and box; an output that is a
        register has the register's."""
        found: Dict[str, Tuple[str, Any]] = {}
        bits = [("register", bit) for bit in self.stored] + [("input", bit)
                                                             for bit in self.inputs.values()]
        bits += [("output", bit) for bit in self.outputs.values()]
        for kind, bit in bits + [("box", box.path) for box in self.boxes]:
            text = bit if kind == "box" else text_of(bit)
            other = found.setdefault(text, (kind, bit))
            if other[1] != bit:
                raise Fault(f"{path}: {text} names the {kind} and also the {other[0]}; rename "
                            "one of the two")

    # What is kept of the text.

    def walk(self, module: Module, scope: str) -> None:
        for net in module.nets.values():
            if net.kind in ("supply0", "supply1"):
                self.sources |= {(scope, net.name, index): CONSTANTS[net.kind == "supply1"]
                                 for index in net.indices()}
        names = dict.fromkeys([*module.ports, *module.nets])
        own = {(name, index) for register in module.registers
               for name, index in module.left_bits(register.left)}
        bits = [(name, index) for name in names for index in module.net(name).indices()]
        self.stored |= {(scope, *bit): None for bit in bits if bit in own}
        super().walk(module, scope)

    def store(self, module: Module, scope: str, register: Register) -> None:
        bits, (_, name, select) = module.left_bits(register.left), register.clock
        clock = (scope, name, module.selected(name, select)[0])
        width = max(len(bits), self.width(module, register.value))
        values = self.value(module, scope, register.value, width)[width - len(bits):]
        self.stored |= {(scope, *bit): (register.edge, clock, value)
                        for bit, value in zip(bits, values)}

    def box(self, module: Module, scope: str, _read: Any) -> None:
        outs = [(scope, net.name, index) for net, index in module.pins("output")]
        ins = [(scope, net.name, index) for net, index in module.pins("input")]
        self.boxes.append(Box(scope[:-1], module, ins, outs))
        self.sources |= dict.fromkeys(outs, self.boxes[-1])

    def read(self, bit: Any) -> Any:
        return bit

    def number(self, number: Expression) -> List[Any]:
        _, width, value = number
        if value is None:
            raise Fault("a number has digits that are neither 0 nor 1")
        return [CONSTANTS[value >> place & 1] for place in reversed(range(width))]

    zero, one = CONSTANTS

    def inverted(self, bit: Any, signs: int = 1) -> Any:
        return Cell("~", [bit]) if signs % 2 else bit

    def joined(self, bits: List[Any], operators: Sequence[str]) -> Any:
        return Cell("chain", bits, operators)

    def condition(self, bits: List[Any]) -> Any:
        return bits[0] if len(bits) == 1 else self.once(Cell("chain", bits,
                                                             ["|"] * (len(bits) - 1)))

    def choice(self, condition: Any, then: Any, otherwise: Any) -> Any:
        return Cell("?", [condition, then, otherwise])

    def gate(self, word: str, bits: List[Any]) -> Any:
        if len(bits) > 1:
            return Cell(word, bits)
        return Cell("~", bits) if word in INVERTING else bits[0]

    def once(self, bit: Any) -> Any:
        """A cell that is read at several places drives a bit without a name."""
        if not isinstance(bit, Cell):
            return bit
        self.made += 1
        self.sources[None, None, self.made] = bit
        return None, None, self.made

    # What a bit is made from.

    def end(self, bit: Any) -> Any:
        """Where the value of a bit comes from: an input, a register, a bit that a cell or a box
        drives, or a constant."""
        found = self.ends.get(bit)
        if found is not None:
            return found
        met = []
        while isinstance(bit, tuple) and bit not in self.given and bit not in self.ends:
            met.append(bit)
            below = self.sources[bit]
            if isinstance(below, (Cell, Box)):
                break
            bit = below
        end = self.ends.get(bit, bit) if isinstance(bit, tuple) else bit
        self.ends |= dict.fromkeys(met, end)
        return end

    def value_of(self, kind: str, text: str) -> Any:
        """What is compared of an output or of a next state: a bit, a constant or a cell."""
        value = self.outputs[text] if kind == "output" else self.stored[self.states[text]][2]
        return value if isinstance(value, Cell) else self.end(value)

    def clock_of(self, bit: Any) -> Any:
        return self.end(self.stored[bit][1])

    def reads(self, made: Any) -> Dict[Any, None]:
        """The ends of the bits from which a cell or a box is made, each once."""
        return dict.fromkeys(end for bit in made.bits() if (end := self.end(bit)) not in CONSTANTS)

    def reads_of(self, bit: Any) -> Tuple[Any, ...]:
        """The ends of the bits from which a bit is made that a cell or a box drives."""
        found = self.below.get(bit)
        if found is None:
            found = self.below[bit] = tuple(self.reads(self.sources[bit]))
        return found

    def cone(self, values: Iterable[Any]) -> Dict[Any, None]:
        """The bits that these values are made from, themselves included, each behind those that it
        is made from."""
        found: Dict[Any, None] = {}
        stack: List[Iterator[Any]] = []
        for value in values:
            stack.append(iter(self.reads(value) if isinstance(value, Cell) else ()
                              if value in CONSTANTS else (value,)))
            opened = [None]
            while stack:
                bit = next((bit for bit in stack[-1] if bit not in found), None)
                if bit is None:
                    stack.pop()
                    done = opened.pop()
                    if done is not None:
                        found[done] = None
                elif bit in self.given:
                    found[bit] = None
                else:
                    opened.append(bit)
                    stack.append(iter(self.reads_of(bit)))
        return found


def text_of(bit: Any) -> str:
    """The text of a bit, behind the instances that lead to it."""
    return bit[0] + bit_text(*bit[1:])
