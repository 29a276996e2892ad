"""The logic that an output is made of, as a drawing has it: gates, boxes, inputs and registers, up
to a size that can be read. What is beyond is cut, and can be the root of a drawing of its own."""
import heapq
from typing import Any, Dict, List, NamedTuple, Tuple

from bbeq_tools.page.markup import counted
from bbeq_tools.page.sides import OPEN, Signals
from bbeq_tools.verilog.flat import CONSTANTS, GATES, INVERTING, Box, Cell, Flat, text_of
from bbeq_tools.verilog.language import bit_text

SYMBOLS = {"&": "and", "|": "or", "^": "xor", "~^": "xor", "^~": "xor"}
MOST_PINS = 12  # Of a gate; the others are one pin that is cut.
COUNTED = 999  # Gates of what is cut.
Key = Any  # A bit, the number of a cell without a name, or what tells a leaf from others.


class Wire(NamedTuple):
    """What a pin of a node is given: the node and its pin, the bit, and whether it forces what the
    root is."""

    source: Key
    pin: int
    value: str
    forces: bool


class Node:
    """A thing of a drawing. `kind` is `gate`, `box`, `input`, `register`, `constant`, `cut` or
    `root`; `symbol` is that of a gate. `ins` are its wires, `outs` the names of its output pins."""

    def __init__(self, kind: str, label: str, value: str = OPEN, symbol: str = "",
                 inverts: bool = False) -> None:
        self.kind, self.label, self.value = kind, label, value
        self.symbol, self.inverts = symbol, inverts
        self.ins: List[Wire] = []
        self.in_names: List[str] = []
        self.outs: List[str] = []
        self.below: Any = None  # Of what is cut: the bit or the cell.
        self.gates = 0  # Of what is cut: how many gates it has.


def shape_of(cell: Cell) -> Tuple[str, bool, List[Any]]:
    """The symbol of a cell, whether it inverts, and its operands. An inverted gate is one symbol
    with a circle."""
    inverts = False
    while cell.word == "~" and isinstance(cell.parts[0], Cell) and cell.parts[0].word != "?":
        cell, inverts = cell.parts[0], not inverts
    if cell.word == "~":
        return "buf", not inverts, cell.parts
    if cell.word == "?":
        return "mux", inverts, cell.parts
    if cell.word in GATES:
        return SYMBOLS[GATES[cell.word]], inverts != (cell.word in INVERTING), cell.parts
    signs = sum(operator in ("~^", "^~") for operator in cell.operators)
    return SYMBOLS[cell.operators[0]], inverts != (signs % 2 == 1), cell.parts


def forcing(symbol: str, value: str, bits: List[str]) -> List[int]:
    """The places of the operands that suffice for the bit of a gate, whatever the others are."""
    if value == OPEN:
        return []
    if symbol == "mux":
        return [1, 2] if bits[0] == OPEN else [0, 1 if bits[0] == "1" else 2]
    controlling = {"and": "0", "or": "1"}.get(symbol)
    if controlling in bits and controlling is not None:
        return [bits.index(controlling)]
    return list(range(len(bits)))


def gates_of(flat: Flat, root: Any) -> int:
    """How many gates a value is made of, counted up to one more than are counted."""
    waiting, seen, found = [root], set(), 0
    while waiting and found <= COUNTED:
        part = waiting.pop()
        if not isinstance(part, Cell):
            part = flat.end(part) if isinstance(part, tuple) else part
            if part in seen or part in CONSTANTS or part in flat.given:
                continue
            seen.add(part)
            part = flat.sources[part]
        found += isinstance(part, Cell)
        waiting += shape_of(part)[2] if isinstance(part, Cell) else part.parts
    return found


def gates_text(gates: int) -> str:
    return f"over {COUNTED} gates" if gates > COUNTED else counted(gates, "gate")


class Logic:
    """The drawing of a value: `nodes` by their keys, the root under None. Gates that force the
    root are taken first, then those that are near."""

    def __init__(self, signals: Signals, root: Any, label: str, most: int) -> None:
        self.signals, self.flat, self.most = signals, signals.flat, most
        self.nodes: Dict[Key, Node] = {}
        self.waiting: List[Tuple[int, int, Key, Any]] = []
        self.made = self.gates = 0
        node = self.nodes[None] = Node("root", label, signals.of(root))
        self.give(None, node, root, True, 0)
        while self.waiting:
            self.expand(*heapq.heappop(self.waiting))

    def give(self, key: Key, node: Node, part: Any, forces: bool, depth: int) -> None:
        """Wires a pin of a node to what drives it."""
        if not isinstance(part, Cell):
            part = self.flat.end(part) if isinstance(part, tuple) else part
        value, pin = self.signals.of(part), 0
        if part in CONSTANTS or not isinstance(part, Cell) and part in self.flat.given:
            source = self.leaf(key, len(node.ins), part, value)
        elif not isinstance(part, Cell) and isinstance(self.flat.sources[part], Box):
            box = self.flat.sources[part]
            source, pin = ("box", box.path), box.outs.index(part)
            self.want(source, box, forces, depth)
        else:
            source = ("cell", id(part)) if isinstance(part, Cell) else part
            self.want(source, part, forces, depth)
        node.ins.append(Wire(source, pin, value, forces and value != OPEN))

    def leaf(self, key: Key, pin: int, part: Any, value: str) -> Key:
        """An input, a register or a constant, drawn anew where it is read."""
        source = ("leaf", key, pin)
        if part in CONSTANTS:
            self.nodes[source] = Node("constant", part, value)
        else:
            kind = "register" if part in self.flat.stored else "input"
            self.nodes[source] = Node(kind, self.flat.given[part], value)
        return source

    def want(self, key: Key, what: Any, forces: bool, depth: int) -> None:
        if key not in self.nodes:
            self.nodes[key] = Node("cut", "")  # Until it is taken.
            self.made += 1
            rank = depth + (0 if forces else 1) * 2 + (0 if isinstance(what, Box) else 1)
            heapq.heappush(self.waiting, (rank, self.made, key, (what, forces, depth)))

    def expand(self, _rank: int, _made: int, key: Key, found: Any) -> None:
        """Takes a gate or a box into the drawing, or cuts it where there is no more room."""
        what, forces, depth = found
        if isinstance(what, Box):
            self.box(key, what, depth)
        elif self.gates >= self.most:
            self.cut(key, what)
        else:
            self.gate(key, what, forces, depth)

    def gate(self, key: Key, what: Any, forces: bool, depth: int) -> None:
        cell = what if isinstance(what, Cell) else self.flat.sources[what]
        symbol, inverts, parts = shape_of(cell)
        self.gates += 1
        node = self.nodes[key] = Node("gate", self.name(what), self.signals.of(what), symbol,
                                      inverts)
        bits = [self.signals.of(part) for part in parts]
        forced = forcing(symbol, node.value, bits) if forces else []
        order = range(len(parts))
        if len(parts) > MOST_PINS:
            order = sorted([*forced, *range(len(parts))][:MOST_PINS])  # type: ignore[assignment]
        for place in dict.fromkeys(order):
            self.give(key, node, parts[place], place in forced, depth + 1)
        left = len(parts) - len(node.ins)
        if left:
            rest = self.nodes["rest", key] = Node("cut", f"{left} more inputs")
            rest.value = OPEN
            node.ins.append(Wire(("rest", key), 0, OPEN, False))

    def box(self, key: Key, box: Box, depth: int) -> None:
        node = self.nodes[key] = Node("box", box.path)
        node.outs = [bit_text(bit[1], bit[2]) for bit in box.outs]
        for bit in box.parts:
            node.in_names.append(bit_text(bit[1], bit[2]))
            self.give(key, node, bit, False, depth + 2)

    def cut(self, key: Key, what: Any) -> None:
        node = self.nodes[key] = Node("cut", self.name(what), self.signals.of(what))
        node.below, node.gates = what, gates_of(self.flat, what)

    @staticmethod
    def name(what: Any) -> str:
        return "" if isinstance(what, Cell) or what[1] is None else text_of(what)
