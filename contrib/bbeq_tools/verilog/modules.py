"""A module of a text as data: its nets, assignments, gates, instances and registers."""
from typing import Any, Dict, List, Optional, Tuple

from bbeq_tools.cli import Fault
from bbeq_tools.verilog.tokens import Place, Token

Index = Optional[int]  # None for the bit of a net without a range.
Bounds = Optional[Tuple[int, int]]
Expression = Tuple[Any, ...]  # Its kind, and what that kind has.


class Net:
    """A net of a module: its range as (left, right) or None, its direction and its kind ('wire',
    'reg', 'supply0', 'supply1'). It stands alone where a declaration of its kind does, besides that
    of its direction."""

    __slots__ = ("name", "range", "direction", "kind", "stands_alone")

    def __init__(self, name: str) -> None:
        self.name, self.kind, self.stands_alone = name, "wire", False
        self.range: Bounds = None
        self.direction: Optional[str] = None

    def indices(self) -> List[Index]:
        """The indices of its bits, leftmost first; one None where it has no range."""
        if self.range is None:
            return [None]
        left, right = self.range
        return [*range(left, right - 1, -1)] if left >= right else [*range(left, right + 1)]


class Instance:
    """An instance: the module's token and name, its own name, and its connections as a list of
    expressions or of (port, expression). `comma` is the place of the comma before it where it is
    not the first of its statement."""

    def __init__(self, token: Token, name: str, connections: List[Any], named: bool,
                 comma: Optional[Token]) -> None:
        self.token, self.module, self.name, self.connections, self.named, self.comma = (
            token, token.text, name, connections, named, comma)


class Register:
    """A clocked assignment; `value_place` is the place of its right side and `place` that of the
    whole."""

    def __init__(self, edge: str, clock: Expression, left: Expression, value: Expression,
                 value_place: Place, place: Place) -> None:
        self.edge, self.clock, self.left, self.value, self.value_place, self.place = (
            edge, clock, left, value, value_place, place)


class Module:
    """A module as it stands in a text. `start` and `end` are its place, `header_end` is behind the
    `;` of its header, and `port_items` and `reg_items` have the places of the declarations of its
    ports and of its registers."""

    def __init__(self, token: Token, start: int) -> None:
        self.token, self.name, self.start = token, token.text, start
        self.end = self.header_end = start
        self.ports: List[str] = []
        self.nets: Dict[str, Net] = {}
        self.port_items: List[Place] = []
        self.reg_items: List[Place] = []
        self.assigns: List[Tuple[Expression, Expression]] = []
        self.gates: List[Tuple[str, List[Expression]]] = []
        self.instances: List[Instance] = []
        self.registers: List[Register] = []
        self.bare = True

    def net(self, name: str) -> Net:
        found = self.nets.get(name)
        if found is None:
            found = self.nets[name] = Net(name)
        return found

    def left_bits(self, left: Expression) -> List[Tuple[str, Index]]:
        """The bits of what stands on the left of an assignment, leftmost first, as (net, index)."""
        if left[0] == "concatenation":
            return [bit for part in left[1] for bit in self.left_bits(part)]
        if left[0] != "net":
            raise Fault(f"module {self.name} assigns to something that is no net")
        return [(left[1], index) for index in self.selected(left[1], left[2])]

    def selected(self, name: str, select: Bounds) -> List[Index]:
        """The indices that a select takes, leftmost first."""
        indices = self.net(name).indices()
        if select is None:
            return indices
        if not set(select) <= set(indices):
            raise Fault(f"module {self.name} selects bits that {name} does not have")
        return indices[indices.index(select[0]):indices.index(select[1]) + 1]

    def is_box(self) -> bool:
        """It declares its ports and nothing else."""
        return self.bare and all(net.direction for net in self.nets.values())

    def pins(self, direction: str) -> List[Tuple[Net, Index]]:
        """The pins of one direction as (net, index), in header order, each port's leftmost bit
        first."""
        nets = [self.nets[port] for port in self.ports if port in self.nets]
        return [(net, index) for net in nets if net.direction == direction
                for index in net.indices()]


def bit_text(name: str, index: Index) -> str:
    """The text of a bit as a report prints it."""
    return name if index is None else f"{name}[{index}]"
