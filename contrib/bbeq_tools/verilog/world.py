"""The bits of a design at some vectors, each made by its driver when it is first asked for."""
from __future__ import annotations

import sys
from typing import TYPE_CHECKING, Any, Dict, FrozenSet, List, NamedTuple, Tuple

from bbeq_tools.cli import Fault
from bbeq_tools.verilog.bits import Bit, constant
from bbeq_tools.verilog.language import bit_text

if TYPE_CHECKING:
    from bbeq_tools.verilog.values import Design

Key = Tuple[str, str, Any]  # The path of an instance with a dot, a net and an index.
Name = Tuple[str, str]  # A kind and a text.
sys.setrecursionlimit(100_000)  # A bit is made by a call within that of each bit that reads it.


class Box(NamedTuple):
    """A box: its path, its module, its pins as the bits of its nets, and the texts of its output
    pins."""

    path: str
    module: str
    ins: list
    outs: list
    pins: list


class World:
    """The bits of a design where inputs and registers have those of a vector, and the outputs of
    each box are as `contents` says. Operators on words are what their numbers say, vector by
    vector, or what their gates make of all vectors at once."""

    def __init__(self, design: Design, vector: Dict[Any, Bit], contents: Any,
                 has_numbers: bool = True) -> None:
        self.design, self.vector, self.contents = design, vector, contents
        self.has_numbers = has_numbers
        self.made: Dict[Any, Any] = {}
        self.words: Dict[Any, Bit] = {}
        self.every = next((bit.one | bit.zero for bit in vector.values()), 1)

    def constant(self, bit: bool, boxes: FrozenSet[str] = frozenset()) -> Bit:
        return constant(self.every, bit, boxes)

    def bit(self, key: Key) -> Bit:
        if key not in self.made:
            if key not in self.design.drivers:
                raise Fault(f"{key[0]}{bit_text(*key[1:])} is read and has no driver")
            self.made[key] = None
            self.made[key] = self.design.drivers[key](self)
        if self.made[key] is None:
            raise Fault(f"{key[0]}{bit_text(*key[1:])} depends on itself")
        return self.made[key]

    def outputs(self, box: Box) -> List[Bit]:
        if box.path not in self.made:
            self.made[box.path] = self.contents(self, box)
        return self.made[box.path]
