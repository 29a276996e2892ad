"""What the expressions of an instance mean, bit by bit: their widths and contexts
(docs/LANGUAGE.md; IEEE 1364-2005, clause 5)."""
from functools import reduce
from typing import Any, Dict, List, Tuple

from bbeq_tools.cli import Fault
from bbeq_tools.verilog.bits import (OPERATORS, Bit, Gates, by_gates, by_numbers, chosen, either,
                                     inverted, needed, told)
from bbeq_tools.verilog.language import Bounds, Expression, Index, Module
from bbeq_tools.verilog.words import SHIFTS, SUMS, contexts, reduced, reduction, result_width
from bbeq_tools.verilog.world import Key, World

MOST_LEVELS = 64  # Of instances, the top counted.


class Scope:
    """An instance: its module, its path with a dot behind it, and on which level it stands."""

    def __init__(self, module: Module, path: str, level: int) -> None:
        self.module, self.path, self.level = module, path, level
        self.places: Dict[Any, List[Index]] = {}
        if level > MOST_LEVELS:
            raise Fault(f"{path[:-1]} stands deeper than {MOST_LEVELS} levels")

    def keys(self, left: Expression) -> List[Key]:
        """The bits of what stands on the left of an assignment, leftmost first: path, net and
        index."""
        return [(self.path, name, index) for name, index in self.module.left_bits(left)]

    def selected(self, name: str, select: Bounds) -> List[Index]:
        """The indices that a select takes, leftmost first."""
        found = self.places.get((name, select))
        if found is None:
            found = self.places[name, select] = self.module.selected(name, select)
        return found

    def width(self, expression: Expression) -> int:
        """The width of an expression by itself (5.4.1)."""
        kind, first = expression[:2]
        if kind == "net":
            return len(self.selected(first, expression[2]))
        if kind == "bits":
            return first
        if kind == "not":
            return self.width(first)
        if kind == "fold":
            return 1
        if kind == "words":
            return reduce(lambda left, step: result_width(step[0], left, self.width(step[1])),
                          zip(expression[2], first[1:]), self.width(first[0]))
        if kind == "repeat":
            return first * self.width(expression[2])
        if kind == "concatenation":
            return sum(map(self.width, first))
        return max(map(self.width, first if kind == "chain" else expression[2:]))

    def bit(self, world: World, expression: Expression, place: int, width: int) -> Bit:
        """A bit of an expression in a context of this width, its place counted from the right; what
        is wider than an operand is filled with zeros before the operators are applied (5.5.2)."""
        kind, first = expression[:2]
        if kind == "net":
            indices = self.selected(first, expression[2])
            return (world.bit((self.path, first, indices[-1 - place])) if place < len(indices)
                    else world.constant(False))
        if kind == "bits":
            return world.constant(self.digit(expression, place))
        if kind == "not":
            bit = self.bit(world, first, place, width)
            return inverted(bit) if expression[2] % 2 else bit
        if kind == "fold":
            return self.fold(world, first, expression[2]) if not place else world.constant(False)
        if kind == "words":
            return self.word(world, first,
                             *contexts(expression[2], list(map(self.width, first)), width), place)
        if kind == "chain":
            bits = [self.bit(world, part, place, width) for part in first]
            return reduce(lambda bit, more: OPERATORS[more[0]](bit, more[1]),
                          zip(expression[2], bits[1:]), bits[0])
        if kind == "conditional":
            return chosen(self.condition(world, first),
                          *[self.bit(world, part, place, width) for part in expression[2:]])
        return self.bit_beside(world, first if kind == "concatenation" else [expression[2]] * first,
                               place)

    def word(self, world: World, parts: List[Expression], width: int,
             steps: List[Tuple[str, int, int]], place: int) -> Bit:
        """A bit of a level of operators on words: `width` is that of the first operand, and each
        step has an operator, the width of its second operand and that of its result."""
        if not steps:
            return self.bit(world, parts[0], place, width)
        operator, beside, context = steps[-1]
        if place >= (context if operator in SUMS + SHIFTS else 1):
            return world.constant(False)
        key = self.path, id(parts), len(steps), context, place
        if key not in world.words:
            low, high = needed(operator, place, steps[-2][2] if len(steps) > 1 else width, beside)
            first = [self.word(world, parts, width, steps[:-1], at) for at in range(low, high)]
            second = [self.bit(world, parts[len(steps)], at, beside)
                      for at in range(place + 1 if operator in SUMS else beside)]
            make = by_numbers if world.has_numbers else by_gates
            world.words[key] = make(world.every, operator, first, second, place - low)
        return world.words[key]

    def fold(self, world: World, operand: Expression, operator: str) -> Bit:
        bits = [self.bit(world, operand, place, self.width(operand))
                for place in range(self.width(operand))]
        made = reduced(Gates(world.every), operator, bits[::-1])
        if not world.has_numbers:
            return made
        return told(world.every, made, [bits],
                    lambda number: reduction(operator, number, len(bits)))

    @staticmethod
    def digit(number: Expression, place: int) -> bool:
        _, width, value = number
        if value is None:
            raise Fault("a number has digits that are neither 0 nor 1")
        return place < width and bool(value >> place & 1)

    def condition(self, world: World, expression: Expression) -> Bit:
        """Whether a condition has a 1."""
        width = self.width(expression)
        return reduce(either, [self.bit(world, expression, place, width) for place in range(width)])

    def bit_beside(self, world: World, parts: List[Expression], place: int) -> Bit:
        """A bit of parts side by side, each as wide as it is by itself."""
        for part in reversed(parts):
            width = self.width(part)
            if place < width:
                return self.bit(world, part, place, width)
            place -= width
        return world.constant(False)
