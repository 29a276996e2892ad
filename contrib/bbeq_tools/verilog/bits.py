"""A bit at all vectors at once, and what operators make of bits (IEEE 1364-2005, clause 5). An
operator on words means a number, at each vector; only where a bit of its operands is not known, it
is what its gates make of it."""
from functools import reduce
from typing import Any, Callable, FrozenSet, List, NamedTuple, Sequence, Tuple

from bbeq_tools.cli import Fault
from bbeq_tools.verilog.words import SUMS, circuit, meaning


class Bit(NamedTuple):
    """At which vectors a bit is 1 and at which it is 0, each a number with a binary digit for each
    vector; at the others it is not known. Beside that, the paths of the boxes whose outputs it is
    made of."""

    one: int
    zero: int
    boxes: frozenset = frozenset()


def inverted(a: Bit) -> Bit:
    return Bit(a.zero, a.one, a.boxes)


def both(a: Bit, b: Bit) -> Bit:
    return Bit(a.one & b.one, a.zero | b.zero, a.boxes | b.boxes)


def either(a: Bit, b: Bit) -> Bit:
    return Bit(a.one | b.one, a.zero & b.zero, a.boxes | b.boxes)


def differ(a: Bit, b: Bit) -> Bit:
    return Bit(a.one & b.zero | a.zero & b.one, a.one & b.one | a.zero & b.zero, a.boxes | b.boxes)


def same(a: Bit, b: Bit) -> Bit:
    return inverted(differ(a, b))


def chosen(condition: Bit, then: Bit, otherwise: Bit) -> Bit:
    """Where the condition is not known, a bit that is the same on both sides still is (5.1.13)."""
    one = condition.one & then.one | condition.zero & otherwise.one | then.one & otherwise.one
    zero = condition.one & then.zero | condition.zero & otherwise.zero | then.zero & otherwise.zero
    return Bit(one, zero, condition.boxes | then.boxes | otherwise.boxes)


def constant(every: int, value: bool, boxes: FrozenSet[str] = frozenset()) -> Bit:
    """A bit that is the same at all vectors, of which `every` has a digit each."""
    return Bit(every, 0, boxes) if value else Bit(0, every, boxes)


OPERATORS = {"&": both, "|": either, "^": differ, "~^": same, "^~": same}
GATES = {"and": both, "nand": both, "or": either, "nor": either, "xor": differ, "xnor": differ,
         "buf": both, "not": both}
INVERTING = ("nand", "nor", "xnor", "not")


class Gates:
    """The gates of which operators on words are made."""

    def __init__(self, every: int) -> None:
        self.zero, self.one = constant(every, False), constant(every, True)

    @staticmethod
    def inverted(bit: Bit) -> Bit:
        return inverted(bit)

    @staticmethod
    def joined(bits: List[Bit], operators: Sequence[str]) -> Bit:
        return reduce(lambda bit, step: OPERATORS[step[0]](bit, step[1]), zip(operators, bits[1:]),
                      bits[0])

    @staticmethod
    def choice(condition: Bit, then: Bit, otherwise: Bit) -> Bit:
        return chosen(condition, then, otherwise)

    @staticmethod
    def once(bit: Bit) -> Bit:
        return bit


def told(every: int, made: Bit, operands: List[List[Bit]], means: Callable[..., Any]) -> Bit:
    """A bit that gates make of operands, the rightmost bit of each first; where all bits of these
    are known, it is what the numbers say, and the gates have to say the same."""
    known = reduce(lambda mask, bit: mask & (bit.one | bit.zero),
                   [bit for bits in operands for bit in bits], every)
    if not known:
        return made
    rows = [numbers(bits, every.bit_length()) for bits in operands]
    one = int("".join("1" if means(*row) else "0" for row in zip(*rows)), 2) & known
    if (made.one & known, made.zero & known) != (one, known & ~one):
        raise Fault("the gates of an operator say something else than its numbers")
    return Bit(made.one & ~known | one, made.zero & ~known | known & ~one, made.boxes)


def numbers(bits: List[Bit], count: int) -> List[int]:
    """The numbers that bits spell, the rightmost first, at so many vectors, the last vector
    first."""
    columns = [format(bit.one, f"0{count}b") for bit in reversed(bits)]
    return [int("".join(digits), 2) for digits in zip(*columns)]


def by_gates(every: int, operator: str, first: List[Bit], second: List[Bit], place: int) -> Bit:
    """The bit at a place of an operator on two words, the rightmost bit of each first."""
    return circuit(Gates(every), operator, first[::-1], second[::-1])[::-1][place]


def by_numbers(every: int, operator: str, first: List[Bit], second: List[Bit], place: int) -> Bit:
    """The same, as the numbers say."""
    made = by_gates(every, operator, first, second, place)
    return told(every, made, [first, second], lambda left, right: meaning(operator, left, right,
                                                                          len(first)) >> place & 1)


def needed(operator: str, place: int, width: int, beside: int) -> Tuple[int, int]:
    """The bits of the first operand, from one up to another, that a bit of the result is made of;
    the second has `beside` bits."""
    if operator in SUMS:
        return 0, place + 1
    if operator == "<<":
        return max(0, place + 1 - (1 << beside)), place + 1
    return (place, min(width, place + (1 << beside))) if operator == ">>" else (0, width)
