"""Circuits that choose: rotations, comparisons, priorities, tables and lanes of a small ALU."""
import random
from typing import List, Tuple

from bbeq_tools.benchmark.arithmetic import lookahead, ripple
from bbeq_tools.benchmark.circuits import Bits, Circuit

LANE = 8  # Bits of a lane's words.


def inverted(c: Circuit, bits: Bits) -> Bits:
    return [c.add("not", bit) for bit in bits]


def decoded(c: Circuit, bits: Bits) -> Bits:
    """A bit for each value of a word, by halves."""
    if len(bits) == 1:
        return [c.add("not", bits[0]), bits[0]]
    low, high = decoded(c, bits[:len(bits) // 2]), decoded(c, bits[len(bits) // 2:])
    return [c.add("and", one, other) for other in high for one in low]


def chosen_by_tree(c: Circuit, choice: Bits, values: Bits) -> int:
    """The value whose number the word has, by a tree of choices."""
    for bit in choice:
        values = [c.add("mux", bit, values[at + 1], values[at])
                  for at in range(0, len(values), 2)]
    return values[0]


def chosen_by_products(c: Circuit, lines: Bits, values: Bits) -> int:
    """The same by an or of ands with the bits of a decoder."""
    return c.all_of("or", [c.add("and", *pair) for pair in zip(lines, values)])


# Rotations.

def rotator(order: str, width: int) -> Circuit:
    """Rotates to the left by stages, that of the least or of the greatest power of two first."""
    c = Circuit("rotator")
    bits, amount = c.word("a", width), c.word("by", (width - 1).bit_length())
    stages = list(enumerate(amount))
    for power, bit in stages if order == "rising" else reversed(stages):
        bits = [c.add("mux", bit, bits[(at - (1 << power)) % width], bits[at])
                for at in range(width)]
    c.drive("y", bits)
    return c


# Comparisons.

def compared_in_line(c: Circuit, a: Bits, b: Bits) -> Tuple[int, int]:
    """Whether a is less than b, and whether they are equal: from the least place on."""
    less, equal = c.add("0"), c.add("1")
    for one, other in zip(a, b):
        same = c.add("xnor", one, other)
        less = c.add("mux", same, less, other)
        equal = c.add("and", equal, same)
    return less, equal


def compared_by_tree(c: Circuit, a: Bits, b: Bits) -> Tuple[int, int]:
    if len(a) == 1:
        return c.add("and", c.add("not", a[0]), b[0]), c.add("xnor", a[0], b[0])
    half = len(a) // 2
    low, high = compared_by_tree(c, a[:half], b[:half]), compared_by_tree(c, a[half:], b[half:])
    return c.add("or", high[0], c.add("and", high[1], low[0])), c.add("and", high[1], low[1])


def comparator(kind: str, width: int) -> Circuit:
    c = Circuit("comparator")
    compare = {"line": compared_in_line, "tree": compared_by_tree}[kind]
    less, equal = compare(c, c.word("a", width), c.word("b", width))
    c.drive("less", [less])
    c.drive("equal", [equal])
    c.drive("greater", [c.add("nor", less, equal)])
    return c


# Priorities.

def first_in_line(c: Circuit, bits: Bits) -> Tuple[int, Bits]:
    """Whether some bit is 1, and the number of the first that is: each bit holds back those behind
    it."""
    free, lines = c.add("1"), []
    for bit in bits:
        lines.append(c.add("and", bit, free))
        free = c.add("and", free, c.add("not", bit))
    places = [c.all_of("or", [line for at, line in enumerate(lines) if at >> place & 1])
              for place in range((len(bits) - 1).bit_length())]
    return c.add("not", free), places


def first_by_tree(c: Circuit, bits: Bits) -> Tuple[int, Bits]:
    if len(bits) == 1:
        return bits[0], []
    (low, left), (high, right) = (first_by_tree(c, part) for part in (
        bits[:len(bits) // 2], bits[len(bits) // 2:]))
    places = [c.add("mux", low, *pair) for pair in zip(left, right)]
    return c.add("or", low, high), [*places, c.add("not", low)]


def priority_encoder(kind: str, width: int) -> Circuit:
    """The number of the first request, and 0 where there is none."""
    c = Circuit("priorities")
    some, places = {"line": first_in_line, "tree": first_by_tree}[kind](c, c.word("r", width))
    c.drive("some", [some])
    c.drive("first", [c.add("and", place, some) for place in places])
    return c


# Tables.

def drawn_table(seed: str, rows: int, width: int) -> List[int]:
    """For each bit of the result an integer with a bit for each row."""
    draw = random.Random(seed)
    return [draw.getrandbits(rows) for _ in range(width)]


def looked_up_by_tree(c: Circuit, key: Bits, column: int) -> int:
    """A bit of a table, by a tree of choices between constants."""
    constants = [c.add("0"), c.add("1")]
    return chosen_by_tree(c, key, [constants[column >> row & 1] for row in range(1 << len(key))])


def looked_up_by_products(c: Circuit, lines: Bits, column: int) -> int:
    return c.all_of("or", [line for row, line in enumerate(lines) if column >> row & 1])


def looked_up(c: Circuit, kind: str, key: Bits, columns: List[int]) -> Bits:
    if kind == "tree":
        return [looked_up_by_tree(c, key, column) for column in columns]
    lines = decoded(c, key)
    return [looked_up_by_products(c, lines, column) for column in columns]


def case_statement(kind: str, keys: int, width: int) -> Circuit:
    """A table of so many bits of a key, with values that are drawn."""
    c = Circuit("cases")
    columns = drawn_table(f"case {keys} {width}", 1 << keys, width)
    c.drive("y", looked_up(c, kind, c.word("key", keys), columns))
    return c


# Lanes of an ALU.

def lane_apart(c: Circuit, a: Bits, b: Bits, op: Bits) -> Bits:
    """All results beside each other, and a tree that chooses: a sum, a difference, and, or,
    exclusive or, a less than b, and shifts by one place."""
    zero = c.add("0")
    minus, no_borrow = ripple(c, a, inverted(c, b), c.add("1"))
    results = [ripple(c, a, b, zero)[0], minus,
               *([c.add(kind, *pair) for pair in zip(a, b)] for kind in ("and", "or", "xor")),
               [c.add("not", no_borrow), *[zero] * (LANE - 1)], [zero, *a[:-1]], [*a[1:], zero]]
    return [chosen_by_tree(c, op, [result[at] for result in results]) for at in range(LANE)]


def lane_shared(c: Circuit, a: Bits, b: Bits, op: Bits) -> Bits:
    """One adder for sums, differences and comparisons, and the results by products with the bits
    of a decoder."""
    lines = decoded(c, op)
    adds = c.add("nor", lines[1], lines[5])
    sums, over = lookahead(c, a, [c.add("xnor", bit, adds) for bit in b], c.add("not", adds))
    less, chosen = c.add("and", lines[5], c.add("not", over)), []
    for at in range(LANE):
        terms = [c.add("and", c.add("or", lines[0], lines[1]), sums[at])]
        terms += [c.add("and", lines[number], c.add(kind, a[at], b[at]))
                  for number, kind in ((2, "and"), (3, "or"), (4, "xor"))]
        terms += [c.add("and", lines[6], a[at - 1])] if at else [less]
        terms += [c.add("and", lines[7], a[at + 1])] if at + 1 < LANE else []
        chosen.append(c.all_of("or", terms))
    return chosen


def alu_lanes(kind: str, lanes: int) -> Circuit:
    """Lanes of eight bits that do one operation."""
    c = Circuit("alu")
    op = c.word("op", 3)
    lane = {"apart": lane_apart, "shared": lane_shared}[kind]
    for number in range(lanes):
        a, b = c.word(f"a{number}", LANE), c.word(f"b{number}", LANE)
        c.drive(f"y{number}", lane(c, a, b, op))
    return c
