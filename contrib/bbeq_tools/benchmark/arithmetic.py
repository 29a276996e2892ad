"""Circuits of numbers, each of several structures: sums, products, counts and decimal sums."""
from typing import Callable, Dict, List, Tuple

from bbeq_tools.benchmark.circuits import Bits, Circuit

BLOCK = 4  # Bits of a block whose carries are looked ahead, or chosen.
Sum = Tuple[Bits, int]  # The bits, and the last carry.


# Cells.

def half_adder(c: Circuit, ins: Bits) -> Bits:
    return [c.add("xor", *ins), c.add("and", *ins)]


def full_adder(c: Circuit, ins: Bits) -> Bits:
    """The sum and the carry of three bits."""
    a, b, carry = ins
    p = c.add("xor", a, b)
    return [c.add("xor", p, carry), c.add("or", c.add("and", a, b), c.add("and", p, carry))]


# Adders of two words and a carry.

def ripple(c: Circuit, a: Bits, b: Bits, carry: int) -> Sum:
    sums = []
    for pair in zip(a, b):
        bit, carry = full_adder(c, [*pair, carry])
        sums.append(bit)
    return sums, carry


def product_sum(c: Circuit, g: Bits, p: Bits, carry: List[int]) -> int:
    """g3 | p3 g2 | p3 p2 g1 | p3 p2 p1 g0, and p3 p2 p1 p0 with the carry where there is one."""
    terms = [g[-1]]
    for at in range(len(g) - 1, -1, -1):
        last = g[at - 1:at] if at else carry
        terms += [c.all_of("and", [*p[at:], *last])] if last else []
    return c.all_of("or", terms)


def carries(c: Circuit, g: Bits, p: Bits, carry: int) -> Bits:
    """The carry behind each place, looked ahead over blocks of blocks."""
    size = BLOCK
    while size * BLOCK < len(g):
        size *= BLOCK
    if len(g) <= BLOCK:
        return [product_sum(c, g[:at + 1], p[:at + 1], [carry]) for at in range(len(g))]
    starts = range(0, len(g), size)
    blocks = [(g[at:at + size], p[at:at + size]) for at in starts]
    over = carries(c, [product_sum(c, *block, []) for block in blocks],
                   [c.all_of("and", ps) for _, ps in blocks], carry)
    return [bit for block, into in zip(blocks, [carry, *over]) for bit in carries(c, *block, into)]


def lookahead(c: Circuit, a: Bits, b: Bits, carry: int) -> Sum:
    g, p = ([c.add(kind, *pair) for pair in zip(a, b)] for kind in ("and", "xor"))
    over = carries(c, g, p, carry)
    return [c.add("xor", *pair) for pair in zip(p, [carry, *over])], over[-1]


def select(c: Circuit, a: Bits, b: Bits, carry: int) -> Sum:
    """Each block is added with both carries, and the right sum is chosen."""
    sums: Bits = []
    for at in range(0, len(a), BLOCK):
        block = a[at:at + BLOCK], b[at:at + BLOCK]
        (one, one_over), (zero, zero_over) = (ripple(c, *block, c.add(bit)) for bit in "10")
        sums += [c.add("mux", carry, *pair) for pair in zip(one, zero)]
        carry = c.add("mux", carry, one_over, zero_over)
    return sums, carry


ADDERS: Dict[str, Callable[[Circuit, Bits, Bits, int], Sum]] = {
    "ripple": ripple, "lookahead": lookahead, "select": select}


def adder(kind: str, width: int) -> Circuit:
    c = Circuit("adder")
    sums, carry = ADDERS[kind](c, c.word("a", width), c.word("b", width), c.bit("ci"))
    c.drive("s", sums)
    c.drive("co", [carry])
    return c


# Multipliers.

def array(c: Circuit, a: Bits, b: Bits) -> Bits:
    """The partial products row by row, each added to what stands above it."""
    total = [c.add("and", bit, b[0]) for bit in a] + [c.add("0")]
    found = total[:1]
    for factor in b[1:]:
        row = [c.add("and", bit, factor) for bit in a]
        sums, carry = ripple(c, total[1:], row, c.add("0"))
        total = [*sums, carry]
        found.append(total[0])
    return found + total[1:]


def reduced(c: Circuit, columns: List[Bits]) -> List[Bits]:
    """Columns of at most two bits with the same sum, by layers of full and half adders
    (Wallace, 1964)."""
    while max(map(len, columns)) > 2:
        layer: List[Bits] = [[] for _ in range(len(columns) + 1)]
        for at, column in enumerate(columns):
            for start in range(0, len(column), 3):
                part = column[start:start + 3]
                cell = {2: half_adder, 3: full_adder}.get(len(part))
                bit, *over = cell(c, part) if cell else part
                layer[at].append(bit)
                layer[at + 1] += over
        columns = layer if layer[-1] else layer[:-1]
    return columns


def wallace(c: Circuit, a: Bits, b: Bits) -> Bits:
    columns: List[Bits] = [[] for _ in range(len(a) + len(b))]
    for place, factor in enumerate(b):
        for at, bit in enumerate(a):
            columns[place + at].append(c.add("and", bit, factor))
    columns = reduced(c, columns)[:len(a) + len(b)]
    one, other = ([column[row] if row < len(column) else c.add("0") for column in columns]
                  for row in (0, 1))
    return lookahead(c, one, other, c.add("0"))[0]


def multiplier(kind: str, width: int) -> Circuit:
    c = Circuit("multiplier")
    multiply = {"array": array, "wallace": wallace}[kind]
    c.drive("p", multiply(c, c.word("a", width), c.word("b", width)))
    return c


# Counts of ones.

def counted_up(c: Circuit, bits: Bits, width: int) -> Bits:
    """A number to which each bit is added in its turn."""
    total = [c.add("0")] * width
    for bit in bits:
        for at in range(width):
            total[at], bit = half_adder(c, [total[at], bit])
    return total


def counted_by_tree(c: Circuit, bits: Bits, width: int, holes: int = 0) -> Bits:
    """Full adders over bits of the same weight, the first so many of them boxes; then the next
    weight."""
    column, found = list(bits), []
    for _ in range(width):
        over = []
        while len(column) > 2:
            add = c.box("full", column[:3], full_adder) if holes > 0 else full_adder(c, column[:3])
            holes -= 1
            over.append(add[1])
            column = [*column[3:], add[0]]
        if len(column) == 2:
            bit, carry = half_adder(c, column)
            column, over = [bit], [*over, carry]
        found.append(column[0] if column else c.add("0"))
        column = over
    return found


def count_of_ones(kind: str, width: int, holes: int = 0) -> Circuit:
    c = Circuit("count", holes > 0)
    bits, places = c.word("a", width), width.bit_length()
    c.drive("n", counted_by_tree(c, bits, places, holes) if kind == "tree"
            else counted_up(c, bits, places))
    return c
