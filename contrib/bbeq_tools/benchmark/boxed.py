"""Designs some of whose cells are boxes. Each is built of another structure where it is the
specification, with the contents in the place of the boxes."""
from typing import List, Tuple

from bbeq_tools.benchmark.arithmetic import (count_of_ones, full_adder, half_adder, lookahead,
                                             ripple)
from bbeq_tools.benchmark.choices import chosen_by_tree
from bbeq_tools.benchmark.circuits import Bits, Circuit

UNIT = 5  # Requests of a unit of the arbiter that looks ahead.


def spread(count: int, holes: int) -> List[int]:
    """So many of some places, at equal distances, none of them the first where others are left."""
    return [(2 * number + 1) * count // (2 * holes) for number in range(holes)]


def blocked(c: Circuit, bits: Bits, before: int) -> Bits:
    """For each bit whether it, or one before it, is 1: by doubling."""
    found, step = [c.add("or", bits[0], before), *bits[1:]], 1
    while step < len(found):
        found = [c.add("or", bit, found[at - step]) if at >= step else bit
                 for at, bit in enumerate(found)]
        step *= 2
    return found


# The arbiter of bitcells (McMillan, 1993): a token goes round, and who has waited for it is served
# first; otherwise the first request.

def bitcell(c: Circuit, ins: Bits) -> Bits:
    """Whether a request is served, and whether those behind it may be."""
    request, free, override = ins
    return [c.add("and", request, c.add("or", free, override)),
            c.add("and", free, c.add("not", request))]


def bitcell_arbiter(is_spec: bool, width: int, holes: int) -> Circuit:
    c = Circuit("arbiter", not is_spec)
    requests = c.word("r", width)
    tokens, waits = c.register("t", width), c.register("w", width)
    overrides = [c.add("and", *pair) for pair in zip(tokens, waits)]
    some = c.all_of("or", overrides)
    if is_spec:
        before = [some, *blocked(c, requests, some)[:-1]]
        acks = [c.add("and", request, c.add("or", c.add("not", held), override))
                for request, held, override in zip(requests, before, overrides)]
    else:
        free, acks = c.add("not", some), []
        for at, pins in enumerate(zip(requests, overrides)):
            cell = [pins[0], free, pins[1]]
            ack, free = (c.box("bitcell", cell, bitcell) if at in spread(width, holes)
                         else bitcell(c, cell))
            acks.append(ack)
    c.drive("ack", acks)
    c.drive("t", [tokens[-1], *tokens[:-1]])
    c.drive("w", [c.add("and", request, c.add("or", *pair))
                  for request, *pair in zip(requests, waits, tokens)])
    return c


# The arbiter that looks ahead: units of five requests, those of the mask first.

def unit(c: Circuit, ins: Bits) -> Bits:
    """The grants of a unit, and whether it has a request; the first pin allows grants."""
    free, grants = ins[0], []
    for request in ins[1:]:
        grants.append(c.add("and", request, free))
        free = c.add("and", free, c.add("not", request))
    return [*grants, c.all_of("or", ins[1:])]


def lookahead_arbiter(is_spec: bool, units: int, holes: int) -> Circuit:
    c = Circuit("arbiter", not is_spec)
    requests, mask = c.word("r", units * UNIT), c.register("m", units * UNIT)
    kept = [c.add("and", *pair) for pair in zip(requests, mask)]
    some = c.all_of("or", kept)
    chosen = [c.add("mux", some, *pair) for pair in zip(kept, requests)]
    if is_spec:
        before = [c.add("0"), *blocked(c, chosen, c.add("0"))]
        grants = [c.add("and", bit, c.add("not", held)) for bit, held in zip(chosen, before)]
    else:
        found: List[Bits] = []
        for number in range(units):
            free = c.add("not", c.all_of("or", [bits[-1] for bits in found])) if found \
                else c.add("1")
            pins = [free, *chosen[number * UNIT:][:UNIT]]
            found.append(c.box("unit", pins, unit) if number in spread(units, holes)
                         else unit(c, pins))
        grants = [bit for bits in found for bit in bits[:-1]]
    c.drive("grant", grants)
    held = blocked(c, grants, c.add("0"))
    c.drive("m", [c.add("0"), *held[:-1]])
    return c


# A chain of exclusive ors.

def xor_chain(is_spec: bool, width: int, holes: int) -> Circuit:
    """Boxes of two or three input pins, and of one, an inverter."""
    c = Circuit("parity", not is_spec)
    bits, places = c.word("x", width), spread(width, holes)
    if is_spec:
        odd = len([at for at in places if places.index(at) % 3 == 2]) % 2
        parity = c.all_of("xor", bits)
        c.drive("y", [c.add("not", parity) if odd else parity])
        return c
    total = bits[0]
    for at in range(1, width):
        number = places.index(at) if at in places else -1
        if number >= 0 and number % 3 < 2:
            more = [bits[(at + width // 2) % width]] if number % 3 else []
            total = c.box(f"link{len(more)}", [total, bits[at], *more],
                          lambda circuit, ins: [circuit.add("xor", *ins[:2])])[0]
            continue
        total = c.add("xor", total, bits[at])
        if number >= 0:
            total = c.box("inverter", [total],
                          lambda circuit, ins: [circuit.add("not", *ins)])[0]
    c.drive("y", [total])
    return c


# Adders and counts.

def with_holes(c: Circuit, a: Bits, b: Bits, carry: int, holes: int) -> Tuple[Bits, int]:
    """An adder whose full adders are boxes in some places."""
    sums = []
    for at, pair in enumerate(zip(a, b)):
        ins = [*pair, carry]
        bit, carry = (c.box("full", ins, full_adder) if at in spread(len(a), holes)
                      else full_adder(c, ins))
        sums.append(bit)
    return sums, carry


def holed_adder(is_spec: bool, width: int, holes: int) -> Circuit:
    c = Circuit("adder", not is_spec)
    a, b, carry = c.word("a", width), c.word("b", width), c.bit("ci")
    sums, over = lookahead(c, a, b, carry) if is_spec else with_holes(c, a, b, carry, holes)
    c.drive("s", sums)
    c.drive("co", [over])
    return c


def holed_count(is_spec: bool, width: int, holes: int) -> Circuit:
    return count_of_ones("up", width) if is_spec else count_of_ones("tree", width, holes)


# Decimal sums.

def corrected(c: Circuit, ins: Bits) -> Bits:
    """A digit and a carry of a binary sum of two digits and a carry: 6 more where it is over 9."""
    one, two, four, eight, carry = ins
    over = c.add("or", carry, c.add("and", eight, c.add("or", four, two)))
    bit, up = half_adder(c, [two, over])
    other, up = full_adder(c, [four, over, up])
    return [one, bit, other, c.add("xor", eight, up), over]


def decimal_adder(is_spec: bool, digits: int, holes: int) -> Circuit:
    c = Circuit("decimal", not is_spec)
    carry, add = c.bit("ci"), lookahead if is_spec else ripple
    for number in range(digits):
        sums, over = add(c, c.word(f"a{number}", 4), c.word(f"b{number}", 4), carry)
        ins = [*sums, over]
        *digit, carry = (c.box("correction", ins, corrected) if number in spread(digits, holes)
                         else corrected(c, ins))
        c.drive(f"s{number}", digit)
    c.drive("co", [carry])
    return c


# A small processor: an accumulator, a program counter and a flag.

def control(c: Circuit, ins: Bits) -> Bits:
    """What an operation and the flag ask for: a difference, a result to be written, a jump, and
    which of sum, and, exclusive or and data is the result. The operations: add, subtract, and,
    exclusive or, load, jump, jump where the flag is 1, nothing."""
    low, middle, high, flag = ins
    not_low, not_middle, not_high = (c.add("not", bit) for bit in (low, middle, high))
    loads = c.add("and", high, c.add("and", not_middle, not_low))
    upper = c.add("and", not_high, middle)
    jump = c.add("and", high, c.add("and", not_middle, low))
    branch = c.add("and", c.add("and", high, flag), c.add("and", middle, not_low))
    return [c.add("and", c.add("and", not_high, not_middle), low),
            c.add("or", not_high, loads), c.add("or", jump, branch),
            c.add("or", loads, c.add("and", upper, not_low)),
            c.add("or", loads, c.add("and", upper, low))]


def processor(is_spec: bool, width: int, holes: int) -> Circuit:
    """One box for the control, the others in the adder."""
    c = Circuit("processor", not is_spec)
    op, data = c.word("op", 3), c.word("data", width)
    acc, counter, flag = c.register("acc", width), c.register("pc", width), c.register("z", 1)[0]
    minus, writes, jumps, *pick = c.box("control", [*op, flag], control)
    other = [c.add("xor", bit, minus) for bit in data]
    sums = (lookahead(c, acc, other, minus) if is_spec
            else with_holes(c, acc, other, minus, holes - 1))[0]
    results = [chosen_by_tree(c, pick, [total, c.add("and", *pair), c.add("xor", *pair), pair[1]])
               for total, *pair in zip(sums, acc, data)]
    following = []
    up = c.add("1")
    for bit in counter:
        step, up = half_adder(c, [bit, up])
        following.append(step)
    c.drive("acc", [c.add("mux", writes, *pair) for pair in zip(results, acc)])
    c.drive("pc", [c.add("mux", jumps, *pair) for pair in zip(data, following)])
    c.drive("z", [c.add("mux", writes, c.add("not", c.all_of("or", results)), flag)])
    c.drive("y", acc)
    return c
