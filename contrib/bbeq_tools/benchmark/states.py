"""Circuits with registers: register files, memories and state machines."""
from bbeq_tools.benchmark.choices import (chosen_by_products, chosen_by_tree, decoded, drawn_table,
                                          looked_up)
from bbeq_tools.benchmark.circuits import Bits, Circuit


def read(c: Circuit, kind: str, address: Bits, words: "list[Bits]") -> Bits:
    columns: "list[Bits]" = list(map(list, zip(*words)))
    if kind == "tree":
        return [chosen_by_tree(c, address, column) for column in columns]
    lines = decoded(c, address)
    return [chosen_by_products(c, lines, column) for column in columns]


def written(c: Circuit, kind: str, takes: int, data: Bits, word: Bits) -> Bits:
    """What a word takes next: the data or itself."""
    if kind == "tree":
        return [c.add("mux", takes, *pair) for pair in zip(data, word)]
    keeps = c.add("not", takes)
    return [c.add("or", c.add("and", takes, new), c.add("and", keeps, old))
            for new, old in zip(data, word)]


def register_file(kind: str, places: int, width: int, ports: int = 2) -> Circuit:
    """2 to the power of `places` words, one port to write and some to read."""
    c = Circuit("file")
    addresses = [c.word(f"at{port}", places) for port in range(ports)]
    goal, data, writes = c.word("goal", places), c.word("data", width), c.bit("write")
    words = [c.register(f"r{number}", width) for number in range(1 << places)]
    for number, (line, word) in enumerate(zip(decoded(c, goal), words)):
        c.drive(f"r{number}", written(c, kind, c.add("and", line, writes), data, word))
    for port, address in enumerate(addresses):
        c.drive(f"y{port}", read(c, kind, address, words))
    return c


def state_machines(kind: str, machines: int, states: int, inputs: int) -> Circuit:
    """Machines with so many bits of state and of input, whose tables are drawn: the next state,
    and two outputs."""
    c = Circuit("machines")
    ins = [c.word(f"x{number}", inputs) for number in range(machines)]
    for number, word in enumerate(ins):
        state = c.register(f"q{number}", states)
        columns = drawn_table(f"machine {number}", 1 << states + inputs, states + 2)
        found = looked_up(c, kind, [*word, *state], columns)
        c.drive(f"q{number}", found[:states])
        c.drive(f"y{number}", found[states:])
    return c
