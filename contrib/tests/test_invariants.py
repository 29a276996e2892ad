"""An enumeration as the judge of --invariant: small specifications are drawn as models in Python,
each state, input, event and input after it is tried, and what the program says has to be the same.
It is asked with its own budgets, with those for one of its two ways alone, and with budgets that
are too small, where it may leave open what it does not find out. A model is written as Verilog but
never read back, so that a mistake of the reader shows as well."""
import itertools
import os
import random

from tests.tries import Tries, bbeq, write

DRAWN = int(os.environ.get("CHECK_INVARIANTS", "200"))
NAME = "k"
ANSWERS = ("kept", "broken", "open")
EDGES = {"rise": "posedge", "fall": "negedge"}
# By diagrams and clauses, by clauses alone, by diagrams alone; with neither, and with few.
ENOUGH = ([], ["--nodes", "0"], ["--clauses", "0"])
NONE = ["--nodes", "0", "--clauses", "0"]
MODULE = """module {top}({ports});
  input {inputs}; output {outputs};
  reg {registers};
  {items}
endmodule
"""

# An expression is a bit, the name of an input or of a register, or an operator and its operands.

OPERATORS = {
    "~": lambda a: 1 - a,
    "&": lambda a, b: a & b,
    "|": lambda a, b: a | b,
    "^": lambda a, b: a ^ b,
    "?": lambda a, b, c: b if a else c,
}


def value(expression, bits):
    """The bit that an expression has where names have these bits."""
    if isinstance(expression, int):
        return expression
    if isinstance(expression, str):
        return bits[expression]
    return OPERATORS[expression[0]](*[value(operand, bits) for operand in expression[1:]])


def text_of(expression):
    """The same in Verilog."""
    if isinstance(expression, int):
        return f"1'b{expression}"
    if isinstance(expression, str):
        return expression
    operator, *operands = expression
    texts = [text_of(operand) for operand in operands]
    if operator == "~":
        return f"~{texts[0]}"
    if operator == "?":
        return "({} ? {} : {})".format(*texts)
    return f"({texts[0]} {operator} {texts[1]})"


def joined(operator, expressions, empty):
    """All of them by one operator."""
    whole = empty
    for at, expression in enumerate(expressions):
        whole = (operator, whole, expression) if at else expression
    return whole


def by_table(names, rows):
    """An expression that is 1 where the bits of these names, the first least significant, are one
    of these numbers."""
    return joined("|", [joined("&", [name if row >> at & 1 else ("~", name)
                                     for at, name in enumerate(names)], 1)
                        for row in sorted(rows)], 0)


def equal(one, other):
    """That two names have the same bit."""
    return "~", ("^", one, other)


def drawn_expression(draw, names, depth):
    """An expression over these names."""
    if not depth or not draw.randrange(6):
        return draw.choice(names) if draw.randrange(12) else draw.randrange(2)
    operator = draw.choice("~&&||^^?")
    count = {"~": 1, "?": 3}.get(operator, 2)
    return operator, *[drawn_expression(draw, names, depth - 1) for _ in range(count)]


class Model:
    """A specification: its clocks, its other inputs, its registers by name, each with clock, edge
    and next state, and its invariant."""

    def __init__(self, clocks, data, registers, invariant):
        self.clocks, self.inputs, self.registers = clocks, [*clocks, *data], registers
        self.invariant = invariant

    def after(self, states, inputs, edges):
        """The states after an event that comes with these inputs, by the edges of inputs."""
        bits = {**states, **inputs}
        return {name: value(given, bits) if edges.get(clock) == edge else states[name]
                for name, (clock, edge, given) in self.registers.items()}

    def holds(self, states, inputs):
        return value(self.invariant, {**states, **inputs}) == 1

    def answer(self):
        """Whether each event keeps the invariant, by trying all."""
        every_input = list(every(self.inputs, (0, 1)))
        wrong = {tuple(states.values()) for states in every(self.registers, (0, 1))
                 if any(not self.holds(states, later) for later in every_input)}
        for states, inputs in itertools.product(every(self.registers, (0, 1)), every_input):
            if self.holds(states, inputs) and any(
                    tuple(self.after(states, inputs, edges).values()) in wrong
                    for edges in every(self.clocks, (None, *EDGES))):
                return "broken"
        return "kept"

    def reached(self, start):
        """The states that come after these, as numbers; the first register is least
        significant."""
        known, new = {start}, [start]
        while new:
            states = {name: new[-1] >> at & 1 for at, name in enumerate(self.registers)}
            new.pop()
            for inputs, edges in itertools.product(every(self.inputs, (0, 1)),
                                                   every(self.clocks, (None, *EDGES))):
                after = self.after(states, inputs, edges)
                number = sum(after[name] << at for at, name in enumerate(self.registers))
                if number not in known:
                    known.add(number)
                    new.append(number)
        return known

    def text(self, top, has_invariant):
        """It in Verilog, or without the port of the invariant."""
        items = [f"always @({EDGES[edge]} {clock}) {name} <= {text_of(given)};"
                 for name, (clock, edge, given) in self.registers.items()]
        items.append(f"assign y = {text_of(joined('^', self.registers, 0))};")
        if has_invariant:
            items.append(f"assign {NAME} = {text_of(self.invariant)};")
        outputs = ["y", NAME] if has_invariant else ["y"]
        return MODULE.format(top=top, ports=", ".join([*self.inputs, *outputs]),
                             inputs=", ".join(self.inputs), outputs=", ".join(outputs),
                             registers=", ".join(self.registers), items="\n  ".join(items))


def every(names, values):
    """Each way to give these values to names."""
    for given in itertools.product(values, repeat=len(names)):
        yield dict(zip(names, given))


# The kinds of specifications. The invariant of most is kept until something of them is changed.


def names_of(letter, count):
    return [f"{letter}{at}" for at in range(count)]


def counting(draw, names, step):
    """Registers of one clock that go from each number to another, where `a` is 1."""
    edge = draw.choice(list(EDGES))
    size = range(1 << len(names))
    return {name: ("c0", edge, ("?", "a", by_table(names, [number for number in size
                                                           if step(number) >> at & 1]), name))
            for at, name in enumerate(names)}


def ring(draw):
    """One of them is 1."""
    names = names_of("s", draw.randint(2, 4))
    edge = draw.choice(list(EDGES))
    registers = {name: ("c0", edge, ("?", "a", names[at - 1], name))
                 for at, name in enumerate(names)}
    return Model(["c0"], ["a"], registers, by_table(names, [1 << at for at in range(len(names))]))


def bounded(draw):
    """A counter below a bound."""
    names = names_of("s", draw.randint(2, 4))
    bound = draw.randrange(2, 1 << len(names))
    registers = counting(draw, names, lambda number: 0 if number == bound - 1 else number + 1)
    return Model(["c0"], ["a"], registers, by_table(names, range(bound)))


def gray(draw):
    """A counter, and the Gray code of its number."""
    names, codes = names_of("s", 2), names_of("g", 2)
    registers = counting(draw, names, lambda number: number + 1)
    _, edge, _ = registers["s0"]
    above = {"s0": ("~", "s0"), "s1": ("^", "s0", "s1")}
    for code, given in (("g0", ("^", above["s0"], above["s1"])), ("g1", above["s1"])):
        registers[code] = ("c0", edge, ("?", "a", given, code))
    return Model(["c0"], ["a"], registers, ("&", equal(codes[1], "s1"),
                                            equal(codes[0], ("^", "s0", "s1"))))


def agreeing(draw):
    """Two counters, which agree unless one of them has a clock or an edge of its own."""
    ones, others = names_of("s", 2), names_of("t", 2)
    registers = counting(draw, ones, lambda number: number + 1)
    _, edge, _ = registers["s0"]
    clock, edge = draw.choice((("c0", edge), ("c0", edge), ("c1", edge),
                               ("c0", draw.choice(list(EDGES)))))
    registers.update((name, (clock, edge, given)) for name, (*_, given) in counting(
        draw, others, lambda number: number + 1).items())
    return Model(["c0", "c1"], ["a"], registers, joined("&", map(equal, ones, others), 1))


def apart(draw):
    """Two pairs of registers, each of a clock; those of a pair agree."""
    registers = {}
    for clock, pair in (("c0", ("s0", "t0")), ("c1", ("s1", "t1"))):
        edge = draw.choice(list(EDGES))
        registers.update({name: (clock, edge, ("^", "a", name)) for name in pair})
    return Model(["c0", "c1"], ["a"], registers, ("&", equal("s0", "t0"), equal("s1", "t1")))


def claiming(draw):
    """Two registers that become 1 where the other is 0. Both do so together where one event has
    the edges of both, and no other event breaks it."""
    edges = list(EDGES)
    clock, edge, other = draw.choice(("c0", "c0", "c1")), draw.choice(edges), draw.choice(edges)
    registers = {"s0": ("c0", edge, ("~", "t0")), "t0": (clock, other, ("~", "s0"))}
    return Model(["c0", "c1"], [], registers, ("~", ("&", "s0", "t0")))


def waiting(draw):
    """One register becomes 1 at each edge. Where the invariant may be 1 by an input alone, only an
    event without an edge breaks it."""
    registers = {"s0": ("c0", "rise", 1), "t0": ("c0", "fall", 1)}
    either = "|", "s0", "t0"
    return Model(["c0"], ["a"], registers, draw.choice((either, ("|", either, "a"))))


def anything(draw):
    """All of it is drawn. Clocks may be read as data, and the invariant may read inputs."""
    clocks = names_of("c", draw.choice((1, 1, 2, 2, 3)))
    data, names = names_of("a", draw.randrange(3)), names_of("s", draw.randint(1, 4))
    bits = [*clocks, *data, *names, *names]
    registers = {name: (draw.choice(clocks), draw.choice(list(EDGES)),
                        drawn_expression(draw, bits, 3)) for name in names}
    return Model(clocks, data, registers,
                 drawn_expression(draw, draw.choice((bits, names)), draw.randint(2, 4)))


def reaching(draw):
    """States that come after one of them, with drawn next states."""
    model = anything(draw)
    numbers = model.reached(draw.randrange(1 << len(model.registers)))
    model.invariant = by_table(list(model.registers), numbers)
    return model


KINDS = (ring, bounded, gray, agreeing, apart, claiming, waiting, anything, reaching)

# What is changed in some of them.


def other_next(draw, model):
    """The next state of a register."""
    name = draw.choice(list(model.registers))
    clock, edge, _ = model.registers[name]
    given = drawn_expression(draw, [*model.inputs, *model.registers], 2)
    model.registers[name] = clock, edge, given


def other_edge(draw, model):
    """The clock of a register, and its edge."""
    name = draw.choice(list(model.registers))
    model.registers[name] = (draw.choice(model.clocks), draw.choice(list(EDGES)),
                             model.registers[name][2])


def other_states(draw, model):
    """Whether the invariant has a state."""
    names = list(model.registers)
    state = by_table(names, [draw.randrange(1 << len(names))])
    model.invariant = "^", model.invariant, state


def other_input(draw, model):
    """The invariant reads an input."""
    model.invariant = draw.choice("&|"), model.invariant, draw.choice(model.inputs)


CHANGES = (other_next, other_edge, other_states, other_input)


def drawn(number, attempt):
    """A model with the name of its kind; some of those whose invariant is kept are changed."""
    draw = random.Random(f"invariants {number} {attempt}")
    kind = KINDS[number % len(KINDS)]
    model = kind(draw)
    if kind is anything or draw.randrange(5) > 1:
        return model, kind.__name__
    change = draw.choice(CHANGES)
    change(draw, model)
    return model, f"{kind.__name__}, {change.__name__.replace('_', ' ')}"


def is_small(number):
    """Whether the program is given the smallest budgets."""
    return number % 4 == 3


def judged(number):
    """A model, its name and what is true of it. What is kept the program often finds out without
    nodes and clauses, so most of those with the smallest budgets are broken."""
    most = is_small(number) and number % 32 != 3
    for attempt in itertools.count():
        model, name = drawn(number, attempt)
        answer = model.answer()
        if answer == "broken" or not most:
            return model, name, answer


# What the program says.


def bits_of(line, names):
    """The bits of a line, which has these names in this order."""
    pairs = [word.rsplit("=", 1) for word in line.split(" ")[1:]]
    if [name for name, _ in pairs] != list(names) or any(bit not in "01" for _, bit in pairs):
        return None
    return {name: int(bit) for name, bit in pairs}


def edges_of(line, names):
    """The edges of inputs, each at most once and in their order."""
    edges = dict(word.rsplit("=", 1) for word in line.split(" ")[1:])
    right = [name for name in names if name in edges] == list(edges) and len(edges) == len(
        line.split(" ")) - 1
    return edges if right and all(edge in EDGES for edge in edges.values()) else None


def is_shown(model, lines):
    """Whether the lines after `invariant broken` show an event that breaks it."""
    if [line.split(" ")[0] for line in lines] != ["input", "edges", "then", "verdict"]:
        return False
    comes = bits_of(lines[0], [*model.inputs, *model.registers])
    edges, later = edges_of(lines[1], model.inputs), bits_of(lines[2], model.inputs)
    if comes is None or edges is None or later is None:
        return False
    states = {name: comes[name] for name in model.registers}
    inputs = {name: comes[name] for name in model.inputs}
    return model.holds(states, inputs) and not model.holds(
        model.after(states, inputs, edges), later)


def is_right(model, done, answer, small):
    """Whether the report is right where this is the answer. With small budgets it may be open, and
    so may be the checks after it is kept."""
    lines = done.out.splitlines()
    last = lines[-1] if lines else ""
    if small and done.out == "invariant open\nverdict open\n":
        return done.status == 3
    if not lines or lines[0] != f"invariant {answer}":
        return False
    if answer == "broken":
        return done.status == 3 and last == "verdict open" and is_shown(model, lines[1:])
    return (done.status, last) in [(0, "verdict repairable"), (3, "verdict open")][:1 + small]


def few(number):
    """Budgets that are enough for some."""
    draw = random.Random(f"few {number}")
    return [["--nodes", str(draw.randrange(200)), "--clauses", "0"],
            ["--nodes", "0", "--clauses", str(draw.randrange(2_000))]]


class Invariants(Tries):
    part = "invariants"
    needs = ()

    def test_invariants(self):
        found = [self.answer(number) for number in range(DRAWN)]
        shares = {answer: found.count(answer) for answer in ANSWERS}
        self.note(f"drawn invariants: {shares}, at least a fifth each",
                  all(5 * count >= DRAWN for count in shares.values()))

    def answer(self, number):
        """What the program first says of a drawn specification."""
        model, name, answer = judged(number)
        texts = [write(self.folder, f"{top}.v", model.text(top, top == "spec"))
                 for top in ("spec", "impl")]
        small = is_small(number)
        ways = [NONE, *few(number)] if small else ENOUGH
        reports = [bbeq(*texts, "--invariant", NAME, *budgets) for budgets in ways]
        wrong = [" ".join(["with", *budgets, done.why()]) for budgets, done in zip(ways, reports)
                 if not is_right(model, done, answer, small)]
        self.note(f"drawn invariant {number}, {name}: {answer}{', small budgets' * small}",
                  not wrong, "\n".join([*wrong, model.text("spec", True)]))
        return reports[0].out.partition("\n")[0].removeprefix("invariant ")
