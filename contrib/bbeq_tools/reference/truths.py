"""What is true of a specification and an implementation with boxes, found by trying everything: all
vectors at once, all bits that boxes may give, all contents, of which those of one module may be the
same; where a care output of the specification is 0 nothing is wrong. The checks are those of
docs/REPORT.md, each by what it is said to find and to show."""
from functools import cached_property, reduce
from itertools import product

from bbeq_tools.cli import Fault
from bbeq_tools.verilog.bits import Bit, both, inverted
from bbeq_tools.verilog.values import Design
from bbeq_tools.verilog.world import World

# Bits of a vector, pins of one direction of a box, bits of all contents.
MOST_INPUTS, MOST_PINS, MOST_CONTENTS = 12, 6, 16


def lowest(mask):
    """The first vector of some."""
    return (mask & -mask).bit_length() - 1


def lists(count):
    """All lists of so many bits, in the order of the numbers that they spell."""
    return list(product((False, True), repeat=count))


def unknown(world, box):
    return [Bit(0, 0, frozenset([box.path]))] * len(box.outs)


def fixed(bits):
    """Each box gives these bits, whatever it reads."""
    return lambda world, box: [world.constant(bit, frozenset([box.path])) for bit in bits[box.path]]


def chosen_row(world, box, row):
    """The vectors at which a box reads this row."""
    bits = [world.bit(key) if wanted else inverted(world.bit(key))
            for key, wanted in zip(box.ins, row)]
    return reduce(both, bits, world.constant(True)).one


def by_rows(contents):
    """Each box gives the row that it reads, of rows in the order of the numbers that the input bits
    spell."""
    def give(world, box):
        matches = [chosen_row(world, box, row) for row in lists(len(box.ins))]
        ones = [sum(match for match, row in zip(matches, contents[box.path]) if row[pin])
                for pin in range(len(box.outs))]
        return [Bit(one, world.every & ~one) for one in ones]
    return give


def vectors(names):
    """At which vectors each input is 1; the first is the most significant digit of the number of a
    vector."""
    count = 2 ** len(names)
    ones = [sum(1 << vector for vector in range(count) if vector >> digit & 1)
            for digit in reversed(range(len(names)))]
    return {name: Bit(one, (1 << count) - 1 & ~one) for name, one in zip(names, ones)}


def in_order(design, vector):
    """The boxes, each behind those whose outputs it reads; of those that may stand next, the first
    one in the text."""
    world, placed, left = World(design, vector, unknown), [], list(design.boxes)
    needs = {box.path: frozenset().union(*[world.bit(key).boxes for key in box.ins])
             for box in left}
    while left:
        ready = [box for box in left if needs[box.path] <= {other.path for other in placed}]
        if not ready:
            raise Fault(f"box {left[0].path} depends on itself")
        placed.append(ready[0])
        left.remove(ready[0])
    return placed


class Pair:
    """Two designs with the same inputs, registers and outputs, of which the first has no boxes."""

    def __init__(self, spec, imp, shared=False, care=None):
        if spec.boxes:
            raise Fault(f"the specification has a box {spec.boxes[0].path}")
        asked = ("output", care)
        if care and asked not in dict(spec.outputs):
            raise Fault(f"the specification has no output {care}")
        self.imp, self.names, self.outputs = imp, spec.inputs, [name for name, _ in spec.outputs
                                                                if name != asked]
        if set(self.names) != set(imp.inputs) or set(self.outputs) != {name
                                                                       for name, _ in imp.outputs}:
            raise Fault("the two have other ports or registers")
        if len(self.names) > MOST_INPUTS:
            raise Fault(f"{len(self.names)} inputs and registers are more than {MOST_INPUTS}")
        for box in imp.boxes:
            if max(len(box.ins), len(box.outs)) > MOST_PINS:
                raise Fault(f"box {box.path} has more than {MOST_PINS} input or output pins")
        self.vector = vectors(self.names)
        world = World(spec, self.vector, unknown)
        self.wanted = self.outputs_of(world)
        self.every = world.every
        self.counts = dict(spec.outputs)[asked](world).one if care else self.every
        self.boxes = in_order(imp, self.vector)
        self.keys = {box.path: box.module if shared else box.path for box in self.boxes}
        self.kinds = {}
        for box in self.boxes:
            self.kinds.setdefault(self.keys[box.path], box)

    def outputs_of(self, world):
        makers = dict(world.design.outputs)
        return [makers[name](world) for name in self.outputs]

    def wrong(self, world):
        """For each output the vectors at which it counts and is known and wrong."""
        return [self.counts & (bit.one & want.zero | bit.zero & want.one)
                for bit, want in zip(self.outputs_of(world), self.wanted)]

    def filled(self, contents):
        return World(self.imp, self.vector, contents)

    @cached_property
    def free(self):
        """For all bits that the boxes may give, by these bits: the vectors at which each output is
        wrong, and those at which each box reads each row."""
        found = {}
        for bits, world in self.worlds():
            rows = [{row: chosen_row(world, box, row) for row in lists(len(box.ins))}
                    for box in self.boxes]
            found[bits] = self.wrong(world), rows
        return found

    def worlds(self):
        """All bits that the boxes may give, each with what the nets have then."""
        for bits in product(*[lists(len(box.outs)) for box in self.boxes]):
            yield bits, self.filled(fixed({box.path: outs for box, outs in zip(self.boxes, bits)}))

    def readers(self):
        """For each box, and for each box before it, the first of its input pins that have the bits
        of each input and of each output pin of that one, at all vectors and whatever the boxes
        give; nothing where one has no such pin, or two boxes have one content."""
        if len(self.kinds) < len(self.boxes):
            return None
        seen = [([], []) for _ in self.boxes]
        for bits, world in self.worlds():
            for (ins, outs), box, given in zip(seen, self.boxes, bits):
                ins.append([world.bit(key).one for key in box.ins])
                outs.append([world.constant(bit).one for bit in given])
        pins = [(list(zip(*ins)), list(zip(*outs))) for ins, outs in seen]
        if any(pin not in own for at, (own, _) in enumerate(pins) for side in pins[:at]
               for pin in side[0] + side[1]):
            return None
        return [[tuple([own.index(pin) for pin in ends] for ends in side) for side in pins[:at]]
                for at, (own, _) in enumerate(pins)]

    # The checks: each tells its result, and what it shows of a mistake.

    def ternary(self, drawn, seed):
        wrong = self.wrong(self.filled(unknown))
        hits = ((vector, place) for vector in patterns(len(self.names), drawn, seed)
                for place, mask in enumerate(wrong) if mask >> vector & 1)
        vector, place = next(hits, (None, None))
        return ("none", []) if vector is None else ("error", self.shown(place, vector))

    def symbolic(self):
        return self.first(self.wrong(self.filled(unknown)))

    def local(self):
        return self.first([reduce(int.__and__, masks)
                           for masks in zip(*[wrong for wrong, _ in self.free.values()])])

    def output(self):
        mask = reduce(int.__and__,
                      [reduce(int.__or__, wrong, 0) for wrong, _ in self.free.values()])
        return ("error", self.shown(None, lowest(mask))) if mask else ("none", [])

    def first(self, masks):
        """The first output that is wrong at some vector, and for it the first vector."""
        hits = [(place, lowest(mask)) for place, mask in enumerate(masks) if mask]
        return ("error", self.shown(*hits[0])) if hits else ("none", [])

    def shown(self, place, vector):
        names = [" ".join(self.outputs[place])] if place is not None else []
        bits = [f"{name[1]}={self.vector[name].one >> vector & 1}" for name in self.names]
        return [*names, " ".join(["input", *bits])]

    def choices(self):
        """One box, or boxes of which each sees all pins of those before it, are filled with the
        least outputs for each row behind what the row says of the others; else it is only told that
        there are no choices."""
        if not self.has_choices([]):
            return "error", []
        readers = self.readers()
        if readers is None:
            return "none", []
        return "repair", self.table_lines({box.path: [self.least(box, row, seen)
                                                      for row in lists(len(box.ins))]
                                           for box, seen in zip(self.boxes, readers)})

    def has_choices(self, chosen):
        """Whether outputs can be chosen for each row of the next box, then of the one behind it, so
        that every vector is right that leads to the rows chosen from."""
        if len(chosen) == len(self.boxes):
            wrong, rows = self.free[tuple(outs for _, outs in chosen)]
            led = reduce(int.__and__, [read[row] for read, (row, _) in zip(rows, chosen)], -1)
            return not any(mask & led for mask in wrong)
        box = self.boxes[len(chosen)]
        return all(any(self.has_choices([*chosen, (row, outs)]) for outs in lists(len(box.outs)))
                   for row in lists(len(box.ins)))

    def least(self, box, row, seen):
        chosen = [tuple(tuple(row[pin] for pin in ends) for ends in side) for side in seen]
        found = (outs for outs in lists(len(box.outs)) if self.has_choices([*chosen, (row, outs)]))
        return next(found, (False,) * len(box.outs))

    def expand(self):
        """The first contents that agree, in the order in which they are tried; others may agree
        too."""
        found = next(self.completions(), None)
        return ("error", []) if found is None else ("repair", self.table_lines(found))

    # Contents: for the path of each box its rows, each with a bit for each output pin.

    def completions(self):
        """All contents with which the two agree at every vector."""
        bits = sum(len(box.outs) * 2 ** len(box.ins) for box in self.kinds.values())
        if bits > MOST_CONTENTS:
            raise Fault(f"the contents of the boxes have {bits} bits, and no more than "
                        f"{MOST_CONTENTS} are tried")
        rows = [product(lists(len(box.outs)), repeat=2 ** len(box.ins))
                for box in self.kinds.values()]
        for contents in product(*rows):
            filled = self.spread(dict(zip(self.kinds, contents)))
            if self.difference(filled) is None:
                yield filled

    def spread(self, contents):
        """Contents by their keys, for each box."""
        return {box.path: contents[self.keys[box.path]] for box in self.boxes}

    def difference(self, contents):
        """What shows that contents do not agree: the first output that is wrong, and for it the
        first vector."""
        return self.first(self.wrong(self.filled(by_rows(contents))))[1] or None

    def table_lines(self, contents):
        return [f"table {key} {pin} {''.join(str(int(row[place])) for row in contents[box.path])}"
                for key, box in self.kinds.items() for place, pin in enumerate(box.pins)]

    def contents_in(self, found):
        """The contents of tables by the keys of their boxes, or None where they are not those of
        these boxes."""
        shape = {key: [(pin, 2 ** len(box.ins)) for pin in box.pins]
                 for key, box in self.kinds.items() if box.pins}
        if {path: [(pin, len(bits)) for pin, bits in lines]
                for path, lines in found.items()} != shape:
            return None
        bits = {key: [line for _, line in found.get(key, [])] for key in self.kinds}
        return self.spread({key: [tuple(line[row] == "1" for line in bits[key])
                                  for row in range(2 ** len(box.ins))]
                            for key, box in self.kinds.items()})


def patterns(count, drawn, seed):
    """The vectors of the first check, as numbers: all 0, all 1, each input alone 1, each alone 0,
    and those that are drawn bit by bit as the highest bits of Marsaglia's shift register of 64
    bits, with the shifts 13, 7 and 17."""
    every, alone = 2 ** count - 1, [1 << place for place in reversed(range(count))]
    found, state = [0, every, *alone, *[every & ~one for one in alone]], seed
    for _ in range(drawn):
        vector = 0
        for _ in range(count):
            state ^= state << 13 & 2 ** 64 - 1
            state ^= state >> 7
            state ^= state << 17 & 2 ** 64 - 1
            vector = vector << 1 | state >> 63
        found.append(vector)
    return found


CHECKS = ("ternary", "symbolic", "local", "output", "input", "expand")


def climb(pair, first="ternary", last="expand", go_on=False, drawn=32, seed=1, unfinished=None):
    """The lines of a report: the checks from the first to the last, up to tables, and up to a
    mistake unless they go on behind one. Checks that were left unfinished have the result that is
    given for them."""
    checks = {"ternary": lambda: pair.ternary(drawn, seed), "symbolic": pair.symbolic, "local":
              pair.local, "output": pair.output, "input": pair.choices, "expand": pair.expand}
    lines, results = [], []
    for name in CHECKS[CHECKS.index(first):CHECKS.index(last) + 1]:
        result, shown = (unfinished[name],
                         []) if unfinished and name in unfinished else checks[name]()
        lines += [f"rung {name} {result}", *shown]
        results.append(result)
        if result == "repair" or result == "error" and not go_on:
            break
    verdict = "error" if "error" in results else "repairable" if "repair" in results else "open"
    return [*lines, f"verdict {verdict}"]


def pair_of(spec, imp, shared=False, care=None):
    """The pair of two designs, each as modules by name and the top; boxes of one module may share
    their contents, and an output of the specification may say where the two have to agree."""
    return Pair(Design(*spec), Design(*imp), shared, care)
