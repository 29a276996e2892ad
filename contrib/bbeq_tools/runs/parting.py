"""The independent parts of a pair: which outputs and next states have to be compared together, and
what each part reads.

Two belong together where some box has a path to both in the implementation, through gates and other
boxes but through no register, and those that belong to a third do too. Those that no box feeds can
stand anywhere."""
from math import log2

from bbeq_tools.cli import Fault
from bbeq_tools.verilog.flat import Box, Cell, Flat
from bbeq_tools.verilog.part_text import PartText

MOST_FREE = 64  # Outputs that no box feeds and that read the same inputs, in a part.


class Classes:
    """Sets that are joined: each member leads to the first of its set."""

    def __init__(self):
        self.above = {}

    def first(self, member):
        while (above := self.above.setdefault(member, member)) is not member:
            self.above[member] = member = self.above[above]
        return member

    def join(self, members):
        """Joins the sets of some members, and says which."""
        firsts = [self.first(member) for member in members]
        for other in firsts[1:]:
            self.above[self.first(other)] = self.first(firsts[0])
        return firsts[0] if firsts else None


class Pair:
    """A specification and an implementation that fit, and what is compared of them: pairs of a
    kind, `output` or `next`, and a text. An output that is a register is left out, since the
    register is one in both."""

    def __init__(self, specification, implementation, tops, care=None):
        self.spec, self.imp = Flat(specification, tops[0]), Flat(implementation, tops[1])
        self.care = [("output", care)] if care else []
        self.items = [("output", text) for text, bit in self.spec.outputs.items()
                      if bit not in self.spec.stored and text != care]
        self.items += [("next", text) for text in self.spec.states]
        self.order = [*self.spec.inputs, *self.spec.states]

    def boxes_in_order(self):
        """The boxes, each behind those whose outputs it reads; of those that may stand next, the
        first one of the text."""
        imp, left, placed, done = self.imp, list(self.imp.boxes), [], 0
        place, masks = {box: 1 << at for at, box in enumerate(left)}, {}
        reads = {box: [end for part in box.parts if isinstance(end := imp.end(part), tuple)]
                 for box in left}
        for bit in imp.cone([bit for bits in reads.values() for bit in bits]):
            driver = imp.sources.get(bit)
            masks[bit] = (place[driver] if isinstance(driver, Box) else 0 if bit in imp.given
                          else joined(masks, imp.reads_of(bit)))
        needs = {box: joined(masks, bits) for box, bits in reads.items()}
        while left:
            box = next(box for box in left if not needs[box] & ~done)
            left.remove(box)
            placed.append(box)
            done |= place[box]
        return placed

    def fed_classes(self):
        """The outputs that boxes feed, by the class that each is in, and the classes."""
        imp, classes = self.imp, Classes()
        values = {item: imp.value_of(*item) for item in self.items}
        fed = set()
        for bit in imp.cone(values.values()):
            driver = imp.sources.get(bit)
            if bit not in imp.given:
                below = [read for read in imp.reads_of(bit)
                         if read in fed] + [driver] * isinstance(driver, Box)
                if below:
                    fed.add(bit)
                    classes.join([bit, *below])
        found = {}
        for item, value in values.items():
            below = [read for read in ends(imp, value) if read in fed]
            if below:
                found[item] = classes.join(below)
        return {item: classes.first(first) for item, first in found.items()}, classes

    def parts(self, most=None, shared=False):
        """The items of each part, in their order."""
        fed, classes = self.fed_classes()
        if shared:
            modules = {}
            for box in self.imp.boxes:
                if box in classes.above:
                    modules.setdefault(box.module.name, []).append(box)
            for boxes in modules.values():
                classes.join(boxes)
        found = {}
        for item, first in fed.items():
            found.setdefault(classes.first(first), []).append(item)
        return list(found.values()) + self.free_parts([item for item in self.items
                                                       if item not in fed], most)

    def free_parts(self, items, most):
        """The outputs that no box feeds: so many together, or those that read the same inputs."""
        groups = {None: items}
        if most is None:
            masks = [self.supports(flat, items) for flat in (self.spec, self.imp)]
            groups = {}
            for item in items:
                groups.setdefault(masks[0][item] | masks[1][item], []).append(item)
        most = most or MOST_FREE
        return [group[at:at + most] for group in groups.values()
                for at in range(0, len(group), most)]

    def supports(self, flat, items):
        """For each item the inputs and registers that it reads, as the digits of a number."""
        place = {text: 1 << at for at, text in enumerate(self.order)}
        values, masks = {item: flat.value_of(*item) for item in items}, {}
        for bit in flat.cone(values.values()):
            masks[bit] = place[flat.given[bit]] if bit in flat.given else joined(masks,
                                                                                 flat.reads_of(bit))
        return {item: joined(masks, ends(flat, value)) for item, value in values.items()}

    def part(self, kept):
        return Part(self, kept)


class Part:
    """A part: its two texts, and its numbers."""

    def __init__(self, pair, kept):
        self.kept, cones, states = kept, [], {text for kind, text in kept if kind == "next"}
        read = set(states)
        for flat, items in ((pair.spec, kept + pair.care), (pair.imp, kept)):
            clocks = [flat.clock_of(flat.states[text]) for text in states]
            cones.append(flat.cone([flat.value_of(*item) for item in items] + clocks))
            read |= {flat.given[bit] for bit in cones[-1] if bit in flat.given}
        inputs = [text for text in pair.order if text in read and text not in states]
        self.spec, self.imp = PartText(pair.spec, kept + pair.care, inputs,
                                       cones[0]), PartText(pair.imp, kept, inputs, cones[1])
        self.inputs = len(read)
        self.cells, clauses = self.imp.counts(self.inputs)
        self.log2 = self.inputs + log2(clauses)
        self.boxes = [box.path for box in self.imp.boxes]


def ends(flat, value):
    """The bits that the value of an output or of a next state is made from."""
    return flat.reads(value) if isinstance(value, Cell) else [value] if isinstance(value,
                                                                                   tuple) else []


def joined(masks, bits):
    mask = 0
    for bit in bits:
        mask |= masks[bit]
    return mask


def pair_of(specification, implementation, tops, care=None):
    pair = Pair(specification, implementation, tops, care)
    if care and (care not in pair.spec.outputs or care in pair.imp.outputs):
        raise Fault(f"{care} is no output of the specification alone")
    return pair
