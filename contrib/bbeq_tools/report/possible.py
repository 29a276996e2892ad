"""Whether some contents of the boxes are right at some vectors, by trial: at each vector all values
of the output pins that count for an output are tried at once, and what is right is joined by the
rows that the boxes read. Where an output depends on few pins this takes milliseconds, and a run of
the program reads both texts anew."""
import heapq
from collections import Counter

from bbeq_tools.verilog.bits import Bit
from bbeq_tools.verilog.world import World

MOST_PINS = 12  # Output pins whose values are tried at once.
MOST_JOINED = 200_000  # Partial tables that a join may look at.
MOST_KEPT = 1_000_000  # Partial tables of all relations that are remembered.
ANY = {(): {()}}  # The partial tables where nothing counts.


class TooMany(Exception):
    """There are more partial tables than are looked at."""


class Possible:
    """The boxes of an implementation at vectors, each a bit for each input and register. Pins are
    (path of a box, place), entries of tables (box, row, place); a relation has partial tables by
    their entries, each as the bits of these."""

    def __init__(self, designs, shared=False, care=()):
        self.spec, self.imp = designs
        self.made = [dict(design.outputs) for design in designs]
        self.care = list(care)
        self.keys = {box.path: box.module if shared else box.path for box in self.imp.boxes}
        self.ins = {box.path: box.ins for box in self.imp.boxes}
        # Here bits have the pins of which they are made, not by way of other boxes.
        self.world = World(self.imp, {name: Bit(0, 1) for name in self.imp.inputs}, own_pins,
                           has_numbers=False)
        self.relations, self.count, self.pins_of, self.groups_of = {}, 0, {}, {}

    def pins(self, outputs):
        """The output pins on which these depend, also by way of other boxes."""
        names = tuple(outputs)
        if names not in self.pins_of:
            left, found = set(), set()
            for name in names:
                left |= self.made[1][name](self.world).boxes
            while left:
                found |= left
                left = set().union(*(self.world.bit(key).boxes for path, _ in left
                                     for key in self.ins[path])) - found
            self.pins_of[names] = tuple((box.path, at) for box in self.imp.boxes
                                        for at in range(len(box.outs)) if (box.path, at) in found)
        return self.pins_of[names]

    def boxes(self, outputs):
        paths = {path for path, _ in self.pins(outputs)}
        return [box for box in self.imp.boxes if box.path in paths]

    def can_try(self, kept):
        return all(len(self.pins([name])) <= MOST_PINS for name in kept)

    def groups(self, kept):
        """The outputs that depend on the same pins or on some of these, as (outputs, pins)."""
        names = tuple(kept)
        if names not in self.groups_of:
            found = {}
            for name in sorted(names, key=lambda name: -len(self.pins([name]))):
                pins = self.pins([name])
                whole = pins if pins in found else next(
                    (more for more in found if set(pins) <= set(more)), pins)
                found.setdefault(whole, []).append(name)
            self.groups_of = {names: [(tuple(own), pins) for pins, own in found.items()]}
        return self.groups_of[names]

    def names(self, kept):
        """The inputs and registers on which these outputs and what boxes read for them depend."""
        given = {name: Bit(0, 1, frozenset([name])) for name in self.imp.inputs}
        worlds = [World(design, given, contents, has_numbers=False)
                  for design, contents in ((self.spec, None), (self.imp, no_pins))]
        found = set()
        for name in [*kept, *self.care]:
            for made, world in zip(self.made, worlds):
                found |= made[name](world).boxes if name in made else set()
        for path in {path for path, _ in self.pins(kept)}:
            for key in self.ins[path]:
                found |= worlds[1].bit(key).boxes
        return found

    def wanted(self, outputs, vector):
        """The bits of the specification; none where its care output is 0."""
        world = World(self.spec, {name: spread(bit, 1) for name, bit in vector.items()}, None,
                      has_numbers=False)
        if not all(self.made[0][name](world).one for name in self.care):
            return {}
        return {name: self.made[0][name](world).one for name in outputs}

    def tried(self, outputs, pins, vector):
        """At which values of the pins, numbered, each output is right, and for each box at which
        each of its input pins is 1."""
        every = (1 << (1 << len(pins))) - 1
        ones = {pin: column(place, len(pins)) for place, pin in enumerate(pins)}

        def contents(_, box):
            found = [ones.get((box.path, at)) for at in range(len(box.outs))]
            return [Bit(0, 0) if one is None else Bit(one, every & ~one) for one in found]

        world = World(self.imp, {name: spread(bit, every) for name, bit in vector.items()},
                      contents, has_numbers=False)
        world.every = every  # Also where there are no inputs.
        right = {}
        for name, bit in self.wanted(outputs, vector).items():
            made = self.made[1][name](world)
            right[name] = made.one if bit else made.zero
        return right, {path: [world.bit(key).one for key in self.ins[path]]
                       for path in dict.fromkeys(path for path, _ in pins)}

    def relation(self, outputs, pins, vector, more):
        """The partial tables that are right at a vector; `more` has the bits that boxes read
        besides their pins, by their paths."""
        right, rows = self.tried(outputs, pins, vector)
        if not right:
            return ANY
        # Other boxes of a module read zeros there.
        beside = {self.keys[path]: "0" * len(bits) for path, bits in more.items()}
        ends = {path: more.get(path, beside.get(self.keys[path], "")) for path in rows}
        found = {}
        for number in numbers_in(all_of(right.values())):
            entries = {}
            read = {path: "".join(str(mask >> number & 1) for mask in masks) + ends[path]
                    for path, masks in rows.items()}
            for place, (path, at) in enumerate(pins):
                bit = number >> len(pins) - 1 - place & 1
                if entries.setdefault((self.keys[path], read[path], at), bit) != bit:
                    break
            else:
                names = tuple(sorted(entries))
                found.setdefault(names, set()).add(tuple(entries[name] for name in names))
        return found

    def fits(self, kept, vectors, pins=()):
        """Whether some contents are right at all vectors; `pins` are inputs and registers that
        boxes read besides, as (path, name)."""
        found = []
        if self.count > MOST_KEPT:
            self.relations.clear()
            self.count = 0
        for vector in vectors:
            more = {}
            for path, name in pins:
                more[path] = more.get(path, "") + vector[name]
            key = "".join(vector.values()), tuple(sorted(more.items()))
            for outputs, own in self.groups(kept):
                if (outputs, key) not in self.relations:
                    made = self.relation(outputs, own, vector, more)
                    self.relations[outputs, key] = made
                    self.count += size(made)
                found.append(self.relations[outputs, key])
        return can_join(found)


def own_pins(_, box):
    return [Bit(0, 0, frozenset([(box.path, at)])) for at in range(len(box.outs))]


def no_pins(_, box):
    return [Bit(0, 0)] * len(box.outs)


def spread(digit, every):
    return Bit(every, 0) if digit == "1" else Bit(0, every)


def column(place, pins):
    """Of the numbers from 0 on those with a 1 at a place of their digits, the first of which is the
    most significant."""
    half = 1 << pins - 1 - place
    return ((1 << (1 << pins)) - 1) // ((1 << 2 * half) - 1) * (((1 << half) - 1) << half)


def all_of(masks):
    found = -1
    for mask in masks:
        found &= mask
    return found


def numbers_in(mask):
    return [at for at, digit in enumerate(reversed(bin(mask)[2:])) if digit == "1"]


# Relations.

def can_join(relations):
    """Whether partial tables, one of each, have the same bits where they have the same entries."""
    if not all(relations):
        return False
    count = Counter(entry for relation in relations for entry in entries_of(relation))
    left = [projected(relation, {entry for entry in entries_of(relation) if count[entry] > 1})
            for relation in relations]
    # Where the entries of a partial table may all be its own, nothing is asked for.
    return all(map(fits_together, connected([relation for relation in left if () not in relation])))


def entries_of(relation):
    return set().union(*relation)


def size(relation):
    return sum(map(len, relation.values()))


def projected(relation, entries):
    """The partial tables without other entries."""
    found = {}
    for names, rows in relation.items():
        places = [at for at, name in enumerate(names) if name in entries]
        own = found.setdefault(tuple(names[at] for at in places), set())
        own.update(tuple(row[at] for at in places) for row in rows)
    return found


def connected(relations):
    """Lists of those that share entries, each behind one with which it shares some; small ones
    first."""
    entries, users = [entries_of(relation) for relation in relations], {}
    for at, own in enumerate(entries):
        for entry in own:
            users.setdefault(entry, []).append(at)
    met = set()
    for start in sorted(range(len(relations)), key=lambda at: size(relations[at])):
        part, waiting = [], [] if start in met else [(0, start)]
        while waiting:
            _, at = heapq.heappop(waiting)
            if at in met:
                continue
            met.add(at)
            part.append(relations[at])
            for entry in entries[at]:
                for other in users.pop(entry, ()):
                    heapq.heappush(waiting, (size(relations[other]), other))
        if part:
            yield part


def fits_together(part):
    """Whether relations can be joined, one after another."""
    entries, found = [entries_of(relation) for relation in part], part[0]
    last = {entry: at for at, own in enumerate(entries) for entry in own}
    for at, relation in enumerate(part[1:], 1):
        found = joined(found, relation, {entry for entry, end in last.items() if end > at})
        if not found:
            return False
    return True


def joined(left, right, later):
    """The partial tables with those of both relations, of the entries that count later."""
    found, looked = {}, 0
    for names, rows in left.items():
        for others, more in right.items():
            both = [name for name in names if name in others]
            of_left, of_right = ([own.index(name) for name in both] for own in (names, others))
            beside = {}
            for row in more:
                beside.setdefault(tuple(row[at] for at in of_right), []).append(row)
            all_names = names + tuple(name for name in others if name not in names)
            picked = sorted((name, at) for at, name in enumerate(all_names) if name in later)
            added = [at for at, name in enumerate(others) if name not in names]
            own = found.setdefault(tuple(name for name, _ in picked), set())
            for row in rows:
                for other in beside.get(tuple(row[at] for at in of_left), ()):
                    whole = row + tuple(other[at] for at in added)
                    own.add(tuple(whole[at] for _, at in picked))
                    looked += 1
                    if looked > MOST_JOINED:
                        raise TooMany
    return {names: rows for names, rows in found.items() if rows}
