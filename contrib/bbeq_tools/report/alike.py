"""What boxes see at some vectors, which of their outputs are right there, and which pins they
lack."""
from typing import NamedTuple

from bbeq_tools.reference.truths import unknown
from bbeq_tools.report.buses import shown
from bbeq_tools.report.least import least
from bbeq_tools.report.possible import MOST_PINS, TooMany, all_of, numbers_in, spread
from bbeq_tools.verilog.language import bit_text
from bbeq_tools.verilog.world import World

MOST_SHOWN, MOST_NAMED = 8, 8
DIGITS = {(1, 0): "1", (0, 1): "0", (0, 0): "x"}


class Sight(NamedTuple):
    """A vector: for each box that counts the bits of its input pins by their texts, `x` where they
    depend on boxes; the values of the output pins that count that are right, or None where there
    are too many to try; and the outputs that some values make wrong."""

    rows: dict
    right: list
    forced: list


def sight(possible, kept, vector):
    world = World(possible.imp, {name: spread(bit, 1) for name, bit in vector.items()}, unknown)
    rows = {box.path: {bit_text(*key[1:]): DIGITS[world.bit(key)[:2]] for key in box.ins}
            for box in possible.boxes(kept)}
    pins = possible.pins(kept)
    if len(pins) > MOST_PINS:
        return Sight(rows, None, kept)
    right, _ = possible.tried(kept, pins, vector)
    every = (1 << (1 << len(pins))) - 1
    values = [tuple(int(digit) for digit in f"{number:0{len(pins)}b}") if pins else ()
              for number in numbers_in(every & all_of(right.values()))]
    return Sight(rows, values, [name for name, mask in right.items() if mask != every])


def pin_texts(possible, kept):
    """The output pins that count, behind the path of their box where there are several boxes."""
    texts = {box.path: box.pins for box in possible.boxes(kept)}
    return [f"{path}.{texts[path][at]}" if len(texts) > 1 else texts[path][at]
            for path, at in possible.pins(kept)]


def told_answers(pins, right):
    """What the boxes must give, as a clause."""
    if right is None:
        return None
    if not right:
        return "can give nothing that is right"
    fixed = {pin: str(right[0][place]) for place, pin in enumerate(pins)
             if len({value[place] for value in right}) == 1}
    free = [place for place, pin in enumerate(pins) if pin not in fixed]
    parts = [shown(fixed)] if fixed else []
    if free and len(right) < 2 ** len(free):
        ways = [shown({pins[place]: str(value[place]) for place in free}) for value in right]
        parts.append("one of " + "; ".join(dict.fromkeys(ways[:MOST_SHOWN]))
                     + ("; .." if len(ways) > MOST_SHOWN else ""))
    return "must give " + ", and ".join(parts) if parts else "may give anything"


# What boxes lack.

def remedies(possible, kept, vectors, sights):
    """Lines that name pins with which some contents are right at all of the vectors, or why there
    are none."""
    boxes = possible.boxes(kept)
    if not boxes:
        return ["no pin helps: the wrong outputs do not depend on a box"]
    if not possible.can_try(kept):
        return differing(boxes, sights, vectors) or [
            f"no pin is named: an output depends on more than {MOST_PINS} output pins of boxes, "
            "too many to try"]
    try:
        for number, vector in enumerate(vectors, 1):
            if not possible.fits(kept, [vector]):
                return [f"no pin helps: at vector {number} the boxes can give nothing that is "
                        "right"]
        return single(possible, kept, vectors) or several(possible, kept, vectors)
    except TooMany:
        return differing(boxes, sights, vectors) or [
            "no pin is named: there are too many contents to try at these vectors"]


def patterns(vectors):
    """The inputs and registers that differ among the vectors; those of a list differ alike."""
    found = {}
    for name in vectors[0]:
        differs = tuple(vector[name] != vectors[0][name] for vector in vectors)
        if any(differs):
            found.setdefault(differs, []).append(name)
    return list(found.values())


def single(possible, kept, vectors):
    """Lines of the boxes that need one pin more."""
    lines = []
    for box in possible.boxes(kept):
        names = [name for group in patterns(vectors)
                 if possible.fits(kept, vectors, [(box.path, group[0])]) for name in group]
        if names:
            lines.append(f"give {box.path} a pin on {listed(names)}: then some contents are right "
                         "at all of these vectors")
    return lines


def several(possible, kept, vectors):
    """A line of pins that are needed together."""
    groups = {group[0]: group for group in patterns(vectors)}
    pins = least([(box.path, name) for box in possible.boxes(kept) for name in groups],
                 lambda left: possible.fits(kept, vectors, left))
    if not possible.fits(kept, vectors, pins):
        return ["no pin is named: boxes of one module would need pins of their own"]
    wanted = {}
    for path, name in pins:
        wanted.setdefault(path, []).append(groups[name])
    parts = [" and ".join(f"a pin on {listed(group)}" for group in own) for own in wanted.values()]
    return ["give " + ", and ".join(f"{path} {part}" for path, part in zip(wanted, parts))
            + ": then some contents are right at all of these vectors"]


def differing(boxes, sights, vectors):
    """Lines of the inputs and registers that differ among vectors at which a box sees the same
    pins."""
    lines = []
    for box in boxes:
        rows = {}
        for seen, vector in zip(sights, vectors):
            row = "".join(seen.rows[box.path].values())
            if "x" not in row:
                rows.setdefault(row, []).append(vector)
        names = [name for group in rows.values() for name in group[0]
                 if len({vector[name] for vector in group}) > 1]
        if names:
            lines.append(f"give {box.path} a pin on {listed(list(dict.fromkeys(names)))}, which is "
                         "different at vectors at which it sees the same")
    return lines


def listed(names):
    texts = [text for _, text in names[:MOST_NAMED]]
    if len(names) > MOST_NAMED:
        texts.append("..")
    return texts[0] if len(texts) == 1 else f"{', '.join(texts[:-1])} or {texts[-1]}"
