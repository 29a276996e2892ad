"""Which inputs and registers reach an output, in the specification and in the implementation."""
from typing import Any, Dict, List, Tuple

from bbeq_tools.page.sides import Item, Side
from bbeq_tools.verilog.flat import CONSTANTS, Cell


def reached(side: Side, place: Dict[str, int]) -> Dict[Item, int]:
    """For each output and next state the inputs and registers that have a path to it through gates
    and boxes, each a digit of a number."""
    masks: Dict[Any, int] = {}
    flat = side.flat
    for bit in flat.cone(side.values.values()):
        masks[bit] = (1 << place[flat.given[bit]] if bit in flat.given
                      else union(masks, flat.reads_of(bit)))
    return {item: union(masks, bits_of(side, value)) for item, value in side.values.items()}


def bits_of(side: Side, value: Any) -> List[Any]:
    if isinstance(value, Cell):
        return list(side.flat.reads(value))
    return [] if value in CONSTANTS else [value]


def union(masks: Dict[Any, int], bits: Any) -> int:
    mask = 0
    for bit in bits:
        mask |= masks[bit]
    return mask


def unreached(sides: List[Side]) -> List[Tuple[Item, List[str]]]:
    """The outputs that read an input or a register in the specification alone, with these."""
    names = sides[0].given()
    place = {name: at for at, name in enumerate(names)}
    spec, impl = (reached(side, place) for side in sides)
    found = []
    for item, mask in spec.items():
        left = mask & ~impl.get(item, mask)
        if left:
            found.append((item, [name for at, name in enumerate(names) if left >> at & 1]))
    return found
