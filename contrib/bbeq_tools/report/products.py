"""A table as a sum of products, by the method of Quine and McCluskey: all prime implicants, then
as few of them as cover the rows that are 1 (McCluskey 1956; Knuth 7.1.1). A row that no vector
brings may be either."""
from functools import reduce
from typing import Dict, List, NamedTuple, Sequence, Set, Tuple

Cube = Tuple[int, int]  # The digits that count, and what they are.
MOST_PINS = 10  # A sum of products of more takes long to find, and to read.
MOST_STEPS = 1_000  # Of the search for the fewest products.
FEW_CUBES, MOST_PAIRS = 400, 10_000_000  # Of cubes that are compared with each other.


class Sum(NamedTuple):
    """The products of a sum, and whether it is known that no sum has fewer."""

    cubes: List[Cube]
    is_least: bool


def primes(width: int, rows: Set[int]) -> List[Cube]:
    """The prime implicants of a function that is 1, or may be, in these rows."""
    found: List[Cube] = []
    level: Dict[int, Set[int]] = {(1 << width) - 1: rows}
    while level:
        following: Dict[int, Set[int]] = {}
        for care, values in level.items():
            merged: Set[int] = set()
            for place in range(width):
                digit = 1 << place
                if care & digit:
                    pairs = {value for value in values
                             if not value & digit and value | digit in values}
                    if pairs:
                        following.setdefault(care & ~digit, set()).update(pairs)
                        merged |= pairs
                        merged.update(value | digit for value in pairs)
            found += [(care, value) for value in values - merged]
        level = following
    return found


def covers(cube: Cube, row: int) -> bool:
    return row & cube[0] == cube[1]


class Search:
    """The fewest of some cubes that cover all rows; each cube is a number with a digit for each
    row. Ends at the best that it has found where it takes too many steps."""

    def __init__(self, masks: List[int], costs: List[int]) -> None:
        self.masks, self.costs, self.steps = masks, costs, 0
        self.pairs = MOST_PAIRS
        self.best: List[int] = []
        self.price = (len(masks) + 1, 0)

    def price_of(self, taken: List[int]) -> Tuple[int, int]:
        return len(taken), sum(self.costs[cube] for cube in taken)

    def run(self, left: int, taken: List[int], usable: List[int]) -> None:
        """Covers what is left: by what alone covers some row, and then by each choice for the row
        that the fewest cubes cover."""
        self.steps += 1
        while left:
            if len(taken) + 1 > self.price[0] or self.steps > MOST_STEPS and self.best:
                return
            usable = self.undominated([cube for cube in usable if self.masks[cube] & left], left)
            single = single_rows([self.masks[cube] & left for cube in usable])
            needed = [cube for cube in usable if self.masks[cube] & single]
            if not needed:
                self.branch(left, taken, usable)
                return
            taken = [*taken, *needed]
            left &= ~reduce(lambda mask, cube: mask | self.masks[cube], needed, 0)
        if self.price_of(taken) < self.price:
            self.best, self.price = taken, self.price_of(taken)

    def undominated(self, usable: List[int], left: int) -> List[int]:
        """Compares many cubes only a few times, since each is compared with each."""
        if len(usable) > FEW_CUBES:
            if self.pairs < len(usable) ** 2:
                return usable
            self.pairs -= len(usable) ** 2
        return undominated(usable, self.masks, self.costs, left)

    def branch(self, left: int, taken: List[int], usable: List[int]) -> None:
        row = scarcest([self.masks[cube] & left for cube in usable], left)
        choices = [cube for cube in usable if self.masks[cube] & row]
        choices.sort(key=lambda cube: (-bin(self.masks[cube] & left).count("1"), self.costs[cube]))
        for cube in choices:
            self.run(left & ~self.masks[cube], [*taken, cube], usable)


def single_rows(masks: List[int]) -> int:
    """The rows that one cube alone covers."""
    several = some = 0
    for mask in masks:
        several, some = several | some & mask, some | mask
    return some & ~several


def scarcest(masks: List[int], left: int) -> int:
    """The digit of a row that the fewest of the cubes cover. All rows are counted at once: a number
    of `planes` has a digit of each row's count."""
    planes: List[int] = []
    for mask in masks:
        at = 0
        while mask:
            if at == len(planes):
                planes.append(0)
            planes[at], mask, at = planes[at] ^ mask, planes[at] & mask, at + 1
    for plane in reversed(planes):
        left = left & ~plane or left
    return left & -left


def undominated(usable: List[int], masks: List[int], costs: List[int], left: int) -> List[int]:
    """The cubes without those that another covers at no greater cost."""
    order = sorted(usable, key=lambda cube: (-bin(masks[cube] & left).count("1"), costs[cube]))
    kept: List[int] = []
    for cube in order:
        mask = masks[cube] & left
        if not any(mask & ~masks[other] == 0 and costs[other] <= costs[cube] for other in kept):
            kept.append(cube)
    return kept


def least_sum(width: int, bits: Sequence[str]) -> Sum:
    """A sum of products with as few products as the search finds, and of these few literals; `-` is
    a row that may be either."""
    ones = [row for row, bit in enumerate(bits) if bit == "1"]
    found = primes(width, {row for row, bit in enumerate(bits) if bit != "0"})
    place = {row: 1 << at for at, row in enumerate(ones)}
    masks = [reduce(lambda mask, row: mask | place.get(row, 0), rows_of(width, cube), 0)
             for cube in found]
    search = Search(masks, [bin(care).count("1") for care, _ in found])
    search.run((1 << len(ones)) - 1, [], [at for at, mask in enumerate(masks) if mask])
    cubes = sorted((found[at] for at in search.best), key=lambda cube: (-cube[1], -cube[0]))
    return Sum(cubes, search.steps <= MOST_STEPS)


def rows_of(width: int, cube: Cube) -> List[int]:
    """The rows of a cube."""
    care, value = cube
    rows = [value]
    for place in range(width):
        if not care >> place & 1:
            rows += [row | 1 << place for row in rows]
    return rows


def product_text(names: Sequence[str], cube: Cube) -> str:
    """A product as Verilog; the first name is the most significant digit."""
    care, value = cube
    shown = []
    for at, name in enumerate(names):
        place = len(names) - 1 - at
        if care >> place & 1:
            shown.append(name if value >> place & 1 else f"~{name}")
    return " & ".join(shown) or "1'b1"


def sum_text(names: Sequence[str], found: Sum) -> List[str]:
    """The products of a sum as Verilog; a table without a 1 is the constant 0."""
    return [product_text(names, cube) for cube in found.cubes] or ["1'b0"]
