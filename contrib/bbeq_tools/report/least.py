"""What is left of a list when as much as possible is left out."""
from typing import Callable, List, TypeVar

Item = TypeVar("Item")


def least(kept: List[Item], holds: Callable[[List[Item]], bool]) -> List[Item]:
    """Leaves out parts, ever smaller ones, as long as it holds of the rest, which is not empty."""
    size = len(kept)
    while size > 1:
        size, place = (size + 1) // 2, 0
        while place < len(kept):
            rest = kept[:place] + kept[place + size:]
            if rest and holds(rest):
                kept = rest
            else:
                place += size
    return kept
