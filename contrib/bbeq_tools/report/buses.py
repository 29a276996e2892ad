"""Bits of ports and registers as buses, in hexadecimal."""
import re
from typing import Dict, Iterable, Iterator, List, Mapping, Tuple


def buses(bits: Mapping[str, str], fewest: int = 2) -> Iterator[Tuple[str, str]]:
    """Each bus of at least so many bits and its value, and the other bits, in the order of the
    first bits; `a[3:0]` has a[3] leftmost."""
    for name, texts in grouped(bits, fewest):
        digits = "".join(bits[text] for text in texts)
        yield name, hexadecimal(digits) if len(texts) > 1 else digits


def grouped(bits: Iterable[str], fewest: int = 2) -> Iterator[Tuple[str, List[str]]]:
    """Each bus with the texts of its bits, the leftmost first."""
    groups: Dict[str, Dict[int, str]] = {}
    for text in bits:
        part = re.fullmatch(r"(.+)\[(\d+)\]", text)
        name, place = (part[1], int(part[2])) if part else (text, -1)
        groups.setdefault(name, {})[place] = text
    for name, found in groups.items():
        if -1 in found:
            yield name, [found.pop(-1)]
        for high, low in runs(sorted(found, reverse=True)):
            texts = [found[place] for place in range(high, low - 1, -1)]
            if len(texts) < max(fewest, 2):
                yield from ((text, [text]) for text in texts)
            else:
                yield f"{name}[{high}:{low}]", texts


def runs(places: List[int]) -> Iterator[Tuple[int, int]]:
    """Places that follow each other, as their first and last."""
    start = 0
    for at in range(1, len(places) + 1):
        if at == len(places) or places[at] != places[at - 1] - 1:
            yield places[start], places[at - 1]
            start = at


def hexadecimal(digits: str) -> str:
    """Bits as hexadecimal digits; those of which some but not all are unknown stay bits."""
    known = set(digits) & {"0", "1"}
    if known and set(digits) - known:
        return f"b{digits}"
    width = -(-len(digits) // 4)
    return f"{int(digits, 2):0{width}x}" if known else digits[0] * width


def shown(bits: Mapping[str, str], fewest: int = 2) -> str:
    return " ".join(f"{name}={value}" for name, value in buses(bits, fewest))
