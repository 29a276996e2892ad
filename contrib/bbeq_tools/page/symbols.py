"""The symbols of gates (IEEE 91, the distinctive shapes), in SVG. Each fills a given width and
height, with its inputs on the left and its output in the middle of the right side."""
from typing import Callable, Dict

from bbeq_tools.page.markup import Markup, element, joined

ROUND = 3.0  # The radius of the circle of an inversion.


def path(*words: object, **attributes: str) -> Markup:
    shown = " ".join(f"{word:.4g}" if isinstance(word, float) else str(word) for word in words)
    return element("path", d=shown, **attributes)


def conjunction(width: float, height: float) -> Markup:
    straight = width * 0.45
    return path("M", 0.0, 0.0, "H", straight, "C", width * 1.18, 0.0, width * 1.18, height,
                straight, height, "H", 0.0, "Z")


def disjunction(width: float, height: float, start: float = 0.0) -> Markup:
    half, third = height / 2, width * 0.35
    return path("M", start, 0.0, "H", third, "C", width * 0.7, 0.0, width * 0.9, half * 0.5, width,
                half, "C", width * 0.9, half * 1.5, width * 0.7, height, third, height, "H", start,
                "Q", start + width * 0.22, half, start, 0.0, "Z")


def exclusive(width: float, height: float) -> Markup:
    gap = 5.0
    back = path("M", 0.0, 0.0, "Q", width * 0.22, height / 2, 0.0, height, class_="line")
    return joined([disjunction(width, height, gap), back])


def follower(width: float, height: float) -> Markup:
    top = height / 2 - 9
    return path("M", 0.0, top, "L", width, height / 2, "L", 0.0, height - top, "Z")


def selector(width: float, height: float) -> Markup:
    slope = min(8.0, height / 5)
    return path("M", 6.0, 0.0, "L", width - 6, slope, "V", height - slope, "L", 6.0, height, "Z")


SHAPES: Dict[str, Callable[[float, float], Markup]] = {
    "and": conjunction, "or": disjunction, "xor": exclusive, "buf": follower, "mux": selector}
# How far the body of a symbol is from its left side where a wire meets it.
INSETS: Dict[str, float] = {"or": 5.0, "xor": 5.0, "mux": 6.0}
NAMES = {"and": "and", "or": "or", "xor": "exclusive or", "buf": "buffer", "mux": "choice"}


def symbol(kind: str, inverts: bool, width: float, height: float) -> Markup:
    """A gate; one that inverts has a circle at its output."""
    body = SHAPES[kind](width - 2 * ROUND if inverts else width, height)
    if not inverts:
        return body
    return joined([body, element("circle", cx=width - ROUND, cy=height / 2, r=ROUND)])


def name_of(kind: str, inverts: bool) -> str:
    if inverts:
        return {"and": "nand", "or": "nor", "xor": "exclusive nor", "buf": "not"}.get(
            kind, f"inverted {NAMES[kind]}")
    return NAMES[kind]
