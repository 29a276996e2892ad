"""Short expressions for the outputs of a box: a minimal sum of products or its complement, what an
exclusive or takes out of it, or a choice by one pin where that is shorter. The rows are those of a
table, the first pin most significant; `-` is a row that never comes."""
from typing import Iterator, List, Sequence

from bbeq_tools.report.products import least_sum, sum_text

MOST_CHOSEN = 6  # Pins up to which choices are tried.


def sum_of_products(names: Sequence[str], bits: str) -> str:
    terms = sum_text(names, least_sum(len(names), bits))
    return " | ".join(f"({term})" if " " in term and len(terms) > 1 else term for term in terms)


def complement(bits: str) -> str:
    return bits.translate(str.maketrans("01", "10"))


def halves(bits: str, place: int, pins: int) -> tuple:
    """The rows in which the pin at a place is 0, and those in which it is 1."""
    digit = pins - 1 - place
    return tuple("".join(bit for row, bit in enumerate(bits) if row >> digit & 1 == value)
                 for value in (0, 1))


def expression(names: List[str], bits: str) -> str:
    """The shortest expression of those that are tried."""
    pins = len(names)
    for place in range(pins) if pins > 1 and "-" not in bits else ():
        low, high = halves(bits, place, pins)
        if high == complement(low) and len(set(low)) > 1:
            rest = expression(names[:place] + names[place + 1:], low)
            return f"{names[place]} ^ {bracketed(rest)}"
    found = [sum_of_products(names, bits)]
    inverse = sum_of_products(names, complement(bits))
    if " " in found[0] and " " in inverse:
        found.append(f"~({inverse})")
    if 2 < pins <= MOST_CHOSEN and length(found[0]) > 3:
        found += choices(names, bits)
    return min(found, key=lambda text: (length(text), len(text)))


def choices(names: List[str], bits: str) -> Iterator[str]:
    """A choice by each pin between what is left with it at 1 and at 0."""
    for place, name in enumerate(names):
        others = names[:place] + names[place + 1:]
        low, high = (sum_of_products(others, half) for half in halves(bits, place, len(names)))
        yield f"{name} ? {bracketed(high)} : {bracketed(low)}"


def length(text: str) -> int:
    """How many operands an expression has."""
    return sum(part not in ("&", "|", "^", "?", ":") for part in text.split())


def bracketed(text: str) -> str:
    return f"({text})" if " " in text and set(text) & set("&|?") else text
