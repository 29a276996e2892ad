"""HTML that cannot be broken by a name: what is put into an element is escaped, but for what an
element was made of already."""
import html
import re
from typing import Iterable, Union

VOID = frozenset(("meta", "br", "path", "line", "rect", "circle", "polygon", "polyline"))
# Bytes that HTML does not take, and those that would change how a line is shown.
UNSEEN = re.compile("[\0-\x08\x0b-\x1f\x7f-\x9f\xad\u200b-\u200f\u2028-\u202e\u2066-\u2069"
                    "\ud800-\udfff\ufeff\ufffe\uffff]")


class Markup(str):
    """Text that is HTML already."""


Child = Union[str, int, Markup]


def visible(text: str) -> str:
    """A text with its control characters spelt out, as `\\x1b`."""
    return UNSEEN.sub(lambda found: found.group().encode("unicode_escape",
                                                         "surrogatepass").decode(), text)


def escaped(child: Child) -> Markup:
    if isinstance(child, Markup):
        return child
    return Markup(html.escape(visible(str(child))))


def joined(children: Iterable[Child], between: str = "") -> Markup:
    return Markup(between.join(map(escaped, children)))


def element(tag: str, *children: Child, **attributes: Union[Child, float, bool, None]) -> Markup:
    """An element; `class_` is the attribute `class`, `_` in other names is `-`, and an attribute
    that is None or False is left out."""
    words = [tag]
    for name, value in attributes.items():
        if value is True:
            words.append(name)
        elif value is not None and value is not False:
            shown = f"{value:.4g}" if isinstance(value, float) else value
            words.append(f'{name.rstrip("_").replace("_", "-")}="{escaped(shown)}"')
    start = f"<{' '.join(words)}>"
    if tag in VOID:
        return Markup(start if tag in ("meta", "br") else f"{start[:-1]}/>")
    return Markup(f"{start}{joined(children)}</{tag}>")


def code(text: Child) -> Markup:
    return element("code", text)


def paragraph(*children: Child, class_: Union[str, None] = None) -> Markup:
    return element("p", *children, class_=class_)


def listed(items: Iterable[Child], tag: str = "ul") -> Markup:
    return element(tag, *(element("li", item) for item in items))


def folded(summary: Child, *children: Child, is_open: bool = False,
           id_: Union[str, None] = None) -> Markup:
    """What folds, with the line that stays."""
    return element("details", element("summary", summary), *children, open=is_open, id=id_)


def section(title: Child, *children: Child, id_: Union[str, None] = None) -> Markup:
    return element("section", element("h2", title), *children, id=id_)


def counted(number: int, noun: str, plural: str = "") -> str:
    """A number and its noun: `1 box`, `2,048 rows`."""
    return f"{number:,} {noun if number == 1 else plural or noun + 's'}"


def shortened(text: str, most: int) -> str:
    """A text of at most so many characters, its middle left out."""
    text = visible(text)
    if len(text) <= most:
        return text
    tail = (most - 1) // 2
    return f"{text[:most - 1 - tail]}…{text[len(text) - tail:]}"
