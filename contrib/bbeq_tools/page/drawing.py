"""A drawing of logic as SVG: gates as symbols, boxes grey, on each wire its bit at the vector. What
is cut leads to a drawing of its own."""
from typing import Dict, List, Optional

from bbeq_tools.page.layout import (LABEL, LINE, Layout, Place, Run, label_of, laid_out)
from bbeq_tools.page.logic import Key, Logic, Node, gates_text
from bbeq_tools.page.markup import Markup, element, joined, shortened, visible
from bbeq_tools.page.symbols import INSETS, name_of, symbol

MARGIN = 8.0


def text(x: float, y: float, words: str, class_: Optional[str] = None) -> Markup:
    return element("text", words, x=x, y=y, class_=class_)


def wire_class(value: str, forces: bool) -> str:
    return f"wire v{value}{' forces' if forces else ''}"


def wire(run: Run, node: Node) -> Markup:
    """A wire with its bit in front of the pin that it leads to."""
    (x, y), rest = run.points[0], run.points[1:]
    end_x, end_y = rest[-1]
    inset = INSETS.get(node.symbol, 0.0) if node.kind == "gate" else 0.0
    if node.kind == "gate" and node.symbol in ("or", "xor"):
        share = abs(2 * (run.pin + 0.5) / len(node.ins) - 1)
        inset += 4.0 * (1 - share * share)
    curve = " ".join(f"{x:.4g},{y:.4g}" for x, y in rest)
    given = node.ins[run.pin]
    return joined([
        element("path", d=f"M{x:.4g},{y:.4g} C{curve} h{inset:.3g}",
                class_=wire_class(given.value, given.forces)),
        text(end_x - 8, end_y - 3, given.value, f"bit v{given.value}")])


def gate(node: Node, width: float, height: float) -> Markup:
    shown = [element("title", f"{name_of(node.symbol, node.inverts)} {visible(node.label)}".strip()
                     + f" = {node.value}"),
             symbol(node.symbol, node.inverts, width, height)]
    if node.symbol == "mux":
        step = height / 3
        shown += [text(9.0, step * (at + 0.5) + 3.5, mark, "pin") for at, mark in enumerate("?10")]
    return element("g", *shown, class_="gate")


def box(node: Node, width: float, height: float) -> Markup:
    shown = [element("title", f"box {visible(node.label)}"),
             element("rect", x=0.0, y=0.0, width=width, height=height),
             text(width / 2, 13.0, label_of(node), "name")]
    for at, name in enumerate(node.in_names):
        shown.append(text(4.0, LINE * (at + 1) + 13, shortened(name, LABEL), "pin"))
    for at, name in enumerate(node.outs):
        shown.append(text(width - 4, LINE * (at + 1) + 13, shortened(name, LABEL), "pin out"))
    return element("g", *shown, class_="box")


def label(node: Node, width: float, height: float) -> Markup:
    """An input, a register, a constant or the root: its name and its bit."""
    name = {"0": "0", "1": "1"}[node.value] if node.kind == "constant" else label_of(node)
    side = width - 4 if node.kind != "root" else 4.0
    about = f"{node.kind} {visible(node.label)} = {node.value}"
    return element("g", element("title", about),
                   text(side, height / 2 + 4, name, "end" if node.kind != "root" else None),
                   class_=f"leaf {node.kind}")


def cut(node: Node, width: float, height: float, anchor: Optional[str]) -> Markup:
    more = gates_text(node.gates) if node.gates else ""
    words = f"{label_of(node)} {more}".strip()
    shown = element("g", element("title", f"{visible(node.label)} {more}: cut here".strip()),
                    element("rect", x=0.0, y=0.0, width=width, height=height, rx=height / 2),
                    text(width / 2, height / 2 + 4, words), class_="cut")
    return element("a", shown, href=f"#{anchor}") if anchor else shown


def node_of(node: Node, place: Place, anchor: Optional[str]) -> Markup:
    width, height = place.width, place.height
    drawn = (gate(node, width, height) if node.kind == "gate" else
             box(node, width, height) if node.kind == "box" else
             cut(node, width, height, anchor) if node.kind == "cut" else label(node, width, height))
    shift = f"translate({place.x - width / 2:.4g} {place.y - height / 2:.4g})"
    return element("g", drawn, transform=shift)


def drawn(logic: Logic, layout: Layout, anchors: Dict[Key, str], about: str,
          class_: str) -> Markup:
    """The SVG of a laid out drawing."""
    wires: List[Markup] = [wire(run, logic.nodes[run.head]) for run in layout.runs]
    nodes = [node_of(node, layout.places[key], anchors.get(key))
             for key, node in logic.nodes.items() if key in layout.places]
    width, height = layout.width + 2 * MARGIN, layout.height + 2 * MARGIN
    return element("svg", element("title", about), *wires, *nodes, class_=class_, role="img",
                   viewBox=f"{-MARGIN:.4g} {-MARGIN:.4g} {width:.5g} {height:.5g}", width=width,
                   height=height)


def draw(logic: Logic, anchors: Dict[Key, str], about: str, class_: str) -> Optional[Markup]:
    """The drawing; None where dot makes no layout of it."""
    layout = laid_out(logic)
    return drawn(logic, layout, anchors, about, class_) if layout else None
