"""The drawings of an output that differs, in both designs: the logic near it, and below each place
where that is cut another drawing, which a click opens."""
from typing import Any, Dict, List, Optional, Tuple

from bbeq_tools.page import layout
from bbeq_tools.page.drawing import draw
from bbeq_tools.page.logic import Logic, gates_of, gates_text
from bbeq_tools.page.markup import (Markup, code, element, folded, joined, paragraph, shortened)
from bbeq_tools.page.sides import Item, Side

# Gates of the first drawing and of others, those of one that is not cut, and drawings of a side.
FIRST, LATER, WHOLE, MOST = 24, 40, 45, 12
NO_DOT = ("The drawing of the logic is left out: graphviz, which lays it out, is not installed "
          "(Debian: apt-get install graphviz).")
NO_LAYOUT = "The drawing is left out: dot made no layout of it."


class Cones:
    """The drawings of one design, in the order in which they are met."""

    def __init__(self, side: Side) -> None:
        self.side, self.names = side, {}
        self.waiting: List[Tuple[Any, str, str]] = []

    names: Dict[Any, str]

    def anchor(self, what: Any, label: str, gates: int) -> Optional[str]:
        """The name of the drawing of what is cut; None where there are enough drawings."""
        key = id(what) if not isinstance(what, tuple) else what
        if key not in self.names:
            if len(self.names) >= MOST:
                return None
            self.names[key] = f"{self.side.name}-cone-{len(self.names) + 1}"
            self.waiting.append((what, label, gates_text(gates)))
        return self.names[key]

    def drawing(self, root: Any, label: str, most: int) -> Markup:
        assert self.side.signals
        is_small = gates_of(self.side.flat, root) <= WHOLE
        logic = Logic(self.side.signals, root, label, WHOLE if is_small else most)
        anchors: Dict[Any, str] = {}
        for key, node in logic.nodes.items():
            if node.kind == "cut" and node.below is not None:
                anchor = self.anchor(node.below, node.label, node.gates)
                anchors |= {key: anchor} if anchor else {}
        about = f"The logic of {label} in {self.side.path}"
        found = draw(logic, anchors, about,
                     "logic" if self.side.name == "impl" else "logic right")
        if found is None:
            return paragraph(NO_LAYOUT, class_="note")
        return element("div", found, class_="scroll")

    def all(self, item: Item) -> Markup:
        """The drawing of an output, and those of what is cut in it."""
        name = item[1] if item[0] == "output" else f"next state of {item[1]}"
        shown = [self.drawing(self.side.values[item], name, FIRST)]
        while self.waiting:
            root, label, gates = self.waiting.pop(0)
            anchor = self.names[id(root) if not isinstance(root, tuple) else root]
            words = joined(["More: ", code(shortened(label, 60)) if label else "a net without name",
                            f", {gates}"])
            shown.append(folded(words, self.drawing(root, label or "…", LATER), id_=anchor))
        return joined(shown)


def cones(item: Item, sides: List[Side]) -> Markup:
    """The drawings of an output in both designs, or why there are none."""
    if not layout.is_there():
        return paragraph(NO_DOT, class_="note")
    shown = []
    for side in sides:
        title = "Implementation" if side.name == "impl" else "Specification"
        shown += [element("h3", title), Cones(side).all(item)]
    return joined(shown)
