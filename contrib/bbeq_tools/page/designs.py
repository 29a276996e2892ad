"""The two designs of a report: how large they are, their boxes, and what does not reach an
output."""
from typing import List

from bbeq_tools.page.markup import (Markup, code, counted, element, folded, joined, paragraph,
                                    section, shortened)
from bbeq_tools.page.reach import unreached
from bbeq_tools.page.sides import Side
from bbeq_tools.page.tables import ports_text
from bbeq_tools.verilog.language import Module

MOST_BOXES, MOST_OUTPUTS, MOST_NAMES = 200, 60, 24  # That are listed.


def numbers(sides: List[Side]) -> Markup:
    found = [side.numbers() for side in sides]
    rows = [element("tr", element("td", name), *(element("td", f"{number:,}") for number in pair))
            for name, pair in (("inputs", [each.inputs for each in found]),
                               ("registers", [each.registers for each in found]),
                               ("outputs", [each.outputs for each in found]),
                               ("gates", [each.cells for each in found]),
                               ("boxes", [each.boxes for each in found]))]
    names = ("", "specification", "implementation")
    title = element("tr", *(element("th", name) for name in names))
    return element("table", title, *rows, class_="numbers")


def box_list(side: Side) -> Markup:
    """The boxes with their pins."""
    rows = [element("tr", *(element("td", code(shortened(text, most))) for text, most in (
        (box.path, 60), (box.module.name, 40), (pins_text(box.module, "input"), 100),
        (pins_text(box.module, "output"), 60)))) for box in side.flat.boxes[:MOST_BOXES]]
    left = len(side.flat.boxes) - len(rows)
    title = element("tr", *(element("th", name) for name in ("Box", "Module", "Inputs", "Outputs")))
    return joined([element("table", title, *rows, class_="checks"),
                   *[paragraph(f"And {left:,} more.")] * (left > 0)])


def pins_text(module: Module, direction: str) -> str:
    return " ".join(name for name, _ in ports_text(module, direction))


def missing_row(kind: str, text: str, names: List[str]) -> Markup:
    more = f" and {len(names) - MOST_NAMES} more" if len(names) > MOST_NAMES else ""
    listed = joined((code(shortened(name, 60)) for name in names[:MOST_NAMES]), " ")
    return element("tr", element("td", code(shortened(text, 60)),
                                 "" if kind == "output" else " (next state)"),
                   element("td", listed, more))


def designs_section(sides: List[Side], shows_boxes: bool) -> Markup:
    """How large the two are, and the boxes, which are not folded where their pins may be the
    cause."""
    boxes = sides[1].flat.boxes
    listing = [folded(counted(len(boxes), "box", "boxes"), box_list(sides[1]),
                      is_open=shows_boxes)] * bool(boxes)
    return section("The two designs", numbers(sides), *listing, id_="designs")


def missing_section(sides: List[Side]) -> List[Markup]:
    """Of an error without a vector: what outputs depend on in the specification alone."""
    rows = unreached(sides)
    if not rows:
        text = ("Each output of the implementation is reached by all inputs and registers that it "
                "reads in the specification, through gates and boxes. So look for a box that needs "
                "a pin beside those that it has, or for a mistake outside.")
        return [section("What does not reach an output", paragraph(text), id_="missing")]
    shown = [missing_row(kind, text, names) for (kind, text), names in rows[:MOST_OUTPUTS]]
    title = element("tr", element("th", "Output"), element(
        "th", "Read for it in the specification, and not in the implementation"))
    return [section("What does not reach an output",
                    element("table", title, *shown, class_="checks"),
                    *[paragraph(f"And {len(rows) - MOST_OUTPUTS} more outputs.")]
                    * (len(rows) > MOST_OUTPUTS), id_="missing")]
