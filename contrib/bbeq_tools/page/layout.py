"""Where the nodes and wires of a drawing are, by graphviz `dot`. It is given numbers alone and no
name of a design."""
import json
import shutil
import subprocess
from typing import Any, Dict, List, NamedTuple, Optional, Tuple

from bbeq_tools.page.logic import Key, Logic, Node, gates_text
from bbeq_tools.page.markup import shortened

LIMIT = 20  # Seconds for one drawing.
LETTER, LABEL = 6.3, 26  # The width of a letter in points, and the letters of a label.
GATE_WIDTH, PIN_HEIGHT, LINE = 44.0, 14.0, 18.0

Point = Tuple[float, float]


class Place(NamedTuple):
    """The middle of a node, and its size, in points; the top is 0."""

    x: float
    y: float
    width: float
    height: float


class Run(NamedTuple):
    """A wire as dot draws it: the points of a spline of cubic pieces."""

    head: Key
    pin: int
    points: List[Point]


class Layout(NamedTuple):
    width: float
    height: float
    places: Dict[Key, Place]
    runs: List[Run]


def is_there() -> bool:
    return shutil.which("dot") is not None


def label_of(node: Node) -> str:
    return shortened(node.label, LABEL)


def size_of(node: Node) -> Tuple[float, float]:
    """The width and height of a node."""
    if node.kind == "gate":
        width = GATE_WIDTH if node.symbol != "buf" else 30.0
        return width, max(28.0, PIN_HEIGHT * len(node.ins))
    if node.kind == "box":
        rows = max(len(node.ins), len(node.outs), 1)
        columns = [max([len(shortened(name, LABEL)) for name in names], default=0)
                   for names in (node.in_names, node.outs)]
        width = LETTER * max(sum(columns) + 3, len(label_of(node)) + 2)
        return max(60.0, width), LINE * (rows + 1)
    letters = len(label_of(node)) + (len(gates_text(node.gates)) if node.kind == "cut" else 2)
    return max(24.0, LETTER * letters + 12), 18.0


def pins_of(node: Node) -> Tuple[int, int]:
    return max(1, len(node.ins)), max(1, len(node.outs))


def dot_node(number: int, node: Node) -> str:
    """A node as a record with a field for each pin; the first row of a box is its name."""
    width, height = size_of(node)
    ins, outs = ("|".join(f"<{side}{pin}>" for pin in range(count))
                 for side, count in zip("io", pins_of(node)))
    if node.kind == "box":
        rows = max(pins_of(node))
        ins = "|".join(["", *(f"<i{pin}>" for pin in range(rows))])
        outs = "|".join(["", *(f"<o{pin}>" for pin in range(rows))])
    return (f'n{number} [label="{{{{{ins}}}|{{{outs}}}}}" width={width / 72:.3f} '
            f'height={height / 72:.3f}];')


def dot_text(numbers: Dict[Key, int], logic: Logic) -> str:
    lines = ["digraph g {", "rankdir=LR; nodesep=0.16; ranksep=0.42; splines=true;",
             'node [shape=record fixedsize=true fontsize=1 margin=0]; edge [arrowhead=none];']
    for key, node in logic.nodes.items():
        lines.append(dot_node(numbers[key], node))
        for pin, wire in enumerate(node.ins):
            lines.append(f'n{numbers[wire.source]}:o{wire.pin}:e -> n{numbers[key]}:i{pin}:w '
                         f'[id="{numbers[key]} {pin}" weight={3 if wire.forces else 1}];')
    return "\n".join([*lines, "}"])


def laid_out(logic: Logic) -> Optional[Layout]:
    """The layout of a drawing; None where dot does not make one."""
    keys = list(logic.nodes)
    text = dot_text({key: number for number, key in enumerate(keys)}, logic)
    try:
        done = subprocess.run(["dot", "-Tjson0"], input=text, capture_output=True, text=True,
                              timeout=LIMIT, check=False)
        found = json.loads(done.stdout)
    except (OSError, ValueError, subprocess.TimeoutExpired):
        return None
    return read(found, keys)


def read(found: Dict[str, Any], keys: List[Key]) -> Layout:
    """What dot wrote, with the top at 0."""
    _, _, width, height = map(float, found["bb"].split(","))
    places = {}
    for thing in found["objects"]:
        x, y = map(float, thing["pos"].split(","))
        places[keys[int(thing["name"][1:])]] = Place(x, height - y, 72 * float(thing["width"]),
                                                     72 * float(thing["height"]))
    runs = []
    for edge in found.get("edges", ()):
        head, pin = map(int, edge["id"].split(" "))
        pairs = [point.split(",")[-2:] for point in edge["pos"].split(" ")]
        runs.append(Run(keys[head], pin, [(float(x), height - float(y)) for x, y in pairs]))
    return Layout(width, height, places, runs)
