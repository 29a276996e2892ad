"""The folder of the pairs: a folder for each, and a list that `run` takes too."""
import os
import re
from typing import Iterable, List, NamedTuple

from bbeq_tools.benchmark.netlists import SYNTHESISE, made_by_yosys
from bbeq_tools.benchmark.pairs import Plan, drawn
from bbeq_tools.cli import Fault, Output

LIST = "list"
LINE = re.compile(r"(\w+)/spec\.v \1/impl\.v = (repairable|error)  # (\d+) and (\d+) gates, "
                  r"(\d+) box(?:es)?")


class Listed(NamedTuple):
    """A pair that stands in a folder, with the answer that is due."""

    folder: str
    name: str
    due: str
    sizes: "tuple[int, int]"
    boxes: int

    def path(self, name: str) -> str:
        return os.path.join(self.folder, self.name, name)

    def line(self) -> str:
        one, other = self.sizes
        return (f"{self.name}/spec.v {self.name}/impl.v = {self.due}  # {one} and {other} gates, "
                f"{self.boxes} box{'es' * (self.boxes != 1)}")


def write_pair(folder: str, plan: Plan) -> Listed:
    pair = drawn(plan)
    os.makedirs(os.path.join(folder, pair.name), exist_ok=True)
    spec, imp = pair.specification, pair.implementation
    due, sizes = "error" if pair.is_wrong else "repairable", (spec.size(), imp.size())
    listed = Listed(folder, pair.name, due, sizes, len(imp.boxes))
    for name, circuit in (("spec.v", spec), ("impl.v", imp)):
        Output(listed.path(name)).write(circuit.text())
    if pair.is_synthesised:
        made_by_yosys(SYNTHESISE, listed.path("impl.v"), imp.name, listed.path("impl.v"))
        with open(listed.path("impl.v"), encoding="latin-1") as file:
            assigned = len(re.findall(r"^  assign ", file.read(), re.MULTILINE))
        listed = listed._replace(sizes=(spec.size(), assigned))
    for name in ("spec.blif", "impl.blif"):
        if os.path.exists(listed.path(name)):
            os.remove(listed.path(name))
    return listed


def write_pairs(folder: str, plans: Iterable[Plan]) -> List[Listed]:
    """Writes the pairs, and the list when all stand there."""
    os.makedirs(folder, exist_ok=True)
    output = Output(os.path.join(folder, LIST))
    pairs = [write_pair(folder, plan) for plan in plans]
    output.write("".join(f"{pair.line()}\n" for pair in pairs))
    return pairs


def read_pairs(folder: str) -> List[Listed]:
    path, pairs = os.path.join(folder, LIST), []
    with open(path, encoding="latin-1") as file:
        lines = file.read().splitlines()
    for number, line in enumerate(lines, 1):
        found = LINE.fullmatch(line)
        if not found:
            raise Fault(f"{path}: line {number} is none that `benchmark` writes")
        name, due, *counts = found.groups()
        one, other, boxes = map(int, counts)
        pairs.append(Listed(folder, name, due, (one, other), boxes))
    return pairs
