"""The two texts as flat netlists of gates, as yosys reads them: it parses, elaborates, flattens and
maps; boxes stay cells. Nothing here reads a text as bbeq and the scripts that write texts do."""
import json
import os
import re
import shutil
import subprocess
from typing import Any, Dict, Iterator, List, NamedTuple, Optional, Tuple, Union

from bbeq_tools.cli import Fault
from bbeq_tools.report.reports import OTHER

Bit = Union[int, str]  # A net of yosys, or a constant.
MARK = "certify_register"
SCRIPT = """design -reset
read_verilog "{text}"
hierarchy -check {top}
proc
setattr -set {mark} 1 t:$dff %co1:+[Q] t:$dff %d
write_json "{whole}"
select -set leaves * t:* %m %d
setattr -mod -set keep_hierarchy 1 @leaves
flatten
techmap
write_json "{flat}"
"""
PASSED_OVER = re.compile(
    r'(\\\S+)|`(?:timescale|celldefine|endcelldefine)\b[^\n]*|//[^\n]*|/\*.*?\*/'
    r'|\(\*(?!\))(?:"(?:\\.|[^"\\])*"|//[^\n]*|/\*.*?\*/|(?!\*\)).)*\*\)', re.DOTALL)


class Place(NamedTuple):
    """A bit of a net: the instances that lead to it, its net, and its index where it has one."""

    path: Tuple[str, ...]
    net: str
    at: Optional[int]

    def text(self) -> str:
        name = ".".join((*self.path, self.net))
        return name if self.at is None else f"{name}[{self.at}]"


class Cell(NamedTuple):
    kind: str
    ins: List[Bit]
    outs: List[Bit]


class Box(NamedTuple):
    path: str
    module: str
    outs: List[Tuple[str, int]]  # Its output ports with their widths.


def plain_text(text: str) -> str:
    """The text without comments, attributes and directives, which yosys and iverilog take in some
    places alone, and which mean nothing to bbeq."""
    def blank(found: "re.Match[str]") -> str:
        return found.group(1) or " " + re.sub(r"[^\n]", "", found.group())
    return PASSED_OVER.sub(blank, text)


def indices(net: Dict[str, Any]) -> List[Optional[int]]:
    """The indices of a net's bits, the lowest bit first."""
    count, first = len(net["bits"]), net.get("offset", 0)
    if count == 1 and not first:
        return [None]  # yosys does not tell [0:0] from no range.
    found: List[Optional[int]] = list(range(first, first + count))
    return found[::-1] if net.get("upto") else found


def text_place(thing: Dict[str, Any]) -> Tuple[int, ...]:
    """Where it is declared in the text, by its line and column."""
    found = re.search(r":(\d+)\.(\d+)", thing["attributes"].get("src", ""))
    return tuple(map(int, found.groups())) if found else (0, 0)


class Design:
    """A flat netlist: its inputs, outputs and registers by their texts, and its cells in an order
    in which each has its operands before it."""

    def __init__(self, text: str, whole: Dict[str, Any], flat: Dict[str, Any]) -> None:
        self.text, self.whole, self.modules = text, whole["modules"], flat["modules"]
        self.top = next((name for name, module in self.modules.items()
                         if "top" in module["attributes"]), "")
        if not self.top:
            raise Fault("yosys finds no top module; name it as for bbeq")
        self.nets = self.modules[self.top]["netnames"]
        self.inputs, self.outputs = self.port_bits("input"), self.port_bits("output")
        self.boxes: List[Box] = []
        self.driver: Dict[Bit, Cell] = {}
        self.states: Dict[Bit, Bit] = {}  # What each register takes next.
        for name, cell in self.modules[self.top]["cells"].items():
            self.add(name, cell)
        self.places = {place.text(): place for place in self.register_places(self.top, ())}
        self.registers = {text: self.bit_at(place) for text, place in self.places.items()}
        self.order = self.ordered()

    def port_bits(self, direction: str) -> Dict[str, Bit]:
        """The bits of the top's ports by their texts, the leftmost bit of each port first."""
        found = {}
        for name, port in self.modules[self.top]["ports"].items():
            if port["direction"] == direction:
                for index, bit in reversed(list(zip(indices({**self.nets[name], **port}),
                                                    port["bits"]))):
                    found[Place((), name, index).text()] = bit
        return found

    def add(self, name: str, cell: Dict[str, Any]) -> None:
        kind, pins = cell["type"], cell["connections"]
        if kind in self.modules:
            self.add_leaf(name, kind, pins)
        elif kind in ("$_DFF_P_", "$_DFF_N_"):
            self.states[pins["Q"][0]] = pins["D"][0]
        else:
            ins = [pins[pin][0] for pin in ("A", "B", "S") if pin in pins]
            self.driver[pins["Y"][0]] = Cell(kind, ins, pins["Y"])

    def add_leaf(self, name: str, kind: str, pins: Dict[str, List[Bit]]) -> None:
        """A module without cells: a box, or wires from its inputs and constants to its outputs."""
        ports = self.modules[kind]["ports"]
        own: Dict[Bit, Bit] = {}
        for port, shape in ports.items():
            if shape["direction"] == "input":
                own.update(zip(shape["bits"], pins.get(port, [])))
        ins = [bit for port, shape in ports.items() if shape["direction"] == "input"
               for bit in reversed(pins.get(port, ["x"] * len(shape["bits"])))]
        outs: List[Bit] = []
        is_box = True
        for port, shape in ports.items():
            if shape["direction"] != "output":
                continue
            given = pins.get(port, [f"{name} {port} {at}" for at in range(len(shape["bits"]))])
            for inner, outer in reversed(list(zip(shape["bits"], given))):
                if inner in own or isinstance(inner, str):
                    is_box = False
                    self.driver[outer] = Cell("wire", [own.get(inner, inner)], [outer])
                else:
                    outs.append(outer)
        if outs and is_box:
            cell = Cell(f"box {len(self.boxes)}", ins, outs)
            self.driver.update({bit: cell for bit in outs})
            self.boxes.append(Box(name, kind, [
                (port, len(shape["bits"])) for port, shape in ports.items()
                if shape["direction"] == "output"]))

    def register_places(self, name: str, path: Tuple[str, ...]) -> Iterator[Place]:
        """The registers below an instance: net by net, the ports first, and then those of the
        instances, as they stand in the text."""
        module = self.whole[name]
        ports = list(module["ports"])
        nets = [net for net, shape in module["netnames"].items() if MARK in shape["attributes"]]
        for net in sorted(nets, key=lambda net: (0, ports.index(net)) if net in ports else
                          (1, *text_place(module["netnames"][net]))):
            for index in reversed(indices(module["netnames"][net])):
                place = Place(path, net, index)
                if self.bit_at(place) in self.states:
                    yield place
        for inner, cell in sorted(module["cells"].items(), key=lambda item: text_place(item[1])):
            if cell["type"] in self.whole:
                yield from self.register_places(cell["type"], (*path, inner))

    def bit_at(self, place: Place) -> Bit:
        net = self.nets.get(".".join((*place.path, place.net)))
        if net is None:
            raise Fault(f"yosys has no net {place.text()} in what it flattened")
        bit: Bit = net["bits"][indices(net).index(place.at)]
        return bit

    def ordered(self) -> List[Cell]:
        """The cells, each after those that it reads."""
        found, done, begun = [], set(), set()
        work = [*self.outputs.values(), *(self.states[bit] for bit in self.registers.values())]
        while work:
            bit = work[-1]
            cell = self.driver.get(bit)
            missing = [] if cell is None or bit in done else [
                read for read in cell.ins if read in self.driver and read not in done]
            if missing and bit not in begun:
                begun.add(bit)
                work += missing
                continue
            if missing:
                raise Fault("yosys has a loop in what it flattened")
            work.pop()
            if cell is not None and bit not in done:
                done.update(cell.outs)
                found.append(cell)
        return found

    def named(self, kind: str, name: str) -> Optional[str]:
        """The text of an output or a register that a report calls so."""
        known = {"output": self.outputs, "next": self.registers}[kind]
        return name if name in known else known_as(name, known)


def known_as(name: str, known: Any) -> Optional[str]:
    """The name without an index that yosys leaves out."""
    return name[:-3] if name.endswith("[0]") and name[:-3] in known else None


def read_designs(folder: str, paths: List[str], tops: List[Optional[str]]) -> List[Design]:
    """The two texts, by one run of yosys in a folder."""
    if not shutil.which("yosys"):
        raise Fault("yosys is not installed (Debian: apt-get install yosys)")
    script, texts = [], []
    for side, path, top in zip(("spec", "impl"), paths, tops):
        with open(path, encoding="latin-1") as file:
            texts.append(plain_text(file.read()))
        files = {name: os.path.join(folder, f"{side}.{name}") for name in ("text", "whole", "flat")}
        with open(files["text"], "w", encoding="latin-1") as file:
            file.write(texts[-1])
        script.append(SCRIPT.format(top=f"-top {named_top(top)}" if top else "-auto-top", mark=MARK,
                                    **files))
    with open(os.path.join(folder, "script.ys"), "w", encoding="latin-1") as file:
        file.write("".join(script))
    done = subprocess.run(["yosys", "-q", "-s", os.path.join(folder, "script.ys")],
                          capture_output=True, text=True, errors="replace", check=False)
    if done.returncode:
        lines = (done.stderr + done.stdout).strip().splitlines() or ["it failed"]
        error = next((line for line in lines if "ERROR" in line), lines[-1])
        raise Fault(f"yosys: {error.replace(folder + os.sep, '')}")
    return [Design(text, *(load(folder, f"{side}.{name}") for name in ("whole", "flat")))
            for side, text in zip(("spec", "impl"), texts)]


def named_top(top: str) -> str:
    if not re.fullmatch(r"[\w$]+", top):
        raise Fault(f"the top {top} has a name that certify does not hand to yosys")
    return top


def load(folder: str, name: str) -> Dict[str, Any]:
    with open(os.path.join(folder, name), encoding="latin-1") as file:
        found: Dict[str, Any] = json.load(file)
        return found


def check_fit(spec: Design, impl: Design, care: Optional[str]) -> None:
    """The two have the same ports and registers, but for the care output."""
    sides: List[Tuple[Dict[str, Any], Dict[str, Any], str]] = [
        (spec.inputs, impl.inputs, "input"), (spec.registers, impl.registers, "register"),
        ({name: 0 for name in spec.outputs if name != care}, impl.outputs, "output")]
    for left, right, kind in sides:
        for name in sorted(set(left) ^ set(right)):
            raise Fault(f"one of the texts has no {kind} {name}; {OTHER}")
    if set(spec.inputs) & set(spec.registers):
        raise Fault("an input and a register have one text; rename one")
    if spec.boxes:
        raise Fault(f"the specification has a box {spec.boxes[0].path}")
