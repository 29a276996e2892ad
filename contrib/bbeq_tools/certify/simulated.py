"""The two texts in iverilog: what their outputs and next states are at vectors, where the outputs
of boxes have given bits. The one event of all registers is a step of the testbench, so that no
clock changes in between."""
import os
import re
import shutil
import subprocess
from typing import Dict, List, Tuple

from bbeq_tools.certify.netlists import Design, Place
from bbeq_tools.cli import Fault

Bits = Dict[Tuple[str, str], str]  # By `output` or `next`, and the name.
EDGE = re.compile(r"@\s*\(\s*(?:posedge|negedge)\s+(?:\\\S+\s|[\w$]+)\s*(?:\[[^\]]*\]\s*)?\)")
MODULE = r"(?s)\bmodule\s+(?:{name}(?![\w$])|\\{name}\s).*?(?<![\w$\\])endmodule\b"
BENCH = """module certify_bench;
  reg step; integer turn;
  {declared}
  {top}dut({pins});
  initial begin
    step = 0;
    {vectors}
  end
endmodule
"""
TURNS = """{inputs}
    for (turn = 0; turn < {turns}; turn = turn + 1) begin
      {freed}{states} #1 $write("%b", {{1'b0{outputs}}}); step = 1;
      #1 $write("%b\\n", {{1'b0{registers}}}); step = 0; #1;
    end
"""


class Unread(Exception):
    """iverilog does not read a text that bbeq and yosys read; the message is what it says."""


def written(name: str) -> str:
    return f"\\{name} "


def reached(place: Place) -> str:
    """How the testbench reaches a net or one bit of it."""
    path = ".".join(map(written, ("dut", *place.path, place.net)))
    return path if place.at is None else f"{path}[{place.at}]"


def bench_text(design: Design) -> str:
    """The text with its registers on the step of the testbench, and each box with bits of its own
    that drive its outputs."""
    text = EDGE.sub("@(posedge certify_bench.step)", design.text)
    for module in {box.module: box for box in design.boxes}.values():
        found = re.search(MODULE.format(name=re.escape(module.module)), text)
        if found is None:
            raise Fault(f"the text of module {module.module} is not found")
        ends = ", ".join(written(port) for port, _ in module.outs)
        count = sum(width for _, width in module.outs)
        drive = (f"always @(certify_free) {{{ends}}} = certify_free;"
                 if re.search(r"(?<![\w$\\])reg\b", found.group())
                 else f"assign {{{ends}}} = certify_free;")
        end = found.end() - len("endmodule")
        text = f"{text[:end]} reg [{count - 1}:0] certify_free; {drive} {text[end:]}"
    return text


def bounds(design: Design, port: str) -> str:
    return f"[{len(design.modules[design.top]['ports'][port]['bits']) - 1}:0] "


def bench(design: Design, found: List[Dict[str, str]], free: int) -> str:
    """The testbench: at each vector a turn for all bits that the boxes may give."""
    ports = design.modules[design.top]["ports"]
    kinds = {"input": "reg", "output": "wire"}
    declared = " ".join(f"{kinds[shape['direction']]} {bounds(design, port)}{written(port)};"
                        for port, shape in ports.items())
    outputs = "".join(f", {written(port)}" for port, shape in ports.items()
                      if shape["direction"] == "output")
    registers = "".join(f", {reached(place)}" for place in design.places.values())
    boxes = ", ".join(box_bits(design))
    return BENCH.format(
        declared=declared, top=written(design.top),
        pins=", ".join(f".{written(port)}({written(port)})" for port in ports),
        vectors="".join(TURNS.format(
            inputs=input_lines(design, vector), turns=1 << free,
            freed=f"{{{boxes}}} = turn; " if boxes else "", outputs=outputs, registers=registers,
            states=" ".join(f"{reached(place)} = 1'b{vector[text]};"
                            for text, place in design.places.items())) for vector in found))


def box_bits(design: Design) -> List[str]:
    """The bits of each box; a box stands where its path leads in the whole design."""
    found = []

    def walk(name: str, path: Tuple[str, ...]) -> None:
        modules = {box.module for box in design.boxes}
        for inner, cell in design.whole[name]["cells"].items():
            if cell["type"] in modules:
                found.append(reached(Place((*path, inner), "certify_free", None)))
            elif cell["type"] in design.whole:
                walk(cell["type"], (*path, inner))
    walk(design.top, ())
    return found


def input_lines(design: Design, vector: Dict[str, str]) -> str:
    """Gives each input port its bits, the leftmost first as in the order of the design."""
    names, lines = list(design.inputs), []
    for port, shape in design.modules[design.top]["ports"].items():
        if shape["direction"] == "input":
            own, names = names[:len(shape["bits"])], names[len(shape["bits"]):]
            bits = "".join(vector[name] for name in own)
            lines.append(f"{written(port)}= {len(bits)}'b{bits};")
    return " ".join(lines)


def simulate(folder: str, side: str, design: Design, found: List[Dict[str, str]], free: int
             ) -> List[List[Bits]]:
    """For each vector what the design gives, for each of the bits that its boxes may give."""
    for tool in ("iverilog", "vvp"):
        if not shutil.which(tool):
            raise Fault(f"{tool} is not installed (Debian: apt-get install iverilog)")
    paths = [os.path.join(folder, f"{side}.{name}") for name in ("v", "bench.v", "vvp")]
    for path, text in zip(paths, (bench_text(design), bench(design, found, free))):
        with open(path, "w", encoding="latin-1") as file:
            file.write(text)
    done = run(["iverilog", "-g2005", "-s", "certify_bench", "-o", paths[2], *paths[:2]])
    if done.returncode:
        errors = [line for line in done.stderr.splitlines() if "warning" not in line]
        raise Unread((errors or ["it failed"])[0].replace(folder + os.sep, ""))
    keys = [*(("output", name) for name in design.outputs),
            *(("next", name) for name in design.places)]
    rows, turns = [], 1 << free
    for line in run(["vvp", "-n", paths[2]]).stdout.splitlines():
        cut = 1 + len(design.outputs)
        rows.append(dict(zip(keys, line[1:cut] + line[cut + 1:])))
    if len(rows) != turns * len(found):
        raise Fault("iverilog printed another number of lines than it was to")
    return [rows[at:at + turns] for at in range(0, len(rows), turns)]


def run(words: List[str]) -> "subprocess.CompletedProcess[str]":
    return subprocess.run(words, capture_output=True, text=True, errors="replace", check=False)
