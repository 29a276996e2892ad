"""The rows of tables that no vector brings to the pins of their box, with the tables as they are:
the program is asked whether a net is ever 1 that tells of these rows. Vectors that are drawn leave
few rows to ask for."""
import os
import random
import subprocess
import tempfile
from typing import Any, Dict, List, Set, Tuple

from bbeq_tools.cli import Fault
from bbeq_tools.program import find_program
from bbeq_tools.report.contents import tree
from bbeq_tools.report.filler import Filler
from bbeq_tools.report.reports import Tables, vectors
from bbeq_tools.verilog.bits import Bit
from bbeq_tools.verilog.language import (Expression, Module, Reader, Token, bit_text, tokens,
                                         written)
from bbeq_tools.verilog.values import Design
from bbeq_tools.verilog.world import Name, World

Rows = Dict[str, Set[int]]  # Of tables, by the paths of boxes.

DRAWN, MOST_DRAWS = 65_536, 20  # Vectors that are drawn at once, and how often.
MOST_RUNS = 50
REACHED, NEVER = "bbeq.reached", "1'b0"


def with_unused(words: Any, text: str, modules: Dict[str, Module], top: Module,
                tables: Tables) -> Tables:
    """The tables with `-` in such rows, where the program finds the pair repairable with 0 there
    and with 1."""
    program = find_program()
    if not program:
        raise Fault("bbeq is not there, which --spec needs; run ./bbeq once, or set BBEQ")

    def filled(found: Tables) -> str:
        return Filler(text, modules, found, "assign").fill(top, False)

    boxes = {instance.name: modules[instance.module] for instance in top.instances
             if instance.module in modules and modules[instance.module].is_box()}
    with tempfile.TemporaryDirectory(prefix="fill") as folder:
        probe = Probe(filled(tables), top.name,
                      {path: box for path, box in boxes.items() if path in tables})
        rows = shared(probe.unused(program, folder), tables, boxes)
        for bit in "01" if any(rows.values()) else "0":
            given = {"top-impl": top.name, "top-spec": words.top_spec, "care": words.care,
                     "invariant": words.invariant}
            asked = [f"--{option}={value}" for option, value in given.items() if value]
            told = run(program, *asked, "--", words.spec,
                       write(folder, "filled.v", filled(marked(tables, rows, bit))))[-1]
            if told == "verdict open":
                return tables
            if told != "verdict repairable":
                raise Fault(f"{words.spec}: of the filled netlist bbeq says `{told}`; give the "
                            "specification of the report")
    return marked(tables, rows, "-")


def shared(rows: Rows, tables: Tables, boxes: Dict[str, Module]) -> Rows:
    """Boxes that are filled by one module have the rows in common that none of them needs."""
    def content(path: str) -> Tuple[str, List[Tuple[str, str]]]:
        return boxes[path].name, tables[path]
    return {path: set.intersection(*[rows[other] for other in rows
                                     if content(other) == content(path)]) for path in rows}


def marked(tables: Tables, rows: Rows, mark: str) -> Tables:
    """The tables with this mark in some rows of some boxes."""
    def with_mark(path: str, bits: str) -> str:
        return "".join(mark if row in rows.get(path, ()) else bit for row, bit in enumerate(bits))
    return {path: [(pin, with_mark(path, bits)) for pin, bits in lines]
            for path, lines in tables.items()}


def write(folder: str, name: str, text: str) -> str:
    path = os.path.join(folder, name)
    with open(path, "w", encoding="latin-1") as file:
        file.write(text)
    return path


def run(program: str, *words: str) -> List[str]:
    """The lines of a run of the program."""
    done = subprocess.run([program, *words], capture_output=True, text=True, errors="replace",
                          check=False)
    return done.stdout.splitlines() or [f"status {done.returncode}"]


class Probe:
    """A netlist whose boxes are filled, and the boxes that stood in its top, by their names."""

    def __init__(self, text: str, top: str, boxes: Dict[str, Module]) -> None:
        self.text, self.boxes = text, boxes
        self.modules = {module.name: module for module in Reader(text).modules()}
        self.top = self.modules[top]
        self.design = Design(self.modules, self.top)

    def seen(self, ones: Dict[Name, int], every: int) -> Rows:
        """For each box the rows that some of these vectors bring to its pins; `ones` has for each
        input where it is 1."""
        world = World(self.design, {name: Bit(ones[name], every & ~ones[name])
                                    for name in self.design.inputs}, None)
        return {path: rows_at([world.bit((f"{path}.", net.name, index))
                               for net, index in box.pins("input")], every)
                for path, box in self.boxes.items()}

    def unused(self, program: str, folder: str) -> Rows:
        """For each box its rows that no vector brings to its pins."""
        draw, every = random.Random(1), (1 << DRAWN) - 1
        rows = {path: set(range(2 ** len(box.pins("input")))) for path, box in self.boxes.items()}

        def without(ones: Dict[Name, int]) -> Rows:
            return {path: rows[path] - came for path, came in self.seen(ones, every).items()}

        for _ in range(MOST_DRAWS):
            before, rows = rows, without({name: draw.getrandbits(DRAWN)
                                          for name in self.design.inputs})
            if rows == before:
                break
        never = write(folder, "never.v", self.reaching({}))
        for _ in range(MOST_RUNS):
            if not any(rows.values()):
                break
            tops = ["--top-spec", self.top.name, "--top-impl", self.top.name]
            told = run(program, *tops, "--", never, write(folder, "reached.v", self.reaching(rows)))
            if told[-1] == "verdict repairable":
                return rows
            shown = vectors(told)
            if not shown:
                break
            # The vector, and others in which an eighth of its bits differ.
            at = {name: every * int(shown[0][2][name[1]]) for name in self.design.inputs}
            rows = without({name: bits ^ sparse(draw) for name, bits in at.items()})
        return {path: set() for path in rows}

    def reaching(self, rows: Rows) -> str:
        """The netlist with one more output, which is 1 where a box reads one of these rows."""
        own, parts = written(REACHED), [(f"{REACHED}.{path}", path, wanted)
                                        for path, wanted in rows.items() if wanted]
        lines = [f"output {own};"] * (not self.is_declared_in_header()) + [self.reader(*part[:2])
                                                                           for part in parts]
        lines.append(f"assign {own} = "
                     f"{' | '.join([*(written(name) for name, _, _ in parts), NEVER])};")
        close, end = self.header_close(), self.top.end - len("endmodule")
        return "".join([self.text[:close], ", ", "output " * self.is_declared_in_header(), own,
                        self.text[close:end], *(f"  {line}\n" for line in lines), self.text[end:],
                        *(self.decoder(*part) for part in parts)])

    def header(self) -> List[Token]:
        return tokens(self.text[self.top.start:self.top.header_end])

    def header_close(self) -> int:
        """The place of the parenthesis that ends the top's header."""
        return self.top.start + [token for token in self.header() if token.text == ")"
                                 and token.kind == "mark"][-1].start

    def is_declared_in_header(self) -> bool:
        return any(token.kind == "word" and token.text in ("input", "output")
                   for token in self.header())

    def decoder(self, name: str, path: str, wanted: Set[int]) -> str:
        """A module with the inputs of a box, which tells whether these spell one of the rows."""
        box, own = self.boxes[path], written(REACHED)
        nets = list(dict.fromkeys(net for net, _ in box.pins("input")))
        names = [bit_text(written(net.name), index) for net, index in box.pins("input")]
        bits = "".join("1" if row in wanted else "0" for row in range(2 ** len(names)))
        declared = [
            f"input {f'[{net.range[0]}:{net.range[1]}] ' if net.range else ''}{written(net.name)};"
            for net in nets]
        return "\n".join(
            ["",
             f"module {written(name)}({', '.join([*(written(net.name) for net in nets), own])});",
             *declared, f"output {own};", f"assign {own} = {tree(names, bits)};", "endmodule", ""])

    def reader(self, name: str, path: str) -> str:
        """An instance of the decoder beside that of the box."""
        instance = next(instance for instance in self.top.instances if instance.name == path)
        below = self.modules[instance.module]
        pairs = dict(instance.connections if instance.named
                     else zip(below.ports, instance.connections))
        pins = [f".{written(port)}({spelt(pairs[port])})"
                for port in below.ports if below.nets[port].direction == "input"]
        pins.append(f".{written(REACHED)}({written(name)})")
        return f"{written(name)} {written(f'{REACHED}_{path}')}({', '.join(pins)});"


def sparse(draw: random.Random) -> int:
    """An eighth of the vectors, but never the first."""
    return draw.getrandbits(DRAWN) & draw.getrandbits(DRAWN) & draw.getrandbits(DRAWN) & ~1


def rows_at(pins: List[Bit], every: int) -> Set[int]:
    """The rows that are spelt by these pins, the first most significant, at any of the vectors."""
    rows = {0: every}
    for pin in pins:
        halves = [(2 * row + value, at & of) for row, at in rows.items()
                  for value, of in ((0, pin.zero), (1, pin.one))]
        rows = {row: at for row, at in halves if at}
    return set(rows)


def spelt(expression: Expression) -> str:
    """The text of an expression."""
    kind, first = expression[:2]
    if kind == "net":
        left, right = expression[2] or (None, None)
        return written(first) + ("" if left is None else f"[{left}]" if left == right
                                 else f"[{left}:{right}]")
    if kind == "bits":
        return f"{first}'h{expression[2]:x}"
    if kind == "not":
        return "~" * expression[2] + f"({spelt(first)})"
    if kind == "fold":
        return f"{expression[2]}({spelt(first)})"
    if kind in ("chain", "words"):
        parts = [f"({spelt(part)})" for part in first]
        return parts[0] + "".join(f" {operator} {part}"
                                  for operator, part in zip(expression[2], parts[1:]))
    if kind == "conditional":
        return " ? ".join(f"({spelt(part)})"
                          for part in expression[1:3]) + f" : ({spelt(expression[3])})"
    if kind == "repeat":
        return f"{{{first}{spelt(expression[2])}}}"
    return f"{{{', '.join(map(spelt, first))}}}"
