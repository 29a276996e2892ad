"""The text of a part of a design: some outputs and next states, and what these need alone
(docs/LANGUAGE.md)."""
from typing import Any, Dict, List, Tuple

from bbeq_tools.verilog.flat import CONSTANTS, GATES, Box, Cell, Flat, text_of
from bbeq_tools.verilog.language import written

# Of brackets within each other; bbeq reads 200, a condition and its bracket counting as two.
DEEPEST = 50
Item = Tuple[str, str]  # `output` or `next`, and a text.


class PartText:
    """What is compared of a part, `kept` with pairs of a kind and a text, as a text of one module
    and the boxes below it. The input ports are `inputs`, among them registers that are only read;
    `cone` has the bits that it is made from."""

    def __init__(self, flat: Flat, kept: List[Item], inputs: List[str],
                 cone: Dict[Any, None]) -> None:
        self.flat, self.kept, self.inputs, self.cone = flat, kept, inputs, cone
        self.values = [flat.value_of(*item) for item in kept]
        found = dict.fromkeys(flat.sources[bit] for bit in self.cone if bit in flat.sources)
        self.boxes = [box for box in flat.boxes if box in found]
        self.outputs = {flat.outputs[text]: text for kind, text in kept if kind == "output"}
        self.states = [text for kind, text in kept if kind == "next"]
        self.used = {*inputs, *self.states, *self.outputs.values(),
                     *(box.path for box in self.boxes)}
        self.names: Dict[Any, str] = {}
        self.lines: List[str] = []
        self.made: List[str] = []
        self.write()

    def write(self) -> None:
        for bit in self.cone:
            driver = self.flat.sources.get(bit)
            if isinstance(driver, Cell):
                self.cell(bit, driver)
        for box in self.boxes:
            self.box(box)
        for (kind, text), value in zip(self.kept, self.values):
            self.compared(kind, text, value)

    def name(self, bit: Any) -> str:
        """How a bit is written: as the report has it where it is compared or given, else by a name
        that nothing else has."""
        if bit not in self.names:
            if bit in self.flat.given:
                text = self.flat.given[bit]
            elif bit in self.outputs:
                text = self.outputs[bit]
            else:
                text = self.fresh("_condition" if bit[1] is None else text_of(bit))
            self.names[bit] = written(text)
        return self.names[bit]

    def fresh(self, text: str) -> str:
        while text in self.used:
            text += "_"
        self.used.add(text)
        return text

    def operand(self, part: Any) -> Tuple[str, int]:
        """An operand, and how deep it nests."""
        if isinstance(part, Cell):
            text, depth = self.expression(part)
            if depth < DEEPEST:
                return f"({text})", depth + 1
            name = written(self.fresh("_part"))
            self.lines.append(f"wire {name} = {text};")
            return name, 0
        end = self.flat.end(part)
        return (end if end in CONSTANTS else self.name(end)), 0

    def expression(self, cell: Cell) -> Tuple[str, int]:
        operands = [self.operand(part) for part in cell.parts]
        texts, depth = [text for text, _ in operands], max(depth for _, depth in operands)
        if cell.word == "~":
            return f"~{texts[0]}", depth
        if cell.word == "?":
            return f"{texts[0]} ? {texts[1]} : {texts[2]}", depth + 1
        return texts[0] + "".join(f" {operator} {text}"
                                  for operator, text in zip(cell.operators, texts[1:])), depth

    def cell(self, bit: Any, cell: Cell) -> None:
        if cell.word in GATES:
            inputs = ", ".join(self.operand(part)[0] for part in cell.parts)
            self.lines.append(f"{cell.word}({self.name(bit)}, {inputs});")
        else:
            self.lines.append(f"{'assign' if bit in self.outputs else 'wire'} {self.name(bit)} = "
                              f"{self.expression(cell)[0]};")

    def box(self, box: Box) -> None:
        pins, outs, ins = [], dict(zip(box.module.pins("output"),
                                       box.outs)), dict(zip(box.module.pins("input"), box.parts))
        for port in box.module.ports:
            net = box.module.nets[port]
            whole = [(net, index) for index in net.indices()]
            if net.direction == "input":
                values = [self.operand(ins[pin])[0] for pin in whole]
            else:
                values = [self.name(outs[pin]) for pin in whole]
                nets = [outs[pin] for pin in whole if outs[pin] not in self.outputs]
                self.made += [self.names[bit] for bit in nets]
            pins.append(f".{written(port)}({{{', '.join(values)}}})" if len(values) > 1
                        else f".{written(port)}({values[0]})")
        self.lines.append(f"{written(box.module.name)} {written(box.path)}({', '.join(pins)});")

    def compared(self, kind: str, text: str, value: Any) -> None:
        if kind == "output" and self.flat.outputs[text] != value:
            self.lines.append(f"assign {written(text)} = {self.operand(value)[0]};")
        elif kind == "next":
            edge, clock, _ = self.flat.stored[self.flat.states[text]]
            self.lines.append(f"always @({edge} {self.name(self.flat.end(clock))}) {written(text)} "
                              f"<= {self.operand(value)[0]};")

    def text(self) -> str:
        top, outputs = self.flat.top, list(self.outputs.values())
        ports = ", ".join(map(written, [*self.inputs, *outputs]))
        lines = [f"module {written(top.name)}({ports});"]
        lines += [f"  input {written(text)};"
                  for text in self.inputs] + [f"  output {written(text)};" for text in outputs]
        lines += [f"  reg {written(text)};" for text in self.states] + [f"  wire {name};"
                                                                        for name in self.made]
        lines += [f"  {line}" for line in self.lines] + ["endmodule"]
        modules = dict.fromkeys(box.module for box in self.boxes)
        return "\n".join(lines + [self.flat.text[module.start:module.end]
                                  for module in modules]) + "\n"

    def counts(self, inputs: int) -> Tuple[int, int]:
        """How many cells bbeq makes of the part, and how many clauses at a vector where that has so
        many bits."""
        drivers = [self.flat.sources[bit]
                   for bit in self.cone if bit in self.flat.sources] + self.values
        counts = [driver.counts() for driver in drivers if isinstance(driver, Cell)]
        cells = 2 + inputs + sum(count for count, _ in counts) + sum(len(box.outs)
                                                                     for box in self.boxes)
        rows = sum(len(box.outs) << len(box.parts) + 1 for box in self.boxes)
        return cells, 2 + inputs + sum(count for _, count in counts) + rows + len(self.kept)
