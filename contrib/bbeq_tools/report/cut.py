"""A netlist with some of its outputs and registers left out. What is left out of the outputs is a
net like others; a register bit whose next state is left out is an input. Bits keep the texts by
which bbeq pairs them."""
from typing import Any, Callable, Dict, List, Set, Tuple

from bbeq_tools.cli import Fault
from bbeq_tools.verilog.language import (Expression, Index, Module, Net, Register, bit_text,
                                         written)

Bit = Tuple[str, Index]


def compared(path: str, top: Module) -> Tuple[List[Bit], List[Bit]]:
    """What is compared of a netlist, by kind: the bits of its outputs, and those of its registers,
    as (net, index)."""
    if top is None or any(instance.module == top.name for instance in top.instances):
        raise Fault(f"{path}: the top is instantiated")
    outputs = [(net.name, index) for net, index in top.pins("output")]
    registers = dict.fromkeys(bit for register in top.registers
                              for bit in top.left_bits(register.left))
    return outputs, [bit for net in top.nets.values()
                     for index in net.indices() if (bit := (net.name, index)) in registers]


class Cut:
    """The text of a netlist in which these outputs and next states alone are compared."""

    def __init__(self, path: str, text: str, modules: Dict[str, Module], top: Module) -> None:
        self.path, self.text, self.top = path, text, top
        self.outputs, self.registers = compared(path, top)
        below = {instance.module for instance in top.instances if instance.module in modules}
        if any(modules[name].registers for name in below):
            raise Fault(f"{path}: an instance has registers of its own; give texts that `gates` "
                        "made, which are flat")

    def with_outputs(self, kept: Set[Tuple[str, str]], extra: Any = None) -> str:
        """`kept` has pairs of a kind, `output` or `next`, and a text of a bit; `extra` may be an
        output more and the lines that make it."""
        nexts = {bit for bit in self.registers if ("next", bit_text(*bit)) in kept}
        wanted = [bit for bit in self.outputs if ("output", bit_text(*bit)) in kept
                  and (bit not in self.registers or bit in nexts)]
        ports, lines = self.ports(nexts, wanted)
        if extra:
            ports.append(extra[0])
            lines += [f"output {extra[0]};", *extra[1]]
        body, place = [], self.top.header_end
        edits = [(start, end, "") for start, end in self.top.port_items + self.top.reg_items]
        edits += [(*register.place, self.clocked(number, register, nexts))
                  for number, register in enumerate(self.top.registers)]
        for start, end, new in sorted(edits):
            body += [self.text[place:start], new]
            place = end
        header = (f"module {written(self.top.name)}({', '.join(ports)});\n"
                  + "".join(f"  {line}\n" for line in lines))
        return self.text[:self.top.start] + header + "".join(body) + self.text[place:]

    def ports(self, nexts: Set[Bit], wanted: List[Bit]) -> Tuple[List[str], List[str]]:
        """The ports of the header, and the declarations that stand behind it."""
        ports, lines = [], []

        def port(direction: str, name: str, shape: str = '') -> None:
            ports.append(name)
            lines.append(f"{direction} {shape}{name};")

        # In the order of the text, which `gates` chose: a set would vary from run to run.
        stored = list(dict.fromkeys(name for name, _ in self.registers))
        for name in self.top.ports:
            net = self.top.nets[name]
            if net.direction == "input":
                port("input", written(name), bounds(net))
        for name in stored:
            net = self.top.nets[name]
            lines.append(f"wire {bounds(net)}{written(name)};")
            bits = []
            for index in net.indices():
                bit = (name, index)
                own = f"{bit_text(name, index)}"
                bits.append(written(own))
                if net.range and bit in self.registers and bit not in nexts:
                    port("input", written(own))
                elif net.range:
                    lines.append(f"reg {written(own)};")
            if net.range:
                lines.append(f"assign {written(name)} = {{{', '.join(bits)}}};")
            else:
                lines.pop()
                if (name, None) in nexts:
                    lines.append(f"reg {written(name)};")
                else:
                    port("input", written(name))
        for net in self.top.nets.values():
            if net.direction == "output" and net.name not in stored:
                lines.append(f"wire {bounds(net)}{written(net.name)};")
        for name, index in wanted:
            self.output(name, index, stored, port, lines)
        return ports, lines

    def output(self, name: str, index: Index, stored: List[str], port: Callable[..., None],
               lines: List[str]) -> None:
        """An output of one bit. That of a register, or of a net without a range, is the net of that
        name itself."""
        own = written(bit_text(name, index))
        if index is None or name in stored:
            lines[:] = [line for line in lines if line != f"wire {own};"]
            port("output", own)
        else:
            port("output", own)
            lines.append(f"assign {own} = {written(name)}[{index}];")

    def clocked(self, number: int, register: Register, nexts: Set[Bit]) -> str:
        """The clocked assignment bit by bit, of those that are kept."""
        bits = self.top.left_bits(register.left)
        if not set(bits) & nexts:
            return ""
        value = self.text[slice(*register.value_place)]
        data, width = f"_next_{number}_", len(bits)
        while data in self.top.nets:
            data += "_"
        # A blank ends an escaped name.
        lines = [f"wire [{width - 1}:0] {data};", f"assign {data} = {value} ;"]
        clock = spelt(register.clock)
        for place, bit in enumerate(bits):
            if bit in nexts:
                lines.append(f"always @({register.edge} {clock}) {written(bit_text(*bit))} <= "
                             f"{data}[{width - 1 - place}];")
        return "\n  ".join(lines)


def bounds(net: Net) -> str:
    return f"[{net.range[0]}:{net.range[1]}] " if net.range else ""


def spelt(clock: Expression) -> str:
    """A clock as it is written: a net, or one bit of it."""
    _, name, select = clock
    return written(name) if select is None else f"{written(name)}[{select[0]}]"
