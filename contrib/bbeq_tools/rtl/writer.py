"""Writes the netlist of `gates` as text of bbeq's language."""
import os
import re
from itertools import groupby

from bbeq_tools.cli import Fault
from bbeq_tools.rtl.arrangement import Arrangement
from bbeq_tools.rtl.marks import MARK
from bbeq_tools.rtl.netlist import EDGES, FOLDS, GATES, SUMS, WORDS
from bbeq_tools.rtl.sources import UNKNOWN, place
from bbeq_tools.verilog.language import written

MOST_DIGITS = 128  # Of a number, as bbeq reads it.


def counted(number, noun, plural=None):
    return f"{number} {noun if number == 1 else plural or noun + 's'}"


def shown(file):
    """The name of a file in a comment of one line."""
    name = "standard input" if file == "-" else os.path.basename(file)
    return name.encode("utf-8", "backslashreplace").decode().encode("unicode_escape"
                                                                    if not name.isprintable()
                                                                    else "utf-8").decode()


def spoken(name):
    """The name of a net in a message; yosys has nets of its own for the results of functions."""
    result = re.fullmatch(r"(?:.*\.)?(\w+)\$func\$.*\.\$result", name)
    return f"the result of function {result.group(1)}" if result else name


class Writer:
    """Writes the text of a netlist. `memories` has for each memory of the source, by its path, its
    place and its first and last word."""

    def __init__(self, netlist, keep_order, memories=None):
        self.net, self.declared, self.fresh = netlist, {}, {}
        self.memories = memories or {}
        self.names = set(netlist.nets) | set(netlist.boxes)
        self.placed = Arrangement(netlist, keep_order)
        self.registers, self.split, self.index = (self.placed.registers, self.placed.split,
                                                  netlist.index)

    def is_scalar(self, name):
        net = self.net.nets[name]
        return len(net["bits"]) == 1 and not net.get("offset") and not net.get("upto")

    def range_of(self, name):
        if self.is_scalar(name):
            return ""
        last = len(self.net.nets[name]["bits"]) - 1
        return f"[{self.index(name, last)}:{self.index(name, 0)}] "

    def spelt(self, name):
        """A net's name in the text; one that yosys made up becomes a running number."""
        if not self.net.nets[name]["hide_name"]:
            return written(name)
        if name not in self.fresh:
            number = len(self.fresh)
            while f"_{number}_" in self.names:
                number += 1
            self.names.add(f"_{number}_")
            self.fresh[name] = f"_{number}_"
        return self.fresh[name]

    def bit(self, bit, reader="the design", source=UNKNOWN):
        """A bit as it is read; the reader, a net's bit or a text, and the source line are for what
        is told of it."""
        if bit in ("0", "1"):
            return f"1'b{bit}"
        if bit == "z":
            raise Fault(f"{source}: a tri-state (z) has no gates ({self.told(reader)})")
        if bit == "x" or (bit not in self.net.driver and bit not in self.net.input_bits):
            return self.undefined(bit, reader, source)
        return self.target(bit)

    def told(self, reader):
        return reader if isinstance(reader, str) else self.net.describe(reader)

    def undefined(self, bit, reader, source):
        if self.net.undef in ("0", "1"):
            return f"1'b{self.net.undef}"
        reader = self.told(reader)
        if bit == "x" or self.net.describe(bit).endswith(MARK[1:]):
            if self.net.undef:  # The output that is added is 0 where this bit counts.
                return "1'b0"
            if source == UNKNOWN:
                raise Fault("a value is undefined (x) somewhere, as where an index can go beyond "
                            "its range; --undef 0 or --undef 1 chooses a bit for it")
            what = "" if reader.startswith("$") or " $" in reader else f" ({reader})"
            raise Fault(f"{source}: a value is undefined (x) here{what}; --undef 0 or --undef 1 "
                        "chooses a bit for it")
        name = self.net.describe(bit)
        read = re.fullmatch(r"\$memory\\(.+)\$rdmux\[.*", name)
        if read and read.group(1) in self.memories:
            raise Fault(self.no_word(read.group(1)))
        source = place(self.net.nets[name]["attributes"], source)
        raise Fault(f"{source}: {spoken(name)} is read and has no driver; where it is still to be "
                    "written, an empty module in its "
                    "place is a box; else --undef 0 or --undef 1 chooses a bit for it")

    def no_word(self, name):
        source, first, last = self.memories[name]
        return (f"{source}: memory {name} has words {first} to {last}, and its address can name "
                f"others; declare it as [0:{(1 << last.bit_length()) - 1}], or --undef 0 or "
                "--undef 1 chooses the bits that the others read")

    def target(self, bit):
        """A bit as it is written or read, once it is known to be driven."""
        name, position = self.net.name_of[bit]
        if (name, position) in self.split:
            return written(f"{name}[{self.index(name, position)}]")
        self.declared.setdefault(name)
        return (self.spelt(name) if self.is_scalar(name)
                else f"{self.spelt(name)}[{self.index(name, position)}]")

    def bits(self, bits, reader="the design", source=UNKNOWN):
        """Several bits, the rightmost of them first in `bits`: a net, a bit, or a concatenation."""
        name, _ = self.net.name_of.get(bits[0], (None, 0))
        if (len(bits) > 1 and name and bits == self.net.nets[name]["bits"]
            and all(self.net.name_of[bit] == (name, position)
                    and (bit in self.net.driver or bit in self.net.input_bits)
                    and (name, position) not in self.split for position, bit in enumerate(bits))):
            self.declared.setdefault(name)
            return self.spelt(name)
        parts = [self.bit(bit, reader, source) for bit in reversed(bits)]
        return parts[0] if len(parts) == 1 else "{" + ", ".join(parts) + "}"

    def parts(self, bits, reader, source):
        """Several bits, the leftmost first: nets and runs of their bits as (name, first position,
        last position), and runs of constants as digits."""
        found = []
        for bit in reversed(bits):
            text = self.bit(bit, reader, source)
            if text.startswith("1'b"):
                if found and isinstance(found[-1], str) and len(found[-1]) < MOST_DIGITS:
                    found[-1] += text[-1]
                else:
                    found.append(text[-1])
                continue
            name, position = self.net.name_of[bit]
            if (found and not isinstance(found[-1], str) and found[-1][0] == name and found[-1][2]
                    == position + 1 and not {(name, position), (name, position + 1)} & self.split):
                found[-1] = name, found[-1][1], position
            else:
                found.append((name, position, position))
        return found

    def run(self, name, first, last):
        """Bits of a net that stand side by side."""
        is_whole = (first, last) == (len(self.net.nets[name]["bits"]) - 1, 0)
        if is_whole and not self.is_scalar(name) and (name, first) not in self.split:
            return self.spelt(name)
        if first != last:
            return f"{self.spelt(name)}[{self.index(name, first)}:{self.index(name, last)}]"
        return self.target(self.net.nets[name]["bits"][first])

    def word(self, bits, reader="the design", source=UNKNOWN):
        """Several bits as an operand or as a result: a net or bits of one, a number, or a
        concatenation."""
        parts = [f"{len(part)}'h{int(part, 2):x}" if isinstance(part, str) else self.run(*part)
                 for part in self.parts(bits, reader, source)]
        return parts[0] if len(parts) == 1 else "{" + ", ".join(parts) + "}"

    def operation(self, cell):
        """An operator on words. Its result is assigned at its own width, to which narrower operands
        are filled with zeros; of wider ones of a sum or a shift to the left the highest bits do not
        count."""
        pins, source, kind = cell["connections"], place(cell["attributes"]), cell["type"]
        most = len(pins["Y"]) if kind in SUMS or WORDS.get(kind) == "<<" else None
        left = self.word(pins["A"][:most], pins["Y"][0], source)
        if kind in FOLDS:
            return f"assign {self.word(pins['Y'])} = {FOLDS[kind]}{left};"
        right = self.word(pins["B"][:most if kind in SUMS else None], pins["Y"][0], source)
        return f"assign {self.word(pins['Y'])} = {left} {WORDS[kind]} {right};"

    def gate(self, key):
        cell = self.net.cells[key]
        if key in self.net.words:
            return self.operation(cell)
        pins, source = cell["connections"], place(cell["attributes"])
        output = self.target(pins["Y"][0])
        read = {pin: self.bit(bits[0], pins["Y"][0], source)
                for pin, bits in pins.items() if pin != "Y"}
        if cell["type"] in GATES:
            return f"{GATES[cell['type']]}({output}, {read['A']}, {read['B']});"
        if cell["type"] == "$_MUX_":
            return f"assign {output} = {read['S']} ? {read['B']} : {read['A']};"
        if cell["type"] == "$_NMUX_":
            return f"assign {output} = ~({read['S']} ? {read['B']} : {read['A']});"
        if cell["type"] in ("$_ANDNOT_", "$_ORNOT_"):
            return (f"assign {output} = {read['A']} "
                    f"{'&' if cell['type'] == '$_ANDNOT_' else '|'} ~{read['B']};")
        return f"{'not' if cell['type'] == '$_NOT_' else 'buf'}({output}, {read['A']});"

    def box(self, key, module_names):
        cell = self.net.cells[key]
        ports, pins = self.net.modules[cell["type"]]["ports"], []
        for port, shape in ports.items():
            bits = cell["connections"].get(port, [])
            if bits and len(bits) != len(shape["bits"]):
                raise Fault(f"{place(cell['attributes'])}: port {port} of box {key} has "
                            f"{len(shape['bits'])} bits, and {len(bits)} are connected")
            if shape["direction"] == "input":
                value = self.bits(bits, f"{port} of box {key}",
                                  place(cell["attributes"])) if bits else self.open_pin(key, port)
            else:
                value = self.pins_out(bits) if bits else ""
            pins.append(f".{written(port)}({value})")
        return f"{written(module_names[cell['type']])} {written(key)}({', '.join(pins)});"

    def open_pin(self, key, port):
        raise Fault(f"{place(self.net.cells[key]['attributes'])}: input {port} of box {key} is "
                    "open; connect it")

    def pins_out(self, bits):
        parts = [self.target(bit) for bit in reversed(bits)]
        return self.bits(bits) if len(parts) > 1 else parts[0]

    def clock(self, key):
        cell = self.net.cells[key]
        bit = cell["connections"]["C"][0]
        if bit not in self.net.input_bits:
            register = self.net.name_of[self.net.driven(cell)][0]
            raise Fault(f"{place(cell['attributes'])}: register {register} has the clock "
                        f"{self.net.describe(bit)}, which is no input of the top")
        return EDGES[cell["type"]], self.target(bit)

    def register_lines(self, name):
        """The clocked assignments of one net: a single one where all its bits have one clock and no
        net of their own."""
        bits = sorted(self.registers[name].items(), reverse=True)
        clocks = {self.clock(key) for _, key in bits}
        whole = len(clocks) == 1 and not any((name, position) in self.split for position, _ in bits)
        for group in ([bits] if whole else [[bit] for bit in bits]):
            edge, clock = self.clock(group[0][1])
            cells = [self.net.cells[key] for _, key in group]
            left = self.spelt(name) if whole else self.target(self.net.driven(cells[0]))
            self.declared.setdefault(name)
            data = self.bits([cell["connections"]["D"][0] for cell in reversed(cells)],
                             f"the next {name}", place(cells[0]["attributes"]))
            yield f"always @({edge} {clock}) {left} <= {data};"

    def output_lines(self, port):
        """The assignments of those bits of an output that go by another name."""
        bits = self.net.ports[port]["bits"]
        source = place(self.net.nets[port]["attributes"])
        others = [position for position, bit in enumerate(bits)
                  if self.net.name_of.get(bit) != (port, position) or bit not in self.net.driver
                  or (port, position) in self.split]
        if len(others) == len(bits):
            yield f"assign {written(port)} = {self.bits(bits, port, source)};"
            return
        for position in others:
            yield (f"assign {written(port)}[{self.index(port, position)}] = "
                   f"{self.bit(bits[position], port, source)};")

    def body(self, module_names):
        lines = [self.gate(key) for key in self.net.order]
        lines += [self.box(key, module_names) for key in self.net.boxes]
        for name in self.registers:
            lines += self.register_lines(name)
        for port, shape in self.net.ports.items():
            if shape["direction"] == "output":
                lines += self.output_lines(port)
        return lines

    def part(self, name, position):
        """A net as it is declared, or a bit that has a net of its own."""
        return (self.spelt(name) if position is None
                else written(f"{name}[{self.index(name, position)}]"))

    def declarations(self):
        for port, position in self.placed.ports:
            shape = self.range_of(port) if position is None else ""
            yield f"{self.net.ports[port]['direction']} {shape}{self.part(port, position)};"
        for (name,
             is_whole), states in groupby(self.placed.states, lambda state: (state[0],
                                                                             state[1] is None)):
            names = ", ".join(self.part(*state) for state in states)
            yield f"reg {self.range_of(name) if is_whole else ''}{names};"
        for name in self.declared:
            kept = self.registers.get(name)
            if name not in self.net.ports and (not kept or any((name, position) in self.split
                                                               for position in kept)):
                yield f"wire {self.range_of(name)}{self.spelt(name)};"

    def text(self, files):
        module_names = self.box_names()
        body = self.body(module_names)
        words = sum(key in self.net.words for key in self.net.order)
        operators = [counted(words, "operator on words", "operators on words")] * (words > 0)
        count = ", ".join((counted(len(self.net.order) - words, "gate"), *operators,
                           counted(len(self.net.live_flops), "register bit"),
                           counted(len(self.net.boxes), "box", "boxes")))
        yield f"// {self.net.name}, made by gates from {', '.join(map(shown, files))}: {count}."
        if self.placed.ports != [(port, None) for port in self.net.ports]:
            yield ("// Ports stand in an order for bbeq's diagrams, bit by bit where it wants "
                   "that; --keep-order leaves them.")
        ports = ", ".join(self.part(*port) for port in self.placed.ports)
        yield f"module {written(self.net.name)}({ports});"
        for line in [*self.declarations(), *body]:
            yield "  " + line
        yield "endmodule"
        for kind, name in module_names.items():
            ports = self.net.modules[kind]["ports"]
            yield ""
            yield f"module {written(name)}({', '.join(written(port) for port in ports)});"
            for port, shape in ports.items():
                yield f"  {shape['direction']} {self.port_range(shape)}{written(port)};"
            yield "endmodule"

    def too_many(self, most):
        """What is told where inputs, registers and pins of boxes are together more than bbeq takes:
        their numbers, the greatest first."""
        inputs = sum(len(shape["bits"])
                     for shape in self.net.ports.values() if shape["direction"] == "input")
        parts = [(len(bits), f"register {name}") for name, bits in self.registers.items()]
        parts += [(len(self.net.inputs(cell)) + len(self.net.outputs(cell)), f"pins of box {key}")
                  for key, cell in self.net.boxes.items()]
        total = inputs + sum(count for count, _ in parts)
        if total > most:
            yield (f"warning: inputs, registers and pins of boxes are {total} bits, and bbeq takes "
                   f"at most {most}: {inputs} of inputs")
            for count, what in sorted(parts, key=lambda part: -part[0]):
                yield f"warning: {counted(count, 'bit')}: {what}"

    def port_range(self, shape):
        width, offset = len(shape["bits"]), shape.get("offset", 0)
        if width == 1 and not offset and not shape.get("upto"):
            return ""
        first, last = offset + width - 1, offset
        return f"[{last}:{first}] " if shape.get("upto") else f"[{first}:{last}] "

    def box_names(self):
        """A name for each module of a box: its own, with a number where its parameters make several
        of it."""
        names, used = {}, {self.net.name}
        for cell in self.net.boxes.values():
            if cell["type"] in names:
                continue
            own = self.net.modules[cell["type"]]["attributes"].get("hdlname", cell["type"]).lstrip(
                "\\").split(" ")[-1]
            name, number = own, 1
            while name in used:
                number += 1
                name = f"{own}_{number}"
            used.add(name)
            names[cell["type"]] = name
        return names
