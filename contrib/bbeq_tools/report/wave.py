"""Shows the vectors of a report in both netlists, as waves.

A report names the vector at which the implementation is wrong, and `why -o` writes several. This
script writes a testbench that applies them to both netlists, runs it by iverilog and leaves a VCD
file for a wave viewer. Registers hold the bits of a vector, and the value that each takes next is
beside it under its name with `.next`. The outputs of boxes are x. A table compares what both
netlists give, buses in hexadecimal: x is what a box leaves open."""
import os
import shutil
import subprocess
import tempfile

from bbeq_tools.cli import Fault, Output, run_script
from bbeq_tools.report.buses import grouped, hexadecimal, shown
from bbeq_tools.report.cared import why_open
from bbeq_tools.report.reports import OTHER, add_report_words, read_report, vectors, verdict
from bbeq_tools.verilog.language import bit_text, read_modules, top_of, written
from bbeq_tools.words import Words

NARROW = 4  # Buses of fewer bits are shown bit by bit.


def parse_words():
    parser = Words(prog="wave", description=__doc__.split("\n\n")[0], epilog="Needs iverilog.")
    add_report_words(parser)
    parser.add_argument("--vector", type=int, metavar="N",
                        help="which input line of the report, from 1 (otherwise all)")
    parser.add_argument("--wrong-only", action="store_true",
                        help="leave out of the table what is not wrong at any vector")
    parser.add_argument("--vcd", default="wave.vcd", metavar="FILE",
                        help="where the waves go (default wave.vcd)")
    parser.add_argument("--testbench", metavar="FOLDER",
                        help="keep the testbench and the two netlists there")
    return parser.parse_args()


def chosen(path, number):
    """The vectors with their numbers."""
    lines = read_report(path)
    found = vectors(lines)
    if not found:
        raise Fault(f"{path}: {no_vector(lines)}")
    if number is None:
        return list(enumerate(found, 1))
    if not 1 <= number <= len(found):
        raise Fault(f"{path}: the report has {len(found)} vectors, and no number {number}")
    return [(number, found[number - 1])]


def no_vector(lines):
    """Why a report shows no vector."""
    if verdict(lines) != "error":
        return (f"the verdict is {verdict(lines)}{why_open(lines)}, so there is no wrong vector to "
                "show")
    if "rung output none" in lines:
        return ("the report shows no vector, since no single one is wrong whatever the boxes give: "
                "`why` shows several that are wrong together")
    return ("the report shows no vector, since the checks that show one were left out: bbeq with "
            "`--to output` may find one, and `why` shows vectors that are wrong together")


class Side:
    """One of the two netlists: its copy for the testbench, and how its bits are reached there."""

    def __init__(self, side, path, top):
        self.side = side
        self.text, self.modules = read_modules(path)
        self.top = top_of(path, self.modules, top)
        self.registers, self.nexts = {}, {}
        self.walk(self.top, side, "")

    def bits(self, direction):
        return {bit_text(net.name, index): net for net, index in self.top.pins(direction)}

    def walk(self, module, scope, path):
        """Finds the registers below an instance, by their texts."""
        for number, register in enumerate(module.registers):
            bits = module.left_bits(register.left)
            for at, (name, index) in enumerate(bits):
                text = bit_text(f"{path}.{name}" if path else name, index)
                self.registers[text] = f"{scope}.{bit_text(written(name), index)}"
                self.nexts[
                    text] = f"{scope}.{written(next_name(bits, number))}[{len(bits) - 1 - at}]"
        for instance in module.instances:
            if instance.module not in self.modules:
                raise Fault(f"line {instance.token.line}: there is no module {instance.module}")
            self.walk(self.modules[instance.module], f"{scope}.{written(instance.name)}",
                      f"{path}.{instance.name}" if path else instance.name)

    def copy(self):
        """The text with its modules' names changed, its boxes giving x, and what each register
        takes next as a net."""
        edits = []
        for module in self.modules.values():
            edits.append((module.token.start, module.token.end, self.named(module.name)))
            edits += {(instance.token.start, instance.token.end, self.named(instance.module))
                      for instance in module.instances}
            for number, register in enumerate(module.registers):
                edits.append((*register.place, self.next_line(module, number, register)))
            if module.is_box():
                end = module.end - len("endmodule")
                edits.append((end, end, "".join(unknown(net) for net in module.nets.values()
                                                if net.direction == "output")))
        text, place = [], 0
        for start, end, new in sorted(edits):
            text += [self.text[place:start], new]
            place = end
        return "".join(text) + self.text[place:]

    def named(self, module):
        return written(f"{self.side}_{module}")

    def next_line(self, module, number, register):
        bits = module.left_bits(register.left)
        value = self.text[slice(*register.value_place)]
        return f"wire [{len(bits) - 1}:0] {written(next_name(bits, number))}= {value} ;"

    def instance(self):
        pins = []
        for port in self.top.ports:
            net = self.top.nets[port]
            if net.direction == "input":
                bits = [written(bit_text(port, index)) for index in net.indices()]
                pins.append(f".{written(port)}({{{', '.join(bits)}}})")
            else:
                pins.append(f".{written(port)}({written(f'{port}_{self.side}')})")
        return f"  {self.named(self.top.name)} {self.side}({', '.join(pins)});"

    def output_nets(self):
        for port in self.top.ports:
            net = self.top.nets[port]
            if net.direction == "output":
                yield f"  wire {bounds(net)}{written(f'{port}_{self.side}')};"

    def outputs(self):
        """How each output bit is reached, by its text."""
        return {text: self.output(net, text) for text, net in self.bits("output").items()}

    def output(self, net, text):
        return written(f"{net.name}_{self.side}") + text[len(net.name):]


def next_name(bits, number):
    """The net that shows what a register takes next; parts of one register get a number each."""
    names = dict.fromkeys(name for name, _ in bits)
    return f"{'_'.join(names)}.next" + (f".{number}" if len(bits) == 1 and bits[0][1] is not None
                                        or len(names) > 1 else "")


def unknown(net):
    return ("" if net.kind == "reg"
            else f"assign {written(net.name)} = {{{len(net.indices())}{{1'bx}}}}; ")


def bounds(net):
    return f"[{net.range[0]}:{net.range[1]}] " if net.range else ""


def check_names(vector, spec, impl):
    """The vector has a bit for each input and each register of both, and for nothing else."""
    for side in (spec, impl):
        names = [*side.bits("input"), *side.registers]
        for name in names:
            if name not in vector:
                raise Fault(f"the report gives no bit to {name}; {OTHER}")
        for name in vector:
            if name not in names:
                raise Fault(f"the report gives a bit to {name}, which one of the netlists "
                            f"lacks; {OTHER}")


def testbench(found, spec, impl, vcd):
    """The text of the testbench: nothing is driven up to time 10, and then each vector in turn."""
    yield "`timescale 1ns/1ns"
    yield "module testbench;"
    for name in spec.bits("input"):
        yield f"  reg {written(name)};"
    for port in spec.top.ports:
        net = spec.top.nets[port]
        if net.direction == "input" and net.range:
            bits = ", ".join(written(bit_text(port, index)) for index in net.indices())
            yield f"  wire {bounds(net)}{written(port)} = {{{bits}}};"
    for side in (spec, impl):
        yield from side.output_nets()
        yield side.instance()
    yield "  initial begin"
    yield '    $dumpfile("' + vcd.replace("\\", "\\\\").replace('"', '\\"') + '");'
    yield "    $dumpvars(0, testbench);"
    yield "    #10;"
    for vector in found:
        yield from applied(vector, spec, impl)
    yield "    $finish;"
    yield "  end"
    yield "endmodule"


def applied(vector, spec, impl):
    """Applies a vector for 20 ns, and prints what both give in the middle."""
    for name, bit in vector.items():
        for place in [written(name)] if name not in spec.registers else [spec.registers[name],
                                                                         impl.registers[name]]:
            yield f"    {place} = 1'b{bit};"
    yield "    #10;"
    pairs = [("output", name, place, impl.outputs()[name])
             for name, place in spec.outputs().items() if name in impl.outputs()]
    pairs += [("next", name, place, impl.nexts[name]) for name, place in spec.nexts.items()]
    for kind, name, left, right in pairs:
        shown_name = name.replace("\\", "\\\\").replace("%", "%%").replace('"', '\\"')
        yield f'    $display("{kind} {shown_name} %b %b", {left}, {right});'
    yield '    $display("end");'
    yield "    #10;"


def simulate(folder, spec, impl, found, vcd):
    """Runs the testbench; gives the lines for each vector, and the waves."""
    files = {"spec.v": spec.copy(), "impl.v": impl.copy(),
             "testbench.v": "\n".join(testbench(found, spec, impl, vcd)) + "\n"}
    for name, text in files.items():
        with open(os.path.join(folder, name), "w", encoding="latin-1") as file:
            file.write(text)
    paths = [os.path.join(folder, name) for name in files]
    program = os.path.join(folder, "testbench.vvp")
    run(["iverilog", "-g2005", "-s", "testbench", "-o", program, *paths])
    blocks = [[]]
    for line in run(["vvp", "-n", program]).splitlines():
        if line == "end":
            blocks.append([])
        else:
            blocks[-1].append(line)
    with open(vcd, encoding="latin-1") as file:
        return blocks[:len(found)], file.read()


def run(command):
    done = subprocess.run(command, capture_output=True, text=True, errors="replace", check=False)
    if done.returncode:
        raise Fault(f"{command[0]}: {(done.stderr + done.stdout).strip().splitlines()[0]}")
    return done.stdout


def compared(lines, check, wrong):
    """What both give, by kind and name. What the report calls wrong, if it names something, may not
    have a known bit that both give; where no check shows the vector, it is one of several."""
    rows = {(kind, name): (left, right) for kind, name, left, right in
            (line.split(" ") for line in lines if line.startswith(("output ", "next ")))}
    suspects = [bits for key, bits in rows.items() if wrong in (None, key)]
    if not suspects:
        raise Fault(f"the report names {' '.join(wrong)}, which the netlists lack; {OTHER}")
    if check and all(left == right and left in ("0", "1") for left, right in suspects):
        named = f"for {' '.join(wrong)} " if wrong else ""
        raise Fault(f"both netlists give the same {named}at this vector; {OTHER}")
    return rows


def is_wrong(left, right):
    return left != right and not set(left + right) - {"0", "1"}


def bus_rows(rows):
    """For each bus, or bit of one that is narrow, its bits in the specification and the
    implementation, at each vector."""
    for kind in ("output", "next"):
        names = [name for own, name in rows[0] if own == kind]
        for name, texts in grouped(names, NARROW):
            yield kind, name, texts, [tuple("".join(at[kind, text][side] for text in texts)
                                            for side in (0, 1)) for at in rows]


def show(rows, named, wrong_only, by_check):
    """A line for each output and each register, with what is wrong marked; x is what a box leaves
    open. Several vectors are side by side. Where nothing is marked, that is said, with what shows
    more where a check gave the vectors; no table is left empty."""
    table = [["", *["spec", "impl"] * len(rows), ""]]
    if len(rows) > 1:
        table.insert(0, ["", *[word for number in range(1, len(rows) + 1)
                               for word in (str(number), "")], ""])
    for kind, name, texts, values in bus_rows(rows):
        at = [number for number, bits in enumerate(values, 1)
              if any(is_wrong(*pair) for pair in zip(*bits))]
        told = [f"{text}" for own, text in named if own == kind and text in texts]
        note = "wrong" + (f" at {', '.join(map(str, at))}" if len(rows) > 1 else "") if at else ""
        if told:
            note += "  (named by the report" + (f": {told[0]})" if len(texts) > 1 else ")")
        if at or told or not wrong_only:
            table.append([f"{kind} {name}", *[hexadecimal(side) if len(texts) > 1 else side
                                              for bits in values for side in bits], note])
    widths = [max(len(word) for word in column) for column in zip(*table)]
    for line in table if any(line[0] for line in table) else ():
        print("  ".join(word.ljust(width) for word, width in zip(line, widths)).rstrip())
    if not any(line[-1] for line in table):
        print("No bit is wrong by itself; "
              + ("`why` shows which cannot be right together." if by_check else
                 "no contents of the boxes are right at all of the vectors that `why` shows."))


def command():
    words = parse_words()
    output = Output(words.vcd, [words.report, words.specification, words.implementation])
    found = chosen(words.report, words.vector)
    spec = Side("spec", words.specification, words.top_spec)
    impl = Side("impl", words.implementation, words.top_impl)
    for _, (_, _, vector) in found:
        check_names(vector, spec, impl)
    for tool in ("iverilog", "vvp"):
        if not shutil.which(tool):
            raise Fault(f"{tool} is not installed (Debian: apt-get install iverilog)")
    with tempfile.TemporaryDirectory(prefix="wave") as folder:
        if words.testbench:
            os.makedirs(words.testbench, exist_ok=True)
        blocks, waves = simulate(words.testbench or folder, spec, impl,
                                 [vector for _, (_, _, vector) in found],
                                 os.path.join(folder, "wave.vcd"))
    rows = [compared(lines, check, wrong) for lines, (_, (check, wrong, _)) in zip(blocks, found)]
    output.write(waves)
    tell_vectors(words.vcd, found)
    show(rows, [wrong for _, (_, wrong, _) in found if wrong], words.wrong_only,
         any(check for _, (check, _, _) in found))


def tell_vectors(path, found):
    """Which vectors there are, and from which time on."""
    for place, (number, (check, _, vector)) in enumerate(found):
        source = f"that the check {check} shows" if check else f"{number} of the report"
        print(f"{path} has the vector {source}, from time {10 + 20 * place} on.")
        print(f"input {shown(vector)}")


def main():
    run_script("wave", command)
