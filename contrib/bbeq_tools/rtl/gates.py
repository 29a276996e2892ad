"""Turns RTL, or a netlist that bbeq refuses, into text of bbeq's language, by yosys.

bbeq reads gates, assignments and flip-flops; designers write much more. This script has yosys
elaborate the design, flatten it and map it to gates with two inputs, and then writes these itself,
so that what bbeq pairs by name stays: the ports, each register by the name that it has in the
source, and each module without content as a box. No register is added or merged, and only the
variables of loops are left out."""
import re
import shutil
import sys
import tempfile

from bbeq_tools.cli import Fault, Output, run_script
from bbeq_tools.rtl.marks import (mark_modules, mark_undefined, mark_words, name_stored,
                                  register_ports)
from bbeq_tools.rtl.netlist import Netlist
from bbeq_tools.rtl.sources import UNKNOWN, Sources, load, natural, place, run_yosys
from bbeq_tools.rtl.undefined import ADDED, add_care
from bbeq_tools.rtl.writer import Writer
from bbeq_tools.words import Words

LATCHES = ("$dlatch", "$adlatch", "$dlatchsr", "$sr", "$_DLATCH", "$_SR_")
RESETS = ("$adff", "$adffe", "$aldff", "$aldffe", "$dffsr", "$dffsre")
RESET_GATES = re.compile(r"\$_(DFF_[PN][PN][01]|DFFE_[PN][PN][01][PN]|ALDFFE?_|DFFSRE?_)")
RESET = "a flip-flop with asynchronous set or reset has no gates"
MOST_INPUTS = 2048  # Inputs, registers and pins of boxes together, in bbeq.
# Where undefined values of the source are marked, one that is left in a multiplexer stands for a
# case that cannot come. Each register's own net is marked while it is still the one that the
# flip-flop writes, before flattening joins it with others.
PROCESS = """read_rtlil "{folder}/marked.il"
proc -norom
opt_expr -mux_undef t:$mux t:$pmux
{stored}
setattr -set bbeq_register 1 t:$*dff* %co1:+[Q] t:$*dff* %d t:$*DFF* %co1:+[Q] t:$*DFF* %d
write_rtlil "{folder}/read.il"
"""
MAP = """read_rtlil "{folder}/boxed.il"
hierarchy -top {top}
setattr -mod -unset keep_hierarchy *
flatten
setattr -unset init w:*
{before}memory_collect
memory_map
setattr -set bbeq_register 1 t:$dff {others}%co1:+[Q] t:$dff %d
setattr -unset init w:*
dffunmap
opt_expr -keepdc
{words}techmap
simplemap
opt_expr -keepdc
opt_merge t:$_AND_ t:$_OR_ t:$_XOR_ t:$_NOT_ t:$_MUX_ t:$_NAND_ t:$_NOR_ t:$_XNOR_
write_json "{folder}/mapped.json"
"""

# Operators on words are narrowed to the bits that something reads, and then called so that no later
# step takes them for its own. Of what an index is made the constant bits have to be seen: they tell
# which bits beyond a range are never read.
WORDS = """wreduce {kinds}
select -set index t:$shift t:$shiftx
select -set above @index %ci1:+[B] @index %d
setattr -set bbeq_index 1 @above %ci*:-$dff
write_rtlil "{folder}/words.il"
"""
NARROWED = "add sub lt le gt ge eq ne shl shr"
LEFT = """read_rtlil "{folder}/left.il"
"""


def parse_words():
    parser = Words(prog="gates", description=__doc__.split("\n\n")[0], epilog="Needs yosys. A "
                   "latch, a flip-flop with asynchronous set or reset, a tri-state, an inout port "
                   "and a clock that is no input are named with their source line.")
    parser.add_argument("files", nargs="+", metavar="FILE", help="Verilog, or SystemVerilog where "
                        "the name ends in .sv; - is standard input")
    parser.add_argument("-o", "--output", metavar="OUT",
                        help="where to write (otherwise standard output)")
    parser.add_argument("--top",
                        help="the top module (otherwise the one that no module instantiates)")
    parser.add_argument("--cells", action="append", default=[], metavar="FILE",
                        help="models of the cells of a netlist: a register in one goes by the name "
                        "of the net that the cell drives (needs --top)")
    parser.add_argument("--undef", choices=("0", "1", *ADDED), help="the bit that stands for "
                        "an undefined value (x) or an undriven net; or `care`: of a specification "
                        "an output more that is 0 where an undefined value reaches an output, for "
                        "bbeq's --care; or `invariant`: one that is 0 in states in which it may "
                        "reach an output or a register, for --invariant; without it these are "
                        "refused")
    parser.add_argument("--parameter", action="append", default=[], metavar="NAME=VALUE",
                        help="set a parameter of the top")
    parser.add_argument("--define", action="append", default=[], metavar="NAME[=VALUE]",
                        help="define a macro")
    parser.add_argument("--async", dest="asynchronous", action="store_true",
                        help="keep asynchronous set and reset: what a register NAME stores is the "
                        "register NAME.stored, and NAME has the value of the set or reset while "
                        "this is active")
    parser.add_argument("--words", action="store_true",
                        help="leave unsigned sums, differences, comparisons, shifts, reductions "
                        "and logic as operators on words, but for those of which an index is made; "
                        "signed ones are mapped to gates, and named")
    parser.add_argument("--keep-order", action="store_true", help="leave ports and registers as "
                        "they are; else those of a text without boxes stand in an order that keeps "
                        "diagrams small, bit by bit where it wants that")
    parser.add_argument("--rename", metavar="FILE", help="give ports and registers of the top "
                        "other names: a line `OLD NEW` each, as `names` writes them")
    parser.add_argument("--sv2v", action="store_true", help="have sv2v turn SystemVerilog into "
                        "Verilog first; lines are then those of what it wrote")
    parser.add_argument("--include", action="append", default=[], metavar="FOLDER",
                        help="look here for included files")
    words = parser.parse_args()
    if words.top == "":
        parser.error("--top needs the name of a module")
    for option, given in (("--parameter", words.parameter), ("--cells", words.cells)):
        if given and not words.top:
            parser.error(f"{option} needs --top")
    if words.undef in ADDED and words.words:
        parser.error(f"--undef {words.undef} is of gates, so it does not go with --words")
    if not all(re.fullmatch(r"\w+(=.*)?", macro) for macro in words.define):
        parser.error("--define needs NAME or NAME=VALUE")
    if not all(re.fullmatch(r"[^=\s]+=\S+", setting) for setting in words.parameter):
        parser.error("--parameter needs NAME=VALUE")
    return words


def is_box(module):
    """It has no cells, and each of its outputs is without a driver."""
    if module["cells"] or module.get("memories"):
        return False
    inputs = {bit for port in module["ports"].values() if port["direction"] == "input"
              for bit in port["bits"]}
    outputs = [bit for port in module["ports"].values() if port["direction"] != "input"
               for bit in port["bits"]]
    return bool(module["ports"]) and not any(isinstance(bit, str) or bit in inputs
                                             for bit in outputs)


def obstacle(kind, asynchronous):
    """What stands in the way in a cell of this kind, or None."""
    if kind.startswith(LATCHES):
        return "a latch has no gates"
    if kind in RESETS or RESET_GATES.match(kind):
        return None if asynchronous else RESET
    if kind in ("$tribuf", "$_TBUF_"):
        return "a tri-state has no gates"
    if kind in ("$ff", "$_FF_", "$anyconst", "$anyseq", "$allconst", "$allseq", "$initstate"):
        return f"{kind}, which formal tools alone read, has no gates"
    return None


def written_net(module, cell):
    """The name of the net that a cell writes, as the source has it: of several the one with the
    most bits of it."""
    ports = [port for port, direction in cell.get("port_directions", {}).items()
             if direction == "output"]
    bits = {bit for port in ports for bit in cell["connections"][port]}
    shared = {name: len(bits & set(net["bits"]))
              for name, net in module["netnames"].items() if not net["hide_name"]}
    return f" ({max(shared, key=shared.get)})" if any(shared.values()) else ""


def obstacles(modules, boxes, asynchronous):
    """The constructs that have no gates, each with its place."""
    found = []
    for name, module in modules.items():
        for port, shape in module["ports"].items():
            if shape["direction"] == "inout":
                found.append(f"{place(module['netnames'][port]['attributes'])}: an inout port "
                             f"({port}) has no gates")
        if name in boxes:
            continue
        for memory, shape in module.get("memories", {}).items():
            if shape["width"] * shape["size"] > MOST_INPUTS:
                found.append(f"{place(shape['attributes'])}: memory {memory} has "
                             f"{shape['width'] * shape['size']} bits, each of them a register, and "
                             f"bbeq takes at most {MOST_INPUTS}")
        for cell in module["cells"].values():
            what = obstacle(cell["type"], asynchronous)
            if what:
                source = place(cell["attributes"], None) or first_net_place(module, cell)
                found.append(f"{source}: {what}{written_net(module, cell)}" + "; --async keeps it"
                             * (what == RESET))
    return found


def memories(modules, name, path=""):
    """The memories of a module and of those below it: the path, and the place and the first and
    last word."""
    for memory, shape in modules[name].get("memories", {}).items():
        first = shape.get("start_offset", 0)
        yield path + memory, (place(shape["attributes"]), first, first + shape["size"] - 1)
    for inner, cell in modules[name]["cells"].items():
        if cell["type"] in modules:
            yield from memories(modules, cell["type"], f"{path}{inner}.")


def first_net_place(module, cell):
    bits = {bit for port in cell["connections"].values() for bit in port}
    places = [place(net["attributes"], None)
              for net in module["netnames"].values() if bits & set(net["bits"])]
    return next((known for known in places if known), UNKNOWN)


def conflicts(modules):
    """The nets with several drivers, each with the places of two of them."""
    found = []
    for module in modules.values():
        writers = {bit: "an input" for port in module["ports"].values()
                   if port["direction"] == "input" for bit in port["bits"]}
        for cell in module["cells"].values():
            for port, direction in cell.get("port_directions", {}).items():
                for bit in cell["connections"][port] if direction == "output" else ():
                    if bit in writers:
                        found.append(f"{place(cell['attributes'])}: the "
                                     f"net{written_net(module, cell)} has another driver, at "
                                     f"{writers[bit]}")
                    writers[bit] = place(cell["attributes"])
    return found


def rename(module, path):
    """Gives ports and nets of the top the names that a file says, a line `OLD NEW` each."""
    given = set()
    for line in read_lines(path) if path else []:
        old, new = line.split(" ") if line.count(" ") == 1 else (line, "")
        if new in given:
            raise Fault(f"{path}: {new} is given to two")
        given.add(new)
        parts = [name
                 for name in module["netnames"] if re.fullmatch(re.escape(old) + r"\[\d+\]", name)]
        if not old or not new or old not in module["netnames"] and not parts:
            raise Fault(f"{path}: `{line}` is no line of a name that is there, a blank, "
                        "and another name")
        for name in [old] if old in module["netnames"] else parts:
            rename_net(module, path, name, new + name[len(old):])


def rename_net(module, path, old, new):
    """A register that an output copies may take the output's name."""
    nets, ports = module["netnames"], module["ports"]
    if new in nets and (nets[new]["bits"] != nets[old]["bits"] or old in ports and new in ports):
        raise Fault(f"{path}: {old} cannot be called {new}, since another net is")
    net = nets.pop(old)
    if new in nets:
        nets[new]["attributes"] |= {key: value for key, value in net["attributes"].items()
                                    if key == "bbeq_register"}
    else:
        nets[new] = net
    if old in ports:
        module["ports"] = {new if port == old else port: shape for port, shape in ports.items()}


def read_lines(path):
    with open(path, encoding="utf-8", errors="surrogateescape") as file:
        return [line for line in file.read().splitlines() if line and not line.startswith("#")]


def translate(words, folder):
    """The text of the design, line by line."""
    sources = Sources(words, folder)
    modules, top = sources.modules, sources.top
    for warning in sources.warnings:
        print(f"gates: {warning}", file=sys.stderr)
    boxes = {name for name, module in modules.items() if name != top and is_box(module)}
    found = obstacles(modules, boxes, words.asynchronous) or conflicts(modules)
    if found:
        raise Fault("\n".join(sorted(set(found), key=natural)))
    if is_box(modules[top]) and words.undef is None:
        raise Fault(f"the top module, {top}, is empty, and the top is no box; put it into a "
                    "module with content")
    mark_undefined(folder)
    run_yosys(PROCESS.format(folder=folder, stored="async2sync t:$*dff* t:$*DFF*"
                             if words.asynchronous else ""), folder)
    name_stored(folder)
    mark_modules(folder, boxes, register_ports(modules, sources.cells))
    hidden = top if top.startswith("$") else "\\" + top
    # With cells, a net of a flip-flop that was there before is marked already, where it is the one
    # that names the register.
    before, others = ("setattr -set bbeq_seen 1 t:$dff\n",
                      "a:bbeq_seen %d ") if sources.cells else ("", "")
    script = MAP.format(folder=folder, top=hidden, before=before, others=others, words="{words}")
    if words.words:
        first, last = script.split("{words}")
        run_yosys(first + WORDS.format(folder=folder,
                                       kinds=" ".join(f"t:${kind}" for kind in NARROWED.split())),
                  folder)
        for source, kind in mark_words(folder):
            print(f"gates: {source}: a signed ${kind} is mapped to gates", file=sys.stderr)
        script = LEFT.format(folder=folder) + "{words}" + last
    run_yosys(script.replace("{words}", ""), folder)
    mapped = load(folder, "mapped.json")
    rename(mapped[top], words.rename)
    if words.undef in ADDED:
        add_care(top, mapped, words)
    writer = Writer(Netlist(top, mapped, words), words.keep_order, dict(memories(modules, top)))
    lines = list(writer.text(words.files))
    for warning in writer.too_many(MOST_INPUTS):
        print(f"gates: {warning}", file=sys.stderr)
    return lines


def command():
    words = parse_words()
    output = Output(words.output, [*words.files, *words.cells,
                                   *([words.rename] if words.rename else [])], "utf-8")
    if not shutil.which("yosys"):
        raise Fault("yosys is not installed (Debian: apt-get install yosys)")
    with tempfile.TemporaryDirectory(prefix="gates") as folder:
        text = "\n".join(translate(words, folder)) + "\n"
    output.write(text)


def main():
    run_script("gates", command)
