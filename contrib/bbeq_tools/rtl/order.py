"""Writes a specification with its input ports and registers in an order that keeps decision
diagrams small.

The order of the specification's inputs, and behind them of its registers, is the order of the
variables in bbeq's diagrams. This script orders them as a walk back from the outputs and next
states meets them, depth first, or leaves them as they are where it cannot see that this is better;
`gates` does the same. A port with several bits is taken apart into ports of one bit where the order
asks for it; these have the texts that bbeq pairs by, so the implementation stays as it is. With the
program at hand it then says how many nodes the check needs before and after."""
import os
import subprocess
import sys
import tempfile

from bbeq_tools.cli import Fault, Output, run_script
from bbeq_tools.program import find_program
from bbeq_tools.rtl.ordering import best_order, runs
from bbeq_tools.verilog.fan_in import FanIn
from bbeq_tools.verilog.language import bit_text, read_modules, top_of, written
from bbeq_tools.words import Words

MOST_NODES = 50_000_000


def parse_words():
    parser = Words(prog="order", description=__doc__.split("\n\n")[0],
                   epilog="The program is $BBEQ, or bbeq on the PATH, or the one that was built in "
                   "this repository; without it the text is written and nothing is counted.")
    parser.add_argument("specification", metavar="SPEC", help="the specification")
    parser.add_argument("implementation", metavar="IMPL", nargs="?",
                        help="the implementation to count with (otherwise SPEC)")
    parser.add_argument("-o", "--output", metavar="OUT",
                        help="where to write (otherwise standard output)")
    parser.add_argument("--top-spec", help="the top module, as for bbeq")
    parser.add_argument("--top-impl", help="the top module, as for bbeq")
    parser.add_argument("--check", choices=("symbolic", "local", "output", "input"),
                        default="local", help="the check whose nodes are counted (default local)")
    parser.add_argument("--care", metavar="NAME", help="the output that says where the two have to "
                        "agree, as for bbeq; with IMPL")
    parser.add_argument("--no-count", action="store_true", help="write the text alone")
    parser.add_argument("--most", type=int, default=1_000_000, metavar="NODES",
                        help="count no further (default 1000000)")
    words = parser.parse_args()
    if not 1 <= words.most <= MOST_NODES:
        parser.error(f"--most is from 1 to {MOST_NODES}")
    if words.care and not words.implementation:
        parser.error("--care stands with IMPL, since a text has its care output and is not "
                     "compared with itself by it")
    return words


def new_order(top, fan_in):
    """The bits of the inputs in the new order, and the nets of the top's registers that are no
    ports."""
    nexts = {(number, at): read for number, bits in enumerate(fan_in.registers)
             for at, read in enumerate(bits)}
    outputs = [top.nets[port] for port in top.ports if top.nets[port].direction == "output"]
    roots = [[("", net.name, index) for index in net.indices()] for net in outputs]
    roots += [[(number, at) for at in range(len(bits))]
              for number, bits in enumerate(fan_in.registers)]
    inputs = [("", net.name, index) for net, index in top.pins("input")]
    declared = [net for net in top.nets.values() if net.kind == "reg" and net.direction is None]
    stored = dict.fromkeys(("", name, index) for register in top.registers
                           for name, index in top.left_bits(register.left))
    own = [bit for net in declared
           for index in net.indices() if (bit := ("", net.name, index)) in stored]
    order = best_order(roots, lambda bit: nexts.get(bit) or fan_in.sources.get(bit, ()),
                       [inputs, own])
    names = [name for _, name, _ in order[1]] + [net.name for net in declared]
    return [(name, index) for _, name, index in order[0]], [top.nets[name]
                                                            for name in dict.fromkeys(names)]


def new_ports(top, bits):
    """The input ports in the new order, as (net, index): a whole port has None in place of an
    index, or as its only one."""
    parts = runs(bits, lambda name: [(name, index) for index in top.nets[name].indices()])
    ports = [(top.nets[name], index) for name, index in parts]
    split = {net.name for net, index in ports if index is not None}
    clash = [name for name in split
             for index in top.nets[name].indices() if bit_text(name, index) in top.nets]
    if clash:
        raise Fault(f"port {clash[0]} cannot be taken apart, since a net has the name of "
                    "one of its bits")
    return ports


def bounds(net):
    return f"[{net.range[0]}:{net.range[1]}] " if net.range else ""


def rewritten(text, top, ports, registers):
    """The text with the header and the declarations of ports and registers of the top made anew."""
    outputs = [top.nets[port] for port in top.ports if top.nets[port].direction == "output"]
    names = [written(net.name if index is None else bit_text(net.name, index))
             for net, index in ports]
    names += [written(net.name) for net in outputs]
    lines = [f"module {written(top.name)}({', '.join(names)});"]
    lines += [f"  input {bounds(net) if index is None else ''}{name};"
              for (net, index), name in zip(ports, names)]
    for net in outputs:
        lines.append(f"  output {bounds(net)}{written(net.name)};")
        if net.kind == "reg":
            lines.append(f"  reg {bounds(net)}{written(net.name)};")
    for net in dict.fromkeys(net for net, index in ports if index is not None):
        if not net.stands_alone:
            lines.append(f"  wire {bounds(net)}{written(net.name)};")
        bits = ", ".join(written(bit_text(net.name, index)) for index in net.indices())
        lines.append(f"  assign {written(net.name)} = {{{bits}}};")
    lines += [f"  reg {bounds(net)}{written(net.name)};" for net in registers]
    body, place = [text[:top.start], "\n".join(lines)], top.header_end
    for start, end in sorted(top.port_items + top.reg_items):
        body.append(text[place:start].rstrip(" ") if text[place:start].strip() else "")
        place = end
    return "".join(body) + text[place:]


def fits(command, nodes):
    """The check does not need more nodes than that."""
    done = subprocess.run([*command, "--nodes", str(nodes)], capture_output=True, text=True,
                          errors="replace", check=False)
    lines = done.stdout.splitlines()
    if done.returncode not in (0, 1, 3) or not any(line.startswith("verdict ") for line in lines):
        raise Fault(f"{command[0]} ended with {done.returncode}: "
                    f"{(done.stdout + done.stderr).strip() or 'no word'}")
    return not any(line.startswith("rung ") and line.endswith(" nodes") for line in lines)


def nodes_needed(program, specification, words):
    """How many nodes the check needs, or None where these are more than `--most`. The program tells
    it exactly: it answers `nodes` where its budget is below this number, and nowhere else."""
    command = [program, specification, words.implementation or specification, "--from", words.check,
               "--to", words.check]
    top_impl = words.top_impl if words.implementation else words.top_spec
    command += [f"--top-spec={words.top_spec}"] if words.top_spec else []
    command += [f"--top-impl={top_impl}"] if top_impl else []
    command += [f"--care={words.care}"] if words.care else []
    high = 64
    while not fits(command, high):
        if high >= words.most:
            return None
        high = min(high * 4, words.most)
    low = -1
    while high - low > 1:
        middle = (low + high) // 2
        low, high = (low, middle) if fits(command, middle) else (middle, high)
    return high


def compare(program, text, words):
    """A line on the nodes before and after."""
    with tempfile.TemporaryDirectory(prefix="order") as folder:
        new = os.path.join(folder, "ordered.v")
        with open(new, "w", encoding="latin-1") as file:
            file.write(text)
        before = nodes_needed(program, words.specification, words)
        after = nodes_needed(program, new, words)
    if after is None:
        return (f"more than {words.most} nodes in the new order"
                + ("" if before is None else f", {before} in the old one"))
    if before is None:
        return f"{after} nodes in the new order, more than {words.most} in the old one"
    if after > before:
        return f"{before} nodes in the old order, {after} in the new one: stay with the old one"
    return (f"{before} nodes in the old order, {after} in the new one "
            f"({100 * (before - after) // max(before, 1)} % fewer)")


def command():
    words = parse_words()
    output = Output(words.output,
                    [words.specification, words.implementation or words.specification])
    text, modules = read_modules(words.specification)
    top = top_of(words.specification, modules, words.top_spec)
    if any(instance.module == top.name for module in modules.values()
           for instance in module.instances):
        raise Fault(f"{words.specification}: {top.name} is instantiated, so its ports stay "
                    "in their order")
    boxes = [instance.module for module in modules.values() for instance in module.instances
             if instance.module in modules and modules[instance.module].is_box()]
    if boxes:
        raise Fault(f"{words.specification}: {boxes[0]} is an empty module, and a specification "
                    "has none; the order of an implementation counts for nothing")
    if not top.pins("input"):
        raise Fault(f"{words.specification}: {top.name} has no inputs, so there is "
                    "nothing to order")
    inputs, registers = new_order(top, FanIn(modules, top))
    ordered = rewritten(text, top, new_ports(top, inputs), registers)
    output.write(ordered)
    if not words.no_count:
        program = find_program()
        told = compare(program, ordered,
                       words) if program else "bbeq is not there, so no nodes are counted"
        print(f"order: {told}", file=sys.stderr)


def main():
    run_script("order", command)
