"""Lists the ports and registers that one of two netlists has and the other lacks, with likely
partners.

bbeq pairs inputs, outputs and registers by their names, and tells the first that the other text
lacks. This script lists all of them, on both sides, and beside each the names of the other side
that are likeliest to be meant: those with the same bits that feed them or that they feed, and those
whose name is the same but for an index, a prefix or a separator. With -o it writes the likeliest
pairs as lines `IMPL SPEC`, which a person looks through and `gates --rename` follows."""
from __future__ import annotations

import argparse
import difflib
import re
from typing import Any, Dict, Iterable, List, Optional, Set, Tuple

from bbeq_tools.cli import Output, run_script
from bbeq_tools.verilog.fan_in import FanIn
from bbeq_tools.verilog.language import Module, Net, read_modules, top_of
from bbeq_tools.words import Words

KINDS = ("input", "output", "register")


def parse_words() -> argparse.Namespace:
    parser = Words(prog="names", description=(__doc__ or "").split("\n\n")[0])
    parser.add_argument("specification", metavar="SPEC", help="the specification")
    parser.add_argument("implementation", metavar="IMPL", help="the implementation")
    parser.add_argument("--top-spec", help="the top module, as for bbeq")
    parser.add_argument("--top-impl", help="the top module, as for bbeq")
    parser.add_argument("-o", "--output", metavar="FILE",
                        help="write the likeliest pairs there, a line each")
    return parser.parse_args()


def whole(net: Net) -> str:
    """The name of a net, or of the one of which it is a bit: `gates` takes ports and registers
    apart into nets of one bit."""
    part = re.fullmatch(r"(.+)\[\d+\]", net.name) if net.range is None else None
    return part.group(1) if part else net.name


class Names:
    """The ports and registers of a netlist with their bits, by kind; and what feeds each and what
    it feeds, by the names of ports and registers."""

    def __init__(self, path: str, top: Optional[str]) -> None:
        _, modules = read_modules(path)
        self.modules, self.top = modules, top_of(path, modules, top)
        self.fan_in = FanIn(modules, self.top)
        self.sources = self.fan_in.sources
        self.bits: Dict[str, Dict[str, Dict[Any, None]]] = {kind: {} for kind in KINDS}
        self.owner: Dict[Any, str] = {}
        for net in [self.top.nets[port] for port in self.top.ports]:
            self.add(net.direction, "", net)
        self.data: Dict[str, List[Any]] = {}
        self.boxes: Dict[str, str] = {}
        self.find_registers(self.top, "")
        self.widths = {kind: {name: len(bits) for name, bits in names.items()}
                       for kind, names in self.bits.items()}
        self.feeds: Dict[str, Set[str]] = {
            name: set() for name in [*self.widths["input"], *self.widths["register"]]}
        self.fed_by = {("output", name): self.cone(bits)
                       for name, bits in self.bits["output"].items()}
        self.fed_by |= {("register", name): self.cone(bits) for name, bits in self.data.items()}
        for (kind, name), sources in self.fed_by.items():
            for source in sources:
                self.feeds[source].add(f"{kind} {name}")

    def add(self, kind: Optional[str], scope: str, net: Net) -> str:
        """Adds a net to the bits of its name, which is given."""
        if kind is not None:
            bits = dict.fromkeys((scope, net.name, index) for index in net.indices())
            self.bits[kind].setdefault(scope + whole(net), {}).update(bits)
            self.owner[kind, scope, net.name] = scope + whole(net)
        return scope + whole(net)

    def find_registers(self, module: Module, scope: str) -> None:
        for register in module.registers:
            read = self.fan_in.flat(module, scope, register.value)
            for name in dict.fromkeys(name for name, _ in module.left_bits(register.left)):
                self.data.setdefault(self.add("register", scope, module.nets[name]),
                                     []).extend(read)
        for instance in module.instances:
            below = self.modules.get(instance.module)
            if below and below.is_box():
                self.boxes[f"{scope}{instance.name}."] = below.name
            elif below:
                self.find_registers(below, f"{scope}{instance.name}.")

    def box_of(self, name: str) -> str:
        """The path of the box in which a register of this name would be, or nothing."""
        return next((path[:-1] for path in self.boxes if name.startswith(path)), "")

    def cone(self, bits: Iterable[Any]) -> Set[str]:
        """The inputs and registers from which these bits are made, within one step of the clock."""
        found, seen, stack = set(), set(), list(bits)
        while stack:
            bit = stack.pop()
            if bit in seen:
                continue
            seen.add(bit)
            scope, name, _ = bit
            if ("register", scope, name) in self.owner and bit not in self.sources:
                found.add(self.owner["register", scope, name])
            elif not scope and ("input", "", name) in self.owner:
                found.add(self.owner["input", "", name])
            stack += self.sources.get(bit, ())
        return found


def plain(name: str) -> str:
    """A name without what tools add: separators, indices, and endings that say that it is a
    register."""
    return re.sub(r"(_reg|_q|_ff|_r)$", "", re.sub(r"[^a-z0-9]+", "_", name.lower()).strip("_"))


def likeness(kind: str, left: str, right: str, spec: Names, impl: Names, same: Set[str]) -> float:
    """How likely two names mean one thing: by their widths, by what feeds them and what they feed,
    and by their letters."""
    def around(side: Names, name: str) -> Set[str]:
        fed = side.fed_by.get((kind, name), set())
        return {f"by {other}" for other in fed
                if other in same} | {f"to {other}" for other in side.feeds.get(name, ())
                                     if other.split(" ", 1)[1] in same}
    ours, theirs = around(spec, left), around(impl, right)
    near = len(ours & theirs) / len(ours | theirs) if ours | theirs else 0
    letters = difflib.SequenceMatcher(None, plain(left), plain(right)).ratio()
    widths = spec.widths[kind][left] == impl.widths[kind][right]
    return near + letters + (0.5 if widths else -0.5)


def partners(kind: str, missing: List[str], others: List[str], spec: Names, impl: Names,
             same: Set[str]) -> Dict[str, List[str]]:
    """For each name that is missing on the other side, the likeliest of those that are left there,
    best first."""
    return {left: sorted(others, key=lambda right: -likeness(kind, left, right, spec, impl,
                                                             same))[:3] for left in missing}


def listed(spec: Names, impl: Names) -> Tuple[List[str], List[Tuple[str, str]]]:
    """The lines of the list, and the pairs that are likeliest both ways."""
    same = {name for kind in KINDS for name in spec.widths[kind] if name in impl.widths[kind]}
    lines, pairs = [], []
    for kind in KINDS:
        ours = [name for name in spec.widths[kind] if name not in impl.widths[kind]]
        theirs = [name for name in impl.widths[kind] if name not in spec.widths[kind]]
        to, back = partners(kind, ours, theirs, spec, impl, same), {}
        for right in theirs:
            ranked = sorted(ours, key=lambda left: -likeness(kind, left, right, spec, impl, same))
            back[right] = ranked[:3]
        lines += [told("spec", kind, name, spec, impl, to[name]) for name in ours]
        lines += [told("impl", kind, name, impl, spec, back[name]) for name in theirs]
        pairs += [(to[left][0], left) for left in ours if to[left] and back[to[left][0]][:1]
                  == [left] and spec.widths[kind][left] == impl.widths[kind][to[left][0]]]
        for name in spec.widths[kind]:
            width, other = spec.widths[kind][name], impl.widths[kind].get(name)
            if other not in (None, width):
                note = ("; a state machine may have been recoded (yosys: synth -nofsm)"
                        if kind == "register" else "")
                lines.append(f"both {kind} {name}: {width} bits in the specification and {other} "
                             f"in the implementation{note}")
    return lines, pairs


def told(side: str, kind: str, name: str, own: Names, other: Names, likely: List[str]) -> str:
    ranked = ", ".join(f"{right} ({bits(other.widths[kind][right])})" for right in likely)
    box = other.box_of(name) if kind == "register" else ""
    where = (f"{box} is a box there, and registers stay outside boxes" if box
             else f"perhaps {ranked}" if ranked else "nothing like it there")
    return f"{side} {kind} {name} ({bits(own.widths[kind][name])}): {where}"


def bits(count: int) -> str:
    return f"{count} bit" + "s" * (count != 1)


def command() -> None:
    words = parse_words()
    output = Output(words.output,
                    [words.specification, words.implementation]) if words.output else None
    lines, pairs = listed(Names(words.specification, words.top_spec),
                          Names(words.implementation, words.top_impl))
    for line in lines:
        print(line)
    if not lines:
        print("both have the same ports and registers, of the same widths")
    if output:
        output.write("".join(f"{right} {left}\n" for right, left in pairs))


def main() -> None:
    run_script("names", command)
