"""A module with the name and the ports of an implementation around its filled text, whose ports are
single bits."""
from typing import Iterable, List, Optional

from bbeq_tools.cli import Fault
from bbeq_tools.report.reports import OTHER
from bbeq_tools.verilog.language import (Index, Net, bit_text, read_modules, tokens, top_of,
                                         written)

FILLED = "filled"  # The name of the module of a filled text.


def declaration(net: Net) -> str:
    shape = f"[{net.range[0]}:{net.range[1]}] " if net.range else ""
    return f"  {net.direction} {shape}{written(net.name)};\n"


def connection(name: str, index: Index) -> str:
    """A bit of a port, joined to the port of the filled module that has its text."""
    select = "" if index is None else f"[{index}]"
    return f".{written(bit_text(name, index))}({written(name)}{select})"


def ports_in(filled: str) -> List[str]:
    """The ports of the filled module, in order."""
    return [token.text for token in tokens(filled[:filled.index("\n")]) if token.kind == "name"][1:]


def free_name(taken: Iterable[str]) -> str:
    name = FILLED
    while name in taken:
        name = f"{name}_"
    return name


def around(path: str, top: Optional[str], filled: str) -> str:
    """The module that stands where the implementation stood, with an instance of the filled module
    in it, whose text this is."""
    _, modules = read_modules(path)
    module = top_of(path, modules, top)
    if module.name == FILLED:
        raise Fault(f"{path}: its top is called {FILLED}, as the filled module is; rename it")
    nets = [module.nets[name] for name in module.ports]
    bits = [connection(net.name, index) for net in nets for index in net.indices()]
    if ports_in(filled) != [bit_text(net.name, index) for direction in ("input", "output")
                            for net, index in module.pins(direction)]:
        raise Fault(f"{path}: {OTHER}")
    header = ", ".join(written(net.name) for net in nets)
    instance = f"  {FILLED} {written(free_name(set(module.ports)))}({', '.join(bits)});\n"
    return (f"module {written(module.name)}({header});\n"
            f"{''.join(map(declaration, nets))}{instance}endmodule\n")
