"""What the scripts of this folder know of the language that bbeq reads (docs/LANGUAGE.md): its
tokens, its modules with their nets, gates and instances, and how a name is written. It takes every
text that bbeq takes, and some that bbeq refuses: whether a text is right is for bbeq to say."""
from typing import Dict, Optional, Tuple

from bbeq_tools.cli import Fault
from bbeq_tools.verilog.expressions import number_of
from bbeq_tools.verilog.modules import (Bounds, Expression, Index, Instance, Module, Net, Register,
                                        bit_text)
from bbeq_tools.verilog.reader import Reader
from bbeq_tools.verilog.tokens import Token, tokens, written

__all__ = ["Bounds", "Expression", "Index", "Instance", "Module", "Net", "Reader", "Register",
           "Token", "bit_text", "number_of", "read_modules", "tokens", "top_of", "written"]


def read_modules(path: str) -> Tuple[str, Dict[str, Module]]:
    """The text of a file and its modules by name; a fault names the file."""
    try:
        with open(path, encoding="latin-1") as file:
            text = file.read()
    except OSError as error:
        raise Fault(f"{path}: {error.strerror}") from None
    try:
        modules = Reader(text).modules()
    except Fault as fault:
        raise Fault(f"{path}: {fault}; give the text that bbeq read, which "
                    "`gates` makes of RTL") from None
    if not modules:
        raise Fault(f"{path}: no module stands in it")
    return text, {module.name: module for module in modules}


def top_of(path: str, modules: Dict[str, Module], name: Optional[str]) -> Module:
    """The module of that name, else the one that no module instantiates."""
    if name is not None:
        if name not in modules:
            raise Fault(f"{path}: there is no module {name}")
        return modules[name]
    used = {instance.module for module in modules.values() for instance in module.instances}
    tops = [module for module in modules.values() if module.name not in used]
    if len(tops) != 1:
        raise Fault(f"{path}: {len(tops)} modules are instantiated nowhere; name the top by --top")
    return tops[0]
