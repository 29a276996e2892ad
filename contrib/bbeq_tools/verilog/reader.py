"""Reads modules from tokens, one statement after another (docs/LANGUAGE.md, "Grammar")."""
from typing import Any, List, Optional, Tuple

from bbeq_tools.cli import Fault
from bbeq_tools.verilog.expressions import Expressions
from bbeq_tools.verilog.modules import Bounds, Instance, Module, Register
from bbeq_tools.verilog.tokens import Token

GATES = frozenset("and nand or nor xor xnor buf not".split())


class Reader(Expressions):
    """Reads the modules of a text."""

    def modules(self) -> List[Module]:
        found = []
        while self.look():
            found.append(self.module())
        return found

    def module(self) -> Module:
        first = self.take("module")
        module = Module(self.take_name(), first.start)
        if self.sees("("):
            self.header(module)
        module.header_end = self.take(";").end
        while not self.sees("endmodule"):
            self.item(module)
        module.end = self.take("endmodule").end
        return module

    def header(self, module: Module) -> None:
        self.take("(")
        shape = None
        while not self.sees(")"):
            if self.sees("input", "output"):
                shape = (self.take().text, self.kind(), self.range())
            name = self.take_name().text
            module.ports.append(name)
            if shape:
                self.declare_port(module, name, shape)
            if not self.sees(")"):
                self.take(",")
        self.take(")")

    def declare_port(self, module: Module, name: str,
                     shape: Tuple[str, Optional[str], Bounds]) -> None:
        net = module.net(name)
        net.direction, kind, net.range = shape
        if kind:
            net.kind = kind

    def kind(self) -> Optional[str]:
        return self.take().text if self.sees("wire", "reg") else None

    def range(self) -> Bounds:
        if not self.sees("["):
            return None
        self.take("[")
        left = self.take_number()
        self.take(":")
        right = self.take_number()
        self.take("]")
        return left, right

    def item(self, module: Module) -> None:
        first = self.look()
        if first is None:
            raise Fault("the text ends within a module")
        if first.kind == "name":
            self.calls(module)
        elif first.kind == "word" and first.text in GATES:
            self.gate_item(module)
        elif self.sees("input", "output"):
            self.port_item(module)
        elif self.sees("wire", "reg", "supply0", "supply1"):
            self.net_item(module)
        elif self.sees("assign"):
            self.assign_item(module)
        elif self.sees("always"):
            self.register_item(module)
        else:
            raise Fault(f"line {first.line}: `{first.text}` begins no statement of the language")

    def port_item(self, module: Module) -> None:
        start = self.start()
        shape = (self.take().text, self.kind(), self.range())
        while True:
            self.declare_port(module, self.take_name().text, shape)
            if self.take(",", ";").text == ";":
                break
        module.port_items.append((start, self.end()))

    def net_item(self, module: Module) -> None:
        start = self.start()
        kind, bounds = self.take().text, self.range()
        while True:
            name = self.take_name().text
            net = module.net(name)
            net.kind, net.stands_alone = kind, True
            if bounds:
                net.range = bounds
            if self.sees("="):
                self.take()
                module.bare = False
                module.assigns.append((("net", name, None), self.expression()))
            if kind.startswith("supply"):
                module.bare = False
            if self.take(",", ";").text == ";":
                break
        if kind == "reg":
            module.reg_items.append((start, self.end()))

    def assign_item(self, module: Module) -> None:
        module.bare = False
        self.take("assign")
        while True:
            left = self.primary()
            self.take("=")
            module.assigns.append((left, self.expression()))
            if self.take(",", ";").text == ";":
                return

    def gate_item(self, module: Module) -> None:
        module.bare = False
        word = self.take().text
        while True:
            if not self.sees("("):
                self.take_name()
            self.take("(")
            terminals = [self.expression()]
            while self.take(",", ")").text == ",":
                terminals.append(self.expression())
            module.gates.append((word, terminals))
            if self.take(",", ";").text == ";":
                return

    def calls(self, module: Module) -> None:
        module.bare = False
        token = self.take_name()
        comma: Optional[Token] = None
        while True:
            name = self.take_name().text
            connections, named = self.connections()
            module.instances.append(Instance(token, name, connections, named, comma))
            end = self.take(",", ";")
            if end.text == ";":
                return
            comma = end

    def connections(self) -> Tuple[List[Any], bool]:
        self.take("(")
        found: List[Any] = []
        named = self.sees(".")
        while not self.sees(")"):
            if named:
                self.take(".")
                port = self.take_name().text
                self.take("(")
                value = None if self.sees(")") else self.expression()
                self.take(")")
                found.append((port, value))
            else:
                found.append(None if self.sees(",", ")") else self.expression())
            if self.sees(","):
                self.take()
                if self.sees(")") and not named:
                    found.append(None)
        self.take(")")
        return found, named

    def register_item(self, module: Module) -> None:
        module.bare = False
        start = self.take("always").start
        self.take("@")
        self.take("(")
        edge = self.take("posedge", "negedge").text
        clock = self.primary()
        self.take(")")
        left = self.primary()
        self.take("<=")
        value_start = self.start() if self.look() else 0
        value = self.expression()
        value_end = self.end()
        module.registers.append(Register(edge, clock, left, value, (value_start, value_end),
                                         (start, self.take(";").end)))
