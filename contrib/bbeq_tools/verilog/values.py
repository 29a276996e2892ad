"""The drivers of all bits of a design, from what its text says (docs/LANGUAGE.md; IEEE 1364-2005,
clauses 5 and 7). Nothing else here is the program's, neither the reading of a text nor a list of
cells."""
from __future__ import annotations

from functools import reduce
from typing import Any, Callable, Dict, List

from bbeq_tools.cli import Fault
from bbeq_tools.verilog.bits import GATES, INVERTING, Bit, inverted
from bbeq_tools.verilog.language import Expression, Instance, Module, Net, bit_text
from bbeq_tools.verilog.scopes import Scope
from bbeq_tools.verilog.world import Box, Key, Name, World


class Design:
    """A module on top with all instances below it. `drivers` has what makes a bit in a world;
    `inputs` and `outputs` are called by their kind and text, an output with what makes it, in the
    order of a report."""

    def __init__(self, modules: Dict[str, Module], top: Module) -> None:
        self.modules, self.boxes = modules, []  # type: Dict[str, Module], List[Box]
        self.drivers: Dict[Key, Callable[[World], Bit]] = {}
        scope = Scope(top, "", 1)
        self.inputs = [("input", bit_text(net.name, index)) for net, index in top.pins("input")]
        self.outputs = [(("output", bit_text(net.name, index)), self.driven(("", net.name, index)))
                        for net, index in top.pins("output")]
        for net, index in top.pins("input"):
            self.drivers["", net.name, index] = self.given(("input", bit_text(net.name, index)))
        self.enter(scope)

    @staticmethod
    def driven(key: Key) -> Callable[[World], Bit]:
        return lambda world: world.bit(key)

    @staticmethod
    def given(name: Name) -> Callable[[World], Bit]:
        return lambda world: world.vector[name]

    def drive(self, keys: List[Key], make: Callable[[World, int], Bit]) -> None:
        """Bits, leftmost first, are driven by what makes the bit at each place, counted from the
        right."""
        for place, key in enumerate(reversed(keys)):
            if key in self.drivers:
                raise Fault(f"{key[0]}{bit_text(*key[1:])} has two drivers")
            self.drivers[key] = self.at(make, place)

    @staticmethod
    def at(make: Callable[[World, int], Bit], place: int) -> Callable[[World], Bit]:
        return lambda world: make(world, place)

    def enter(self, scope: Scope) -> None:
        """Takes in what stands in an instance, and then the instances that stand there."""
        for net in scope.module.nets.values():
            if net.kind in ("supply0", "supply1"):
                self.supply(scope, net)
        for left, value in scope.module.assigns:
            self.assign(scope, left, value)
        for word, terminals in scope.module.gates:
            self.gate(scope, word, terminals)
        self.registers(scope)
        for instance in scope.module.instances:
            self.connect(scope, instance)

    def supply(self, scope: Scope, net: Net) -> None:
        self.drive(scope.keys(("net", net.name, None)),
                   lambda world, _: world.constant(net.kind == "supply1"))

    def assign(self, scope: Scope, left: Expression, value: Expression) -> None:
        keys = scope.keys(left)
        width = max(len(keys), scope.width(value))
        self.drive(keys, lambda world, place: scope.bit(world, value, place, width))

    def gate(self, scope: Scope, word: str, terminals: List[Expression]) -> None:
        outputs = len(terminals) - 1 if word in ("buf", "not") else 1

        def make(world: World, _: int) -> Bit:
            bit = reduce(GATES[word],
                         [scope.bit(world, terminal, 0, 1) for terminal in terminals[outputs:]])
            return inverted(bit) if word in INVERTING else bit

        for terminal in terminals[:outputs]:
            self.drive(scope.keys(terminal), make)

    def registers(self, scope: Scope) -> None:
        """The state of a register is given, and its next state is an output; they come net by net,
        ports first."""
        nexts = {key: (register.value, place,
                       max(len(scope.keys(register.left)), scope.width(register.value)))
                 for register in scope.module.registers
                 for place, key in enumerate(reversed(scope.keys(register.left)))}
        names = dict.fromkeys([*scope.module.ports, *scope.module.nets])
        for key in [(scope.path, name, index) for name in names
                    for index in scope.module.net(name).indices()]:
            if key in nexts:
                text = scope.path + bit_text(*key[1:])
                self.drive([key], self.state(("register", text)))
                self.inputs.append(("register", text))
                self.outputs.append((("next", text), self.stored(scope, *nexts[key])))

    @staticmethod
    def state(name: Name) -> Callable[[World, int], Bit]:
        return lambda world, _: world.vector[name]

    @staticmethod
    def stored(scope: Scope, value: Expression, place: int, width: int) -> Callable[[World], Bit]:
        return lambda world: scope.bit(world, value, place, width)

    def connect(self, scope: Scope, instance: Instance) -> None:
        if instance.module not in self.modules:
            raise Fault(f"line {instance.token.line}: there is no module {instance.module}")
        inner = Scope(self.modules[instance.module], f"{scope.path}{instance.name}.",
                      scope.level + 1)
        for port, value in instance.connections if instance.named else zip(inner.module.ports,
                                                                           instance.connections):
            if value is not None:
                self.connect_port(scope, inner, port, value)
        if inner.module.is_box():
            self.add_box(inner)
        else:
            self.enter(inner)

    def connect_port(self, scope: Scope, inner: Scope, port: str, value: Any) -> None:
        keys = inner.keys(("net", port, None))
        if inner.module.net(port).direction == "input":
            self.drive(keys, lambda world, place: scope.bit(world, value, place, len(keys)))
        else:
            self.drive(scope.keys(value), lambda world, place: world.bit(keys[-1 - place]))

    def add_box(self, scope: Scope) -> None:
        def keys(direction: str) -> List[Key]:
            return [(scope.path, net.name, index) for net, index in scope.module.pins(direction)]

        box = Box(scope.path[:-1], scope.module.name, keys("input"), keys("output"),
                  [bit_text(*key[1:]) for key in keys("output")])
        self.boxes.append(box)
        self.drive(box.outs, lambda world, place: world.outputs(box)[-1 - place])
