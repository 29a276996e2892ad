"""What each bit of a text is made from, instance by instance."""
from functools import reduce
from typing import Any, Dict, List, Sequence

from bbeq_tools.cli import Fault
from bbeq_tools.verilog.modules import Expression, Instance, Module, Register
from bbeq_tools.verilog.words import circuit, contexts, reduced, result_width

OUTPUTS_LAST = ("buf", "not")


class FanIn:
    """For each bit of each instance the bits that it is made from, in the order of the text; and
    the same for what each clocked assignment stores. What is kept of a value is said by the methods
    from `read` to `once` alone, and by `store`; another class may keep more."""

    def __init__(self, modules: Dict[str, Module], top: Module) -> None:
        self.modules, self.made = modules, 0
        self.sources: Dict[Any, Any] = {}
        self.registers: List[Any] = []
        self.walk(top, "")

    def walk(self, module: Module, scope: str) -> None:
        for left, value in module.assigns:
            self.assign(module, scope, left, value)
        for word, terminals in module.gates:
            outputs, inputs = ((terminals[:-1], terminals[-1:]) if word in OUTPUTS_LAST
                               else (terminals[:1], terminals[1:]))
            given = self.gate(word, [bit for terminal in inputs
                                     for bit in self.whole(module, scope, terminal)])
            given = self.once(given) if len(outputs) > 1 else given
            for output in outputs:
                self.give(module, scope, output, [given])
        for register in module.registers:
            self.store(module, scope, register)
        for instance in module.instances:
            self.connect(module, scope, instance)

    def assign(self, module: Module, scope: str, left: Expression, value: Expression) -> None:
        width = max(len(module.left_bits(left)), self.width(module, value))
        self.give(module, scope, left, self.value(module, scope, value, width))

    def give(self, module: Module, scope: str, left: Expression, values: List[Any]) -> None:
        """The bits on the left take the lowest of the values."""
        bits = module.left_bits(left)
        for (name, index), read in zip(bits, values[len(values) - len(bits):]):
            self.sources[scope, name, index] = read

    def store(self, module: Module, scope: str, register: Register) -> None:
        self.registers.append(self.whole(module, scope, register.value))

    def connect(self, module: Module, scope: str, instance: Instance) -> None:
        if instance.module not in self.modules:
            raise Fault(f"line {instance.token.line}: there is no module {instance.module}")
        below, inner = self.modules[instance.module], f"{scope}{instance.name}."
        pairs = instance.connections if instance.named else list(zip(below.ports,
                                                                     instance.connections))
        read = []
        for port, value in pairs:
            net = below.nets.get(port)
            if net is None or value is None:
                continue
            bits = [(inner, port, index) for index in net.indices()]
            if net.direction == "input":
                self.sources.update(zip(bits, self.whole(module, scope, value)))
                read += bits
            else:
                self.give(module, scope, value, [self.read(bit) for bit in bits])
        if below.is_box():
            self.box(below, inner, read)
        else:
            self.walk(below, inner)

    def width(self, module: Module, expression: Expression) -> int:
        kind = expression[0]
        if kind == "net":
            return len(module.selected(expression[1], expression[2]))
        if kind == "bits":
            return expression[1]
        if kind == "not":
            return self.width(module, expression[1])
        if kind == "fold":
            return 1
        if kind == "words":
            return reduce(lambda left, step: result_width(step[0], left,
                                                          self.width(module, step[1])),
                          zip(expression[2], expression[1][1:]),
                          self.width(module, expression[1][0]))
        if kind == "chain":
            return max(self.width(module, part) for part in expression[1])
        if kind == "conditional":
            return max(self.width(module, part) for part in expression[2:])
        if kind == "repeat":
            return expression[1] * self.width(module, expression[2])
        return sum(self.width(module, part) for part in expression[1])

    def word(self, module: Module, scope: str, expression: Expression, width: int) -> List[Any]:
        """The bits of a level of operators on words, each as what it is made of."""
        _, parts, operators = expression
        first, steps = contexts(operators, [self.width(module, part) for part in parts], width)
        made = self.value(module, scope, parts[0], first)
        for (operator, beside, context), part in zip(steps, parts[1:]):
            made = circuit(self, operator, made, self.value(module, scope, part, beside))
            made = self.number(("bits", context - len(made), 0)) + made
        return made

    def whole(self, module: Module, scope: str, expression: Expression) -> List[Any]:
        """The bits of an expression at its own width, the leftmost first, each as what it is made
        of."""
        if expression[0] == "net":
            return [self.read((scope, expression[1], index))
                    for index in module.selected(expression[1], expression[2])]
        return self.value(module, scope, expression, self.width(module, expression))

    def flat(self, module: Module, scope: str, expression: Expression) -> List[Any]:
        """The bits that an expression at its own width is made from, as one list."""
        return [bit for bits in self.whole(module, scope, expression) for bit in bits]

    def value(self, module: Module, scope: str, expression: Expression, width: int) -> List[Any]:
        """For each bit of an expression, the leftmost first, what it is made of."""
        kind = expression[0]
        if kind == "net":
            bits = self.whole(module, scope, expression)
        elif kind == "bits":
            bits = self.number(expression)
        elif kind == "not":
            return [self.inverted(bit, expression[2])
                    for bit in self.value(module, scope, expression[1], width)]
        elif kind == "fold":
            bits = [reduced(self, expression[2], self.whole(module, scope, expression[1]))]
        elif kind == "words":
            return self.word(module, scope, expression, width)
        elif kind == "chain":
            columns = [self.value(module, scope, part, width) for part in expression[1]]
            return [self.joined(column, expression[2]) for column in zip(*columns)]
        elif kind == "conditional":
            condition = self.condition(self.whole(module, scope, expression[1]))
            columns = [self.value(module, scope, part, width) for part in expression[2:]]
            return [self.choice(condition, *column) for column in zip(*columns)]
        elif kind == "repeat":
            bits = [self.once(bit)
                    for bit in self.whole(module, scope, expression[2])] * expression[1]
        else:
            bits = [bit for part in expression[1] for bit in self.whole(module, scope, part)]
        return self.number(("bits", width - len(bits), 0)) + bits

    # What is kept of a value: the bits that it is made from.

    def read(self, bit: Any) -> Any:
        return [bit]

    def number(self, number: Expression) -> List[Any]:
        return [[] for _ in range(number[1])]

    zero: Any = ()
    one: Any = ()

    def inverted(self, bit: Any, _signs: int = 1) -> Any:
        return bit

    def joined(self, bits: List[Any], _operators: Sequence[str]) -> Any:
        return [bit for read in bits for bit in read]

    def condition(self, bits: List[Any]) -> Any:
        return self.joined(bits, ())

    def choice(self, condition: Any, then: Any, otherwise: Any) -> Any:
        return [*condition, *then, *otherwise]

    def gate(self, _word: str, bits: List[Any]) -> Any:
        return self.joined(bits, ())

    def box(self, module: Module, scope: str, read: Any) -> None:
        for net, index in module.pins("output"):
            self.sources[scope, net.name, index] = read

    def once(self, read: Any) -> Any:
        """What is read at several places gets a bit without a name."""
        if len(read) < 2:
            return read
        self.made += 1
        self.sources[None, None, self.made] = read
        return [(None, None, self.made)]
