"""An output that is 0 where an undefined value (x) reaches another output: bbeq's care output; or,
since an invariant is of registers alone, one that is 0 where it may reach an output or a register
for some inputs. For each bit that may be undefined there is a bit more that says where it is, made
gate by gate: an and with a 0 is known, whatever the other operand is, and a choice by an undefined
bit is known where both sides are the same (IEEE 1364-2005, 5.1)."""
import sys

from bbeq_tools.cli import Fault
from bbeq_tools.rtl.marks import MARK
from bbeq_tools.rtl.netlist import Netlist

ADDED = ("care", "invariant")  # Outputs.
ALWAYS, NEVER = "1", "0"
# For each gate the values of A and B that decide it alone, or none.
DECIDING = {"$_AND_": (0, 0), "$_NAND_": (0, 0), "$_OR_": (1, 1), "$_NOR_": (1, 1),
            "$_ANDNOT_": (0, 1), "$_ORNOT_": (1, 0), "$_XOR_": None, "$_XNOR_": None}
CHOICES, COPIES = ("$_MUX_", "$_NMUX_"), ("$_NOT_", "$_BUF_")


class Undefined:
    """The bits that say where others are undefined, as cells that are added to a module."""

    def __init__(self, name, modules, words):
        self.net = Netlist(name, modules, words)
        self.module = modules[name]
        self.last = max([bit for net in self.module["netnames"].values() for bit in net["bits"]
                         if isinstance(bit, int)], default=1)
        self.where = {"x": ALWAYS}
        if self.net.boxes:
            raise Fault(f"--undef {words.undef} is for a specification, and this text has boxes")
        for net_name, net in self.module["netnames"].items():
            if net_name.endswith(MARK[1:]):
                self.where.update({bit: ALWAYS for bit in net["bits"]
                                   if bit not in self.net.driver})
        self.look()

    def look(self):
        for key in self.net.order:
            cell = self.module["cells"][key]
            pins = {pin: bits[0] for pin, bits in cell["connections"].items()}
            self.where[pins["Y"]] = self.gate(cell["type"], pins)

    def of(self, bit):
        return self.where.get(bit, NEVER)

    def cell(self, kind, **pins):
        """A new gate; the bit that it drives."""
        self.last += 1
        name = f"$bbeq${self.last}"
        self.module["cells"][name] = {"type": kind, "attributes": {}, "hide_name": 1,
                                      "connections": {pin: [bit] for pin, bit in pins.items()}
                                      | {"Y": [self.last]}}
        self.module["netnames"][name] = {"hide_name": 1, "bits": [self.last], "attributes": {}}
        return self.last

    def inverse(self, bit):
        if bit in (ALWAYS, NEVER):
            return NEVER if bit == ALWAYS else ALWAYS
        return self.cell("$_NOT_", A=bit)

    def both(self, left, right):
        return self.joined("$_AND_", NEVER, ALWAYS, left, right)

    def either(self, left, right):
        return self.joined("$_OR_", ALWAYS, NEVER, left, right)

    def joined(self, kind, decides, leaves, left, right):
        """A gate that one constant decides, and that leaves the other bit beside the other."""
        if decides in (left, right):
            return decides
        if leaves in (left, right):
            return right if left == leaves else left
        return self.cell(kind, A=left, B=right)

    def is_known(self, bit, value):
        """Where a bit is known and has a value."""
        own = bit if value else self.inverse(bit)
        return self.both(self.inverse(self.of(bit)), own)

    def gate(self, kind, pins):
        wheres = [self.of(pins[pin]) for pin in ("A", "B", "S") if pin in pins]
        if all(where == NEVER for where in wheres):
            return NEVER
        if kind in COPIES:
            return wheres[0]
        if kind in CHOICES:
            return self.choice(pins, *wheres)
        found = self.either(*wheres)
        for pin, value in zip("AB", DECIDING[kind] or ()):
            found = self.both(found, self.inverse(self.is_known(pins[pin], value)))
        return found

    def choice(self, pins, left, right, chooser):
        """That of B where S is 1, that of A where it is 0; where S is undefined, where the two are
        undefined or differ."""
        known = self.either(self.both(pins["S"], right), self.both(self.inverse(pins["S"]), left))
        differs = self.either(self.either(left, right),
                              self.cell("$_XOR_", A=pins["A"], B=pins["B"]))
        return self.either(self.both(chooser, differs), self.both(self.inverse(chooser), known))


class EverUndefined(Undefined):
    """The same for some values of the inputs: bits that read registers alone. For each bit there
    are those that say that it may be 0, 1 or undefined; operands are taken as independent, so a bit
    may be said to be undefined where it never is, and never the other way."""

    def look(self):
        self.may = {"0": (ALWAYS, NEVER), "1": (NEVER, ALWAYS), "x": (NEVER, NEVER)}
        self.may.update({bit: (ALWAYS, ALWAYS) for bit in self.net.input_bits})
        self.may.update({bit: (NEVER, NEVER) for bit in self.where if bit != "x"})
        for key in self.net.order:
            cell = self.module["cells"][key]
            pins = {pin: bits[0] for pin, bits in cell["connections"].items()}
            wheres = [self.of(pins[pin]) for pin in "ABS" if pin in pins]
            found = self.parts(cell["type"], pins)
            self.may[pins["Y"]] = found[:2]
            self.where[pins["Y"]] = (NEVER if all(where == NEVER for where in wheres)
                                     else found[2])

    def values(self, bit):
        """Where a bit may be 0, 1 and undefined; a register is what it is."""
        if bit not in self.may:
            self.may[bit] = (self.inverse(bit), bit)
        return (*self.may[bit], self.of(bit))

    def parts(self, kind, pins):
        found = [self.values(pins[pin]) for pin in "ABS" if pin in pins]
        if kind == "$_NOT_":
            return self.inverted(found[0])
        if kind == "$_BUF_":
            return found[0]
        if kind in CHOICES:
            chosen = self.chosen(*found)
            return self.inverted(chosen) if kind == "$_NMUX_" else chosen
        first, second = found
        if DECIDING[kind] is None:
            either = self.exclusive(first, second)
            return either if kind == "$_XOR_" else self.inverted(either)
        # Each is an and of operands that may be inverted, and may be inverted itself.
        first, second = (operand if value == 0 else self.inverted(operand)
                         for operand, value in zip(found, DECIDING[kind]))
        joined = self.conjunction(first, second)
        return self.inverted(joined) if kind in ("$_NAND_", "$_OR_", "$_ORNOT_") else joined

    @staticmethod
    def inverted(values):
        return values[1], values[0], values[2]

    def conjunction(self, first, second):
        return (self.either(first[0], second[0]), self.both(first[1], second[1]),
                self.either(self.both(first[2], self.either(second[1], second[2])),
                            self.both(second[2], self.either(first[1], first[2]))))

    def exclusive(self, first, second):
        return (self.either(self.both(first[0], second[0]), self.both(first[1], second[1])),
                self.either(self.both(first[0], second[1]), self.both(first[1], second[0])),
                self.either(first[2], second[2]))

    def chosen(self, first, second, chooser):
        """Where the chooser may be undefined, so may be all that is not the same on both sides."""
        zero, one, undefined = (self.either(self.both(chooser[0], left),
                                            self.both(chooser[1], right))
                                for left, right in zip(first, second))
        equal = self.conjunction(first, second)[1], self.conjunction(
            self.inverted(first), self.inverted(second))[1]
        _, differ, unknown = self.exclusive(first, second)
        return (self.either(zero, self.both(chooser[2], equal[1])),
                self.either(one, self.both(chooser[2], equal[0])),
                self.either(undefined, self.both(chooser[2], self.either(differ, unknown))))


def next_states(undefined):
    """The registers that may take an undefined value, and where."""
    reached, where, net = [], NEVER, undefined.net
    for key in net.live_flops:
        cell = undefined.module["cells"][key]
        own = undefined.of(cell["connections"]["D"][0])
        if own != NEVER:
            reached.append(net.describe(net.driven(cell)))
            where = undefined.either(where, own)
    return reached, where


def add_care(name, modules, words):
    """Adds the care output or the invariant to a module, and says what is free where it is 0."""
    is_care = words.undef == "care"
    undefined = (Undefined if is_care else EverUndefined)(name, modules, words)
    module, net = modules[name], undefined.net
    taking, where = next_states(undefined)
    if is_care and taking:
        raise Fault(f"register {taking[0]} may take an undefined value (x), and what it holds is "
                    "compared in all states; --undef 0 or --undef 1 chooses a bit for it, and "
                    "--undef invariant leaves out the states in which this may happen, if they "
                    "never come")
    reached, others = [], []
    for port, shape in module["ports"].items():
        if shape["direction"] == "output":
            own = NEVER
            for bit in shape["bits"]:
                own = undefined.either(own, undefined.of(bit))
            (others if own == NEVER else reached).append(port)
            where = undefined.either(where, own)
    reached += [f"the next state of {register}" for register in dict.fromkeys(taking)]
    if not reached:
        what = "an output, so there is no care output" if is_care else (
            "an output or a register, so there is no invariant")
        say(f"no undefined value reaches {what}")
        return
    care = words.undef
    while care in module["netnames"]:
        care += "_"
    bit = undefined.inverse(where)
    bit = undefined.cell("$_BUF_", A=bit) if bit in (ALWAYS, NEVER) else bit
    module["ports"][care] = {"direction": "output", "bits": [bit]}
    module["netnames"][care] = {"hide_name": 0, "bits": [bit], "attributes": {}}
    if not is_care:
        say(f"{care} is 0 in states in which some inputs may make {' or '.join(reached)} "
            f"undefined: compare with --invariant {care}, which finds out whether such states "
            "stay away")
        return
    say(f"{care} is 0 where {', '.join(reached)} would be undefined: compare with --care {care}")
    free = others + ["all next states"] * bool(net.live_flops)
    if free:
        say(f"where it is 0, these are free too: {', '.join(free)}")


def say(text):
    print(f"gates: {text}", file=sys.stderr)
