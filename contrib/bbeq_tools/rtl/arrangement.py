"""The order in which `gates` writes ports and registers, and which of them it takes apart."""
from bbeq_tools.rtl.ordering import best_order, runs
from bbeq_tools.rtl.sources import natural


class Arrangement:
    """`ports` and `states` have the ports and the registers of a netlist in their order, each as
    (name, None), or bit by bit as (name, position) where it is taken apart; `split` has all bits
    that have a net of their own."""

    def __init__(self, netlist, keep_order):
        self.net, self.split = netlist, set()
        self.registers = self.find_registers()
        self.ports = [(port, None) for port in netlist.ports]
        self.states = [state for name, bits in self.registers.items()
                       for state in self.whole_or_split(name, bits)]
        # A text with boxes is no specification, and the order of the other text counts for nothing.
        if not keep_order and not netlist.boxes:
            self.arrange()

    def find_registers(self):
        """The registers: for each net that is one throughout its position list; bits of other nets
        get a net of their own."""
        groups = {}
        for key in self.net.live_flops:
            name, position = self.net.name_of[self.net.driven(self.net.cells[key])]
            groups.setdefault(name, {})[position] = key
        groups = dict(sorted(groups.items(), key=lambda group: natural(group[0])))
        for name, bits in groups.items():
            if (len(bits) < len(self.net.nets[name]["bits"])
                    or self.net.ports.get(name, {}).get("direction") == "input"):
                self.split.update((name, position) for position in bits)
        return groups

    def whole_or_split(self, name, bits):
        positions = sorted(bits, reverse=True)
        return [(name, at) for at in positions] if (name,
                                                    positions[0]) in self.split else [(name, None)]

    def arrange(self):
        """Puts inputs and registers in an order that keeps diagrams small; those whose bits are to
        stand between others are taken apart."""
        inputs = {bit: (name, at) for name, shape in self.net.ports.items() if shape["direction"]
                  == "input" for at, bit in reversed(list(enumerate(shape["bits"])))}
        states = {self.net.driven(self.net.cells[key]): (name, at)
                  for name, bits in self.registers.items()
                  for at, key in sorted(bits.items(), reverse=True)}
        outputs = [name for name, shape in self.net.ports.items() if shape["direction"] == "output"]
        roots = [self.net.ports[name]["bits"][::-1] for name in outputs]
        roots += [[self.net.cells[key]["connections"]["D"][0] for key in bits.values()]
                  for bits in self.registers.values()]
        order = best_order(roots, self.net.sources, [inputs, states])
        if order != [list(inputs), list(states)]:
            self.ports = self.parts(order[0], inputs) + [(name, None) for name in outputs]
            self.states = self.parts(order[1], states)
            self.split.update(part for part in self.ports + self.states if part[1] is not None)

    def parts(self, order, names):
        """Nets in this order of their bits, whole or bit by bit."""
        def own_bits(name):
            return [place
                    for place in names.values() if place[0] == name and place not in self.split]
        return runs([names[bit] for bit in order], own_bits, self.stays)

    def stays(self, name):
        """A net that the source does not name stays whole, and so does one where another has the
        name of one of its bits."""
        net = self.net.nets[name]
        bits = [f"{name}[{self.net.index(name, at)}]" for at in range(len(net["bits"]))]
        return net["hide_name"] or any(bit in self.net.nets or bit in self.net.boxes
                                       for bit in bits)
