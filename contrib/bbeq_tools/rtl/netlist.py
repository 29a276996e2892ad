"""The netlist that yosys mapped for `gates`: who drives each bit, which bits are registers, and
which name each bit goes by."""
from bbeq_tools.cli import Fault
from bbeq_tools.rtl.marks import MARK, WORD
from bbeq_tools.rtl.sources import place

GATES = {"$_AND_": "and", "$_OR_": "or", "$_XOR_": "xor", "$_NAND_": "nand", "$_NOR_": "nor",
         "$_XNOR_": "xnor"}
EDGES = {"$_DFF_P_": "posedge", "$_DFF_N_": "negedge"}
SUMS, SHIFTS = {WORD + "add": "+", WORD + "sub": "-"}, {WORD + "shl": "<<", WORD + "shr": ">>"}
WORDS = {**SUMS, **SHIFTS, WORD + "eq": "==", WORD + "ne": "!=", WORD + "lt": "<",
         WORD + "le": "<=", WORD + "gt": ">", WORD + "ge": ">=", WORD + "logic_and": "&&",
         WORD + "logic_or": "||"}
FOLDS = {WORD + "reduce_and": "&", WORD + "reduce_or": "|", WORD + "reduce_xor": "^",
         WORD + "reduce_xnor": "~^", WORD + "reduce_bool": "|", WORD + "logic_not": "!"}
CHECKS = ("$assert", "$assume", "$cover", "$live", "$fair")


class Netlist:
    """The mapped top: who drives each bit, which bits are registers, and which name each bit goes
    by."""

    def __init__(self, name, modules, words):
        self.name, self.modules, self.top, self.undef = name, modules, modules[name], words.undef
        self.ports, self.nets, self.cells = (self.top["ports"], self.top["netnames"],
                                             self.top["cells"])
        self.gates = {key: cell for key, cell in self.cells.items() if cell["type"] in GATES
                      or cell["type"] in ("$_NOT_", "$_MUX_", "$_BUF_", "$_NMUX_", "$_ANDNOT_",
                                          "$_ORNOT_")}
        self.words = {key: cell for key, cell in self.cells.items() if cell["type"] in WORDS
                      or cell["type"] in FOLDS}
        self.flops = {key: cell for key, cell in self.cells.items() if cell["type"] in EDGES}
        self.boxes = {key: cell for key, cell in self.cells.items() if cell["type"] in modules}
        self.refuse_others()
        self.input_bits = {bit for port in self.ports.values() if port["direction"] == "input"
                           for bit in port["bits"]}
        self.driver = self.find_drivers()
        self.flop_of = {self.driven(cell): key for key, cell in self.flops.items()}
        self.name_of = self.choose_names()
        self.order = self.live_cells()

    def refuse_others(self):
        for key, cell in self.cells.items():
            if (key in self.gates or key in self.words or key in self.flops or key in self.boxes
                    or cell["type"] in CHECKS):
                continue
            raise Fault(f"{place(cell['attributes'])}: a cell of kind {cell['type']} has no gates")

    def driven(self, cell):
        return cell["connections"]["Q" if cell["type"] in EDGES else "Y"][0]

    def outputs(self, cell):
        """The bits that a cell drives."""
        if cell["type"] in self.modules:
            ports = self.modules[cell["type"]]["ports"]
            return [bit for port, bits in cell["connections"].items()
                    if ports[port]["direction"] == "output" for bit in bits]
        return cell["connections"]["Q" if cell["type"] in EDGES else "Y"]

    def inputs(self, cell):
        """The bits that a cell reads."""
        if cell["type"] in self.modules:
            ports = self.modules[cell["type"]]["ports"]
            return [bit for port, bits in cell["connections"].items()
                    if ports[port]["direction"] == "input" for bit in bits]
        return [bit for port, bits in cell["connections"].items() if port not in ("Y", "Q")
                for bit in bits]

    def sources(self, bit):
        """The bits from which a gate makes a bit: what chooses, and then what is chosen."""
        key = bit[0] if isinstance(bit, tuple) else self.driver.get(bit)
        if key in self.words:
            return self.word_sources(key, bit)
        if key not in self.gates:
            return []
        pins = self.cells[key]["connections"]
        return [pins[pin][0] for pin in ("S", "B", "A")
                if pin in pins] if "S" in pins else self.inputs(self.cells[key])

    def word_sources(self, key, bit):
        """The same of a bit of an operator on words. What stands between operands and result has
        the name of the cell with a place: of what goes on from place to place, as a carry does, and
        of a shift the row as well."""
        cell = self.cells[key]
        pins, kind = cell["connections"], cell["type"]
        if kind in SHIFTS:
            row, at = bit[1:] if isinstance(bit, tuple) else (len(pins["B"]), pins["Y"].index(bit))
            if not row:
                return pins["A"][at:at + 1]
            width = max(len(pins["A"]), len(pins["Y"]))
            moved = at + min(1 << row - 1, width) * (1 if SHIFTS[kind] == ">>" else -1)
            return [pins["B"][row - 1],
                    *[(key, row - 1, place) for place in (moved, at) if 0 <= place < width]]
        if isinstance(bit, tuple):
            return [pins[pin][bit[1]] for pin in ("A", "B")
                    if bit[1] < len(pins.get(pin, ()))] + [(key, bit[1] - 1)] * (bit[1] > 0)
        if kind in SUMS:
            at = pins["Y"].index(bit)
            return [pins[pin][at]
                    for pin in ("A", "B") if at < len(pins[pin])] + [(key, at - 1)] * (at > 0)
        return [(key, max(len(pins[pin])
                          for pin in ("A", "B") if pin in pins) - 1)] * (bit == pins["Y"][0])

    def find_drivers(self):
        driver = {}
        for key in [*self.gates, *self.words, *self.flops, *self.boxes]:
            for bit in self.outputs(self.cells[key]):
                if bit in driver or bit in self.input_bits or isinstance(bit, str):
                    raise Fault(f"{place(self.cells[key]['attributes'])}: {self.describe(bit)} "
                                "has two drivers")
                driver[bit] = key
        return driver

    def describe(self, bit):
        names = [name for name, net in self.nets.items() if bit in net["bits"]]
        names.sort(key=lambda name: (not name.endswith(MARK[1:]), self.nets[name]["hide_name"],
                                     name))
        return names[0] if names else "a net"

    def choose_names(self):
        """For each bit the net and the position by which it is called: an input, the register's own
        net, an output, any net that the source names, and then the first that yosys made up."""
        def rank(name):
            net, port = self.nets[name], self.ports.get(name)
            if port:
                return 0 if port["direction"] == "input" else 2, 0, name
            if net["hide_name"]:
                return 4, 0, name
            return 1 if "bbeq_register" in net["attributes"] else 3, name.count("."), name

        chosen = {}
        for name in sorted(self.nets, key=rank):
            for position, bit in enumerate(self.nets[name]["bits"]):
                marked = "bbeq_register" in self.nets[name]["attributes"] and bit in self.flop_of
                if bit not in chosen or (marked and not self.is_marked(chosen[bit])
                                         and bit not in self.input_bits):
                    chosen[bit] = (name, position)
        return chosen

    def index(self, name, position):
        """The index of a net's position, the rightmost bit being position 0."""
        net = self.nets[name]
        width, offset = len(net["bits"]), net.get("offset", 0)
        return offset + (width - 1 - position if net.get("upto") else position)

    def is_marked(self, chosen):
        return "bbeq_register" in self.nets[chosen[0]]["attributes"]

    def live_cells(self):
        """The gates that something depends on, operands first; and the flip-flops that the source
        names or that are read."""
        kept = [key for key in self.flops if self.is_kept(key)]
        roots = [bit for port in self.ports.values() if port["direction"] != "input"
                 for bit in port["bits"]]
        roots += [bit for key in self.boxes for bit in self.inputs(self.cells[key])]
        self.live_flops, order, state = dict.fromkeys(kept), {}, {}
        pending = roots + [bit for key in kept for bit in self.inputs(self.cells[key])]
        while pending:
            for key in self.reach(pending.pop(), state, order):
                if key in self.flops:
                    self.live_flops[key] = None
                pending += self.inputs(self.cells[key])
                pending += self.outputs(self.cells[key])
        return list(order)

    def is_kept(self, key):
        """The source names this register bit, and not only as a variable of a loop or of a task, of
        which nothing else is read."""
        bit = self.driven(self.flops[key])
        name = self.name_of[bit][0]
        net = self.nets[name]
        if (net["hide_name"] or "$func$" in name
                or isinstance(self.flops[key]["connections"]["D"][0], str)):
            return False
        return not (net.get("signed") and len(net["bits"]) == 32)

    def reach(self, bit, state, order):
        """Walks from a bit through gates and operators on words depth first; appends these to the
        order, and gives the flip-flops and the operators that it meets first."""
        met, stack = [], [(bit, False)]
        while stack:
            bit, done = stack.pop()
            key = bit[0] if isinstance(bit, tuple) else self.driver.get(bit)
            if key is None or key in self.boxes:
                continue
            if key in self.flops:
                if key not in self.live_flops:
                    met.append(key)
            elif done:
                state[bit] = "done"
                if key in self.words and key not in order:
                    met.append(key)
                order.setdefault(key)
            elif state.get(bit) == "open":
                bit = self.driven(self.cells[key])
                source = place(self.cells[key]["attributes"],
                               None) or place(self.nets[self.describe(bit)]["attributes"])
                raise Fault(f"{source}: {self.describe(bit)} depends on itself "
                            "within a clock cycle")
            elif bit not in state:
                state[bit] = "open"
                stack.append((bit, True))
                reads = (self.word_sources(key, bit) if key in self.words
                         else self.inputs(self.cells[key]))
                stack += [(read, False) for read in reversed(reads)]
        return met
