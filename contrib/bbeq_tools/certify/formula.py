"""Clauses over what the outputs of boxes are: a netlist at a vector, with constants put in."""
from itertools import product
from typing import Dict, Iterable, List, Optional, Sequence, Tuple

from bbeq_tools.certify.netlists import Bit, Design
from bbeq_tools.cli import Fault

TRUE, FALSE = 1, -1  # The first variable is true in each formula.
MOST_PINS = 16  # Of one box, that are not constant at a vector.


class Formula:
    """Clauses of literals, and the gates that were made so far."""

    def __init__(self) -> None:
        self.count, self.clauses = 1, [[TRUE]]
        self.gates: Dict[Tuple[str, int, int], int] = {}
        self.tables: Dict[Tuple[str, Tuple[int, ...], int], int] = {}

    def fresh(self) -> int:
        self.count += 1
        return self.count

    def both(self, one: int, other: int) -> int:
        """A literal that is true where both are."""
        if one == other or other == TRUE:
            return one
        if one == TRUE:
            return other
        if FALSE in (one, other) or one == -other:
            return FALSE
        key = ("and", min(one, other), max(one, other))
        if key not in self.gates:
            out = self.gates[key] = self.fresh()
            self.clauses += [[-out, one], [-out, other], [out, -one, -other]]
        return self.gates[key]

    def differ(self, one: int, other: int) -> int:
        """A literal that is true where they differ."""
        for left, right in ((one, other), (other, one)):
            if abs(left) == TRUE:
                return -right if left == TRUE else right
        if abs(one) == abs(other):
            return FALSE if one == other else TRUE
        sign = -1 if (one < 0) != (other < 0) else 1
        key = ("xor", min(abs(one), abs(other)), max(abs(one), abs(other)))
        if key not in self.gates:
            out, left, right = self.fresh(), key[1], key[2]
            self.gates[key] = out
            self.clauses += [[-out, left, right], [-out, -left, -right], [out, -left, right],
                             [out, left, -right]]
        return sign * self.gates[key]

    def either(self, one: int, other: int) -> int:
        return -self.both(-one, -other)

    def gate(self, kind: str, ins: Sequence[int]) -> int:
        """The output of a cell of yosys."""
        if kind in ("wire", "$_BUF_"):
            return ins[0]
        if kind == "$_NOT_":
            return -ins[0]
        if kind == "$_MUX_":
            return self.either(self.both(-ins[2], ins[0]), self.both(ins[2], ins[1]))
        if kind in ("$_AND_", "$_NAND_"):
            return self.both(*ins) if kind == "$_AND_" else -self.both(*ins)
        if kind in ("$_OR_", "$_NOR_"):
            return self.either(*ins) if kind == "$_OR_" else -self.either(*ins)
        if kind in ("$_XOR_", "$_XNOR_"):
            return self.differ(*ins) if kind == "$_XOR_" else -self.differ(*ins)
        raise Fault(f"yosys left a cell {kind}, which certify does not know")

    def table(self, key: str, pins: List[int], count: int) -> List[int]:
        """The outputs of a box at these pins: those of the row of its table that they choose. The
        table is one for all boxes with this key, and at all vectors."""
        free = [at for at, pin in enumerate(pins) if abs(pin) != TRUE]
        if len(free) > MOST_PINS:
            raise Fault(f"box {key} has more than {MOST_PINS} pins that other boxes feed")
        outs = [self.fresh() for _ in range(count)] if free else []
        for choice in product((FALSE, TRUE), repeat=len(free)):
            row = list(pins)
            for at, bit in zip(free, choice):
                row[at] = bit
            cells = [self.cell(key, tuple(row), pin) for pin in range(count)]
            if not free:
                return cells
            other = [-pins[at] if bit == TRUE else pins[at] for at, bit in zip(free, choice)]
            for out, cell in zip(outs, cells):
                self.clauses += [[*other, -out, cell], [*other, out, -cell]]
        return outs

    def cell(self, key: str, row: Tuple[int, ...], pin: int) -> int:
        place = (key, row, pin)
        if place not in self.tables:
            self.tables[place] = self.fresh()
        return self.tables[place]

    def values(self, design: Design, vector: Dict[str, str], keys: Optional[List[str]]
               ) -> Dict[Tuple[str, str], int]:
        """The outputs and next states at a vector. The boxes have tables with these keys, or their
        outputs are free."""
        known: Dict[Bit, int] = {"0": FALSE, "1": TRUE}
        for name, bit in (*design.inputs.items(), *design.registers.items()):
            known[bit] = TRUE if vector[name] == "1" else FALSE
        for cell in design.order:
            ins = [self.value(known, bit) for bit in cell.ins]
            if not cell.kind.startswith("box "):
                known[cell.outs[0]] = self.gate(cell.kind, ins)
            elif keys is None:
                known.update({bit: self.fresh() for bit in cell.outs})
            else:
                outs = self.table(keys[int(cell.kind[4:])], ins, len(cell.outs))
                known.update(zip(cell.outs, outs))
        found = {("output", name): self.value(known, bit) for name, bit in design.outputs.items()}
        for name, bit in design.registers.items():
            found["next", name] = self.value(known, design.states[bit])
        return found

    def value(self, known: Dict[Bit, int], bit: Bit) -> int:
        """Of a net that nothing drives, and of an undefined constant, any bit."""
        if isinstance(bit, str) and bit not in known:
            return self.fresh()
        if bit not in known:
            known[bit] = self.fresh()
        return known[bit]

    def ask(self, pairs: Iterable[Tuple[int, str]]) -> None:
        """Each literal has this bit."""
        for literal, bit in pairs:
            self.clauses.append([literal if bit == "1" else -literal])

    def text(self) -> str:
        lines = [f"p cnf {self.count} {len(self.clauses)}"]
        return "\n".join(lines + [" ".join(map(str, [*clause, 0])) for clause in self.clauses]
                         ) + "\n"
