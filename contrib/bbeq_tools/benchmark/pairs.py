"""The pairs: forty without boxes, of two structures or of one and what yosys makes of it, and forty
with boxes. Of the first five have a wrong gate, of the second a half."""
import random
from typing import Callable, List, NamedTuple, Optional

from bbeq_tools.benchmark import boxed
from bbeq_tools.benchmark.arithmetic import adder, count_of_ones, multiplier
from bbeq_tools.benchmark.choices import (alu_lanes, case_statement, comparator, priority_encoder,
                                          rotator)
from bbeq_tools.benchmark.circuits import Circuit
from bbeq_tools.benchmark.mistakes import hidden_mistake, rare_mistake
from bbeq_tools.benchmark.states import register_file, state_machines

YOSYS = "yosys"


class Plan(NamedTuple):
    """A pair that is to be drawn: how its two circuits are built, whether the implementation has a
    wrong gate, and whether yosys then makes a netlist of it."""

    name: str
    specification: Callable[[], Circuit]
    implementation: Callable[[], Circuit]
    is_wrong: bool
    is_synthesised: bool


class Pair(NamedTuple):
    name: str
    specification: Circuit
    implementation: Circuit
    is_wrong: bool
    is_synthesised: bool


def plain(family: str, build: Callable[..., Circuit], one: str, other: str, *sizes: int,
          wrong: bool = False) -> Plan:
    """A pair without boxes: two structures, or one and that of yosys."""
    name = "_".join([family, *map(str, sizes), one, other, *["wrong"] * wrong])
    return Plan(name, lambda: build(one, *sizes),
                lambda: build(one if other == YOSYS else other, *sizes), wrong, other == YOSYS)


def holed(family: str, build: Callable[[bool, int, int], Circuit], size: int,
          holes: int) -> List[Plan]:
    """Two pairs with boxes: a right one, and one with a wrong gate."""
    return [Plan("_".join([family, str(size), str(holes), *["wrong"] * wrong]),
                 lambda: build(True, size, holes), lambda: build(False, size, holes), wrong, False)
            for wrong in (False, True)]


def plain_plans() -> List[Plan]:
    return [
        plain("adder", adder, "ripple", "lookahead", 16),
        plain("adder", adder, "ripple", "select", 32),
        plain("adder", adder, "ripple", "lookahead", 64),
        plain("adder", adder, "lookahead", "select", 64),
        plain("adder", adder, "select", "ripple", 64, wrong=True),
        plain("adder", adder, "ripple", YOSYS, 32),
        plain("adder", adder, "lookahead", YOSYS, 64),
        plain("multiplier", multiplier, "array", "wallace", 4),
        plain("multiplier", multiplier, "array", "wallace", 6),
        plain("multiplier", multiplier, "array", "wallace", 8),
        plain("multiplier", multiplier, "array", "wallace", 10),
        plain("multiplier", multiplier, "array", "wallace", 9, wrong=True),
        plain("multiplier", multiplier, "array", YOSYS, 6),
        plain("multiplier", multiplier, "wallace", YOSYS, 8),
        plain("rotator", rotator, "rising", "falling", 8),
        plain("rotator", rotator, "rising", "falling", 32),
        plain("rotator", rotator, "rising", YOSYS, 16),
        plain("rotator", rotator, "falling", YOSYS, 32),
        plain("comparator", comparator, "line", "tree", 32),
        plain("comparator", comparator, "line", "tree", 64),
        plain("comparator", comparator, "tree", YOSYS, 64),
        plain("priority", priority_encoder, "line", "tree", 128),
        plain("priority", priority_encoder, "line", "tree", 256, wrong=True),
        plain("priority", priority_encoder, "line", YOSYS, 256),
        plain("alu", alu_lanes, "apart", "shared", 8),
        plain("alu", alu_lanes, "apart", "shared", 32),
        plain("alu", alu_lanes, "apart", "shared", 64),
        plain("alu", alu_lanes, "shared", YOSYS, 16),
        plain("alu", alu_lanes, "apart", YOSYS, 64, wrong=True),
        plain("case", case_statement, "tree", "products", 8, 16),
        plain("case", case_statement, "tree", "products", 10, 16),
        plain("case", case_statement, "tree", YOSYS, 9, 8),
        plain("file", register_file, "tree", "products", 3, 16),
        plain("file", register_file, "tree", "products", 5, 32),
        plain("file", register_file, "products", YOSYS, 4, 32),
        plain("memory", register_file, "tree", "products", 6, 24, 1, wrong=True),
        plain("machines", state_machines, "tree", "products", 8, 5, 3),
        plain("machines", state_machines, "tree", YOSYS, 16, 4, 3),
        plain("count", count_of_ones, "up", "tree", 32),
        plain("count", count_of_ones, "tree", YOSYS, 64)]


def holed_plans() -> List[Plan]:
    sizes = [("bitcells", boxed.bitcell_arbiter, ((8, 1), (24, 4), (96, 16))),
             ("lookahead", boxed.lookahead_arbiter, ((2, 1), (6, 2), (24, 8))),
             ("chain", boxed.xor_chain, ((8, 1), (32, 4), (96, 16))),
             ("holes", boxed.holed_adder, ((8, 1), (24, 4), (64, 16))),
             ("count", boxed.holed_count, ((7, 1), (31, 4), (96, 16))),
             ("decimal", boxed.decimal_adder, ((2, 1), (6, 2), (16, 8))),
             ("processor", boxed.processor, ((8, 3), (32, 9)))]
    return [plan for family, build, several in sizes for size, holes in several
            for plan in holed(family, build, size, holes)]


def small_plans() -> List[Plan]:
    """Six of some gates each, for tries."""
    return [plain("adder", adder, "ripple", "select", 8),
            plain("multiplier", multiplier, "array", "wallace", 3, wrong=True),
            plain("machines", state_machines, "tree", YOSYS, 1, 2, 2),
            *holed("count", boxed.holed_count, 6, 1)[1:],
            *holed("chain", boxed.xor_chain, 6, 2)]


def drawn(plan: Plan) -> Pair:
    """The pair, the same in each call."""
    draw = random.Random(plan.name)
    spec, imp = plan.specification(), plan.implementation()
    if plan.is_wrong:
        imp = (hidden_mistake if imp.boxes else rare_mistake)(spec, imp, draw)
    return Pair(plan.name, spec, imp, plan.is_wrong, plan.is_synthesised)


def plan_named(name: str, plans: List[Plan]) -> Optional[Plan]:
    return next((plan for plan in plans if plan.name == name), None)
