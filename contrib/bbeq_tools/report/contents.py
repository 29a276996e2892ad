"""The contents of a box as text: as short expressions, as a case statement with a line for each row
or for rows that are joined, or as trees of choices. All are continuous assignments, which have
their values from time 0 on: `always @*` waits for a pin to change. Where no vector brings a row to
the pins, `-` stands for the bits of its outputs."""
from typing import Callable, Iterable, Iterator, List, Sequence

from bbeq_tools.report.products import MOST_PINS, Cube, covers, primes
from bbeq_tools.report.sums import expression
from bbeq_tools.verilog.language import Module, Net, bit_text, written

Contents = Sequence[str]  # The bits of each output pin, row by row.
WIDTH = 104  # Of a line that lists rows.


def joined(nets: Iterable[Net]) -> str:
    names = [written(net.name) for net in nets]
    return names[0] if len(names) == 1 else "{" + ", ".join(names) + "}"


def ports_of(module: Module, direction: str) -> List[Net]:
    return [module.nets[port] for port in module.ports if module.nets[port].direction == direction]


def case_lines(module: Module, contents: Contents) -> Iterator[str]:
    """A row of the table a line: the inputs, the first pin most significant, and the outputs in the
    same order. Where a pin is x, no row is met, and all outputs are x."""
    pins, rows = len(module.pins("input")), rows_of(module, contents)
    name, outs = own_name(module), len(module.pins("output"))
    body = ["case (pins)"]
    for row, bits in enumerate(rows):
        if "-" not in bits:
            body.append(f"  {pins}'b{row:0{pins}b}: {name} = {outs}'b{bits};")
    if any("-" in bits for bits in rows):
        body += ["  // No vector brings another row to the pins: 0, or x where a pin is x.",
                 f"  default: {name} = {{{outs}{{^pins ^ ^pins}}}};"]
    yield from framed(module, name, [*body, "endcase"], joined(ports_of(module, "input")))


def casez_lines(module: Module, contents: Contents) -> Iterator[str]:
    """For each output pin all rows that make it 1 and all that make it 0, joined as far as they can
    be: `?` is a pin that may be either, and several stand before one colon. So an output is known
    wherever the pins that are known decide it. Of more than ten input pins a tree."""
    if len(module.pins("input")) > MOST_PINS:
        yield from assign_lines(module, contents)
        return
    name, outputs = own_name(module), module.pins("output")
    body = []
    if any("-" in bits for bits in contents):
        body.append("// Some of these rows come at no vector.")
    for place, bits in zip(reversed(range(len(outputs))), contents):
        target = f"{name}[{place}]" if len(outputs) > 1 else name
        body += decided(len(module.pins("input")), bits, target)
    # By the or a pin that is z is x; else it would match each digit.
    call = f"{joined(ports_of(module, 'input'))} | {len(module.pins('input'))}'b0"
    yield from framed(module, name, body, call)


def decided(width: int, bits: str, target: str) -> List[str]:
    """The lines that give an output its bit, by all prime implicants of it and of its complement,
    of which one has each row that never comes."""
    ones, zeros, free = ({row for row, bit in enumerate(bits) if bit == kind} for kind in "10-")
    if not ones or not zeros:
        return [f"{target} = 1'b{int(bool(ones))};"]
    listed = {"1": [cube for cube in primes(width, ones | free)
                    if any(covers(cube, row) for row in ones)], "0": primes(width, zeros | free)}
    lines = ["casez (pins)"]
    for bit, found in listed.items():
        rows = sorted((digits_of(width, cube) for cube in found),
                      key=lambda row: (row.replace("?", "0"), row))
        lines += wrapped([f"{width}'b{row}" for row in rows], f": {target} = 1'b{bit};")
    return [*lines, "endcase"]


def digits_of(width: int, cube: Cube) -> str:
    """The digits of a cube, `?` where either will do."""
    care, value = cube
    return "".join(str(value >> place & 1) if care >> place & 1 else "?"
                   for place in reversed(range(width)))


def rows_of(module: Module, contents: Contents) -> List[str]:
    """The outputs of each row, the first pin first."""
    return ["".join(pins[row] for pins in contents)
            for row in range(2 ** len(module.pins("input")))]


def own_name(module: Module) -> str:
    """A name for a function that no net has."""
    name = "contents"
    while name in module.nets:
        name += "_"
    return name


def framed(module: Module, name: str, body: Iterable[str], call: str) -> Iterator[str]:
    """A function of the input pins with these lines, and its call."""
    pins, outs = len(module.pins("input")), len(module.pins("output"))
    yield f"  function {f'[{outs - 1}:0] ' if outs > 1 else ''}{name};"
    yield f"    input {f'[{pins - 1}:0] ' if pins > 1 else ''}pins;"
    yield "    begin"
    yield f"      {name} = {outs}'b{'x' * outs};"
    for line in body:
        yield f"      {line}"
    yield "    end"
    yield "  endfunction"
    yield f"  assign {joined(ports_of(module, 'output'))} = {name}({call});"


def wrapped(parts: List[str], end: str) -> Iterator[str]:
    """Parts with commas between them, as lines that are not too long."""
    line = "  "
    for part in parts[:-1]:
        if len(line) + len(part) > WIDTH:
            yield line.rstrip()
            line = "    "
        line += part + ", "
    yield line + parts[-1] + end


def sum_lines(module: Module, contents: Contents) -> Iterator[str]:
    """A short expression for each output pin; of more than ten input pins a tree."""
    if len(module.pins("input")) > MOST_PINS:
        return assign_lines(module, contents)
    return assigned(module, contents, expression)


def assign_lines(module: Module, contents: Contents) -> Iterator[str]:
    """A tree of conditions on the input pins for each output pin, the first pin outermost; `-` is
    0."""
    return assigned(module, contents, lambda names, bits: tree(names, bits.replace("-", "0")))


def assigned(module: Module, contents: Contents,
             made: Callable[[List[str], str], str]) -> Iterator[str]:
    names = [bit_text(written(net.name), index) for net, index in module.pins("input")]
    for (net, index), bits in zip(module.pins("output"), contents):
        yield f"  assign {bit_text(written(net.name), index)} = {made(names, bits)};"


def tree(names: List[str], bits: str) -> str:
    if len(set(bits)) == 1:
        return f"1'b{bits[0]}"
    half = len(bits) // 2
    if bits[:half] == bits[half:]:
        return tree(names[1:], bits[half:])
    low, high = tree(names[1:], bits[:half]), tree(names[1:], bits[half:])
    if (low, high) == ("1'b0", "1'b1"):
        return names[0]
    if (low, high) == ("1'b1", "1'b0"):
        return f"~{names[0]}"
    return f"{names[0]} ? {bracketed(high)} : {bracketed(low)}"


def bracketed(expression: str) -> str:
    return f"({expression})" if "?" in expression else expression
