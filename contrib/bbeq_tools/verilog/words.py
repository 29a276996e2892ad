"""What operators on words do: the widths at which they take their operands (docs/LANGUAGE.md; IEEE
1364-2005, table 5-22), what they mean as numbers, and the cells that bbeq makes of them."""
from typing import Any, List, Sequence, Tuple

Bits = List[Any]  # As the gates make them.
SUMS, SHIFTS, TRUTHS = ("+", "-"), ("<<", ">>"), ("&&", "||")


def result_width(operator: str, left: int, right: int) -> int:
    """The own width of an operator, from those of its operands."""
    return max(left, right) if operator in SUMS else left if operator in SHIFTS else 1


def taken_at(operator: str, left: int, right: int, context: int) -> Tuple[int, int]:
    """The widths at which an operator takes its operands, from their own and that of the
    context."""
    if operator in SUMS:
        return context, context
    if operator in SHIFTS:
        return context, right
    return (left, right) if operator in TRUTHS else (max(left, right),) * 2


def contexts(operators: Sequence[str], owns: Sequence[int],
             width: int) -> Tuple[int, List[Tuple[str, int, int]]]:
    """For a level of operators, grouped to the left, in a context of this width, with operands that
    have these own widths: the width at which the first operand is taken, and for each operator
    itself, the width at which its second operand is taken, and that of its result."""
    own = [owns[0]]
    found: List[Tuple[str, int, int]] = []
    for operator, beside in zip(operators, owns[1:]):
        own.append(result_width(operator, own[-1], beside))
    for operator, left, right in zip(operators[::-1], own[-2::-1], owns[:0:-1]):
        first, second = taken_at(operator, left, right, width)
        found.append((operator, second, width))
        width = first
    return width, found[::-1]


def meaning(operator: str, left: int, right: int, width: int) -> int:
    """The number that an operator gives of two numbers, the first of which has this width."""
    most = 1 << width
    if operator == "+":
        return (left + right) % most
    if operator == "-":
        return (left - right) % most
    if operator == "<<":
        return (left << right) % most if right < width else 0
    if operator == ">>":
        return left >> right if right < width else 0
    return int({"==": left == right, "!=": left != right, "<": left < right, "<=": left <= right,
                ">": left > right, ">=": left >= right, "&&": bool(left and right),
                "||": bool(left or right)}[operator])


def reduction(operator: str, number: int, width: int) -> bool:
    """The bit that a reduction gives of a number of this width."""
    bits = bin(number).count("1")
    bit = {"!": not bits, "&": bits == width, "~&": bits != width, "|": bits > 0, "~|": not bits,
           "^": bits % 2 == 1}
    return bool(bit.get(operator, bits % 2 == 0))


def circuit(gates: Any, operator: str, left: Bits, right: Bits) -> Bits:
    """The bits of an operator, the leftmost first, by the gates that bbeq makes; `gates` has zero
    and one, inverted(a), joined(bits, operators), choice(condition, then, otherwise) and once(a),
    which makes what is read at several places."""
    low = [gates.once(bit) for bit in reversed(left)]
    high = [gates.once(bit) for bit in reversed(right)]
    if operator == "+":
        made = added(gates, low, high, gates.zero)
    elif operator == "-":
        made = added(gates, low, [gates.once(gates.inverted(bit)) for bit in high], gates.one)
    elif operator in SHIFTS:
        made = shifted(gates, operator, low, high)
    elif operator in TRUTHS:
        made = [gates.joined([folded(gates, "|", low), folded(gates, "|", high)], [operator[0]])]
    elif operator in ("==", "!="):
        same = folded(gates, "&",
                      [gates.inverted(gates.joined(pair, ["^"])) for pair in zip(low, high)])
        made = [same if operator == "==" else gates.inverted(same)]
    else:
        less = below(gates, *((low, high) if operator in ("<", ">=") else (high, low)))
        made = [less if operator in ("<", ">") else gates.inverted(less)]
    return made[::-1]


def added(gates: Any, low: Bits, high: Bits, carry: Any) -> Bits:
    """A ripple of full adders; the last carry is made too, and nothing reads it."""
    made = []
    for a, b in zip(low, high):
        differ = gates.once(gates.joined([a, b], ["^"]))
        made.append(gates.joined([differ, carry], ["^"]))
        both = gates.joined([a, b], ["&"]), gates.joined([differ, carry], ["&"])
        carry = gates.once(gates.joined(both, ["|"]))
    return made


def below(gates: Any, low: Bits, high: Bits) -> Any:
    """What the most significant place at which two words differ says, and 0 where there is none."""
    so_far = gates.zero
    for a, b in zip(low, high):
        so_far = gates.once(gates.choice(gates.joined([a, b], ["^"]), b, so_far))
    return so_far


def shifted(gates: Any, operator: str, bits: Bits, amount: Bits) -> Bits:
    """A row of choices for each bit of the amount, which shifts by two to the power of its
    place."""
    for stage, condition in enumerate(amount):
        distance = min(1 << stage, len(bits)) if stage < 32 else len(bits)
        blank = [gates.zero] * distance
        moved = blank + bits[:len(bits) - distance] if operator == "<<" else bits[distance:] + blank
        bits = [gates.once(gates.choice(condition, one, other)) for one, other in zip(moved, bits)]
    return bits


def folded(gates: Any, operator: str, low: Bits) -> Any:
    """A gate over all bits, from the most significant one on."""
    return low[0] if len(low) == 1 else gates.joined(low[::-1], [operator] * (len(low) - 1))


def reduced(gates: Any, operator: str, bits: Bits) -> Any:
    """The bit of a reduction by gates; the bits go from the leftmost on."""
    kind = {"!": "|", "~|": "|", "~&": "&", "~^": "^", "^~": "^"}.get(operator, operator)
    result = folded(gates, kind, bits[::-1])
    return result if operator == kind else gates.inverted(result)
