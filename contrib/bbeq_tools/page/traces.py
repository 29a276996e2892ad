"""What waves show: inputs, registers and outputs of both designs at the vector, bits of one bus
together."""
import re
from typing import Dict, Iterable, List, NamedTuple, Optional, Tuple

from bbeq_tools.page.sides import OPEN, Item, Side

BIT = re.compile(r"(.*)\[(\d+)\]", re.DOTALL)


class Trace(NamedTuple):
    """A bit, or a bus with its leftmost bit first. Of each design it has the bits in this cycle,
    and of a register also those that it takes next. `wrong` and `named` are places of bits."""

    name: str
    texts: List[str]
    now: List[str]  # Of the specification and of the implementation; an empty text for nothing.
    following: List[str]
    wrong: List[int]
    named: List[int]

    def width(self) -> int:
        return len(self.texts)

    def bit(self, place: int) -> "Trace":
        """One bit of a bus by itself."""
        def at(texts: List[str]) -> List[str]:
            return [text[place:place + 1] for text in texts]
        return Trace(self.texts[place], [self.texts[place]], at(self.now), at(self.following),
                     [0] if place in self.wrong else [], [0] if place in self.named else [])


class Traces(NamedTuple):
    inputs: List[Trace]
    registers: List[Trace]
    outputs: List[Trace]

    def wrong(self) -> List[Item]:
        """The outputs and next states that differ, or that the report names."""
        found = []
        for kind, traces in (("output", self.outputs), ("next", self.registers)):
            for trace in traces:
                found += [(kind, trace.texts[place])
                          for place in sorted({*trace.named, *trace.wrong})]
        return found

    def open(self) -> List[Item]:
        """The outputs and next states that a box leaves open."""
        return [(kind, trace.texts[place])
                for kind, traces, cycle in (("output", self.outputs, "now"),
                                            ("next", self.registers, "following"))
                for trace in traces
                for place, bit in enumerate(getattr(trace, cycle)[1]) if bit == OPEN]


def buses(texts: Iterable[str]) -> List[Tuple[str, List[str]]]:
    """Bits by the name of their bus, each bus at the place of its first bit; a bus of one bit is
    called by this."""
    found: Dict[str, List[Tuple[int, str]]] = {}
    for text in texts:
        match = BIT.fullmatch(text)
        found.setdefault(match.group(1) if match else f"{text}\0", []).append(
            (int(match.group(2)) if match else 0, text))
    shown = []
    for name, bits in found.items():
        order = sorted(bits, reverse=True) if len({at for at, _ in bits}) == len(bits) else bits
        first, last = order[0][0], order[-1][0]
        is_whole = first - last + 1 == len(bits) and len(bits) > 1
        if is_whole:
            shown.append((f"{name}[{first}:{last}]", [text for _, text in order]))
        else:
            shown += [(text, [text]) for _, text in bits]
    return shown


def differ(left: str, right: str) -> bool:
    return OPEN not in (left, right) and left != right


def traces_of(sides: List[Side], vector: Dict[str, str], named: Optional[Item],
              care: Optional[str]) -> Traces:
    """The traces of a vector; `named` is what the report calls wrong."""
    spec = sides[0].flat

    def trace(kind: str, name: str, texts: List[str]) -> Trace:
        now = ["".join(vector[text] for text in texts)] * 2 if kind != "output" else []
        compared = [] if kind == "input" else [
            "".join(side.bit((kind, text)) if (kind, text) in side.values else " "
                    for text in texts) for side in sides]
        wrong = [place for place, bits in enumerate(zip(*compared))
                 if differ(*bits) and " " not in bits]
        places = [place for place, text in enumerate(texts) if (kind, text) == named]
        return Trace(name, texts, now or compared, compared if kind == "next" else [], wrong,
                     places)

    outputs = [text for text in spec.outputs if text != care] + [care] * (care in spec.outputs)
    return Traces([trace("input", *bus) for bus in buses(spec.inputs)],
                  [trace("next", *bus) for bus in buses(spec.states)],
                  [trace("output", *bus) for bus in buses(text for text in outputs if text)])


def value_text(bits: str) -> str:
    """The bits of a bus: as they are up to eight, and in hexadecimal beyond, where a digit with an
    open bit is x."""
    if len(bits) <= 8:
        return bits
    filled = bits.rjust(-(-len(bits) // 4) * 4, "0")
    return "".join(OPEN if OPEN in filled[at:at + 4] else f"{int(filled[at:at + 4], 2):x}"
                   for at in range(0, len(filled), 4))
