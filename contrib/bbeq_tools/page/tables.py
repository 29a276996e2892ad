"""The contents of the boxes as a report has them: each table with its rows, and each output pin as
a sum of products."""
from typing import Dict, Iterable, List, NamedTuple, Sequence, Set, Tuple

from bbeq_tools.cli import Fault
from bbeq_tools.page.account import Account
from bbeq_tools.page.markup import (Markup, code, counted, element, folded, joined, paragraph,
                                    shortened)
from bbeq_tools.report.products import MOST_PINS, least_sum, sum_text
from bbeq_tools.report.reports import OTHER
from bbeq_tools.verilog.language import Module, bit_text, written
from bbeq_tools.verilog.flat import Flat

MOST_ROWS, ALL_ROWS = 1_024, 6_000  # Of a table that is shown, and of all on a page.
MOST_HEX, ALL_TEXT = 4_096, 300_000  # Characters of a bit list, and of sums and lists.
OPENED = 2  # Tables that are not folded.


class Contents(NamedTuple):
    """Boxes with one table: what they are called in the report, their module, and for each output
    pin its bits, row by row, `-` where no vector brings the row."""

    names: List[str]
    module: Module
    outputs: List[Tuple[str, str]]

    def pins(self) -> List[str]:
        return [bit_text(net.name, index) for net, index in self.module.pins("input")]


class Room:
    """How much of the page tables may still take."""

    def __init__(self) -> None:
        self.rows, self.text, self.opened = ALL_ROWS, ALL_TEXT, OPENED


def modules_of(flat: Flat, account: Account, shared: bool) -> Dict[str, Module]:
    """The module of each table: tables are those of boxes, or where these do not fit or contents
    are shared, those of modules."""
    boxes = {box.path: box.module for box in flat.boxes}
    if shared or not set(account.tables) <= set(boxes):
        boxes = {box.module.name: box.module for box in flat.boxes}
    return boxes


def contents_of(flat: Flat, account: Account, shared: bool,
                unused: Dict[str, Set[int]]) -> List[Contents]:
    """The tables of a report, those that are equal together."""
    modules, found = modules_of(flat, account, shared), {}
    for name, outputs in account.tables.items():
        module = modules.get(name)
        pins = [bit_text(*pin) for pin in
                ((net.name, index) for net, index in module.pins("output"))] if module else []
        if (module is None or [pin for pin, _ in outputs] != pins
                or any(len(bits) != 2 ** len(module.pins("input")) for _, bits in outputs)):
            raise Fault(f"the implementation has no box {name} with these tables; {OTHER}")
        rows = frozenset(unused.get(name, ()))
        key = module.name, tuple(outputs), rows
        if key not in found:
            found[key] = Contents([], module, [(pin, marked(bits, rows)) for pin, bits in outputs])
        found[key].names.append(name)
    return list(found.values())


def marked(bits: str, rows: Iterable[int]) -> str:
    listed = list(bits)
    for row in rows:
        listed[row] = "-"
    return "".join(listed)


def ports_text(module: Module, direction: str) -> List[Tuple[str, int]]:
    """The ports of a direction as they are declared, with their widths."""
    found = []
    for name in module.ports:
        net = module.nets[name]
        if net.direction == direction:
            bounds = f"[{net.range[0]}:{net.range[1]}]" if net.range else ""
            found.append((f"{net.name}{bounds}", len(net.indices())))
    return found


def cut_up(bits: str, ports: Sequence[Tuple[str, int]]) -> List[str]:
    """The bits of a row, port by port."""
    found, place = [], 0
    for _, width in ports:
        found.append(bits[place:place + width])
        place += width
    return found


def rows_table(contents: Contents, original: Sequence[Tuple[str, str]]) -> Markup:
    """A row of the table for each row; one that no vector brings is grey, with the bits that the
    report has for it."""
    ins, outs = (ports_text(contents.module, direction) for direction in ("input", "output"))
    pins = sum(width for _, width in ins)
    head = [element("th", shortened(name, 30), class_=kind)
            for kind, ports in (("in", ins), ("out", outs)) for name, _ in ports]
    rows = []
    for row in range(2 ** pins):
        given = cut_up(f"{row:0{pins}b}" if pins else "", ins)
        bits = cut_up("".join(text[row] for _, text in original), outs)
        is_unused = any(text[row] == "-" for _, text in contents.outputs)
        rows.append(element("tr", *(element("td", bits) for bits in given),
                            *(element("td", bits, class_="out") for bits in bits),
                            class_="unused" if is_unused else None))
    return element("div", element("table", element("thead", element("tr", *head)),
                                  element("tbody", *rows), class_="rows"), class_="scroll tall")


def sums(contents: Contents, room: Room) -> Markup:
    """Each output pin as a sum of products."""
    names, shown = [bare(pin) for pin in contents.module.pins("input")], []
    for (pin, bits) in contents.outputs:
        found = least_sum(len(names), bits)
        products = sum_text(names, found)
        text = f"{pin} = {' | '.join(products)};"
        words = counted(len(found.cubes), "product") + (
            "" if found.is_least else "; perhaps fewer suffice")
        if len(text) > room.text:
            shown.append(paragraph(code(shortened(pin, 60)), f": {words}, left out here"))
            continue
        room.text -= len(text)
        lines = f"{pin} = " + f"\n{' ' * len(pin)} | ".join(products) + ";"
        if len(found.cubes) > 12:
            shown.append(folded(joined([code(shortened(pin, 60)), f": {words}"]),
                                element("pre", lines, class_="sum")))
        else:
            shown.append(element("pre", lines, title=words, class_="sum"))
    return joined(shown)


def bare(pin: Tuple[object, object]) -> str:
    net, index = pin
    return bit_text(written(net.name).strip(), index)  # type: ignore[attr-defined, arg-type]


def lists(original: Sequence[Tuple[str, str]], room: Room) -> Markup:
    """A table that is too long as the bits of each pin in hexadecimal, row 0 first."""
    shown: List[Markup] = []
    for pin, bits in original:
        digits = f"{int(bits, 2):0{-(-len(bits) // 4)}x}"
        if len(digits) > min(MOST_HEX, room.text):
            shown.append(paragraph(code(shortened(pin, 60)), f": {len(bits):,} bits, in the report",
                                   class_="note"))
            continue
        room.text -= len(digits)
        shown.append(folded(joined([code(shortened(pin, 60)),
                                    " in hexadecimal, row 0 first"]), element("pre", digits)))
    return joined(shown)


def one(contents: Contents, original: Sequence[Tuple[str, str]], room: Room) -> Markup:
    """A box, or boxes with one table, as what folds."""
    pins, module = len(contents.pins()), contents.module
    names = joined([code(shortened(contents.names[0], 60))]
                   + [f" and {counted(len(contents.names) - 1, 'more')}".replace("mores", "more")]
                   * (len(contents.names) > 1))
    about = f": {counted(pins, 'input')}, {counted(len(contents.outputs), 'output')}"
    title = joined([names, element("span", " of module ", code(shortened(module.name, 40)), about,
                                   class_="faint")])
    body: List[Markup] = []
    if len(contents.names) > 1:
        body.append(paragraph("The same for ", joined(map(code, contents.names[:200]), ", "), "."))
    rows = 2 ** pins
    if pins <= MOST_PINS:
        body.append(sums(contents, room))
    if rows <= min(MOST_ROWS, room.rows):
        room.rows -= rows
        table = rows_table(contents, original)
        body.append(table if rows <= 16 else folded(counted(rows, "row"), table))
    else:
        body.append(lists(original, room))
    room.opened -= 1
    return element("div", folded(title, *body, is_open=room.opened >= 0), class_="contents")


def contents_section(found: List[Contents], account: Account) -> Markup:
    room = Room()
    return joined(one(contents, account.tables[contents.names[0]], room) for contents in found)
