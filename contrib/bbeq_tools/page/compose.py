"""The page of a report, from what its parts make."""
import hashlib
import os
from base64 import b64encode
from typing import Dict, List, NamedTuple, Optional, Set

from bbeq_tools.page.account import Account, Check
from bbeq_tools.page.advice import Advice, Words, advice
from bbeq_tools.page.cones import cones
from bbeq_tools.page.designs import designs_section, missing_section
from bbeq_tools.page.markup import (Markup, code, counted, element, folded, joined, listed,
                                    paragraph, section, shortened, visible)
from bbeq_tools.page.sides import Item, Side
from bbeq_tools.page.sources import addition, excerpt, named_line
from bbeq_tools.page.tables import contents_of, contents_section
from bbeq_tools.page.traces import Traces, traces_of
from bbeq_tools.page.waves import waves
from bbeq_tools.report.buses import buses

HERE = os.path.dirname(os.path.realpath(__file__))
MOST_LINES, MOST_LETTERS, LINE_LETTERS = 400, 200_000, 20_000  # Of the report, and of a line of it.
MOST_FILLED = 200_000  # Bytes of the finished circuit.
DRAWN = 3  # Outputs whose logic is drawn.

ABOUT = {"ternary": "some vectors, with the outputs of the boxes unknown",
         "symbolic": "all vectors, with the outputs of the boxes unknown",
         "local": "each output by itself, at each vector, whatever the boxes give there",
         "output": "all outputs together, at each vector, whatever the boxes give there",
         "input": "contents of the boxes, box by box",
         "expand": "contents of all boxes, by a solver over the vectors that it needs"}
FOUND = {"error": "a mistake", "none": "none", "repair": "contents that agree",
         "nodes": "needs more nodes", "clauses": "needs more clauses", "wide": "tables too wide"}


class Subject(NamedTuple):
    """What a page is about. `sides` is empty where the two texts were not read, `unused` has the
    rows that no vector brings, and `filled` the text of the filled boxes."""

    account: Account
    words: Words
    sides: List[Side]
    unused: Dict[str, Set[int]]
    filled: Optional[str]
    number: int


def head(subject: Subject, found: Advice) -> Markup:
    words, verdict = subject.words, subject.account.verdict
    kind = subject.account.lines[0].split(" ")[1] if verdict == "rup" else verdict
    line = subject.account.lines[0] if verdict in ("refused", "unread", "rup") else (
        f"verdict {verdict}")
    files = joined([code(words.impl), " against ", code(words.spec), ", report ",
                    code(words.report)])
    if verdict == "rup":
        files = joined([code(words.impl), " as a proof that ", code(words.spec),
                        " has no solution"])
    steps = [paragraph("What to do next", class_="next"),
             listed(found.steps, "ol")] if found.steps else []
    return element("header", element("p", files, class_="files"),
                   element("div", element("h1", found.title), *map(paragraph, found.meaning),
                           *steps, class_=f"verdict {kind}"),
                   element("p", "In the report: ", code(shortened(line, 300)), class_="note"))


def check_row(name: str, check: Optional[Check]) -> Markup:
    if check is None:
        return element("tr", element("td", name), element("td", "not run"),
                       element("td", ABOUT.get(name, "")), class_="idle")
    said = [line for line in check.lines if not line.startswith(("input ", "table "))]
    inputs = sum(line.startswith("input ") for line in check.lines)
    tables = sum(line.startswith("table ") for line in check.lines)
    said += [counted(inputs, "vector")] * bool(inputs) + [counted(tables, "table")] * bool(tables)
    said += [counted(number, word.rstrip("s")) for word, number in check.proof.items()]
    shown = [ABOUT.get(name, "")] + [joined([element("br"), code(shortened(line, 200))])
                                     for line in said]
    return element("tr", element("td", name), element("td", FOUND.get(check.result, check.result),
                                                      class_=f"found-{check.result}"),
                   element("td", *shown))


def checks(account: Account) -> Markup:
    run = {check.name: check for check in account.checks}
    if not run:
        return listed(code(shortened(line, 300)) for line in account.head)
    rows = [check_row(name, run.pop(name, None)) for name in ABOUT]
    rows += [check_row(name, check) for name, check in run.items()]
    title = element("tr", element("th", "Check"), element("th", "Found"),
                    element("th", "What it looks at, and what it reported"))
    before = [paragraph(code(shortened(line, 300))) for line in account.head]
    return joined([*before, element("table", title, *rows, class_="checks")])


KEY = joined([paragraph(
    element("b", "x", class_="amber"), ": a box leaves it open. ",
    element("b", "Red", class_="red"), ": the two differ, and the wires that force the wrong bit. ",
    element("b", "Green", class_="green"), ": what forces the right one. Grey blocks are boxes; "
    "what is dashed blue is cut, and a click opens it.", class_="key")])


def drawn_items(traces: Traces, named: Optional[Item]) -> List[Item]:
    """The outputs whose logic is drawn: what the report names, and others that are wrong, or where
    none is known to be wrong, those that are open."""
    wrong = traces.wrong()
    first = [named] if named in wrong and named else []
    return (first + [item for item in wrong if item != named] or traces.open())[:DRAWN]


def vector_sections(subject: Subject) -> List[Markup]:
    """The waves, and the logic of what is wrong."""
    check, named, vector = subject.account.vectors[subject.number - 1]
    sides = subject.sides
    for side in sides:
        side.look(vector)
    traces = traces_of(sides, vector, named, subject.words.care)
    text = "input " + " ".join(f"{name}={bit}" for name, bit in vector.items())
    several = len(subject.account.vectors)
    which = f"Vector {subject.number} of {several}, " if several > 1 else "The vector "
    shown = [section(f"{which}of the check {check}", waves(traces), folded(
        "The line of the report", element("pre", shortened(text, LINE_LETTERS))), id_="waves")]
    items, parts = drawn_items(traces, named), []
    for item in items:
        name = joined([f"{'Output' if item[0] == 'output' else 'Next state of'} ",
                       code(shortened(item[1], 60))])
        drawing = cones(item, sides)
        parts.append(drawing if item == items[0] else folded(name, drawing))
    if items:
        title = joined(["The logic of ", "" if items[0][0] == "output" else "the next state of ",
                        code(shortened(items[0][1], 60))])
        shown.append(section(title, KEY, *parts, id_="logic"))
    return shown


EVENT = {"input": "As the event comes", "edges": "Edges of inputs", "then": "Inputs after it"}


def event_sections(account: Account) -> List[Markup]:
    """The event that breaks an invariant."""
    rows = []
    for line in account.head:
        word, _, rest = line.partition(" ")
        if word in EVENT:
            bits = dict(part.rpartition("=")[::2] for part in rest.split(" ") if part)
            text = " ".join(f"{name} {bit}s" if word == "edges" else f"{name}={bit}"
                            for name, bit in (bits.items() if word == "edges" else buses(bits)))
            rows.append(element("tr", element("th", EVENT[word]),
                                element("td", code(shortened(text or "none", LINE_LETTERS)))))
    return [section("The event", element("table", *rows, class_="checks"), id_="event")]


def contents_sections(subject: Subject) -> List[Markup]:
    account, shown = subject.account, []
    found = contents_of(subject.sides[1].flat, account, subject.words.shared, subject.unused)
    if found:
        note = [paragraph("Grey rows come to no box at any vector, so their bits are free.",
                          class_="note")] * any(subject.unused.values())
        shown.append(section("Contents of the boxes", *note, contents_section(found, account),
                             id_="contents"))
    return shown


def filled_section(title: str, text: str) -> Markup:
    cut = text[:MOST_FILLED]
    more = [paragraph(f"{len(text) - len(cut):,} more bytes are left out of this page.",
                      class_="note")] * (len(text) > len(cut))
    return folded(joined([title, f", {counted(text.count(chr(10)), 'line')}"]),
                  element("pre", visible_lines(cut)), *more)


def visible_lines(text: str) -> str:
    return "\n".join(map(visible, text.split("\n")))


def report_text(account: Account) -> Markup:
    lines: List[str] = []
    letters = 0
    for line in account.lines:
        line = shortened(line, LINE_LETTERS)
        if len(lines) == MOST_LINES or letters + len(line) > MOST_LETTERS:
            break
        lines.append(line)
        letters += len(line)
    left = len(account.lines) - len(lines)
    more = [paragraph(f"{left:,} more lines are left out of this page.",
                      class_="note")] * (left > 0)
    return folded(counted(len(account.lines), "line"), element("pre", "\n".join(lines)), *more)


def refused_sections(subject: Subject) -> List[Markup]:
    """The line of a file that a refusal, or the addition that a checked proof, names."""
    words, line = subject.words, subject.account.lines[0]
    found = named_line(line)
    if found:
        path = words.spec if found[0] in ("spec", "cnf") else words.impl
        return [section("The place", excerpt(path, found[1]), id_="place")]
    if line.startswith("rup no "):
        clause = addition(words.impl, int(line.split(" ")[2]))
        text = shortened(clause, 2_000) if clause else "the empty clause behind the last addition"
        return [section("The addition", element("pre", text), id_="place")]
    return []


def sections(subject: Subject) -> List[Markup]:
    account, shown = subject.account, []
    if account.verdict in ("refused", "unread", "rup"):
        return refused_sections(subject)
    if account.vectors and subject.sides:
        shown += vector_sections(subject)
    if account.invariant == "broken":
        shown += event_sections(account)
    if account.tables:
        shown += contents_sections(subject)
    if account.verdict == "error" and not account.vectors and subject.sides:
        shown += missing_section(subject.sides)
    texts = [filled_section(title, text) for title, text in (
        ("The finished circuit, as bbeq printed it", account.filled),
        ("The filled boxes, as contrib writes them", subject.filled)) if text]
    if texts:
        shown.append(section("The filled text", *texts, id_="filled"))
    shown.append(section("Checks", checks(account), id_="checks"))
    if subject.sides:
        is_cause = (account.verdict in ("error", "open") and not account.vectors
                    and account.invariant != "broken")
        shown.append(designs_section(subject.sides, is_cause))
    return shown


def asset(name: str) -> Markup:
    with open(os.path.join(HERE, name), encoding="utf-8") as file:
        return Markup(file.read())


def allowed(text: str) -> str:
    return f"'sha256-{b64encode(hashlib.sha256(text.encode()).digest()).decode()}'"


def page(subject: Subject) -> str:
    """The whole text. Its policy lets a browser load nothing, and run this script alone."""
    found = advice(subject.account, subject.words, subject.sides)
    style, script = asset("page.css"), asset("page.js")
    policy = f"default-src 'none'; style-src {allowed(style)}; script-src {allowed(script)}"
    title = f"{found.title}: {shortened(subject.words.impl, 80)}"
    body = [head(subject, found), *sections(subject),
            section("The report", report_text(subject.account), id_="report"),
            element("footer", paragraph(
                "Made by bbeq-page. The report is what bbeq printed; waves, drawings and sums are "
                "computed from it and the two texts by a script, of which nothing is proved. "
                "Nothing outside this file is loaded."))]
    top = [element("meta", charset="utf-8"),
           element("meta", http_equiv="Content-Security-Policy", content=policy),
           element("meta", name="viewport", content="width=device-width, initial-scale=1"),
           element("title", title), element("style", style)]
    return "<!DOCTYPE html>\n" + element("html", element("head", *top),
                                         element("body", *body, element("script", script)),
                                         lang="en") + "\n"
