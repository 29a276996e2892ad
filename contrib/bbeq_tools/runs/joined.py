"""The answer to a pair from the answers to its parts, in the form of the program's report."""
import os
import re

from bbeq_tools.cli import Fault
from bbeq_tools.report.reports import tables

STATUSES = {"repairable": 0, "error": 1, "open": 3}
MOST_TABLE_BITS = 1 << 24
HERE = os.path.dirname(os.path.realpath(__file__))
# ./install puts the page beside this module; a checkout has it in docs.
DOCUMENTS = (os.path.join(HERE, "REPORT.md"),
             os.path.join(HERE, "..", "..", "..", "docs", "REPORT.md"))
INPUT_NODES = "rung input nodes"  # More of these may decide, whatever `expand` says.
PRINTED = 2  # A status: the program refused its words.


def joined(pair, answers):
    """The lines and the status. `answers` has that of each part, in the order of the parts, None
    where there is none."""
    head = [f"parts {len(answers)}"]
    refused = next((answer for answer in answers if answer and answer.status == PRINTED), None)
    if refused:
        return refused.report.splitlines(), PRINTED
    wrong = next((answer for answer in answers if answer and answer.verdict == "error"), None)
    if wrong:
        return head + [padded(line, pair["inputs"])
                       for line in wrong.report.splitlines()], STATUSES["error"]
    unread = unread_boxes(pair, answers)
    left = [(number, answer)
            for number, answer in enumerate(answers, 1) if not (answer and answer.is_decided)]
    if left or unread is None:
        return head + open_lines(pair, left) + too_wide(unread) + ["verdict open"], STATUSES["open"]
    return head + table_lines(pair, answers,
                              unread) + ["verdict repairable"], STATUSES["repairable"]


def padded(line, inputs):
    """A line of a vector with all inputs and registers of the pair; those that the part does not
    read are 0."""
    if not line.startswith("input "):
        return line
    bits = dict(word.rsplit("=", 1) for word in line.split(" ")[1:])
    return " ".join(["input", *(f"{text}={bits.get(text, 0)}" for text in inputs)])


def key_of(pair, box):
    """What a table of the box goes by: its path, or its module where contents are shared."""
    return box["module"] if "--shared" in pair["words"] else box["path"]


def unread_boxes(pair, answers):
    """For each box that stands in no part, since nothing that is compared depends on it, tables of
    zeros; None where these are too wide."""
    seen = {key for answer in answers if answer and answer.verdict == "repairable"
            for key in tables(answer.report.splitlines())}
    left = {key_of(pair, box): box
            for box in pair["boxes"] if not box["is_read"] and key_of(pair, box) not in seen}
    if sum(len(box["outputs"]) << box["inputs"] for box in left.values()) > MOST_TABLE_BITS:
        return None
    return {key: [(pin, "0" * 2 ** box["inputs"]) for pin in box["outputs"]]
            for key, box in left.items()}


def too_wide(unread):
    return (["boxes that nothing reads have tables of more than 16777216 bits"] if unread is None
            else [])


def table_lines(pair, answers, unread):
    """The tables of all parts, in the order of the boxes."""
    found = dict(unread)
    for answer in answers:
        found |= tables(answer.report.splitlines())
    lines = []
    for key in dict.fromkeys(key_of(pair, box) for box in pair["boxes"] if box["outputs"]):
        if key not in found:
            raise Fault(f"no part has a table of box {key}; run `parts` again")
        lines += [f"table {key} {pin} {bits}" for pin, bits in found[key]]
    return lines


def last_rung(answer):
    return next((line for line in reversed(answer.report.splitlines()) if line.startswith("rung ")),
                None)


def open_lines(pair, left):
    """The parts that are open, each with its last check, and what the document says of these."""
    lines, rungs = [], []
    for number, answer in left:
        rung = last_rung(answer) if answer and answer.verdict == "open" else None
        lines.append(f"part {number} {rung or (answer.verdict if answer else 'no answer')}")
        rungs += [line for line in answer.report.splitlines() if line == INPUT_NODES
                  or line == rung] if rung else []
    modules = [box["module"] for box in pair["boxes"]]
    can_share = len(set(modules)) < len(modules)
    return lines + [f"try {advice}" for rung in dict.fromkeys(rungs) for advice in advice_on(rung)
                    if can_share or "`--shared`" not in advice]


def advice_on(rung):
    """What the document's table of open verdicts says of a report whose last check is this."""
    try:
        with open(next(filter(os.path.exists, DOCUMENTS)), encoding="utf-8") as file:
            text = file.read()
    except (OSError, StopIteration):
        return []
    section = text.partition("\n## Where the verdict is open\n")[2].partition("\n## ")[0]
    rows = [line.split("|")[1:4] for line in section.splitlines()
            if line.startswith(("| `rung ", "| `invariant "))]
    row = next((row for row in rows if f"`{rung}`" in row[0]), rows[0] if rows else ("", "", ""))
    return [advice.strip()
            for advice in re.split(r"(?:^|\s)(?=\d\. )", row[2].strip()) if advice.strip()]
