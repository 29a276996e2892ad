"""What docs/REPORT.md says of a report: its tables of refusals and of open verdicts, as HTML."""
import os
import re
from typing import List, Tuple

from bbeq_tools.page.markup import Markup, code, element, joined
from bbeq_tools.runs.joined import DOCUMENTS, advice_on

PIECES = re.compile(r"`([^`]+)`|\*\*([^*]+)\*\*|\*([^*]+)\*|\[([^]]+)\]\([^)]*\)")


def marked(text: str) -> Markup:
    """A line of Markdown; a link is its words."""
    parts, place = [], 0
    for piece in PIECES.finditer(text):
        parts.append(joined([text[place:piece.start()]]))
        literal, strong, slanted, link = piece.groups()
        parts.append(code(literal) if literal else element("strong", strong) if strong
                     else element("em", slanted) if slanted else joined([link]))
        place = piece.end()
    return joined([*parts, text[place:]])


def text_of_document() -> str:
    for path in filter(os.path.exists, DOCUMENTS):
        with open(path, encoding="utf-8") as file:
            return file.read()
    return ""


def rows_of(section: str) -> List[List[str]]:
    """The cells of the rows of the tables of a section."""
    text = text_of_document().partition(f"\n## {section}\n")[2].partition("\n## ")[0]
    return [[cell.strip() for cell in line.strip("|").split("|")]
            for line in text.splitlines() if line.startswith("| `")]


def on_refusal(line: str) -> Tuple[str, str]:
    """What a line of a refusal means, and what to do."""
    words = line.split(" ")
    section = "Refutations in DIMACS text" if words[1:2] in (["cnf"], ["rup"]) else "Refusals"
    wanted = words[:2] if words[0] == "unread" else words[2:3] or words[1:2]
    for row in rows_of(section):
        named = [word for text in re.findall(r"`([^`]+)`", row[0]) for word in text.split()]
        is_pair = "pair" in named
        if len(row) == 3 and set(wanted) <= set(named) and is_pair == (words[1:2] == ["pair"]):
            return with_numbers(row[1], line), with_numbers(row[2], line)
    return "", ""


def with_numbers(text: str, line: str) -> str:
    """What the document says of a line N, with the number of this line."""
    found = re.search(r" line (\d+)", line)
    return text.replace("line N", f"line {found.group(1)}") if found else text


def on_open(rung: str) -> List[str]:
    """What to try where the last check says this, the most promising first."""
    return [without_references(advice) for advice in advice_on(rung)]


def without_references(advice: str) -> str:
    """An advice without its number, and without what leads on within the document."""
    return re.sub(r"^\d\. |,? see (?:below|the next row)", "", advice)
