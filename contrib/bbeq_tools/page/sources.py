"""Lines of a file around one that a report names."""
import re
from typing import List, Optional, Tuple

from bbeq_tools.page.markup import Markup, element, joined, paragraph, shortened

AROUND, WIDEST = 3, 160


def named_line(line: str) -> Optional[Tuple[str, int]]:
    """The side and the number of the line that a refusal names."""
    found = re.match(r"refused (spec|impl|cnf|rup) \S+ line (\d+)", line)
    return (found.group(1), int(found.group(2))) if found else None


def lines_of(path: str) -> List[str]:
    try:
        with open(path, encoding="latin-1", newline="\n") as file:
            return file.read().split("\n")
    except OSError:
        return []


def excerpt(path: str, number: int) -> Markup:
    """The lines around a line, which is marked."""
    lines = lines_of(path)
    if not 0 < number <= len(lines):
        return paragraph(f"{path} has no line {number} now.", class_="note")
    first = max(1, number - AROUND)
    shown = []
    for at in range(first, min(len(lines), number + AROUND) + 1):
        text = shortened(lines[at - 1].expandtabs(4).rstrip("\r"), WIDEST)
        shown.append(element("span", f"{at:6}  {text}\n", class_="here" if at == number else None))
    return joined([paragraph(f"Line {number} of {path}:"), element("pre", *shown, class_="source")])


def addition(path: str, number: int) -> Optional[str]:
    """An addition of a proof, counted from 1, as text; None behind its last one."""
    clause: List[str] = []
    found, deletes = 0, False
    for line in lines_of(path):
        words = line.split()
        if words[:1] == ["c"] or line.lstrip().startswith("c"):
            continue
        for word in words:
            if word == "d" and not clause:
                deletes = True
            elif word == "0":
                found += not deletes
                if found == number and not deletes:
                    return " ".join([*clause, "0"])
                clause, deletes = [], False
            else:
                clause.append(word)
    return None
