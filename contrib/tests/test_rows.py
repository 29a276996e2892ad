"""The rows of crates/bb_test_cases, each run with real files, and the texts of examples among them
against the files of examples/.

In the gate a program runs the same rows over files in memory. docs/ARCHITECTURE.md says how rows
are written."""
import difflib
import os
import re

from tests.tries import BBEQ, TOP, Tries, run

CASES = os.path.join(TOP, "crates", "bb_test_cases")
PRINTED = re.compile(r"row ([^\n]*)\n(.*?)status (\d+)\n\n(?=row |\Z)", re.DOTALL)


class Row:
    """A call, the report and the status that are due, and the comments since the row before."""

    def __init__(self, place, name, comments):
        self.place, self.name, self.comments = place, name, comments
        self.words, self.files, self.report, self.status = [], {}, "", 0


def read_exactly(*parts):
    with open(os.path.join(CASES, *parts), encoding="utf-8", newline="") as file:
        return file.read()


def rows_of(place):
    """The rows of a file of rows, without what they have to give."""
    words, files, name, comments, row = [], {}, "", [], None
    for line in read_exactly("data", place).split("\n"):
        first, _, rest = line.partition(" ")
        if line.startswith("|"):
            files[name].append(line[1:])
        elif first == "row":
            if row:
                yield row
            row, comments = Row(place, rest, comments), []
        elif first == "words":
            words = line.split(" ")[1:]
        elif first == "file":
            name, files = rest, {**files, rest: []}
        elif line.startswith("//"):
            comments.append(line[3:])
        if row:
            row.words, row.files = words, files
    yield row


def all_rows():
    rows = [row for place in read_exactly("args").split() for row in rows_of(place)]
    printed = PRINTED.findall(read_exactly("stdout"))
    if [row.name for row in rows] != [name for name, _, _ in printed]:
        raise ValueError("the rows of crates/bb_test_cases/stdout are not those of data/")
    for row, (_, report, status) in zip(rows, printed):
        row.report, row.status = report, int(status)
        row.files = {name: "\n".join(lines) for name, lines in row.files.items()}
    return rows


def write_files(folder, files):
    os.makedirs(folder)
    for name, text in files.items():
        path = os.path.join(folder, name)
        os.makedirs(os.path.dirname(path), exist_ok=True)
        with open(path, "w", encoding="utf-8", newline="") as file:
            file.write(text)


def try_row(tally, folder, row):
    write_files(folder, row.files)
    done = run([BBEQ, *row.words], folder)
    due = [*row.report.splitlines(), f"status {row.status}"]
    found = [*done.out.splitlines(), f"status {done.status}"]
    difference = difflib.unified_diff(due, found, "due", "found", lineterm="")
    right = (done.out, done.status) == (row.report, row.status)
    tally.note(f"{row.place}: {row.name}", right, "\n".join(difference))


def is_example(name, text):
    with open(os.path.join(TOP, name), encoding="utf-8", newline="") as file:
        return text == file.read()


class Rows(Tries):
    part = "rows"
    needs = ()

    def test_rows(self):
        rows = all_rows()
        for number, row in enumerate(rows):
            try_row(self, os.path.join(self.folder, str(number)), row)
        texts = {pair for row in rows for pair in row.files.items()}
        for name, text in sorted(pair for pair in texts if pair[0].startswith("examples/")):
            self.note(f"{name} is the text of its row", is_example(name, text))
