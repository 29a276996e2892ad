"""When each wrong body was last tried, and what refused it: a table in out/edits.tsv at the top."""
import hashlib
import os
from dataclasses import astuple, dataclass, fields

TABLE = os.path.join("out", "edits.tsv")


@dataclass
class Tried:
    """A try of an edit: the sum of the crate's sources and of the edit, the day and time (UTC), the
    processor seconds (0: taken over from an earlier run), what it came to, and what refused it."""

    crate: str
    edit: str
    sum: str
    when: str
    seconds: float
    result: str
    reason: str


def edits_of(top, crate):
    """The names of a crate's edits without their ends, in the order in which rt numbers them."""
    folder = os.path.join(top, "crates", crate, "must-fail")
    names = os.listdir(folder) if os.path.isdir(folder) else []
    return sorted(name.rpartition(".")[0] for name in names if name.endswith((".edit", ".md")))


def crates_with_edits(top):
    return [crate
            for crate in sorted(os.listdir(os.path.join(top, "crates"))) if edits_of(top, crate)]


def is_in_gate(top, crate, edit):
    return os.path.exists(os.path.join(top, "crates", crate, "must-fail", f"{edit}.edit"))


def sum_of(top, crate, edit):
    """A hash of what a try depends on in the crate: the edit, the code, the definitions and the
    proofs."""
    found, folder = hashlib.sha256(), os.path.join(top, "crates", crate)
    end = ".edit" if is_in_gate(top, crate, edit) else ".md"
    paths = [os.path.join(folder, "must-fail", edit + end)]
    for part in ("src", "specs", "proofs"):
        for at, folders, names in os.walk(os.path.join(folder, part)):
            folders.sort()
            paths += [os.path.join(at, name) for name in sorted(names)]
    for path in paths:
        with open(path, "rb") as file:
            found.update(hashlib.sha256(file.read()).digest())
    return found.hexdigest()[:16]


def read_tried(top):
    try:
        with open(os.path.join(top, TABLE), encoding="utf-8") as file:
            rows = [line.rstrip("\n").split("\t") for line in file]
    except FileNotFoundError:
        rows = []
    rows = [row for row in rows if len(row) == len(fields(Tried))]
    return {(row[0], row[1]): Tried(*row[:4], float(row[4]), *row[5:]) for row in rows}


def write_tried(top, table):
    path = os.path.join(top, TABLE)
    os.makedirs(os.path.dirname(path), exist_ok=True)
    with open(f"{path}.new", "w", encoding="utf-8") as file:
        for _, tried in sorted(table.items()):
            print("\t".join(str(it).replace("\t", " ") for it in astuple(tried)), file=file)
    os.replace(f"{path}.new", path)


def last_tried(top):
    """A line for each edit: where it is tried, when it was tried last, and whether of these
    sources."""
    table = read_tried(top)
    for crate in crates_with_edits(top):
        for edit in edits_of(top, crate):
            where = "gate" if is_in_gate(top, crate, edit) else "    "
            tried = table.get((crate, edit))
            if tried is None:
                when = "never tried by contrib/edits"
            else:
                changed = "" if tried.sum == sum_of(top, crate,
                                                    edit) else ", sources have changed since"
                when = f"{tried.when}, {tried.result}{changed}"
            yield f"{where} {crate}/{edit}: {when}"
