"""A folder of parts, as `parts` writes it and `run` reads it: `pair.json` has what is known of the
pair, `parts.tsv` a line for each part, and a folder with the part's number its two texts."""
import contextlib
import fcntl
import json
import os

from bbeq_tools.cli import Fault, Output
from bbeq_tools.runs.kept import contents, digest

COLUMNS = ("part", "outputs", "inputs", "boxes", "cells", "log2(clauses)")
SIDES = ("spec.v", "impl.v")


@contextlib.contextmanager
def locked(path, kind=fcntl.LOCK_EX):
    """Holds a lock of this name, which ends with the script."""
    try:
        with open(path, "a", encoding="ascii") as file:
            fcntl.flock(file, kind | fcntl.LOCK_NB)
            yield
    except BlockingIOError:
        raise Fault(f"{os.path.dirname(path)}: another run is at work there") from None


def described(folder):
    """What a folder says of its pair, or None where it has no parts."""
    try:
        with open(os.path.join(folder, "pair.json"), encoding="utf-8") as file:
            return json.load(file)
    except FileNotFoundError:
        return None
    except (OSError, ValueError) as error:
        raise Fault(f"{folder}/pair.json: {getattr(error, 'strerror', 'it is not whole')}; "
                    "run `parts` again") from None


def check_folder(folder, files):
    """A folder for the parts of these files: a new one, an empty one, or one that has parts of the
    same files."""
    if os.path.exists(folder) and not os.path.isdir(folder):
        raise Fault(f"{folder}: it is no folder")
    found = described(folder)
    if found and found["files"] != files:
        raise Fault(f"{folder}: it has parts of other files, {' and '.join(found['files'])}; give "
                    "another folder")
    # One that has a lock is of parts that were not written whole.
    if (not found and os.path.isdir(folder) and os.listdir(folder)
            and not os.path.exists(os.path.join(folder, "lock"))):
        raise Fault(f"{folder}: it has files that are no parts; give another folder")


def hashes(files):
    return [digest(contents(path)) for path in files]


def read_parts(folder):
    """What `parts` wrote of a pair, where the pair is as it was then."""
    found = described(folder)
    if not found:
        raise Fault(f"{folder}: no parts stand in it; run `parts` first")
    for path, was in zip(found["files"], found["hashes"]):
        if os.path.exists(path) and hashes([path]) != [was]:
            raise Fault(f"{path}: it has changed since `parts` cut it; run `parts` again")
    return found


def write_parts(folder, found, parts):
    """Writes the parts, and what is known of the pair at last: a folder without that has none."""
    older = described(folder)
    for name in ("pair.json", "parts.tsv"):
        with contextlib.suppress(FileNotFoundError):
            os.remove(os.path.join(folder, name))
    for number, part in enumerate(parts, 1):
        os.makedirs(os.path.join(folder, str(number)), exist_ok=True)
        for name, side in zip(SIDES, (part.spec, part.imp)):
            Output(os.path.join(folder, str(number), name)).write(side.text())
    for number in range(len(parts) + 1, (older or {"parts": 0})["parts"] + 1):
        remove_part(os.path.join(folder, str(number)))
    lines = ["\t".join([*COLUMNS, "names", "paths"]),
             *("\t".join(row) for row in rows(parts, with_names=True))]
    Output(os.path.join(folder, "parts.tsv")).write("".join(f"{line}\n" for line in lines))
    Output(os.path.join(folder, "pair.json"),
           encoding="utf-8").write(json.dumps(found | {"parts": len(parts)}, indent=1) + "\n")


def remove_part(folder):
    """Takes away what these scripts have put into a part's folder."""
    for name in (*SIDES, "ordered.v", "lock"):
        with contextlib.suppress(FileNotFoundError):
            os.remove(os.path.join(folder, name))
    with contextlib.suppress(OSError):
        os.rmdir(folder)


def rows(parts, with_names=False):
    """A row for each part, with the names of what is compared and the paths of its boxes where
    these are asked for."""
    for number, part in enumerate(parts, 1):
        row = [str(number), str(len(part.kept)), str(part.inputs), str(len(part.boxes)),
               str(part.cells), f"{part.log2:.1f}"]
        if with_names:
            row += [" ".join(f"{kind} {text}" for kind, text in part.kept), " ".join(part.boxes)]
        yield row
