"""What a process of `rt ci` is for: a crate's proof, its tests, an edit or the seed of its
edits."""
import os
import re
from dataclasses import dataclass

CRATE = re.compile(r"/crates/([a-z0-9_]+)(?:/|$)")
PROOF, TESTS, SEED, EDITS, RUN, REST = "proof", "tests", "seed", "edits", "run", "rest"
KINDS = (PROOF, TESTS, SEED, EDITS, RUN, REST)


@dataclass(frozen=True)
class Work:
    """What was done for a crate; an edit has its number among the edits in the order of names."""

    crate: str
    kind: str
    edit: int = -1


def work_of(process):
    """What this process is for by its own words, or None."""
    program = os.path.basename(process.words[0]) if process.words else ""
    if program == "rattle" and process.words[1:2] in (["build"], ["check"]):
        return check_of(process)
    named = next((CRATE.search(word) for word in process.words if CRATE.search(word)), None)
    if named:
        return Work(named[1], TESTS if f"{named[1]}_tests" in " ".join(process.words) else PROOF)
    ran = next((word for word in process.words if "/rt-run-" in word), None)
    return Work(os.path.basename(ran).removesuffix("_tests"), RUN) if ran else None


def check_of(process):
    """rt proves a crate in its folder, and tries edits in a copy under rt-edit-; the folder over
    which an edit is tried ends in the edit's number, that of the seed in `seed`."""
    words = process.words
    if "--crate-name" not in words[:-1]:  # What asks rattle of itself.
        return None
    crate = words[words.index("--crate-name") + 1]
    if "/rt-edit-" not in process.folder:
        return Work(crate, TESTS if "--test" in words else PROOF)
    over = os.path.basename(words[words.index("--incremental")
                                  + 1]) if "--incremental" in words else ""
    if over == "seed":
        return Work(crate, SEED)
    return Work(crate, EDITS, int(over) if over.isdigit() else -1)


def by_work(watch):
    """The processes of each work. One whose words do not say it does its parent's work."""
    own = {pid: work_of(process) for (pid, _), process in watch.seen.items()}
    parents = {pid: process.parent for (pid, _), process in watch.seen.items()}

    def found(pid):
        while pid in own and own[pid] is None:
            pid = parents[pid]
        return own.get(pid) or Work("", REST)

    works = {}
    for (pid, _), process in watch.seen.items():
        works.setdefault(found(pid), []).append(process)
    return works
