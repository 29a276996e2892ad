"""Which program the commands run, and whether it is proved."""
from __future__ import annotations

import os
import sys

from bbeq_tools.cli import Fault

TOP = os.path.dirname(os.path.dirname(os.path.dirname(os.path.realpath(__file__))))
WRAPPER, BUILT = os.path.join(TOP, "bbeq"), os.path.join(TOP, "crates", "bbeq", "out", "bbeq")
FIND = os.path.join(TOP, "build", "find")
SOURCES = ("src", "specs", "proofs")  # Folders of a crate.
TOLD = "BBEQ_UNPROVED_TOLD"  # A caller that has said it itself sets this.
# The user's cache, where start.sh found one.
CACHE = os.path.dirname(sys.pycache_prefix) if sys.pycache_prefix else None


def is_program(path: str | None) -> bool:
    return path is not None and os.path.isfile(path) and os.access(path, os.X_OK)


def on_path(name: str) -> str | None:
    """What `shutil.which` finds, a module that takes longer to load than a small run of bbeq."""
    folders = os.environ.get("PATH", os.defpath).split(os.pathsep)
    return next(filter(is_program, (os.path.join(folder, name) for folder in folders)), None)


def built_here() -> tuple[str, str]:
    """The kind of the program that is made of this repository's sources, and its path, or two empty
    texts. To hash all sources takes a while, so what was found is kept: it holds as long as they
    and the programs have the same sizes and times."""
    if not is_program(FIND):
        return "", ""
    if CACHE is None:
        return found_here()
    here, folder = os.stat(TOP), os.path.join(CACHE, "found")
    try:
        os.makedirs(folder, exist_ok=True)
    except OSError:
        return found_here()
    path = os.path.join(folder, f"{here.st_dev}-{here.st_ino}")
    known = read_words(path)
    if len(known) == 3 and known[0] == str(state_here(CACHE)) and is_program(known[2]):
        return known[1], known[2]
    kind, program = found_here()
    if kind:
        # The state is that of after the search, which may note that the program is proved.
        write_words(path, [str(state_here(CACHE)), kind, program])
    return kind, program


def found_here() -> tuple[str, str]:
    import subprocess
    done = subprocess.run([FIND], capture_output=True, text=True, check=False)
    kind, _, program = done.stdout.rstrip("\n").partition(" ")
    return kind, program


def state_here(cache: str) -> int:
    """A number that is another one after each change of a source, of rt, or of the programs."""
    seen: list[int] = []
    crates, out, rt = os.path.join(TOP, "crates"), os.path.join(TOP, "out"), on_path("rt")
    for name in sorted(os.listdir(crates)):
        for part in SOURCES:
            note_below(os.path.join(crates, name, part), seen)
    for path in (os.path.join(TOP, "crates.txt"), BUILT, out, os.path.join(out, "proved"), cache,
                 *([os.path.realpath(rt)] if rt else [])):
        try:
            note(os.stat(path), seen)
        except OSError:
            seen.append(0)
    return hash(tuple(seen))


def note_below(folder: str, seen: list[int]) -> None:
    try:
        entries = sorted(os.scandir(folder), key=lambda entry: entry.name)
    except OSError:
        return
    for entry in entries:
        note(entry.stat(), seen)
        if entry.is_dir():
            note_below(entry.path, seen)


def note(state: os.stat_result, seen: list[int]) -> None:
    seen += state.st_ino, state.st_size, state.st_mtime_ns, state.st_ctime_ns


def read_words(path: str) -> list[str]:
    """The lines of a file, none where it is not there."""
    try:
        with open(path, encoding="utf-8", errors="surrogateescape") as file:
            return file.read().split("\n")
    except OSError:
        return []


def write_words(path: str, words: list[str]) -> None:
    """Writes them, where that can be done."""
    beside = f"{path}.{os.getpid()}"
    try:
        with open(beside, "w", encoding="utf-8", errors="surrogateescape") as file:
            file.write("\n".join(words))
        os.replace(beside, path)
    except OSError:
        pass


def find_program() -> str | None:
    """$BBEQ, or bbeq beside an installed command, or on the PATH, or what was built here. ./bbeq
    and an installed bbeq are no programs, but run one, which is taken. A $BBEQ that names none is a
    fault."""
    named = os.environ.get("BBEQ")
    if named and not is_program(named):
        raise Fault(f"$BBEQ is {named}, which is no program")
    folder, command = os.path.split(os.path.realpath(sys.argv[0]))
    beside = os.path.join(folder, "bbeq") if command.startswith("bbeq-") else None
    for program in (named, beside, on_path("bbeq"), WRAPPER):
        if program and is_program(program):
            found = program_of(os.path.realpath(program))
            warn(found)
            return found or None
    return None


def program_of(path: str) -> str:
    """The program that a wrapper runs, or the path itself."""
    if path == WRAPPER:
        return built_here()[1]
    installed = f"{path}-proved"
    return installed if os.path.basename(path) == "bbeq" and is_program(installed) else path


def is_unproved(program: str) -> bool:
    return "unproved" in os.path.basename(os.path.realpath(program))


def kind_of(program: str) -> str:
    """`proved`, `unproved`, or `unknown` of a program that was not built here. An unproved one has
    the word in its name."""
    if is_unproved(program):
        return "unproved"
    is_built = os.path.realpath(program) == BUILT
    return "proved" if is_built and built_here()[0] == "proved" else "unknown"


def warn(program: str) -> None:
    """Says once that the program is the unproved one."""
    if program and TOLD not in os.environ and is_unproved(program):
        os.environ[TOLD] = "1"
        name = os.path.basename(sys.argv[0])
        print(f"{name}: NOT PROVED: {program} is compiled without its proofs; ./prove proves it",
              file=sys.stderr)
