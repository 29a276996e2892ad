"""The tries of the sources: want of memory is passed on and never made, and each file of
definitions stands in the folder that says whether a clause of the top call rests on it."""
import os
import re
import subprocess

from tests.tries import TOP, Tries, read

CRATES = os.path.join(TOP, "crates")
WANT = re.compile(r"\b(?:NoMemory|AllocError|OutOfMemory)\b")
CONTRACT = re.compile(r"^\s*(?:pub )?(?:ensures|requires|ghost)\b[^{;]*", re.M)
TYPE = re.compile(r"->[^{]*|\bimpl\b.*|\w+: \w+\b|<\w+>")
ARM = re.compile(r"^(?:Err\()?[\w:]*(?:NoMemory|OutOfMemory)\)?(?: if [^|]*)? => "
                 r"(?:return )?(?:Err\()?[\w:]*(?:NoMemory)\)?,?$"
                 r"|^Err\(\w+\) if \w+\.kind\(\) == ErrorKind::OutOfMemory => "
                 r"Err\(WordsFault::NoMemory\),$")


def sources():
    for crate in sorted(os.listdir(CRATES)):
        if crate.startswith("bb_test_"):
            continue
        for below, _, names in os.walk(os.path.join(CRATES, crate, "src")):
            yield from (os.path.join(below, name) for name in sorted(names) if name.endswith(".rt"))


def without_contracts(text):
    """The text with its contracts and ghost lines as empty lines, which keeps the numbers of the
    others."""
    while found := CONTRACT.search(text):
        start = end = found.start()
        depth = 0
        for end in range(found.end(), len(text)):
            depth += {"{": 1, "}": -1}.get(text[end], 0)
            if depth == 0 and text[end] in "};":
                break
        text = text[:start] + re.sub(r"[^\n]", "", text[start:end + 1]) + text[end + 1:]
    return text


def made(path):
    """The lines that write want of memory as a value, but for a variant of an enum, the body of a
    `from`, and an arm that passes it on; and those that make something and throw it away."""
    lines = without_contracts(read(path)).splitlines()
    for number, line in enumerate(lines, 1):
        code = line.split("//")[0].strip()
        if re.match(r"let _\w* = [A-Z].*\?;$", code):
            yield number
        if (not WANT.search(code) or code.startswith(("use ", "pub use ", "#["))
                or re.fullmatch(r"NoMemory,", code) or ARM.match(code)):
            continue
        in_from = any("fn from(" in before for before in lines[max(0, number - 3):number - 1])
        if WANT.search(TYPE.sub("", code)) and not in_from:
            yield number


class SourceRules(Tries):
    part = "sources"

    def test_sources(self):
        for path in sources():
            found = list(made(path))
            if found:
                self.note(f"{os.path.relpath(path, CRATES)}: want of memory is passed "
                          "on and not made", False, f"lines {found}")
        self.note("want of memory is looked for", True, "")
        for status in ("0", "1", "2", "3", "fit", "shown", "rup", "answers"):
            told = subprocess.run([os.path.join(TOP, "contrib", "believed"), status],
                                  capture_output=True, text=True, check=False)
            files = re.findall(r"^  (\S+) \d+$", told.stdout, re.M)
            self.note(f"believed {status}: files on which clauses rest",
                      told.returncode == 0 and files, told.stderr[:200])
