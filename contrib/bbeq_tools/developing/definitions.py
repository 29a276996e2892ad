"""Definitions of contracts, and a walk from the words of a clause through the lines `use` of the
files in which they stand to all definitions on which it rests.

Definitions of this repository's crates are followed, and those of the kit's libraries but for
`std` where the kit is installed; of `std` the names alone are kept. A type of the code counts by
the lines of its declaration."""
import re
import shutil
from collections import defaultdict
from pathlib import Path

from bbeq_tools.cli import Fault

CRATES = Path(__file__).resolve().parents[3] / "crates"
USE = re.compile(
    r"^(pub )?(?:ghost )?use Rattle\.([\w.]+?)(?:\.\{([^}]*)\})?(?: as (\w+))?;?$")
WORD = re.compile(r"[^\s(){}\[\];:,.|λ→×∷]+")
FIELD = re.compile(r"^\s+pub \w+(?= :)|\b\w+(?= = [^=]*;)", re.M)
BOUND = re.compile(r"λ (\w+)\.|[({](\w+) :")
HEAD = re.compile(
    r"^\s*(?:unfoldable |opaque )?(?:abbrev )?(?:pub )?(?:(record|data) )?(?:pub )?([^\s:({]+)")
DECLARED = re.compile(r"(\w+)\.specs\.declared\.([\w.]+)")


def kit():
    """The folder of the kit's libraries, where it is installed."""
    found = shutil.which("rattle") or shutil.which("rt")
    for folder in (Path("/opt/rattle/rattle"), *(Path(found).resolve().parents if found else ())):
        if (folder / "std").is_dir():
            return folder
    return None


KIT = kit()


def uses(text):
    """The names that a file takes from others, each with its module; a module under a name of its
    own has no names."""
    found = {}
    for line in text.splitlines():
        use = USE.match(line.strip())
        if not use:
            continue
        _, module, names, alias = use.groups()
        if names is None:
            found[alias or module.rsplit(".", 1)[-1]] = (module, None)
            continue
        for name in names.split(","):
            name, _, other = name.strip().partition(" as ")
            if name:
                found[other or name] = (module, name)
    return found


def is_comment(line):
    return line.strip().startswith("--")


class Specs:
    """The file of a module, its imports and its definitions: by name, the lines with the comment
    before them."""

    def __init__(self, module, folder=CRATES):
        crate, *path = module.split(".")
        self.path = folder / crate / "/".join(path)
        self.path = self.path.with_name(self.path.name + ".antt")
        text = self.path.read_text() if self.path.is_file() else ""
        self.there = bool(text)
        self.uses = uses(text)
        self.definitions = dict(self.named(text))

    @staticmethod
    def blocks(text):
        """Definitions stand between empty lines; those of a `mutual` are parts of one."""
        block = []
        for line in text.splitlines():
            ends = not line.strip() and not (block and re.match(r"(abbrev |unfoldable )?mutual",
                                                                Specs.first_code(block)))
            starts = line.strip() and not line.startswith(" ") and block and not block[-1].strip()
            if ends or starts:
                yield block
                block = []
            if line.strip() or block:
                block.append(line)
        yield block

    @staticmethod
    def first_code(block):
        return next((line for line in block if line.strip() and not is_comment(line)
                     and not USE.match(line.strip())), "")

    @classmethod
    def named(cls, text):
        for block in cls.blocks(text):
            lines = [line for line in block if line.strip() and not USE.match(line.strip())]
            code = [line for line in lines if not is_comment(line)]
            if not code:
                continue
            together = "mutual" in code[0]
            for line in code[1:] if together else code[:1]:
                if together and not re.match(r"  (?:pub )", line):
                    continue
                if head := HEAD.match(line):
                    yield head.group(2), lines
            if "data " in "\n".join(code):
                for line in code[1:]:
                    if case := re.match(r"^\s+(\S+) :", line):
                        yield case.group(1), lines


class Top:
    """A file of code: names and where they come from, and no definitions of its own."""

    def __init__(self, names):
        self.uses = names
        self.definitions = {}


class Walk:
    """What words rest on: `met` the definitions of each module, `types` the declarations of the
    code, `names` the names that are not followed."""

    def __init__(self):
        self.files = {}
        self.met = defaultdict(set)
        self.types = {}
        self.names_kept = set()

    def specs(self, module):
        if module not in self.files:
            folder = CRATES if module.startswith("bb_") else KIT or CRATES
            self.files[module] = Specs(module, folder)
        return self.files[module]

    def follow(self, module, name):
        library = module.split(".")[0]
        if ".declared." in module and library.startswith("bb_"):
            self.declared(module)
            return
        specs = None if library.startswith("std") or ".declared." in module else self.specs(module)
        if not specs or not specs.there:
            self.names_kept.add((library, name))
            return
        lines = specs.definitions.get(name)
        if lines is None:
            other, passed = specs.uses.get(name, (None, None))
            if other and not passed:
                return
            if other:
                self.follow(other, passed)
            elif library.startswith("bb_"):
                raise Fault(f"{specs.path.relative_to(CRATES)}: no definition of {name} is found")
            else:
                self.names_kept.add((library, name))
        elif tuple(lines) not in self.met[module]:
            self.met[module].add(tuple(lines))
            self.names("\n".join(line for line in lines if not is_comment(line)), specs, module)

    @staticmethod
    def is_field(text, start, specs):
        """Whether the name behind a point is a field, and no name of a module that stands before
        it."""
        before = re.search(r"([\w-]+)\.$", text[:start])
        return not (before and specs.uses.get(before.group(1), (None, True))[1] is None)

    def names(self, text, specs, module):
        text = FIELD.sub("", text)
        bound = {name for pair in BOUND.findall(text) for name in pair if name}
        # It may stand outside of what binds it: rather a definition too many.
        bound -= {*specs.definitions, *specs.uses}
        for match in WORD.finditer(text):
            word = match.group()
            if (word in bound or text[match.start() - 1:match.start()] == "."
                    and self.is_field(text, match.start(), specs)):
                continue
            if word in specs.uses:
                other, name = specs.uses[word]
                after = re.match(r"\.([\w-]+)", text[match.end():])
                name = name or (after and after.group(1))
                if name:
                    self.follow(other, name)
            elif word in specs.definitions:
                self.follow(module, word)

    def declared(self, module):
        """Keeps the declaration of a type or a constant of the code."""
        crate, path = DECLARED.match(module).groups()
        *files, name = [part for part in path.split(".")
                        if part not in ("TheVariants", "TheViews", "TheConstants")] or [path]
        key = (crate, *files, name)
        if key not in self.types:
            self.types[key] = declaration(CRATES / crate / "src", files, name)


def declaration(src, files, name):
    """The lines that declare a type in a file of the code, or none where it is a constant."""
    for path in (src.joinpath(*files).with_suffix(".rt") if files else src / "lib.rt",
                 *sorted(src.rglob("*.rt"))):
        text = path.read_text() if path.is_file() else ""
        found = re.search(rf"^ *pub(?:\(crate\))? (?:struct|enum) {name}\b.*?(?:^}}|;$)", text,
                          re.M | re.S)
        if found:
            return found.group().splitlines()
    return []


def is_code(line):
    return bool(line.strip()) and not line.strip().startswith(("--", "//", "#["))


class Size:
    """Lines, characters, and lines of over 120 columns; comments and empty lines count for
    none."""

    def __init__(self, lines=()):
        code = [line for line in lines if is_code(line)]
        self.lines = len(code)
        self.characters = sum(len(line.strip()) for line in code)
        self.wide = sum(len(line) > 120 for line in code)

    def __add__(self, other):
        size = Size()
        size.lines = self.lines + other.lines
        size.characters = self.characters + other.characters
        size.wide = self.wide + other.wide
        return size

    def __str__(self):
        wide = f", {self.wide} over 120 columns" if self.wide else ""
        return f"{self.lines} lines, {self.characters} characters{wide}"


def size_of(blocks):
    return sum((Size(block) for block in blocks), Size())
