"""Lists lemmas that are proved more than once: those with one statement in two crates or more.

Statements are compared as texts, without the names of crates and of what they bind, so
`(a b : Bool) → ..` and `(x y : Bool) → ..` are one. Each is printed with its places, those in most
crates first. Lemmas of a module with parameters are left out, since they depend on these. Names are
not followed: two crates may mean two things by one."""
import re
from collections import defaultdict
from pathlib import Path

from bbeq_tools.cli import run_script
from bbeq_tools.developing.definitions import CRATES, uses
from bbeq_tools.words import Words

HEAD = re.compile(r"^(?:pub )?([^\s:(){}]+) : ?(.*)$")
WORD = re.compile(r"[^\s(){}\[\],.:;]+|[(){}\[\],.:;]")
BINDER = re.compile(r"[({]([^(){}:]+) : |λ ([^.(){}:]+)\.")
CRATE = re.compile(r"\bbb_\w+")
# Facts of these crates say nothing of designs: they are the place for what all may cite.
BASE = ("bb_bits", "bb_lemmas")
NO_LEMMA = ("Goals.antt", "Given.antt", "Lib.antt", "Invariants.antt")


class Lemma:
    def __init__(self, path, line, name, statement, plain):
        self.path, self.line, self.name, self.plain = path, line, name, plain
        self.statement = " ".join(statement.split())

    @property
    def crate(self):
        return self.path.relative_to(CRATES).parts[0] if CRATES in self.path.parents else ""

    def __str__(self):
        path = self.path.relative_to(CRATES) if self.crate else self.path
        return f"{path}:{self.line} {self.name}"


def same_words(statement):
    """A statement without the names of crates and of what it binds."""
    statement = CRATE.sub("bb", statement)
    bound = {}
    for names in BINDER.findall(statement):
        for name in " ".join(names).split():
            bound.setdefault(name, f"#{len(bound)}")
    return " ".join(bound.get(word, word) for word in WORD.findall(statement))


def is_plain(statement, imports):
    """Whether a statement is of bits, lists and numbers alone."""
    modules = (imports[word][0] for word in WORD.findall(statement) if word in imports)
    return all(module.split(".")[0] in BASE or not module.startswith("bb_") for module in modules)


def lemmas_in(path, text):
    """The lemmas of a file, but for those of modules in it."""
    imports = uses(text)
    lines = text.splitlines()
    for number, line in enumerate(lines):
        head = HEAD.match(line)
        if not head or line.startswith(("use ", "--", "abbrev ", "record ", "data ", "module ")):
            continue
        statement = [head.group(2)]
        for more in lines[number + 1:]:
            if not more.startswith(" "):
                break
            statement.append(more)
        whole = " ".join(statement)
        if "Type 0" not in whole.rsplit("→", 1)[-1] and "goal." not in whole:
            yield Lemma(path, number + 1, head.group(1), whole, is_plain(whole, imports))


def proved_twice(lemmas):
    """The groups of lemmas of two crates or more with one statement."""
    groups = defaultdict(list)
    for lemma in lemmas:
        groups[same_words(lemma.statement)].append(lemma)
    found = [group for group in groups.values() if len({lemma.crate for lemma in group}) > 1]
    return sorted(found, key=lambda group: (-len({lemma.crate for lemma in group}), -len(group),
                                            group[0].statement))


def all_lemmas(crates):
    for path in sorted(Path(crates).glob("*/proofs/**/*.antt")):
        if path.name not in NO_LEMMA and "out" not in path.parts:
            yield from lemmas_in(path, path.read_text())


def command():
    parser = Words(prog="lemmas", description=__doc__.split("\n\n")[0])
    parser.add_argument("--plain", action="store_true",
                        help="only those of bits, lists and numbers, which bb_lemmas can have")
    parser.add_argument("--least", type=int, default=2, metavar="N",
                        help="only those in N crates or more (2)")
    words = parser.parse_args()
    groups = [group for group in proved_twice(all_lemmas(CRATES))
              if len({lemma.crate for lemma in group}) >= words.least
              and (not words.plain or all(lemma.plain for lemma in group))]
    for group in groups:
        print(f"{len({lemma.crate for lemma in group})} crates: {group[0].statement}")
        for lemma in group:
            print(f"  {lemma}")
    print(f"{len(groups)} statements at {sum(map(len, groups))} places")


def main():
    run_script("lemmas", command)
