"""Prints what the crates promise: each public call with its comment and the names of its clauses.

A call is a public function, one of a public trait, or one that keeps a trait and has clauses of its
own. A law takes nothing and gives nothing: its contract is all that there is. `--whole` prints
comments whole, and signatures and contracts as they stand in the code."""
import re

from bbeq_tools.cli import run_script
from bbeq_tools.developing.definitions import CRATES
from bbeq_tools.words import Words

CALL = re.compile(r"^(?: {4})?(pub )?fn (\w+)")
CLAUSE = re.compile(r"^\s+(ensures|requires)\b\*?\s*(\w*) ?\{")
BETWEEN = re.compile(r"^\s*(?://|#\[|auto,|using\(|unfolding\(|crate::|\))")
HEAD = re.compile(r"^(?:pub )?(impl|trait)\b(.*)\{$")


class Call:
    """A public call: its name with that of its type or module, the paragraphs of its comment, its
    signature and the lines of its contract."""

    def __init__(self, name, comment, signature, contract):
        self.name, self.comment = name, comment
        self.signature, self.contract = signature, contract

    @property
    def is_law(self):
        return "->" not in self.signature and "()" in self.signature and bool(self.contract)

    def clauses(self, kind):
        found = (CLAUSE.match(line) for line in self.contract)
        return [clause.group(2) or "the result" for clause in found
                if clause and clause.group(1) == kind]

    def is_called(self, names):
        parts = self.name.split("::")
        return any("::".join(parts[at:]) in names for at in range(len(parts)))


def paragraphs(lines):
    """The paragraphs of a comment, each on one line; tables, lists and code stay as they are."""
    text = "\n".join(line.strip()[3:].removeprefix(" ") for line in lines)
    parts = re.sub(r"^(# \w+)\n(?=\S)", r"\1\n\n", text, flags=re.MULTILINE).split("\n\n")
    return [part if re.search(r"^(\||- |```)", part, re.MULTILINE) else " ".join(part.split())
            for part in parts if part]


def comment_before(lines, at):
    """The lines of the comment before a line, past attributes and what is said to writers."""
    first = at
    while first and BETWEEN.match(lines[first - 1]):
        first -= 1
    return [line for line in lines[first:at] if line.strip().startswith("///")]


def parts_of(lines, at):
    """The signature of a function, on one line, and the lines of its contract."""
    signature, contract = [], []
    for line in lines[at:]:
        bare = line.strip()
        if bare in ("{", "{}") or not contract and signature and not bare:
            break
        if CLAUSE.match(line) or contract:
            contract.append(line)
        else:
            signature.append(bare.removesuffix("{").strip())
        if line.endswith((";", "{")) and not CLAUSE.match(line):
            break
        if contract and line.endswith("};"):
            break
    return " ".join(signature).removesuffix(";"), contract


def owner_of(line):
    """The type or trait whose functions follow, and whether they are public by it."""
    head = HEAD.match(line)
    if not head:
        return None
    rest = re.sub(r"^\s*(\w*)", r"\1", head.group(2))
    while "<" in rest:
        shorter = re.sub(r"<[^<>]*>", "", rest.replace("->", ""))
        if shorter == rest:
            break
        rest = shorter
    is_kept = " for " in rest
    return rest.rpartition(" for ")[2].split()[0].strip(":{"), head.group(1) == "trait" or is_kept


def calls_in(text, module=""):
    """The public calls of a file."""
    lines = text.splitlines()
    owner = None
    for at, line in enumerate(lines):
        owner = None if line.startswith("}") else owner_of(line) or owner
        call = CALL.match(line)
        if not call or not call.group(1) and not (owner and owner[1]):
            continue
        signature, contract = parts_of(lines, at)
        if not call.group(1) and not contract:
            continue
        name = "::".join(part for part in (module, owner and owner[0], call.group(2)) if part)
        yield Call(name, paragraphs(comment_before(lines, at)), signature, contract)


def used_in(text):
    """The names of `pub use` lines, each with the module or crate that it is from."""
    return {name: use.split("::")[0].strip()
            for use in re.findall(r"^pub use ([^;]+);", text, re.MULTILINE)
            for name in re.findall(r"\w+", use.partition("::")[2])}


class Crate:
    """A crate: its modules, and what it gives to other crates."""

    def __init__(self, name):
        self.folder = CRATES / name / "src"
        root = self.folder / "lib.rt"
        text = root.read_text() if root.is_file() else ""
        self.modules = re.findall(r"^(?:pub )?mod (\w+);", text, re.MULTILINE)
        self.open = set(re.findall(r"^pub mod (\w+);", text, re.MULTILINE))
        self.given = used_in(text)
        for module in self.open:
            path = self.folder / f"{module}.rt"
            self.given.update(used_in(path.read_text()) if path.is_file() else {})

    def files(self):
        first = [self.folder / "lib.rt", *(self.folder / f"{name}.rt" for name in self.modules)]
        first = [path for path in first if path.is_file()]
        return [*first, *(path for path in sorted(self.folder.rglob("*.rt")) if path not in first)]

    def calls(self):
        for path in self.files():
            module = path.relative_to(self.folder).parts[0].removesuffix(".rt")
            is_open = module in self.open
            for call in calls_in(path.read_text(), module if is_open else ""):
                named = call.name.partition("::")[0] in self.given
                if is_open or named or call.is_law or module == "lib":
                    yield call

    def passed_on(self):
        """What it gives of other crates, by these."""
        found = {}
        for name, source in self.given.items():
            if source.startswith("bb_"):
                found.setdefault(source, []).append(name)
        return found


def all_crates():
    lines = (CRATES.parent / "crates.txt").read_text().splitlines()
    return [line.partition(":")[0].strip() for line in lines if line.strip() and line[0] != "#"]


def show(call, whole):
    print(f"  {call.name}{'  (law)' if call.is_law else ''}")
    if whole:
        print(f"    {call.signature}")
    for part in call.comment if whole else call.comment[:1]:
        print("    " + part.replace("\n", "\n    "))
    if whole:
        for line in call.contract or ["    no contract"]:
            print(f"    {line.rstrip()}".rstrip() if call.contract else line)
        return
    for kind, word in (("requires", "needs"), ("ensures", "clauses")):
        if call.clauses(kind) and not call.is_law:
            print(f"    {word}: {', '.join(call.clauses(kind))}")


def show_crate(name, names, whole):
    """Prints the calls of a crate, of these names alone if some are given, and gives them."""
    crate = Crate(name)
    found = [call for call in crate.calls() if not names or call.is_called(names)]
    passed = {} if names else crate.passed_on()
    if found or not names:
        print(name if found or passed else f"{name}: no public call")
    for call in found:
        show(call, whole)
    for source, given in passed.items():
        print(f"  of {source}: {', '.join(given)}")
    for source, given in crate.passed_on().items() if names else ():
        wanted = {name for name in names if name.partition("::")[0] in given}
        found += show_crate(source, wanted, whole) if wanted else []
    return found


def command():
    parser = Words(prog="promises", description=__doc__.split("\n\n")[0])
    parser.add_argument("--whole", action="store_true",
                        help="comments whole, and signatures and contracts as in the code")
    parser.add_argument("names", metavar="NAME", nargs="*",
                        help="a crate, or a call of the crates that are named (all crates)")
    words = parser.parse_args()
    known = all_crates()
    names = {name for name in words.names if name not in known}
    found = []
    for crate in [name for name in words.names if name in known] or known:
        found += show_crate(crate, names, words.whole)
    for name in sorted(names):
        if not any(call.is_called({name}) for call in found):
            parser.error(f"{name} is no crate, and no call of these")


def main():
    run_script("promises", command)
