"""Lists what has to be believed of a status: the definitions on which the clauses of the top call
rest.

It begins with the clauses of `run` that speak of a status, or that are named, follows each word
through the lines `use` of the files in which it stands, and prints how much there is to read: of
this repository file by file, the types of the code, the clauses themselves, and the kit's
libraries. Left out are comments, imports, the kit's logic and what its `std` defines, whose names
are printed. It fails where a file of definitions is in a wrong folder. It reads texts alone and
proves nothing."""
import re
from collections import defaultdict

from bbeq_tools.cli import Fault, run_script
from bbeq_tools.developing.definitions import CRATES, Size, Top, Walk, size_of, uses
from bbeq_tools.words import Words

TOP = CRATES / "bb_ladder" / "src" / "running.rt"
OUTSIDE = CRATES / "bb_outside" / "src"
LAW = re.compile(r"^pub fn \w+\(\)\n((?:    .*\n|\n)*?)(?=\{)", re.M)
CLAUSE = re.compile(r"( *ensures (\w+) \{(.*?)\}\n)(?=\s*(?:ensures|\{|//|\n))", re.S)
STATUSES = {"0": ["repairable", "fit"], "1": ["error", "fit", "shown"],
            "2": ["refused", "stays_refused"], "3": ["left_open", "fit", "open_report"],
            "rup": ["refuted_yes", "refuted_no", "refuted"],
            "answers": ["whole", "prefix", "decided", "stays_open", "open_compares", "given",
                        "reads_nothing"]}
# What the program hands to `run`: two traits, and what the objects that it makes say of themselves.
MAIN = {"files.rt": r"^pub trait Files .*?^}", "sink.rt": r"^pub trait Sink .*?^}",
        "kept_files.rt": r"^    ghost (?!use|from).*?;$", "std_files.rt":
        r"^    ghost (?!use|from).*?;$", "std_out.rt": r"^    ghost (?!use|from).*?;$"}


def clauses(text):
    """The clauses of the last function of the file, by name."""
    body = text[text.rindex("pub fn run"):]
    for match in CLAUSE.finditer(body):
        yield match.group(2), match.group(1), match.group(3)


def sources(crates):
    """The sources of these crates, but for those of tests."""
    for crate in crates:
        yield from sorted((crate / "src").rglob("*.rt"))


def law_files(crates):
    """The files on which a law rests: the contract of a function that takes nothing and does
    nothing."""
    walk = Walk()
    for path in sources(crates):
        text = path.read_text()
        for contract in LAW.findall(text):
            walk.names(contract, Top(uses(text)), "")
    return {walk.files[module].path for module, blocks in walk.met.items() if blocks}


def below(name, rows):
    """A crate and those of the repository on which it stands, by the rows of crates.txt."""
    return {name}.union(*(below(crate, rows) for crate in rows[name].split() if crate in rows))


def wrong_folders():
    """Files of definitions that stand in another folder than they should: in `specs/` stands what
    some clause of the top call rests on, in `specs/Laws/` what laws rest on besides, in
    `specs/Inside/` the rest. Of a crate on which the program does not stand yet nothing is
    known."""
    walk, _ = walk_of([name for name, _, _ in clauses(TOP.read_text())])
    believed = {walk.files[module].path for module, blocks in walk.met.items() if blocks}
    rows = dict(line.split(":") for line in (CRATES.parent / "crates.txt").read_text().splitlines()
                if line.strip() and line[0] != "#")
    crates = [CRATES / name for name in sorted(below("bbeq", rows))]
    laws = law_files(crates)
    for crate in crates:
        for path in sorted((crate / "specs").rglob("*.antt")):
            folder = path.relative_to(crate / "specs").parts[0]
            if ("declared" in path.parts or path.name == "Lib.antt" or path.with_suffix("").is_dir()
                    and path not in believed | laws):
                continue
            name = path.relative_to(CRATES)
            if path in believed and folder in ("Laws", "Inside"):
                yield f"{name}: a clause of `run` rests on it"
            elif path not in believed and folder not in ("Laws", "Laws.antt", "Inside"):
                yield f"{name}: no clause of `run` rests on it"
            elif folder == "Laws" and path not in laws and not path.stem.endswith("Laws"):
                yield f"{name}: no law rests on it"


def walk_of(names):
    """What these clauses of `run` rest on, and the lines of the clauses."""
    text = TOP.read_text()
    walk = Walk()
    found = {name: (whole, words) for name, whole, words in clauses(text)}
    for name in names:
        if name not in found:
            raise Fault(f"{TOP.relative_to(CRATES)}: `run` has no clause {name}")
        walk.names(found[name][1], Top(uses(text)), "")
    return walk, [line for name in names for line in found[name][0].splitlines()]


def walk_of_main():
    """What the traits and the objects rest on that the program hands to `run`, and their lines."""
    walk = Walk()
    lines = []
    for name, pattern in MAIN.items():
        text = (OUTSIDE / name).read_text()
        for match in re.finditer(pattern, text, re.M | re.S):
            walk.names(re.sub(r"^ *//.*", "", match.group(), flags=re.M), Top(uses(text)), "")
            lines += match.group().splitlines()
    return walk, lines


def chosen(words):
    """The clauses that words name: statuses, unions of these, or clauses; each once."""
    names = []
    known = [name for name, _, _ in clauses(TOP.read_text())]
    for word in words:
        if word not in STATUSES and word not in known:
            raise Fault(f"no status and no clause of `run`: {word}")
        names += [name for name in STATUSES.get(word, [word]) if name not in names]
    return names


def show(title, walk, lines, files, whole):
    """Prints how much there is to read: of the repository, of the code, of the kit."""
    own = {module: blocks for module, blocks in walk.met.items() if module.startswith("bb_")}
    kit = defaultdict(list)
    for module, blocks in walk.met.items():
        if not module.startswith("bb_"):
            kit[module.split(".")[0]] += blocks
    total = sum((size_of(blocks) for blocks in own.values()), Size())
    print(f"{title}: {total} of definitions in {len(own)} files")
    for module in sorted(own) if files else ():
        print(f"  {walk.files[module].path.relative_to(CRATES)} {size_of(own[module]).lines}")
        if whole:
            print("\n\n".join("\n".join(block) for block in sorted(own[module])), end="\n\n")
    types = {key: block for key, block in walk.types.items() if block}
    others = "".join(f", {size_of(blocks)} of the kit's {library}"
                     for library, blocks in sorted(kit.items()) if blocks)
    print(f"  and {size_of(types.values())} of {len(types)} types of the code, {Size(lines)} of "
          f"the contract{others}")
    if files:
        print("  and these names of the kit: " + " ".join(
            sorted({name for _, name in walk.names_kept})))


def command():
    parser = Words(prog="believed", description=__doc__.split("\n\n")[0])
    parser.add_argument("status", nargs="*", metavar="STATUS",
                        help="0 to 3, `rup`: what refutations say, `answers`: what is written at "
                        "all, and when, a clause of `run` by its name, or `main`: what the program "
                        "hands to `run`; of several words their union is counted")
    parser.add_argument("--lines", action="store_true", help="print the definitions themselves")
    words = parser.parse_args()
    if words.status == ["main"]:
        show("main", *walk_of_main(), True, words.lines)
    elif words.status:
        names = chosen(words.status)
        show(f"{' '.join(words.status)} ({', '.join(names)})", *walk_of(names), True, words.lines)
    else:
        for status, names in STATUSES.items():
            show(f"{status} ({', '.join(names)})", *walk_of(names), False, False)
        for name, _, _ in clauses(TOP.read_text()):
            show(name, *walk_of([name]), False, False)
        show("main", *walk_of_main(), False, False)
    if wrong := list(wrong_folders()):
        raise Fault("in a wrong folder:\n" + "\n".join(wrong))


def main():
    run_script("believed", command)
