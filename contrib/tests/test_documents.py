"""The tries of the documents: in a block of the kind `console` each line behind `$ ` is run, and
what it prints stands below it. In other blocks a command of ./bbeq is run, and what it prints is
one of the document's blocks; one between back quotes is run and not refused."""
import os
import re
import shlex
import shutil

from tests.tries import BBEQ, TOP, Tries, read, run, write

MADE_BY = "0.23"  # The yosys that made the examples.


def documents():
    found = [os.path.join(TOP, name) for name in ("README.md", "NEWS.md")]
    for folder in ("docs", "contrib", "examples"):
        for below, _, names in os.walk(os.path.join(TOP, folder)):
            found += [os.path.join(below, name) for name in names
                      if name.endswith(".md") and not os.path.islink(os.path.join(below, name))]
    return sorted(found)


def workshop(folder):
    """A folder with what the commands of the documents name: the program, whose help ./bbeq has,
    the scripts and the examples, to be written to."""
    shop = os.path.join(folder, "shop")
    os.makedirs(shop)
    top, program = shlex.quote(os.path.join(TOP, "bbeq")), shlex.quote(BBEQ)
    os.chmod(write(shop, "bbeq", f"""#!/bin/sh
case ${{1-}} in --help | --version) exec {top} "$@" ;; esac
exec {program} "$@"
"""), 0o755)
    for name in ("contrib", "examples"):
        shutil.copytree(os.path.join(TOP, name), os.path.join(shop, name))
    return shop


def blocks_of(text):
    """The fenced blocks as (kind, lines)."""
    return [(kind, body.splitlines())
            for kind, body in re.findall(r"^```(\w*)\n(.*?)^```$", text, re.MULTILINE | re.DOTALL)]


def told(command, shop):
    """What a command prints, but for what `solve` and `why` say of their runs and their time."""
    done = run(["sh", "-c", f"{{ {command}\n}} 2>&1"], shop)
    return [line for line in done.out.splitlines() if not line.startswith(("solve: ", "why: "))]


def try_console(tally, name, lines, shop):
    starts = [at for at, line in enumerate(lines) if line.startswith("$ ")] + [len(lines)]
    for start, end in zip(starts, starts[1:]):
        command, wanted = lines[start][2:], lines[start + 1:end]
        printed = told(command, shop)
        tally.note(f"{name}: {command}", printed == wanted, " / ".join(printed)[:300])


def try_shown(tally, name, command, blocks, shop):
    printed = told(command, shop)
    tally.note(f"{name}: {command}", any(lines == printed for _, lines in blocks),
               " / ".join(printed)[:300])


def try_mentioned(tally, name, command, shop):
    printed = told(command, shop)
    tally.note(f"{name}: {command}", printed and not printed[0].startswith(("refused", "unread")),
               " / ".join(printed)[:300])


class Documents(Tries):
    part = "documents"

    def test_documents(self):
        shop = workshop(self.folder)
        for path in documents():
            name, text = os.path.relpath(path, TOP), read(path)
            blocks = blocks_of(text)
            for kind, lines in blocks:
                if kind == "console":
                    try_console(self, name, lines, shop)
            for command in [line for kind, lines in blocks if kind != "console"
                            for line in lines if line.startswith("./bbeq ")]:
                try_shown(self, name, command, blocks, shop)
            for command in dict.fromkeys(re.findall(r"`(\./bbeq [^`]+)`", text)):
                try_mentioned(self, name, command, shop)
        compare_examples(self, shop)


def compare_examples(tally, shop):
    """The files of the examples are those that their commands make; another yosys may make
    others."""
    version = run(["yosys", "-V"]).out.split()[1:2]
    if version != [MADE_BY]:
        print(f"left  the examples were made by yosys {MADE_BY}, and are not compared with what "
              f"yosys {' '.join(version)} makes")
        return
    for below, _, names in os.walk(os.path.join(TOP, "examples")):
        for name in sorted(name for name in names if not name.endswith(".md")):
            path = os.path.relpath(os.path.join(below, name), TOP)
            tally.note(f"{path} is as its commands leave it",
                       read(os.path.join(TOP, path)) == read(os.path.join(shop, path)))
