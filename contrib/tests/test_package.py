"""Rules of the package: its commands, its page and its style."""
import os
import re
import shutil
import unittest

from tests.tries import HERE, TOP, Tries, read, run, script

# Commands of those who change bbeq, which are not installed.
OF_A_CHECKOUT = ("believed", "check", "crate-map", "edits", "lemmas", "minutes", "promises")
PAGE = os.path.join(TOP, "docs", "bbeq-tools.1")


def entry_points():
    """The installed commands and their modules."""
    text = read(os.path.join(HERE, "pyproject.toml"))
    return dict(re.findall(r'^bbeq-(\w+) = "([\w.]+):main"$', text, re.MULTILINE))


def commands():
    """The commands of this folder, with the modules of which they run `main`."""
    found = {}
    for name in os.listdir(HERE):
        path = os.path.join(HERE, name)
        if os.path.isfile(path) and os.access(path, os.X_OK):
            found[name] = re.search(r"^module=(\S+)$", read(path), re.MULTILINE).group(1)
    return found


def usage_of(name):
    """The words that --help shows first, on one line."""
    return " ".join(run([script(name), "--help"]).out.partition("\n\n")[0].split())


def files_in(usage):
    """The names of what stands after the options, each once."""
    words = re.sub(r"\[-[^]]*\]|-\w [A-Z]+", "", usage)
    return list(dict.fromkeys(re.findall(r"\b[A-Z]+\b", words)))


class Package(unittest.TestCase):
    def test_commands(self):
        """Each command of this folder is installed under its name, but for those of a checkout."""
        found = commands()
        for name in OF_A_CHECKOUT:
            del found[name]
        self.assertEqual(found, entry_points())

    def test_page(self):
        listed = re.findall(r"^\.It Nm bbeq-(\w+)$", read(PAGE), re.MULTILINE)
        self.assertEqual(sorted(listed), sorted(entry_points()))

    def test_synopsis(self):
        """The page has the words of --help: what a synopsis names, and what must be given."""
        section = re.search(r"^\.Sh SYNOPSIS\n(.*?)^\.Sh", read(PAGE), re.MULTILINE | re.DOTALL)[1]
        for part in section.split(".Nm bbeq-")[1:]:
            name, *lines = part.splitlines()
            usage = usage_of(name)
            for line in lines:
                option = re.match(r"\.(Op )?Fl (\S+)", line)
                if option:
                    wanted = f"-{option[2]} ", f"[-{option[2]} "
                    self.assertIn(wanted[1] if option[1] else f" {wanted[0]}", usage, name)
            files = re.findall(r"\w+", " ".join(line[4:] for line in lines
                                                if line.startswith(".Ar ")))
            self.assertEqual([file.upper() for file in files], files_in(usage), name)

    def test_options(self):
        """An option that the page names of a command is one of its --help."""
        for part in read(PAGE).split("\n.It Nm bbeq-")[1:]:
            name, *lines = part.partition("\n.El")[0].splitlines()
            for line in lines:
                if line.startswith(".Fl "):
                    self.assertIn(f"-{line.split()[1]}", usage_of(name), name)

    def test_sent(self):
        """What `run` sends to a host imports nothing of the package."""
        self.assertNotIn("bbeq_tools", read(os.path.join(HERE, "bbeq_tools", "runs", "timed.py")))

    def test_library(self):
        """No module imports what the standard library of Python lacks."""
        for below, _, names in os.walk(os.path.join(HERE, "bbeq_tools")):
            for name in names:
                if name.endswith(".py"):
                    text = read(os.path.join(below, name))
                    found = re.findall(r"^\s*(?:from|import) (\w+)", text, re.MULTILINE)
                    self.assertLessEqual(set(found), LIBRARY, name)


LIBRARY = set("""
__future__ _ctypes argparse base64 bbeq_tools bisect collections concurrent contextlib ctypes
difflib errno fcntl functools gc hashlib heapq html itertools json math mmap operator os pathlib
random re resource select shlex shutil signal struct subprocess sys tempfile threading time
traceback typing zlib
""".split())


class Style(Tries):
    """Lines of at most 100 columns, no name that is not used, and types that agree."""

    part = "style"
    needs = ()
    needs_program = False

    def test_style(self):
        files = ["bbeq_tools", "gate_tools", "tests"]
        linters = ([["ruff", "check", *files]] if shutil.which("ruff") else
                   [["pycodestyle", "--max-line-length=100", *files], ["pyflakes3", *files]])
        for words in [*linters, ["mypy", "--no-incremental", "-p", "bbeq_tools"]]:
            if shutil.which(words[0]):
                done = run(words, HERE)
                self.note(f"{words[0]} is silent", done.status == 0, done.why())
            else:
                print(f"left  {words[0]} is not installed (Debian: apt-get install "
                      "pycodestyle pyflakes3 mypy)")

    def test_page(self):
        if shutil.which("mandoc"):
            done = run(["mandoc", "-T", "lint", PAGE])
            self.note("mandoc -T lint docs/bbeq-tools.1 is quiet", not done.out + done.err,
                      done.why())

    def test_help(self):
        for name in commands():
            done = run([script(name), "--help"])
            long = [line for line in done.out.splitlines() if len(line) > 100]
            self.note(f"{name} --help has no line over 100 columns", not long, str(long[:1]))
