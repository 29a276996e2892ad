"""What documents name is there: files, crates, definitions and laws, options; and how long they
are. The commands that they show are tried by test_documents."""
import os
import re
import unittest

from tests.tries import TOP, read

# At most so many words a page, as `wc -w` counts them.
WORDS = {"README.md": 800, "NEWS.md": 900, "contrib/README.md": 2600, "docs/ARCHITECTURE.md": 4000,
         "docs/AUDIT.md": 1350, "docs/CONTRIBUTING.md": 1600, "docs/DECISIONS.md": 4500,
         "docs/LANGUAGE.md": 4200, "docs/PROVED.md": 3700, "docs/REPORT.md": 5000,
         "docs/SEMANTICS.md": 4500, "docs/TUTORIAL.md": 1300}
# Names of yosys, Linux and grep, and options of pip, rt and GNU parallel.
ELSEWHERE = {"full_case", "count_reg", "overcommit_memory", "rlE", "--no-build-isolation",
             "--allow-holes", "--start", "--resume"}
OLD_NAMES = {"NEWS.md"}  # A table of crates as they were called.


def paths():
    """The paths of all files and folders, each with a slash before it, as one text a line."""
    found = []
    for below, folders, names in os.walk(TOP):
        folders[:] = [name for name in folders if name not in ("out", ".git", "__pycache__")]
        found += [os.path.join(below, name) for name in [*folders, *names]]
    return "".join(f"/{os.path.relpath(path, TOP)}\n" for path in found)


def sources():
    """The texts in which a name may be found, as one."""
    texts = []
    for folder in ("crates", "contrib", "build"):
        for below, folders, names in os.walk(os.path.join(TOP, folder)):
            folders[:] = [name for name in folders if name not in ("out", "__pycache__")]
            texts += [read(os.path.join(below, name)) for name in names
                      if name.endswith((".rt", ".antt", ".py", ".sh", ".awk"))]
    texts += [read(os.path.join(TOP, name)) for name in ("install", "prove", "bbeq", "docs/bbeq.1")]
    return "\n".join(texts)


def examples():
    """The texts of examples and the blocks of pages: their names may be those of designs."""
    texts = []
    for below, _, names in os.walk(os.path.join(TOP, "examples")):
        texts += [read(os.path.join(below, name)) for name in names
                  if name.endswith((".v", ".md", ".ys"))]
    return "\n".join(texts)


def spans(text):
    """What is between single back quotes outside fenced blocks."""
    return re.findall(r"`([^`\n]+)`", re.sub(r"(?ms)^```.*?^```$", "", text))


def blocks(text):
    return "\n".join(re.findall(r"(?ms)^```.*?^```$", text))


class Documents(unittest.TestCase):
    @classmethod
    def setUpClass(cls):
        cls.pages = {name: read(os.path.join(TOP, name)) for name in WORDS}
        cls.sources, cls.paths = sources(), paths()
        cls.words = set(re.findall(r"[A-Za-z_][A-Za-z0-9_']*", cls.sources)) | set(
            re.findall(r"[A-Za-z_][A-Za-z0-9_']*", examples()))
        cls.crates = set(re.findall(r"(?m)^(bb\w+):", read(os.path.join(TOP, "crates.txt"))))

    def test_words(self):
        for name, most in WORDS.items():
            with self.subTest(name):
                self.assertLessEqual(len(self.pages[name].split()), most)

    def test_links(self):
        for name, text in self.pages.items():
            for link in re.findall(r"\]\(([^)#\s]+)[^)]*\)", text):
                with self.subTest(f"{name}: {link}"):
                    if "://" not in link:
                        self.assertTrue(os.path.exists(
                            os.path.join(TOP, os.path.dirname(name), link)))

    def test_files(self):
        for name, text in self.pages.items():
            for span in spans(text):
                if (not re.fullmatch(r"[\w.+-]+(/[\w.+-]+)+/?", span) or span[0] == "-"
                        or re.search(r"\b[A-Z]{4,}\b", span)):
                    continue
                with self.subTest(f"{name}: {span}"):
                    place = span.rstrip("/")
                    self.assertTrue(f"/{place}\n" in self.paths or f"/{place}.antt\n" in self.paths
                                    or span in self.sources)

    def test_crates(self):
        for name, text in self.pages.items():
            if name in OLD_NAMES:
                continue
            for crate in set(re.findall(r"\bbb_[a-z_]+\b", text)):
                with self.subTest(f"{name}: {crate}"):
                    self.assertIn(crate, self.crates)

    def test_names(self):
        """Names of several words, as `IsFillAnswer` and `order_is_free`, are in the code."""
        for name, text in self.pages.items():
            shown = set(re.findall(r"[A-Za-z_][A-Za-z0-9_']*", blocks(text)))
            for word in set(re.findall(r"[A-Za-z_][A-Za-z0-9_']*", "\n".join(spans(text)))):
                if word in ELSEWHERE | self.crates or name in OLD_NAMES and word[:3] == "bb_":
                    continue
                if re.search(r"[a-z][A-Z]|\w_\w", word):
                    with self.subTest(f"{name}: {word}"):
                        self.assertTrue({word, word.rstrip("'")} & (self.words | shown))

    def test_options(self):
        for name, text in self.pages.items():
            for option in set(re.findall(r"(?<![\w-])--[a-z][a-z-]+", "\n".join(spans(text)))):
                with self.subTest(f"{name}: {option}"):
                    self.assertTrue(option in ELSEWHERE or option in self.sources)
