"""Unit tests of the one table of options, the manual page, of which help and hints are made: it has
the options, values and checks that the program takes."""
import os
import re
import unittest

from bbeq_tools.runs.program_words import CHECKS, FLAGS, VALUES
from tests.tries import TOP, read

ARGUMENTS = os.path.join(TOP, "crates", "bb_args", "src")
NUMBER = r"(\d[\d_]*|u64::MAX)"


def section_of(page, name):
    """The lines of a section of the manual page."""
    return re.search(rf"^\.S[hs] {name}\n(.*?)^\.S[hs]", page, re.MULTILINE | re.DOTALL)[1]


def number_of(text):
    return 2 ** 64 - 1 if text == "u64::MAX" else int(text.replace("_", ""))


class Manual(unittest.TestCase):
    def setUp(self):
        self.page = read(os.path.join(TOP, "docs", "bbeq.1"))
        self.items = section_of(self.page, "OPTIONS").split("\n.It ")[1:]
        self.code = read(os.path.join(ARGUMENTS, "reading.rt"))

    def item(self, option):
        """What the page has of an option, as one line."""
        return next(" ".join(item.split()) for item in self.items
                    if re.search(rf"^.*Fl -{option}(\s|$)", item))

    def test_options(self):
        """The options of the page are those that the program takes, with and without a value."""
        command = read(os.path.join(ARGUMENTS, "command.rt"))
        for kind, value in (("flag", r"(?! Ar)"), ("valued", " Ar")):
            taken = re.findall(rf'\.arg\({kind}\(alloc, "([a-z-]+)"\)\)', command)
            heads = [item.partition("\n")[0] for item in self.items]
            listed = re.findall(rf"Fl -([a-z-]+)(?![a-z-]){value}", "\n".join(heads))
            self.assertEqual(sorted(taken), sorted(listed), kind)

    def test_bounds(self):
        """The bounds and defaults of numbers, there and in what commands of contrib say."""
        found = re.findall(rf'(?:number|small)_or\(value\(matches, "(\w+)"\), {NUMBER}, {NUMBER}, '
                           rf"{NUMBER}\)", self.code)
        self.assertEqual(len(found), 5)
        for option, *numbers in found:
            default, least, most = map(number_of, numbers)
            self.assertIn(f"from {least} to {most}.", self.item(option))
            self.assertIn(f"default is {default}.", self.item(option))
            self.assertIn(f"(default {default})", VALUES[option])
        least, most = re.search(rf'small\(value\(matches, "make"\), {NUMBER}, {NUMBER}\)',
                                self.code).groups()
        self.assertIn(f"from {least} to {most}:", self.item("make"))

    def test_checks(self):
        listed = re.findall(r"^\.It Cm (\w+)$", section_of(self.page, "The checks"), re.MULTILINE)
        taken = re.findall(r'"(\w+)" => Some\(Rung', read(os.path.join(ARGUMENTS, "value.rt")))
        self.assertEqual(listed, taken)
        self.assertEqual(listed, list(CHECKS))

    def test_handed_on(self):
        """What commands hand on is an option of the program."""
        for option in (*VALUES, *FLAGS):
            self.assertTrue(self.item(option))
