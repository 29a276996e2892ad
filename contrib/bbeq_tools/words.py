"""The words of a script. That a module of its own reads them lets `solve` begin before it is
loaded."""
import argparse
import sys
from typing import NoReturn

from bbeq_tools.cli import WRONG_WORDS


class Words(argparse.ArgumentParser):
    """Wrong words are told in one line."""

    def parse_args(self, args=None, namespace=None):
        """Of words that are left over those that are options are named, where there are some: a
        file may be left over since the value of an unknown option was taken for one."""
        words, others = self.parse_known_args(args, namespace)
        if others:
            options = [word for word in others if word.startswith("-")]
            self.error(f"unrecognized arguments: {' '.join(options or others)}")
        return words

    def error(self, message: str) -> NoReturn:
        print(f"{self.prog}: {message} ({self.prog} --help lists the words)", file=sys.stderr)
        sys.exit(WRONG_WORDS)
