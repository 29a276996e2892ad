"""Reports of bbeq that are kept: the same program answers the same texts and words alike, so none
is made twice."""
import hashlib
import os
import tempfile
from typing import NamedTuple

from bbeq_tools.cli import Fault
from bbeq_tools.program import kind_of
from bbeq_tools.runs.answers import KEPT_STATUSES, Answer
from bbeq_tools.runs.timed import OVER

HEADER = "bbeq-kept"


class Job(NamedTuple):
    """A run of the program: its number, the two files and the words."""

    name: str
    specification: str
    implementation: str
    words: tuple


def answer_of(words, report):
    """The answer that `timed` wrote: its status, seconds and memory, and its report."""
    status, seconds, memory = words
    return Answer(None if status == OVER else int(status), float(seconds), int(memory), report)


def digest(*parts):
    """A hash of byte strings, which are told apart from those that are cut in other places."""
    found = hashlib.sha256()
    for part in parts:
        found.update(b"%d:" % len(part))
        found.update(part)
    return found.hexdigest()


def contents(path):
    try:
        with open(path, "rb") as file:
            return file.read()
    except OSError as error:
        raise Fault(f"{path}: {error.strerror}") from None


class Kept:
    """A folder with a file for each report, named by the hash of the texts, the words and the
    program's kind and bytes. A file has a line with the status, the seconds, the memory, whether
    the program is proved and a hash of all this and the report, and the report."""

    def __init__(self, folder, program):
        self.kind = kind_of(program)
        self.folder, self.program = folder, digest(self.kind.encode(), contents(program)).encode()
        os.makedirs(folder, exist_ok=True)

    def path(self, job):
        texts = [contents(path) for path in (job.specification, job.implementation)]
        return os.path.join(self.folder,
                            digest(*texts, "\0".join(job.words).encode("utf-8", "surrogateescape"),
                                   self.program))

    def find(self, job):
        """The answer that is kept; one that was cut off is none."""
        try:
            with open(self.path(job), encoding="latin-1") as file:
                header, _, report = file.read().partition("\n")
        except FileNotFoundError:
            return None
        words = header.split(" ")
        due = digest(" ".join(words[1:5]).encode(), report.encode("latin-1"))
        if len(words) != 6 or words[0] != HEADER or words[5] != due:
            return None
        return answer_of(words[1:4], report)._replace(is_kept=True)

    def keep(self, job, answer):
        if answer.status not in KEPT_STATUSES:
            return
        words = f"{answer.status} {answer.seconds:.2f} {answer.memory} {self.kind}"
        report = answer.report.encode("latin-1", "replace")
        handle, beside = tempfile.mkstemp(prefix=".", dir=self.folder)
        with open(handle, "wb") as file:
            file.write(f"{HEADER} {words} {digest(words.encode(), report)}\n".encode() + report)
        os.replace(beside, self.path(job))
