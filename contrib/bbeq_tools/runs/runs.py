"""The runs of a call of `run`: answers that are kept, answers that are made, and what is tried
again."""
import os
import sys
import tempfile
import time

from bbeq_tools.cli import Fault
from bbeq_tools.program import find_program
from bbeq_tools.runs.climbs import STEPS
from bbeq_tools.runs.jobs import run_jobs
from bbeq_tools.runs.kept import Kept

CLIMB_SECONDS = 600
TOLD_EACH = 10  # Seconds between lines of progress, where no terminal shows them.


class Runs:
    """The runs of a call: their answers by the names of the jobs, and how far they are."""

    def __init__(self, words, folder):
        self.words, program = words, find_program()
        if not program:
            raise Fault("bbeq is not there; run ./bbeq once, or set BBEQ")
        self.program, self.kept = os.path.realpath(program), Kept(os.path.realpath(folder), program)
        self.answers, self.brought = {}, {}
        self.total = self.was_kept = self.was_run = 0
        self.told = time.monotonic()

    def ask(self, jobs):
        """The answers to some jobs by their names: those that are kept, and then those that are
        run."""
        found, left = {}, []
        for job in jobs:
            kept = self.kept.find(job)
            if kept:
                found[job.name] = kept
                self.was_kept += 1
                self.note(job, kept)
            else:
                left.append(job)
        for job, answer in run_jobs(left, self.program, self.words,
                                    os.path.join(self.kept.folder, "log")) if left else ():
            self.kept.keep(job, answer)
            found[job.name] = answer
            self.was_run += 1
            self.note(job, answer)
        if left and not any(job.name in found for job in left):
            raise Fault(f"{self.words.hosts or 'parallel'}: no run gave an answer")
        return found

    def note(self, job, answer):
        """Takes an answer, and tells from time to time how far the runs are."""
        if job.name not in self.answers or answer.is_decided:
            self.answers[job.name] = answer
        if sys.stderr.isatty() or time.monotonic() - self.told >= TOLD_EACH:
            self.tell("\r" if sys.stderr.isatty() else "\n")

    def tell(self, end="\n"):
        verdicts = [answer.verdict for answer in self.answers.values()]
        decided, is_open = sum(verdict in ("error", "repairable")
                               for verdict in verdicts), verdicts.count("open")
        others = len(verdicts) - decided - is_open
        print(f"run: {len(verdicts)} of {self.total} done: {decided} decided, {is_open} open, "
              f"{others} otherwise; {self.was_kept} kept, {self.was_run} run", end=end,
              file=sys.stderr, flush=True)
        self.told = time.monotonic()

    def all(self, jobs):
        """The answers to all jobs; what is open is tried again where that is asked for."""
        self.total = len(jobs)
        self.ask(jobs)
        if self.words.climb:
            self.words.timeout = self.words.timeout or CLIMB_SECONDS
            with tempfile.TemporaryDirectory(prefix="climb") as folder:
                self.climb(jobs, folder)
        self.tell()
        return self.answers

    def climb(self, jobs, folder):
        """Takes one step after another with what is open, each beside those before it."""
        left, taken = {job.name: (job, self.answers[job.name].report)
                       for job in jobs if self.is_open(job)}, {}
        for name, wants, step in STEPS:
            next_jobs = [step(job, folder) for job, report in left.values() if wants(report)]
            for job in next_jobs:
                taken.setdefault(job.name, []).append(name)
            for number, answer in self.ask(next_jobs).items():
                job = next(job for job in next_jobs if job.name == number)
                if answer.is_decided:
                    self.brought[number] = " and ".join(taken[number])
                    del left[number]
                else:
                    left[number] = (job,
                                    answer.report if answer.verdict == "open" else left[number][1])

    def is_open(self, job):
        return job.name in self.answers and self.answers[job.name].verdict == "open"
