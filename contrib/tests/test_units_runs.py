"""Unit tests of how commands run and write, and of kept and joined answers."""
import contextlib
import io
import os
import shlex
import signal
import sys
import tempfile
import time
import unittest
from unittest import mock

from bbeq_tools import program
from bbeq_tools.cli import Fault, Output, python_call
from bbeq_tools.runs import timed
from bbeq_tools.runs.answers import Answer
from bbeq_tools.runs.climbs import budgets, more_nodes, value_of, with_value
from bbeq_tools.runs.guard import Guard
from bbeq_tools.runs.joined import joined, padded
from bbeq_tools.runs.kept import Job, Kept, answer_of, digest
from bbeq_tools.runs.portfolio import Portfolio
from bbeq_tools.runs.untried import Box, box_lines
from bbeq_tools.runs.ways import Attempt, Request
from bbeq_tools.words import Words

PAIR = {"inputs": ["a", "b"], "words": [],
        "boxes": [{"path": "u", "module": "m", "inputs": 1, "outputs": ["o"], "is_read": True},
                  {"path": "v", "module": "m", "inputs": 1, "outputs": ["o"], "is_read": False}]}


class Place(unittest.TestCase):
    def setUp(self):
        place = tempfile.TemporaryDirectory()
        self.addCleanup(place.cleanup)
        self.folder = place.name

    def put(self, name, text):
        path = os.path.join(self.folder, name)
        with open(path, "w", encoding="latin-1") as file:
            file.write(text)
        return path

    def text(self, path):
        with open(path, encoding="latin-1") as file:
            return file.read()


class Outputs(Place):
    def setUp(self):
        super().setUp()
        self.addCleanup(Output.begun.clear)

    def test_written(self):
        path = self.put("out", "older")
        Output(path).write("newer")
        Output.put_aside()
        self.assertEqual((self.text(path), os.listdir(self.folder)), ("newer", ["out"]))

    def test_aside(self):
        """An older text is put aside where none was written, unless the command reads it."""
        path, read = self.put("out", "older"), self.put("in", "read")
        Output(path)
        Output(read, [read])
        Output.put_aside()
        self.assertEqual(sorted(os.listdir(self.folder)), ["in", "out~"])

    def test_no_folder(self):
        with self.assertRaisesRegex(Fault, "No such file or directory"):
            Output(os.path.join(self.folder, "none", "out")).write("text")

    def test_words(self):
        told = io.StringIO()
        with contextlib.redirect_stderr(told), self.assertRaises(SystemExit) as ended:
            Words(prog="some").parse_args(["--other"])
        self.assertEqual(ended.exception.code, 64)
        self.assertRegex(told.getvalue(), r"^some: .*--other \(some --help lists the words\)\n$")

    def test_call(self):
        """A module of the package runs from any folder."""
        text, status, _, _ = timed.finished([*python_call("rtl.order"), "--help"], 60)
        self.assertEqual((status, text.startswith("usage: order ")), (0, True))


class Timed(unittest.TestCase):
    def test_answer(self):
        words, text = timed.answer([sys.executable, "-c", "print('hi'); raise SystemExit(3)"], 60)
        self.assertEqual((words[0], text), ("3", "hi\n"))
        self.assertGreater(int(words[2]), 1_000_000)

    def test_over(self):
        words, text = timed.answer(["sh", "-c", "echo hi; sleep 60"], 0.3)
        self.assertEqual((words[0], text), (timed.OVER, ""))

    def test_signal(self):
        words, _ = timed.answer(["sh", "-c", "kill -TERM $$"], 60)
        self.assertEqual(words[0], str(-signal.SIGTERM))


class Reports(Place):
    def test_digest(self):
        self.assertNotEqual(digest(b"a", b"bc"), digest(b"ab", b"c"))
        self.assertEqual(digest(b"a", b"bc"), digest(b"a", b"bc"))

    def test_kept(self):
        spec, impl = self.put("s.v", "s"), self.put("i.v", "i")
        kept = Kept(os.path.join(self.folder, "kept"), self.put("program", "p"))
        job = Job("1", spec, impl, ("--all",))
        self.assertIsNone(kept.find(job))
        kept.keep(job, Answer(0, 1.5, 1000, "verdict repairable\n"))
        found = kept.find(job)
        self.assertEqual((found.verdict, found.seconds, found.is_kept), ("repairable", 1.5, True))
        self.assertIsNone(kept.find(job._replace(words=())))
        path = kept.path(job)
        self.put(path, self.text(path)[:-1])
        self.assertIsNone(kept.find(job), "one that is cut is none")
        self.put("s.v", "other")
        self.assertIsNone(kept.find(job))

    def test_not_kept(self):
        kept = Kept(os.path.join(self.folder, "kept"), self.put("program", "p"))
        job = Job("1", self.put("s.v", "s"), self.put("i.v", "i"), ())
        for status in (2, 5, None):
            kept.keep(job, Answer(status, 1.0, 1, "verdict open\n"))
        self.assertEqual(os.listdir(kept.folder), [])

    def test_verdicts(self):
        for words, report, verdict in ((("0", "1", "1"), "verdict repairable\n", "repairable"),
                                       ((timed.OVER, "2", "1"), "", "no answer in 2.0 s"),
                                       (("2", "1", "1"), "refused usage\n", "refused usage"),
                                       (("5", "1", "1"), "", "status 5")):
            self.assertEqual(answer_of(words, report).verdict, verdict)

    def test_joined(self):
        """An error of a part is one of the pair, and its vector has all inputs; tables of all parts
        come with those of boxes that nothing reads."""
        wrong = Answer(1, 1.0, 1, "rung ternary error\noutput y\ninput b=1\nverdict error\n")
        right = Answer(0, 1.0, 1, "rung input repair\ntable u o 01\nverdict repairable\n")
        self.assertEqual(joined(PAIR, [right, wrong]),
                         (["parts 2", "rung ternary error", "output y", "input a=0 b=1",
                           "verdict error"], 1))
        self.assertEqual(joined(PAIR, [right]),
                         (["parts 1", "table u o 01", "table v o 00", "verdict repairable"], 0))
        lines, status = joined(PAIR, [right, None])
        self.assertEqual((lines[:2], lines[-1], status),
                         (["parts 2", "part 2 no answer"], "verdict open", 3))
        self.assertEqual(padded("rung local none", ["a"]), "rung local none")


class Found(Place):
    def test_kept(self):
        """The search for the program is made again after a change of a source alone."""
        os.makedirs(os.path.join(self.folder, "crates", "bb", "src"))
        source = self.put(os.path.join("crates", "bb", "src", "lib.rt"), "one")
        find = self.put("find", "#!/bin/sh\necho >>$0.log\necho proved /bin/sh\n")
        os.chmod(find, 0o755)
        log = f"{find}.log"
        with mock.patch.multiple(program, TOP=self.folder, FIND=find,
                                 CACHE=os.path.join(self.folder, "cache")):
            for text, count in (("one", 1), ("two", 2), ("three", 3)):
                self.put(source, text)
                for _ in range(2):
                    self.assertEqual(program.built_here(), ("proved", "/bin/sh"))
                self.assertEqual(len(self.text(log)), count)
            os.remove(source)
            program.built_here()
            self.assertEqual(len(self.text(log)), 4)


class Options(unittest.TestCase):
    def test_values(self):
        words = ("--nodes", "5", "--to=local", "--all")
        self.assertEqual(value_of(words, "nodes", "1"), "5")
        self.assertEqual(value_of(words, "to", "expand"), "local")
        self.assertEqual(value_of(words, "from", "ternary"), "ternary")
        self.assertEqual(with_value(words, "nodes", 7), ("--to=local", "--all", "--nodes=7"))

    def test_nodes(self):
        for given, taken in ((("--nodes=3",), 30), ((), 10_000_000),
                             (("--nodes", "9000000"), 50_000_000)):
            job = more_nodes(Job("1", "s", "i", given), None)
            self.assertEqual(value_of(job.words, "nodes", None), str(taken))
        with self.assertRaises(Fault):
            more_nodes(Job("1", "s", "i", ("--nodes=x",)), None)


class Tried(unittest.TestCase):
    def test_boxes(self):
        """One box in the place of several is advised where `input` may decide it."""
        for ins, is_one in ((7, True), (8, False)):
            lines = list(box_lines([Box("u", "m", 8, 2), Box("v", "n", ins, 2)]))
            self.assertEqual(any(line.startswith("one box with the 15 input and 4 output pins")
                                 for line in lines), is_one)
            self.assertEqual(len(lines), 1 + is_one)


class Portfolios(Place):
    """Ways of commands that are no program."""

    def solved(self, jobs, budget, **ways):
        guard = Guard(os.path.join(self.folder, "none"))
        portfolio = Portfolio({name: way for name, way in ways.items()}, jobs, budget, guard)
        try:
            turn = portfolio.solve(time.monotonic() + 30)
        finally:
            portfolio.close()
            guard.close()
        return turn.name if turn else None, portfolio

    @staticmethod
    def way(text, memory=0):
        answer = yield Attempt("a run", ("sh", "-c", text), memory)
        return answer if answer.is_decided else None

    def test_first(self):
        for jobs in (1, 2, 3):
            name, _ = self.solved(jobs, 10**10, slow=self.way("sleep 60"),
                                  other=self.way("echo verdict open; exit 3"),
                                  quick=self.way("sleep 0.3; echo verdict error; exit 1"))
            self.assertEqual(name, "quick")

    def test_memory(self):
        """A run that needs more than there may be is left out, and one that takes more is ended."""
        text = "x = b'1' * 10**8\nwhile True: pass"
        takes = f"exec {shlex.join([sys.executable, '-c', text])} 2>/dev/null"
        name, portfolio = self.solved(2, 6 * 10**7, wide=self.way("echo verdict error", 10**8),
                                      large=self.way(takes), other=self.way("sleep 0.2"))
        self.assertIsNone(name)
        said = {attempt.label + said for attempt, _, said in portfolio.found()}
        self.assertTrue(any("more than half" in text for text in said), said)

    def test_budgets(self):
        self.assertEqual(list(budgets(20, 100)), [20, 80, 100])
        self.assertEqual(list(budgets(20, 10)), [10])
        for memory, most, clauses in ((0, 8_000_000, [20_000, 2_000_000, 8_000_000]),
                                      (0, 1_000, [1_000]), (0, 30_000, [30_000]),
                                      (10**10, 8_000_000, [8_000_000]),
                                      (10**9, 8_000_000, [1_250_000, 8_000_000])):
            request = Request("p", (), "s", "i", "f", memory, most_clauses=most)
            self.assertEqual(request.clause_budgets(), clauses)
        request = Request("p", (), "s", "i", "f", 10**10)
        self.assertEqual([request.node_budgets(is_one) for is_one in (True, False)],
                         [[50_000_000], [100_000, 1_600_000, 50_000_000]])
