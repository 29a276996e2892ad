"""The tries of `solve`: its report is that of one run of the program, nothing is left of it however
it ends, and it takes turns where processors are few."""
import os
import random
import re
import shlex
import signal
import subprocess
import time

from tests.tries import (BBEQ, LIMIT, Tries, bbeq, example, is_told, read, run, script,
                         take_signals, write)

PAIRS = ("adder", "alu", "buffer", "carry", "counter", "lanes", "nor", "stages", "twins")
# A program that reads a pair and then takes long, but for the checks that $QUICK names.
SLOW = """#!/bin/sh
case " $* " in *" --to=ternary "*) exec {bbeq} "$@" ;; esac
case " $* " in *" --from=$QUICK "*) exec {bbeq} "$@" ;; esac
sleep 300
"""
# One that decides nothing with any budget.
OPEN = """#!/bin/sh
case " $* " in
*" --to=ternary "*) exec {bbeq} "$@" ;;
*" --from=expand "*) echo rung expand clauses ;;
*" --from=input "*) echo rung input nodes ;;
*) echo rung output nodes ;;
esac
echo verdict open
exit 3
"""
# One whose runs with $KILLED are ended by a signal.
KILLED = """#!/bin/sh
case "$*" in *"$KILLED"*) kill -KILL $$ ;; esac
exec {bbeq} "$@"
"""


def processes(mark):
    """The processes whose words or surroundings have this text, but for this one."""
    found = []
    for name in os.listdir("/proc"):
        try:
            if name.isdecimal() and int(name) != os.getpid():
                if any(mark in read(f"/proc/{name}/{part}") for part in ("cmdline", "environ")):
                    found.append(int(name))
        except OSError:
            pass
    return found


def is_gone(mark, place):
    """Whether nothing is left within ten seconds, neither a process nor a file."""
    until = time.monotonic() + 10
    while time.monotonic() < until and (processes(mark) or os.listdir(place)):
        time.sleep(0.05)
    return not processes(mark) and not os.listdir(place)


def tried(done):
    """What `solve` says is left to try."""
    return re.findall(r"^solve:   try (.*)$", done.err, re.MULTILINE)


def verdict(report):
    return [line for line in report.splitlines() if line.startswith("verdict ")]


class Solve(Tries):
    part = "solve"
    needs = ()

    def again(self, done, spec, implementation):
        """The run that a call of `solve` says that it was, or None: it is silent where the first
        check decides."""
        told = re.search(r" by (bbeq .*)", done.err)
        words = {"SPEC": spec, "IMPL": implementation}
        return bbeq(*(words.get(word, word)
                      for word in shlex.split(told[1])[1:])) if told else None

    def test_reports(self):
        for name in PAIRS:
            spec, implementation = example(name, "spec.v"), example(name, "impl.v")
            own, done = bbeq(spec, implementation), run([script("solve"), spec, implementation])
            same = self.again(done, spec, implementation) or own
            is_right = (own.status, verdict(own.out)) == (done.status, verdict(done.out))
            self.note(f"solve {name}", is_right and same.out == done.out, done.why())
        spec, implementation = example("mixer", "spec.v"), example("mixer", "impl.v")
        done = run([script("solve"), spec, implementation, "--jobs", "1"])
        self.note("solve of a pair of four parts", done.status == 0
                  and verdict(done.out) == ["verdict repairable"], done.why())
        filled = run([script("fill"), "--style", "assign", write(self.folder, "report", done.out),
                      implementation, "-o", os.path.join(self.folder, "filled.v")])
        agrees = bbeq(spec, os.path.join(self.folder, "filled.v"))
        self.note("its tables agree", filled.status == 0 and agrees.status == 0, filled.why())

    def test_words(self):
        spec, implementation = example("twins", "spec.v"), example("twins", "impl.v")
        done = run([script("solve"), spec, implementation, "--shared"])
        self.note("solve --shared", done.status == 1 and verdict(done.out) == ["verdict error"],
                  done.why())
        done = run([script("solve"), spec, implementation, "--fill"])
        self.note("solve --fill", done.status == 0 and "\nfill\nmodule " in done.out, done.why())
        done = run([script("solve"), example("lanes", "spec.v"), example("lanes", "impl.v"),
                    "--proof"])
        self.note("solve --proof", done.status == 1 and "\nclause 0 " in done.out, done.why())
        odd = [write(self.folder, name, read(path)) for name, path in
               (("-a 'b\" c.v", spec), ("--x y.v", implementation))]
        done = run([script("solve"), "--", *map(os.path.basename, odd)], self.folder)
        self.note("solve of odd names", done.status == 0, done.why())
        for words in (["--limit", "0"], ["--jobs", "0"], ["--nodes", "x"], ["--clauses", "0"],
                      ["--nothing"], ["--make", "4"], ["--nodes", "60000000"]):
            done = run([script("solve"), spec, implementation, *words])
            self.note(f"solve {' '.join(words)}", is_told(done, "solve"), done.why())
        done = run([script("solve"), "--limt", "5", spec, implementation])
        self.note("solve names an unknown option alone", is_told(done, "solve")
                  and "unrecognized arguments: --limt (" in done.err, done.why())

    def test_refusals(self):
        spec, implementation = example("carry", "spec.v"), example("carry", "impl.v")
        broken = write(self.folder, "broken.v", "module m(a; endmodule\n")
        for words, why in (([broken, implementation], "broken.v is no netlist that bbeq reads"),
                           ([spec, "nowhere.v"], "nowhere.v: No such file or directory"),
                           ([spec, self.folder], f"{self.folder}: Is a directory"),
                           ([example("counter", "spec.v"), example("counter", "unfinished.v")],
                            "of RTL `gates` makes one"), ([spec, example("counter", "impl.v")],
                                                          "`names SPEC IMPL` lists"),
                           ([implementation, spec], "the specification, which has none, comes "
                                                    "first"),
                           (["--top-spec=other", spec, implementation], "")):
            own, done = bbeq(*words), run([script("solve"), *words])
            self.note(f"solve {' '.join(map(os.path.basename, words))}",
                      (own.status, own.out) == (done.status, done.out) and bool(done.err)
                      == bool(why) and why in done.err, done.why())
        pipe = os.path.join(self.folder, "pipe")
        os.mkfifo(pipe)
        with subprocess.Popen(["cp", spec, pipe]):
            done = run([script("solve"), pipe, implementation])
        self.note("solve of a pipe", done.status == 0, done.why())
        words = shlex.join([script("solve"), spec, implementation])
        for closed, status in (("<&-", 0), ("2>&-", 0), ("<&- 2>&-", 0), (">&-", 125),
                               ("<&- >&-", 125)):
            done = run(["sh", "-c", f"{words} {closed}"])
            self.note(f"solve {closed}", done.status == status and verdict(done.out)
                      == ["verdict repairable"] * (not status), done.why())

    def program(self, text):
        """Where a script stands for the program, and a folder for what `solve` makes."""
        program = write(self.folder, "program", text.format(bbeq=shlex.quote(BBEQ)))
        os.chmod(program, 0o755)
        place = os.path.join(self.folder, "place")
        os.makedirs(place, exist_ok=True)
        return {**os.environ, "BBEQ": program, "TMPDIR": place}, place

    def slow(self, quick):
        env, place = self.program(SLOW)
        return {**env, "QUICK": quick}, place

    def test_turns(self):
        words = [script("solve"), example("carry", "spec.v"), example("carry", "impl.v")]
        for quick in ("expand", "input", "symbolic"):
            for jobs in ("1", "2", "8"):
                env, place = self.slow(quick)
                done = run([*words, "--jobs", jobs, "--limit", "60"], env=env)
                self.note(f"solve --jobs {jobs} where {quick} alone is quick",
                          done.status == 0 and is_gone(self.folder, place), done.why())
        env, place = self.slow("nothing")
        done = run([*words, "--limit", "6"], env=env)
        self.note("solve --limit", done.status == 7 and not done.out
                  and "nothing decided" in done.err and re.search(r" [45] s: ", done.err)
                  and re.search(r"(?m)^solve:   still running: .*expand with", done.err)
                  and is_gone(self.folder, place), done.why())

    def test_open(self):
        """Where each run has ended the report is that of one that is open, and what none of them
        tried is said: larger budgets, --shared where some module has two instances, one box where
        there are several."""
        for name, most, is_several in (("holes", 1000, True), ("counter", 1, False)):
            done = run([script("solve"), example(name, "spec.v"), example(name, "impl.v"),
                        "--clauses", str(most), "--nodes", str(most)])
            tries = tried(done)
            is_said = ("nothing decided" in done.err
                       and f"--clauses 8000000: `expand` had at most {most}" in tries
                       and [any(word in line for line in tries)
                            for word in ("--shared, if", "one box with the")] == [is_several] * 2)
            self.note(f"solve of {name}, which stays open", done.status == 3 and is_said
                      and done.out == "rung expand clauses\nverdict open\n", done.why())

    def test_tried(self):
        """What the runs tried is not advised: the largest budgets, the order, the parts."""
        env, _ = self.program(OPEN)
        done = run([script("solve"), example("carry", "spec.v"), example("carry", "impl.v")],
                   env=env)
        tries = tried(done)
        self.note("solve advises nothing that it has tried", done.status == 3 and tries
                  and not any(line.startswith(("--clauses", "--nodes", "--shared"))
                              or "order" in line or "parts" in line for line in tries)
                  and any("its 3 input and 1 output pins make a table of 2^3 rows" in line
                          for line in tries)
                  and any("`ternary`, which needs no diagrams, drew 32 vectors" in line
                          for line in tries), done.why())
        env, _ = self.program(OPEN.replace("echo rung output", "echo rung symbolic none; echo "
                                                               "rung output"))
        done = run([script("solve"), example("carry", "spec.v"), example("carry", "impl.v")],
                   env=env)
        self.note("nor more vectors, where `symbolic` has looked at all", done.status == 3
                  and tried(done) and not any("--patterns" in line for line in tried(done)),
                  done.why())

    def test_killed(self):
        """A run that a signal ends is no answer, and where all end so the status is none of the
        program. Another run may decide sooner than it ends."""
        words = [script("solve"), example("carry", "spec.v"), example("carry", "impl.v")]
        for killed, status in (("--to=ternary", 0), ("--from=", 125), ("-", 125),
                               ("--from=expand", 0)):
            env, place = self.program(KILLED)
            done = run(words, env={**env, "KILLED": killed})
            self.note(f"solve where a signal ends the runs with {killed}", done.status == status
                      and ("ended by signal 9 (Killed)" in done.err or not status)
                      and verdict(done.out) == ["verdict repairable"] * (not status)
                      and is_gone(self.folder, place), done.why())

    def test_ended(self):
        """Ended at random moments, by a signal that it sees or does not, it leaves nothing, and no
        part of a report; the whole one may be printed already."""
        draw, wrong = random.Random(70), []
        words = [script("solve"), example("mixer", "spec.v"), example("mixer", "impl.v")]
        signals = (signal.SIGKILL, signal.SIGTERM, signal.SIGINT, signal.SIGHUP)
        for number in range(20):
            env, place = self.slow("nothing" if number % 2 else "expand")
            running = subprocess.Popen(words, env=env, stdin=subprocess.DEVNULL,
                                       stdout=subprocess.PIPE, stderr=subprocess.PIPE,
                                       preexec_fn=take_signals)
            time.sleep(draw.random() * 2)
            running.send_signal(signals[number % 4])
            out, _ = running.communicate(timeout=LIMIT)
            is_cut = out and running.returncode < 0 and not out.endswith(b"\nverdict repairable\n")
            if is_cut or not is_gone(self.folder, place):
                wrong.append((number, running.returncode, processes(self.folder)))
        self.note("solve ended at twenty moments", not wrong, wrong)
