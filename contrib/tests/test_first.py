"""The tries of the first call: a program that is compiled without its proofs, what it says of
itself, how it fails, and how the proved one takes its place. The kit is one that takes no time
(`stand_in`)."""
import os
import random
import shutil
import signal
import subprocess
import time

from tests.stand_in import environment, executable, kit_line, make_sources
from tests.tries import BBEQ, LIMIT, Done, Tries, example, take_signals, read, run, write

PAIR = (example("nor", "spec.v"), example("nor", "impl.v"))
UNPROVED, COMPILING = "bbeq: NOT PROVED", "bbeq: compiling"
FIRST = (COMPILING, UNPROVED)


class Shop:
    """A repository, its kit and a user's environment."""

    def __init__(self, tally, folder):
        os.makedirs(folder)
        self.tally, self.folder = tally, folder
        self.top, self.env = make_sources(folder), environment(folder)
        self.report = run([BBEQ, *PAIR])
        self.program = os.path.join(self.top, "crates", "bbeq", "out", "bbeq")

    def path(self, *parts):
        return os.path.join(self.top, *parts)

    def bbeq(self, **env):
        return run([self.path("bbeq"), *PAIR], self.folder, env={**self.env, **env})

    def prove(self, **env):
        return run([self.path("prove")], self.folder, env={**self.env, **env})

    def starts(self, script, **env):
        words = [self.path(script), *(PAIR if script == "bbeq" else ())]
        return subprocess.Popen(words, env={**self.env, **env}, text=True, stdin=subprocess.DEVNULL,
                                stdout=subprocess.PIPE, stderr=subprocess.PIPE,
                                preexec_fn=take_signals)

    def compiles(self):
        return read(self.env["CALLS"]).count("called") if os.path.exists(self.env["CALLS"]) else 0

    def files(self):
        """What is in the folder of the unproved program and in that for temporary files."""
        out = self.path("out")
        return sorted(os.listdir(out) if os.path.isdir(out) else []), os.listdir(self.env["TMPDIR"])

    def is_answer(self, done, *lines):
        """The report and status of the program, and on standard error lines that begin so."""
        said = done.err.splitlines()
        begin = [line.startswith(start) for line, start in zip(said, lines)]
        is_report = (done.status, done.out) == (self.report.status, self.report.out)
        return is_report and len(said) == len(lines) and all(begin)

    def is_kept(self, done, count):
        """An answer of a program that was compiled before: so often were they."""
        return self.is_answer(done, UNPROVED) and self.compiles() == count

    def note(self, name, right, done=None):
        why = done.why() if isinstance(done, Done) else str(done or self.files())
        self.tally.note(name, right, why)


def said_in_one_line(done, status, *words):
    lines = [line for line in done.err.splitlines() if not line.startswith(COMPILING)]
    is_one = done.status == status and not done.out and len(lines) == 1
    return is_one and all(word in lines[0] for word in words)


def calls_try(shop):
    """The first call, the second, and what has the program compiled again."""
    done = shop.bbeq()
    shop.note("the first call compiles, and says so", shop.is_answer(done, *FIRST), done)
    out, place = shop.files()
    is_alone = len(out) == 1 and out[0].startswith("unproved-")
    shop.note("it leaves the program alone", is_alone and not place)
    done = shop.bbeq()
    shop.note("the second call says it in a line", shop.is_kept(done, 1), done)
    source = shop.path("crates", "bb_net", "src", "lib.rt")
    os.utime(source)
    done = shop.bbeq()
    shop.note("a source that is touched alone", shop.is_kept(done, 1), done)
    for name in ("a source", "another source"):
        write(os.path.dirname(source), "lib.rt", f"// {name}\n")
        done = shop.bbeq()
        shop.note(f"{name} is compiled", shop.is_answer(done, *FIRST), done)
    write(os.path.dirname(source), "lib.rt", "")
    done = shop.bbeq()
    shop.note("older sources have their own program", shop.is_kept(done, 3), done)
    done = shop.bbeq(KIT_LINE="rattle-kit-0 logic 0")
    shop.note("another rt is said once", shop.is_answer(done, *FIRST) and "rattle-kit-0" in done.err
              and kit_line() in done.err, done)
    done = shop.bbeq(KIT_LINE="rattle-kit-0 logic 0")
    is_silent = "rattle-kit-0" not in done.err
    shop.note("and not again", shop.is_answer(done, UNPROVED) and is_silent, done)


def proved_try(shop):
    """The proved program takes the place of the unproved one."""
    shop.bbeq()
    done = shop.prove(NOT_PROVED="bb_net")
    is_said = done.status == 125 and "bb_net is not proved" in done.err
    is_left = os.path.exists(shop.program)
    shop.note("./prove where a crate is not proved", is_said and not is_left, done)
    done = shop.prove()
    shop.note("./prove", done.status == 0 and not done.out and read(shop.program) == read(BBEQ)
              and "bb_net is proved" in done.err and "bb_test_runs" not in done.err, done)
    done = shop.bbeq()
    shop.note("./bbeq says nothing of a proved program", shop.is_answer(done), done)
    shop.note("./prove leaves no unproved program", shop.files() == (["prove.log", "proved"], []))
    done = shop.prove()
    is_short = len(done.err.splitlines()) == 1
    shop.note("./prove where all is proved", done.status == 0 and is_short, done)
    source = os.path.dirname(shop.path("crates", "bb_net", "src", "lib.rt"))
    os.utime(os.path.join(source, "lib.rt"))
    shop.note("a source that is touched alone stays proved", shop.is_answer(shop.bbeq()))
    write(source, "lib.rt", "// other\n")
    done = shop.bbeq()
    shop.note("other sources are not proved", shop.is_answer(done, *FIRST), done)
    write(source, "lib.rt", "")
    shop.note("the proved ones are", shop.is_answer(shop.bbeq()))
    executable(os.path.dirname(shop.program), "bbeq", "#!/bin/sh\necho another program\n")
    done = shop.bbeq()
    shop.note("another program in its place is not run", shop.is_answer(done, *FIRST)
              or shop.is_answer(done, UNPROVED), done)


def gate_try(shop):
    """What `rt ci` leaves: a folder for each crate, made when it began, and then the program."""
    shop.bbeq()
    names = os.listdir(shop.path("crates"))
    source = os.path.dirname(shop.path("crates", "bb_net", "src", "lib.rt"))
    for is_changed in (True, False):
        for name in names:
            shutil.rmtree(shop.path("crates", name, "out"), ignore_errors=True)
            os.makedirs(shop.path("crates", name, "out"))
        time.sleep(0.05)
        if is_changed:
            write(source, "lib.rt", "// changed while rt ci ran\n")
        shutil.copy(BBEQ, shop.program)
        done = shop.bbeq()
        if is_changed:
            shop.note("rt ci with a source that changed meanwhile", UNPROVED in done.err, done)
        else:
            shop.note("./bbeq says nothing after rt ci", shop.is_answer(done), done)
    shop.note("rt ci leaves no unproved program", shop.files()[0] == ["proved"])


def faults_try(shop):
    """What keeps a program from being compiled is said in one line, and nothing is left."""
    no_rt = {"PATH": os.path.join(shop.folder, "without")}
    for name, status, words, env in (
            ("without rt", 127, ["PATH"], no_rt),
            ("where the compiler refuses", 125, ["unknown"], {"FAULT": "error: a name is unknown"}),
            ("where memory runs out", 125, ["1.5 GB"], {"FAULT": "LLVM ERROR: out of memory"}),
            ("without a folder for temporary files", 125, ["TMPDIR"], {"TMPDIR": "/nowhere"})):
        done = shop.bbeq(**env)
        is_empty = shop.files() == ([], [])
        shop.note(f"./bbeq {name}", said_in_one_line(done, status, *words) and is_empty, done)
    executable(os.path.join(shop.folder, "kit"), "toolchain/program", "#!/bin/sh\nkill -ILL $$\n")
    done = shop.bbeq()
    is_said = "please report this" in done.err and PAIR[0] in done.err
    shop.note("a run-time check that fails", done.status == 125 and not done.out and is_said, done)


def places_try(shop):
    """Where out/ cannot be written the user's cache is taken; where that cannot, it is said."""
    write(shop.top, "out", "no folder")
    for name in ("home/.cache/bbeq", "other/bbeq"):
        env = {} if "home" in name else {"XDG_CACHE_HOME": os.path.join(shop.folder, "other")}
        done = shop.bbeq(**env)
        kept = os.listdir(os.path.join(shop.folder, name))
        shop.note(f"a program in {name}", shop.is_answer(done, *FIRST) and len(kept) == 1, done)
        shop.note("is found there", shop.is_answer(shop.bbeq(**env), UNPROVED))
    done = shop.bbeq(XDG_CACHE_HOME="/dev/null")
    shop.note("where nothing can be written", said_in_one_line(done, 125, "XDG_CACHE_HOME"), done)
    done = shop.prove()
    is_said = said_in_one_line(done, 125, "cannot be written")
    shop.note("./prove where nothing can be written", is_said, done)


def full_try(shop):
    """A disk of 200 kB for temporary files, or for the program."""
    for name, place in (("temporary files", shop.env["TMPDIR"]), ("the program", shop.path("out"))):
        os.makedirs(place, exist_ok=True)
        if run(["mount", "-t", "tmpfs", "-o", "size=200k", "tmpfs", place]).status != 0:
            print(f"left  no disk can be mounted, so none of {name} is full")
            continue
        try:
            done = shop.bbeq(MODULE="1000000" if place == shop.env["TMPDIR"] else "0")
            left = os.listdir(place)
        finally:
            run(["umount", place])
        is_said = said_in_one_line(done, 125, "no space is left")
        shop.note(f"a full disk of {name}", is_said and not left, done)
    done = shop.bbeq()
    shop.note("and then one that is not", shop.is_answer(done, *FIRST), done)


def together_try(shop):
    """Two first calls at once."""
    wrong = []
    for number in range(10):
        shutil.rmtree(shop.path("out"), ignore_errors=True)
        calls = shop.compiles()
        both = [shop.starts("bbeq", SLOW="0.3") for _ in range(2)]
        for call in both:
            out, err = call.communicate(timeout=LIMIT)
            if not shop.is_answer(Done(call.returncode, out, "")) or UNPROVED not in err:
                wrong.append((number, call.returncode, err))
        out, place = shop.files()
        if len(out) != 1 or place or shop.compiles() != calls + 1:
            wrong.append((number, out, place, shop.compiles() - calls))
    shop.note("two first calls at once, ten times", not wrong, wrong[:2])


def wait_until(holds):
    """Whether it comes to hold within a minute."""
    until = time.monotonic() + 60
    while not holds() and time.monotonic() < until:
        time.sleep(0.05)
    return holds()


def ended_try(shop):
    """A call that is ended while it compiles or proves ends what it began, and leaves nothing."""
    number = os.path.join(shop.folder, "number")
    for script in ("bbeq", "prove"):
        for sent, status in ((signal.SIGTERM, 143), (signal.SIGINT, 130), (signal.SIGHUP, 129),
                             (signal.SIGKILL, -9)):
            write(shop.folder, "number", "")
            running = shop.starts(script, NUMBER=number)
            wait_until(lambda: read(number).endswith("\n"))
            running.send_signal(sent)
            running.communicate(timeout=LIMIT)
            worker = f"/proc/{read(number).strip()}"
            is_gone = wait_until(lambda: not os.path.exists(worker) and not shop.files()[1])
            left = [name for name in shop.files()[0] if name != "prove.log"]
            is_right = running.returncode == status and is_gone and not left
            shop.note(f"./{script} ends at signal {int(sent)}", is_right)


def moments_try(shop):
    """./prove killed at five random moments leaves no program, or the whole one."""
    draw, wrong = random.Random(60), []
    for number in range(5):
        shutil.rmtree(shop.path("crates", "bbeq", "out"), ignore_errors=True)
        running = shop.starts("prove", SLOW="0.5")
        time.sleep(draw.random() * 1.5)
        running.send_signal(draw.choice((signal.SIGTERM, signal.SIGKILL)))
        running.communicate(timeout=LIMIT)
        is_gone = wait_until(lambda: not shop.files()[1])
        if not is_gone or os.path.exists(shop.program) and read(shop.program) != read(BBEQ):
            wrong.append((number, shop.files()))
    done = shop.prove()
    is_right = not wrong and done.status == 0 and shop.is_answer(shop.bbeq())
    shop.note("./prove killed at five moments", is_right, wrong or done)


class First(Tries):
    part = "program"

    def test_calls(self):
        calls_try(Shop(self, os.path.join(self.folder, "shop")))

    def test_proved(self):
        proved_try(Shop(self, os.path.join(self.folder, "shop")))

    def test_gate(self):
        gate_try(Shop(self, os.path.join(self.folder, "shop")))

    def test_faults(self):
        faults_try(Shop(self, os.path.join(self.folder, "shop")))

    def test_places(self):
        places_try(Shop(self, os.path.join(self.folder, "shop")))

    def test_full(self):
        full_try(Shop(self, os.path.join(self.folder, "shop")))

    def test_together(self):
        together_try(Shop(self, os.path.join(self.folder, "shop")))

    def test_ended(self):
        ended_try(Shop(self, os.path.join(self.folder, "shop")))

    def test_moments(self):
        moments_try(Shop(self, os.path.join(self.folder, "shop")))
