"""The tries of `run`: reports that are kept, lists, steps that are taken where a part is open, and
what a run is ended by."""
import os
import re
import shutil
import signal
import subprocess
import time

from bbeq_tools.developing.lanes import lanes_pair
from tests.tries import (BBEQ, LIMIT, Tries, bare_path, bbeq, example, is_told, read, run, script,
                         write)

SLOW = ('#!/bin/sh\ncase "$*" in *clauses=0*) ;; *) echo $$ >> "$0.started"; sleep 1;; esac\nexec '
        + BBEQ + ' "$@"\n')


class Run(Tries):
    part = "run"

    def test_kept(self):
        kept_try(self, self.folder)

    def test_joined(self):
        joined_try(self, self.folder)

    def test_list(self):
        list_try(self, self.folder)

    def test_climb(self):
        climb_try(self, self.folder)

    def test_ended(self):
        ended_try(self, self.folder)

    def test_engine(self):
        engine_try(self, self.folder)

    def test_array(self):
        array_try(self, self.folder)

    def test_words(self):
        words_try(self, self.folder)


def lanes_in(folder, lanes=4):
    """The two texts of so many lanes, and the folder of their parts."""
    paths = [write(folder, name, text)
             for name, text in zip(("spec.v", "impl.v"), lanes_pair(lanes, 40))]
    return *paths, cut(folder, *paths)


def cut(folder, specification, implementation):
    made = os.path.join(folder, "parts")
    run([script("parts"), specification, implementation, "-o", made])
    return made


def counts(done):
    """How many reports were kept, and how many runs there were."""
    return done.err.splitlines()[-1].rpartition("; ")[2] if done.err else ""


def kept_files(made):
    return [os.path.join(made, "kept", name)
            for name in sorted(os.listdir(os.path.join(made, "kept"))) if len(name) == 64]


def kept_try(tally, folder):
    specification, implementation, made = lanes_in(folder)
    first, second = run([script("run"), made]), run([script("run"), made])
    tally.note("a first run runs all", first.status == 0 and counts(first) == "0 kept, 4 run",
               first.why())
    tally.note("a second run runs nothing", (second.status, second.out, counts(second))
               == (0, first.out, "4 kept, 0 run"), second.why())
    done = run([script("run"), made, "--nodes", "500000"])
    tally.note("with other words all is run", counts(done) == "0 kept, 4 run", done.why())
    text = read(implementation)
    write(folder, "impl.v", "// A comment.\n" + text)
    done = run([script("run"), made])
    tally.note("run of a pair that has changed",
               is_told(done, "run") and "run `parts` again" in done.err, done.why())
    cut(folder, specification, implementation)
    done = run([script("run"), made])
    tally.note("a comment runs nothing", (done.status, counts(done)) == (0, "4 kept, 0 run"),
               done.why())
    gate = next(line for line in text.splitlines()
                if line.strip().startswith(("and(l2n", "or(l2n", "xor(l2n", "nand(l2n", "nor(l2n",
                                            "xnor(l2n")))
    write(folder, "impl.v", text.replace(gate, gate + " not(l2unread, l2x0);"))
    cut(folder, specification, implementation)
    done = run([script("run"), made])
    tally.note("a gate that nothing reads runs nothing", counts(done) == "4 kept, 0 run",
               done.why())
    last = [line for line in text.splitlines() if "(l2n35," in line][0]
    write(folder, "impl.v",
          text.replace(last, f"{last.replace('(l2n35,', '(l2q,')} not(l2n35, l2q);"))
    cut(folder, specification, implementation)
    done = run([script("run"), made])
    tally.note("a gate runs its part", (done.status, counts(done)) == (1, "3 kept, 1 run"),
               done.why())
    for path in kept_files(made):
        write(os.path.dirname(path), os.path.basename(path), read(path)[:-20])
    again = run([script("run"), made])
    tally.note("reports that were cut off are made again",
               (again.out, counts(again)) == (done.out, "0 kept, 4 run"), again.why())
    program = os.path.join(folder, "program")
    shutil.copy(BBEQ, program)
    with open(program, "ab") as file:
        file.write(b"\0")
    done = run([script("run"), made], env={**os.environ, "BBEQ": program})
    tally.note("another program runs all", counts(done) == "0 kept, 4 run", done.why())


def joined_try(tally, folder):
    """The joined report is one that other scripts take."""
    specification, implementation, made = lanes_in(folder)
    joined, filled = run([script("run"), made]), os.path.join(folder, "filled.v")
    done = run([script("fill"), write(folder, "report", joined.out), implementation, "--style",
                "assign", "-o", filled])
    done = done if done.status else bbeq(specification, filled)
    tally.note("fill of a joined report", done.status == 0 and "table" not in done.out, done.why())
    done = run([script("drat"), os.path.join(folder, "report"), "-o",
                os.path.join(folder, "proof")])
    tally.note("drat of a joined report", is_told(done, "drat"), done.why())
    wrong = write(folder, "wrong.v", read(implementation).replace("(l3n35,", "(l3q,").replace(
        "endmodule", "not(l3n35, l3q);\nendmodule", 1))
    done = run([script("parts"), specification, wrong, "-o", os.path.join(folder, "wrong")])
    joined = run([script("run"), os.path.join(folder, "wrong")])
    tally.note("one part with an error",
               joined.status == 1 and joined.out.startswith("parts 4\nrung ")
               and joined.out.endswith("verdict error\n"), joined.why())
    if " l3x0=" in joined.out:
        done = run([script("wave"), write(folder, "report", joined.out), specification, wrong,
                    "--vcd", os.path.join(folder, "wave.vcd")])
        tally.note("wave of a joined report", done.status == 0 and "l3" in done.out, done.why())
    done = run([script("run"), made, "--to", "symbolic"])
    tally.note("parts that are open are told, with what to try",
               done.status == 3 and done.out.splitlines()[1] == "part 1 rung symbolic none"
               and "try 1. Leave `--to` out" in done.out and done.out.endswith("verdict open\n"),
               done.why())


def list_try(tally, folder):
    pairs = [[example(name, side) for side in ("spec.v", "impl.v")]
             for name in ("carry", "nor", "twins")]
    text = ("# Pairs\n\n{} {} = repairable\n{} {} --nodes 1000 = "
            "error\n'{}' {}\n".format(*[path for pair in pairs for path in pair]))
    path = write(folder, "list", text)
    for counted in ("0 kept, 3 run", "3 kept, 0 run"):
        done = run([script("run"), path])
        tally.note(f"a list: {counted}", done.status == 0
                   and "\n3 pairs: 3 as listed, 0 not; by " in done.out and counts(done)
                   == counted and [line.split()[0] for line in done.out.splitlines()[:3]]
                   == ["repairable", "error", "repairable"], done.why())
    done = run([script("run"), write(folder, "list", text + f"{pairs[0][0]} {pairs[0][1]} = error\n"
                                     f"{pairs[0][0]} nowhere.v\n"), "--kept", path + ".kept"])
    tally.note("a list with a verdict that is not due, and a file that is not there",
               done.status == 7 and "listed as error" in done.out
               and "\n5 pairs: 3 as listed, 2 not; by " in done.out, done.why())
    done = run([script("run"),
                write(folder, "list", f"{pairs[0][0]} {pairs[1][1]} = refused pair port a\n")])
    tally.note("a list with a refusal that is due", "refused pair" in done.out, done.why())
    for shown, line in (("one file", "spec.v"), ("a quote", "'spec.v impl.v"),
                        ("nothing due", "spec.v impl.v ="), ("--proof", "spec.v impl.v --proof")):
        done = run([script("run"), write(folder, "bad", line + "\n")])
        tally.note(f"a list with {shown}", is_told(done, "run"), done.why())


def climb_try(tally, folder):
    """With few nodes a part is open, and more of them bring it through."""
    made = lanes_in(folder)[2]
    done = run([script("run"), made, "--nodes", "60", "--clauses", "0"])
    tally.note("parts are open with few nodes",
               done.status == 3 and "part 1 rung expand clauses" in done.out, done.why())
    done = run([script("run"), made, "--nodes=600", "--clauses", "0", "--climb", "--timeout",
                "100"])
    tally.note("run --climb", done.status == 0 and "brought it through: repairable" in done.err,
               done.why())
    listed = write(folder, "list",
                   f"{made}/1/spec.v {made}/1/impl.v --nodes 600 --clauses 0 = repairable\n")
    done = run([script("run"), listed, "--climb"])
    tally.note("run --climb of a list", done.status == 0 and "brought through by " in done.out,
               done.why())


def slow(folder):
    program = write(folder, "slow", SLOW)
    os.chmod(program, 0o755)
    return program, {**os.environ, "BBEQ": program}


def started(program):
    path = program + ".started"
    return read(path).split() if os.path.exists(path) else []


def ended_try(tally, folder):
    """A run that is killed in the middle is taken up again; two at once are one too many."""
    made = lanes_in(folder)[2]
    program, env = slow(folder)
    for number in (signal.SIGTERM, signal.SIGKILL):
        shutil.rmtree(os.path.join(made, "kept"), ignore_errors=True)
        child = subprocess.Popen([script("run"), made, "--jobs", "1"], env=env,
                                 stdout=subprocess.DEVNULL, stderr=subprocess.DEVNULL)
        until = time.monotonic() + LIMIT
        while time.monotonic() < until and (not os.path.isdir(os.path.join(made, "kept"))
                                            or not kept_files(made)):
            time.sleep(0.05)
        done = run([script("run"), made], env=env)
        tally.note("two runs at once in one folder",
                   is_told(done, "run") and "another run" in done.err, done.why())
        child.send_signal(number)
        child.wait(LIMIT)
        # What is killed cannot end what it started: that ends by itself.
        time.sleep(0.5 if number == signal.SIGTERM else 3)
        left = [process for process in started(program) if number == signal.SIGTERM
                and os.path.exists(f"/proc/{process}")]
        were = len(kept_files(made))
        done = run([script("run"), made], env=env)
        tally.note(f"run is ended by signal {int(number)}, with what it started, and taken up "
                   "again", not left and 0 < were < 4 and done.status == 0 and counts(done)
                   == f"{were} kept, {4 - were} run", f"left {left}, kept {were}; {done.why()}")
    done = run([script("run"), made, "--timeout", "0.2", "--nodes", "1000000"], env=env)
    is_told_so = re.search(r"^part 4 no answer in 0\.\d s\nverdict open$", done.out, re.MULTILINE)
    tally.note("run --timeout", done.status == 3 and is_told_so and not kept_files(made)[4:],
               done.why())


def engine_try(tally, folder):
    """Without GNU parallel one run goes after another; hosts are asked by it alone."""
    made = lanes_in(folder)[2]
    env = {**os.environ, "PATH": bare_path(os.path.join(folder, "bin"))}
    done = run([script("run"), made, "--kept", os.path.join(folder, "alone")], env=env)
    tally.note("without parallel", done.status == 0 and counts(done) == "0 kept, 4 run", done.why())
    here, nowhere = write(folder, "here", ":\n"), write(folder, "hosts", "# none\n")
    done = run([script("run"), made, "--hosts", here], env=env)
    tally.note("--hosts without parallel", is_told(done, "run"), done.why())
    for shown, hosts in (("an empty list of hosts", nowhere),
                         ("a list that is not there", "nowhere")):
        done = run([script("run"), made, "--hosts", hosts])
        tally.note(f"run with {shown}", is_told(done, "run"), done.why())
    if not shutil.which("parallel"):
        print("left  parallel is not installed, so no host is asked")
        return
    hosts = os.environ.get("CHECK_HOSTS")
    for path in [here] + [hosts] * bool(hosts):
        shutil.rmtree(os.path.join(made, "kept"), ignore_errors=True)
        done = run([script("run"), made, "--hosts", path])
        used = {line.split("\t")[1]
                for line in read(os.path.join(made, "kept", "log")).splitlines()[1:]}
        tally.note(f"run on the hosts {', '.join(sorted(used))}",
                   done.status == 0 and counts(done) == "0 kept, 4 run", done.why())
    if not shutil.which("rsync"):
        print("left  rsync is not installed, so nothing is sent to a host")
        return
    both = write(folder, "both", ":\nnobody@127.0.0.1:1\n")
    shutil.rmtree(os.path.join(made, "kept"), ignore_errors=True)
    done = run([script("run"), made, "--hosts", both])
    tally.note("a host that cannot be reached leaves its runs to others",
               done.status == 0 and "127.0.0.1" in done.err, done.why())
    done = run([script("run"), made, "--hosts", write(folder, "none", "nobody@127.0.0.1:1\n"),
                "--nodes", "999999"])
    tally.note("no host can be reached", done.status == 125 and "no run gave an answer" in done.err
               and not done.out, done.why())


def array_try(tally, folder):
    """Parts that are run alone, as by an array of jobs, and then joined."""
    made = lanes_in(folder)[2]
    done = [run([script("run"), made, "--part", str(number)]) for number in range(1, 5)]
    tally.note("run --part", all(one.status == 0 and one.out.endswith("verdict repairable\n")
                                 for one in done), done[0].why())
    joined = run([script("run"), made])
    tally.note("parts that were run alone are joined",
               joined.status == 0 and counts(joined) == "4 kept, 0 run", joined.why())
    for number in ("0", "5"):
        done = run([script("run"), made, "--part", number])
        tally.note(f"run --part {number}", is_told(done, "run"), done.why())


def words_try(tally, folder):
    made = lanes_in(folder)[2]
    for words in (["--proof"], ["--fill"], ["--make", "4"], ["--make=4"], ["--rup"]):
        done = run([script("run"), made, *words])
        tally.note(f"run {' '.join(words)}", is_told(done, "run") and words[0][:6] in done.err,
                   done.why())
    for words in (["--no-such-word"], ["--timout", "3"], ["--all=1"], ["--nodes"], ["3"]):
        done = run([script("run"), made, *words])
        tally.note(f"run refuses {' '.join(words)}", is_told(done, "run") and done.status == 64,
                   done.why())
    own, done = bbeq("a", "b", "--nodes", "x"), run([script("run"), made, "--nodes", "x"])
    tally.note("values that the program refuses", (done.status, done.out) == (own.status, own.out),
               done.why())
    listed = write(folder, "missing", f"{example('carry', 'spec.v')} nowhere.v\n")
    done = run([script("run"), listed])
    tally.note("run of a file that is not there", done.status == 7
               and done.out.startswith("unread impl "), done.why())
    empty = os.path.join(folder, "empty")
    os.mkdir(empty)
    for shown, words in (("a folder without parts", [empty]), ("nothing there", ["nowhere"]),
                         ("--jobs 0", [made, "--jobs", "0"]),
                         ("--timeout 0", [made, "--timeout", "0"]),
                         ("--part of a list", [write(folder, "list", ""), "--part", "1"])):
        done = run([script("run"), *words])
        tally.note(f"run: {shown}", is_told(done, "run"), done.why())
    write(made, "pair.json", read(os.path.join(made, "pair.json"))[:50])
    done = run([script("run"), made])
    tally.note("run of parts that are not whole", is_told(done, "run"), done.why())
