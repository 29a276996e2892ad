"""The tries of what ./bbeq says beside the program: its words, its version, and hints on a
terminal, where standard output and the status stay the program's own."""
import os
import re
import subprocess

from tests.stand_in import environment, make_sources
from tests.tries import BBEQ, LIMIT, TOP, Done, Tries, example, read, run, write

RTL = """// A comment with logic.
module m(input clk, a, output reg q);
  always @* q = a;
endmodule
"""
NO_RTL = "module m(input a, output q);\n  assign q = a * a;\nendmodule\n"


class Hints(Tries):
    part = "hints"
    needs = ()

    def setUp(self):
        super().setUp()
        self.top = make_sources(self.folder)
        self.env = environment(self.folder)
        self.program = os.path.join(self.top, "bbeq")
        run([self.program, "--make", "1"], env=self.env)

    def on_terminal(self, words, **env):
        """A call whose standard error is a terminal."""
        ours, theirs = os.openpty()
        with subprocess.Popen([self.program, *words], cwd=self.folder, stdin=subprocess.DEVNULL,
                              stdout=subprocess.PIPE, stderr=theirs, text=True,
                              env={**self.env, **env}) as child:
            os.close(theirs)
            out, _ = child.communicate(timeout=LIMIT)
        said = b""
        try:
            while block := os.read(ours, 65536):
                said += block
        except OSError:  # So ends a terminal.
            pass
        os.close(ours)
        return Done(child.returncode, out, said.decode().replace("\r", ""))

    def try_hint(self, name, words, *wanted):
        """The program's own answer, and a hint with these texts on a terminal alone."""
        own = run([BBEQ, *words], self.folder)
        done = self.on_terminal(words)
        hints = [line for line in done.err.splitlines() if line.startswith("bbeq: hint: ")]
        is_own = (own.status, own.out) == (done.status, done.out)
        is_said = bool(hints) == bool(wanted) and all(text in " ".join(hints) for text in wanted)
        self.note(f"hint {name}", is_own and is_said, done.why())
        quiet = [run([self.program, *words], self.folder, env=self.env),
                 self.on_terminal(words, BBEQ_HINTS="0")]
        is_quiet = all("hint" not in other.err and (other.status, other.out)
                       == (own.status, own.out) for other in quiet)
        self.note(f"no hint {name} elsewhere", is_quiet, quiet[0].why())

    def test_usage(self):
        for words, wanted in ((["--nodes", "1e6", "a", "b"], "--nodes 1e6: it takes"),
                              (["--nodes=60000000", "a", "b"], "from 0 to 50000000"),
                              (["--seed", "0", "a", "b"], "--seed 0"),
                              (["--node", "5", "a", "b"], "--node is no option; --nodes is one"),
                              (["a"], "one file, a"), (["a", "b", "c"], "c: there are 3 files"),
                              ([], "no file"), (["--from", "input", "--to", "local", "a", "b"],
                                                "--from input comes after --to local"),
                              (["--make", "4", "a"], "no file is read"),
                              (["--all", "--all", "a", "b"], "--all stands there twice"),
                              (["--from", "locl", "a", "b"], "a check is one of ternary, "),
                              (["--help", "a"], "--help has to be the only word")):
            self.try_hint(f"usage {' '.join(words)}", words, wanted)

    def test_texts(self):
        spec, implementation = example("stages", "spec.v"), example("stages", "impl.v")
        for name in ("rtl.v", "-rtl 'x=y\".v"):
            write(self.folder, name, RTL)
            self.try_hint(f"RTL {name}", ["--", name, implementation], f"{name} is RTL (line 3",
                          "contrib/gates")
            self.try_hint(f"RTL {name}, impl", ["--", spec, name], f"{name} is RTL (line 3")
        write(self.folder, "no.v", NO_RTL)
        self.try_hint("no RTL", ["no.v", "no.v"], "line 2 of no.v is:   assign q = a * a;",
                      "LANGUAGE.md")
        self.try_hint("a register", [spec, example("counter", "impl.v")],
                      "contrib/names")
        self.try_hint("unread spec", ["nowhere.v", spec], "nowhere.v: No such file or directory")
        self.try_hint("unread impl", [spec, self.folder], f"{self.folder}: Is a directory")
        self.try_hint("open", [spec, implementation, "--to", "local"], "contrib/solve")
        self.try_hint("specbox", [implementation, spec], "has an empty module; the specification",
                      "comes first")
        self.try_hint("nothing", [spec, implementation])

    def test_alone(self):
        done = run([self.program, "--help"], env=self.env)
        page = read(os.path.join(TOP, "docs", "bbeq.1"))
        options = set(re.findall(r"Fl -([a-z-]+)", page.partition(".Sh OPTIONS")[2]))
        self.note("--help", done.status == 0 and not done.err
                  and all(f"--{option}" in done.out for option in options), done.why())
        columns = max(map(len, done.out.splitlines()))
        self.note("--help is narrow", columns <= 100, str(columns))
        done = run([self.program, "--version"], env=self.env)
        self.note("--version", done.status == 0 and "NOT PROVED" in done.out
                  and "kit: rattle-kit" in done.out, done.why())
