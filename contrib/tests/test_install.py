"""The tries of the manual page and of the installation."""
import os
import shutil

from tests.stand_in import environment, make_sources
from tests.tries import TOP, Tries, example, is_told, read, run, write


class Manual(Tries):
    part = "manual"

    def test_manual(self):
        page = os.path.join(TOP, "docs", "bbeq.1")
        if shutil.which("mandoc"):
            done = run(["mandoc", "-T", "lint", page])
            self.note("mandoc -T lint docs/bbeq.1 is quiet",
                      done.status == 0 and not done.out + done.err, done.why())
        else:
            print("left  mandoc is not installed, so the manual page is not looked at")
        text = read(page)
        for option in ("all", "cache", "clauses", "from", "nodes", "patterns", "proof", "seed",
                       "to", "top-impl", "top-spec"):
            self.note(f"the manual page has --{option}", f"Fl -{option}" in text)


class Install(Tries):
    part = "install"

    def test_install(self):
        prefix = os.path.join(self.folder, "prefix")
        install = os.path.join(TOP, "install")
        done = run([install, prefix])
        there = [os.path.join(prefix, name) for name in (
            "bin/bbeq", "bin/bbeq-proved", "share/man/man1/bbeq.1", "share/man/man1/bbeq-tools.1",
            "bin/bbeq-gates",
            "bin/bbeq-fill", "lib/bbeq/bbeq_tools/cli.py", "lib/bbeq/bbeq_tools/runs/REPORT.md")]
        self.note("install PREFIX", done.status == 0 and all(map(os.path.exists, there)),
                  done.why())
        done = run([there[0], example("nor", "spec.v"), example("nor", "impl.v")], self.folder)
        self.note("the installed program runs",
                  done.status == 1 and done.out.endswith("verdict error\n"), done.why())
        done = run([there[0], "--version"], self.folder)
        self.note("the installed bbeq says its version", done.status == 0
                  and done.out.startswith("bbeq, "), done.why())
        done = run([there[0], "--help"], self.folder)
        self.note("the installed bbeq says its words", "--nodes number" in done.out, done.why())
        installed_commands(self, self.folder, prefix)
        done = run([install, "--remove", prefix])
        left = [name for _, _, names in os.walk(prefix) for name in names]
        self.note("install --remove PREFIX", done.status == 0 and not left,
                  f"{left[:3]}; {done.why()}")
        done = run([install, "--remove", prefix])
        self.note("install --remove where nothing is", is_told(done, "install"), done.why())
        self.note("install --help", run([install, "--help"]).status == 0)
        for words in ([], ["--remove"], ["--no-such-word"], [prefix, prefix], ["/dev/null/below"]):
            done = run([install, *words])
            shown = " ".join(words).replace(self.folder + "/", "") or "without words"
            self.note(f"install {shown}", is_told(done, "install"), done.why())
        done = run([install, prefix],
                   env={**os.environ, "BBEQ": os.path.join(self.folder, "nowhere")})
        self.note("install where $BBEQ is no program", is_told(done, "install"), done.why())
        build_part(self, self.folder)


def installed_commands(tally, folder, prefix):
    """From RTL to a filled netlist, with no name of the checkout among the words."""
    design = os.path.join(folder, "design")
    os.makedirs(design)
    for name in ("counter.v", "unfinished.v"):
        shutil.copy(example("counter", name), os.path.join(design, name))
    steps = ("bbeq-gates counter.v -o spec.v", "bbeq-gates unfinished.v -o impl.v",
             "bbeq spec.v impl.v > report", "bbeq-fill --style assign report impl.v -o filled.v",
             "bbeq spec.v filled.v | tail -n 1", "bbeq-names spec.v filled.v >/dev/null",
             "bbeq-ladder spec.v impl.v >/dev/null 2>&1")
    env = {**os.environ, "PATH": f"{os.path.join(prefix, 'bin')}:{os.environ['PATH']}"}
    del env["BBEQ"]
    done = run(["sh", "-ec", "\n".join(steps)], design, env=env)
    tally.note("the installed commands fill a design", done.out == "verdict repairable\n",
               done.why())
    done = run([os.path.join(prefix, "bin", "bbeq-lrat"), "nowhere", "nowhere"], design, env=env)
    tally.note("an installed command tells what is wrong", is_told(done, "lrat"), done.why())


def build_part(tally, folder):
    """Installs from sources where nothing is built, with a kit that proves nothing."""
    top, prefix, env = make_sources(folder), os.path.join(folder, "built"), environment(folder)
    program, install = os.path.join(prefix, "bin", "bbeq"), os.path.join(top, "install")
    done = run([install, prefix], env={**env, "PATH": os.path.join(folder, "without")})
    is_there = os.path.exists(program)
    tally.note("install without rt",
               done.status == 125 and not is_there and "PATH" in done.err, done.why())
    done = run([install, "--unproved", prefix], env=env)
    tally.note("install --unproved PREFIX", done.status == 0 and done.out == program + "-unproved\n"
               and not os.path.exists(program), done.why())
    done = run([install, prefix], env={**env, "NOT_PROVED": "bb_net"})
    is_there = os.path.exists(program)
    tally.note("install where a crate is not proved",
               done.status == 125 and not is_there and "it does not hold\n" in done.err
               and "bb_net is not proved" in done.err, done.why())
    done = run([install, prefix], env=env)
    tally.note("install proves what is not proved",
               done.status == 0 and done.out.split("\n")[0] == f"{program}-proved"
               and "bb_net is proved" in done.err and "bb_test_runs" not in done.err, done.why())
    done = run([install, prefix], env=env)
    tally.note("install takes what is proved",
               done.status == 0 and os.path.exists(program) and not done.err, done.why())
    write(os.path.join(top, "crates", "bb_net", "src"), "lib.rt", "// other\n")
    done = run([install, prefix], env=env)
    tally.note("install proves again where a source is another",
               done.status == 0 and "bb_net is proved" in done.err, done.why())
    done = run([os.path.join(top, "bbeq"), "spec.v", "impl.v"], example("nor"), env=env)
    tally.note("./bbeq runs in the caller's folder",
               done.status == 1 and done.out.endswith("verdict error\n"), done.why())
    done = run([install, "--remove", prefix], env=env)
    tally.note("install --remove takes both away",
               done.status == 0 and not os.listdir(os.path.dirname(program)), done.why())
