"""The texts of made pairs: those of the crate that makes them are those of `adders`, byte for byte
and for each width, by a program of a few lines that rt builds; what is answered to a made pair is
what is answered to the two texts; and scripts that need the texts say so."""
import os
import shutil

from bbeq_tools.developing.adders import WIDEST, made_texts
from tests.tries import TOP, Tries, bbeq, example, is_told, read, run, script, write

WIDTHS = (*range(1, 10), 15, 16, 17, 63, 64, 255, 256)
PROGRAM = """// Prints the texts of all widths.
#![tactic(auto)]

use bb_make::texts;
use std::io::Write;

fn main(rt: HostRuntime) -> Result<(), anyhow::Error> {
    let mut out = rt.stdout();
    for n in 1..257 {
        let (spec, imp) = texts(rt.alloc(), n)?;
        out.write_all(&spec)?;
        out.write_all(&imp)?;
    }
    Ok(())
}
"""


class Made(Tries):
    part = "made"

    def test_made(self):
        if shutil.which("rt"):
            try_bytes(self, self.folder)
        for width in WIDTHS:
            try_report(self, self.folder, width)
        try_scripts(self, self.folder)


def try_bytes(tally, folder):
    """The crate's texts of all widths, one behind the other."""
    top = os.path.join(folder, "top")
    for name in ("bb_bits", "bb_make"):
        shutil.copytree(os.path.join(TOP, "crates", name), os.path.join(top, "crates", name),
                        ignore=shutil.ignore_patterns("out"))
    crate = os.path.join(top, "crates", "made_texts")
    os.makedirs(os.path.join(crate, "src"))
    write(os.path.join(crate, "src"), "main.rt", PROGRAM)
    write(top, "crates.txt", "bb_bits:\nbb_make: bb_bits itoa\nmade_texts: bb_make anyhow\n")
    done = run(["rt", "run"], crate)
    program = os.path.join(crate, "out", "made_texts")
    done = run([program]) if os.path.exists(program) else done
    due = "".join("".join(made_texts(width)) for width in range(1, WIDEST + 1))
    tally.note(f"the texts of all {WIDEST} widths, byte for byte", done.out == due,
               f"{done.why()[:200]} ..")


def try_report(tally, folder, width):
    spec, implementation = (write(folder, name, text)
                            for name, text in zip(("spec.v", "impl.v"), made_texts(width)))
    made, read_as = bbeq("--make", str(width)), bbeq(spec, implementation, "--top-spec", "add",
                                                     "--top-impl", "add")
    due = f"make {width}\ninputs {2 * width + 1}\n{read_as.out}"
    tally.note(f"--make {width} is the pair of its texts",
               (made.status, made.out) == (read_as.status, due), made.why())


def try_scripts(tally, folder):
    """A report of a made pair fits the texts that `made` writes, and with others it says which are
    needed."""
    report = write(folder, "report", bbeq("--make", "5").out)
    done = run([script("made"), "5", "-o", folder])
    spec, implementation = os.path.join(folder, "spec.v"), os.path.join(folder, "impl.v")
    tally.note("made 5", done.status == 0 and (read(spec), read(implementation)) == made_texts(5),
               done.why())
    filled = os.path.join(folder, "filled.v")
    done = run([script("fill"), "--style", "assign", report, implementation, "-o", filled])
    done = done if done.status else bbeq(spec, filled)
    tally.note("fill of a made pair", done.status == 0 and "table" not in done.out, done.why())
    done = run([script("fill"), report, example("carry", "impl.v")])
    tally.note("fill of a made pair and another text",
               is_told(done, "fill") and "`made 5`" in done.err, done.why())
    for words in (["0"], ["257"], ["-1"], ["4 "], ["5", "-o", report]):
        done = run([script("made"), *words], folder)
        tally.note(f"made {' '.join(words[:1])}, refused", is_told(done, "made"), done.why())
