"""The tries of `gates`: each design is translated, read by the program, and compared with its
source by yosys, register by register; the simulation models that yosys installs are small designs
by other hands."""
import os
import re
import shutil

from tests.tries import (DESIGNS, REFUSED, WARNED, Tries, bbeq, designs_in, is_told, read, run,
                         script, write)

EQUIVALENT = """read_verilog -icells {options} "{source}"
hierarchy -check -top {top}
proc -norom
flatten
memory_collect
memory_map
setattr -unset init w:*
opt_expr -keepdc
techmap
simplemap
rename {top} source_of_it
read_verilog "{made}"
proc
rename {top} made_of_it
equiv_make source_of_it made_of_it both
hierarchy -top both
equiv_simple
equiv_induct
equiv_status -assert
"""


# Yosys takes boxes that parameters make different for boxes of different names, and cannot compare
# what they read.
BOXES_APART = ("carry_select_hole.v",)


def is_read(path):
    """The program reads the text as a design: it compares it with itself, or says that it has
    boxes."""
    done = bbeq(path, path, "--to", "ternary")
    return done.status in (0, 3) or done.out.startswith("refused pair specbox"), done


def is_equivalent(source, made, folder):
    top = re.search(r"^module (\S+?)\s?\(", read(made), re.MULTILINE).group(1).lstrip("\\")
    text = EQUIVALENT.format(options="-sv" if source.endswith(".sv") else "", source=source,
                             top=top, made=made)
    return run(["yosys", "-q", "-s", write(folder, "equivalent.ys", text)])


def try_design(tally, source, folder):
    name = os.path.basename(source)
    made = os.path.join(folder, "made.v")
    done = run([script("gates"), "--keep-order", source, "-o", made])  # Yosys pairs whole ports.
    if done.status:
        tally.note(f"gates {name}", False, done.why())
        return
    right, answer = is_read(made)
    if not right:
        tally.note(f"gates {name}", False, f"bbeq does not read the text: {answer.why()}")
    elif name in BOXES_APART:
        tally.note(f"gates {name}: read", True)
    else:
        done = is_equivalent(source, made, folder)
        tally.note(f"gates {name}: read, and equivalent to its source", done.status == 0,
                   done.why())


class Gates(Tries):
    part = "gates"

    def test_gates(self):
        for source in designs_in(DESIGNS):
            try_design(self, source, self.folder)
        expected = [line for line in read(os.path.join(REFUSED, "EXPECTED")).splitlines()
                    if not line.startswith("#")]
        told = []
        for source in designs_in(REFUSED):
            done = run([script("gates"), os.path.basename(source)], REFUSED)
            lines = [line.removeprefix("gates: ") for line in done.err.splitlines()]
            told += lines
            self.note(f"gates refuses {os.path.basename(source)}: {lines[0] if lines else ''}",
                      done.status == 125 and not done.out and lines
                      and all(line in expected for line in lines), done.why())
        self.note("gates tells all that is expected of the refused designs",
                  sorted(told) == sorted(expected))
        warned_designs(self)
        netlist_with_cells(self, self.folder)
        words_tries(self, self.folder)
        for bit in "01":
            done = run([script("gates"), "--undef", bit, "undefined.v"], REFUSED)
            self.note(f"gates --undef {bit} takes an undefined value",
                      done.status == 0 and "boxes" in done.out, done.why())
        yosys_tests(self, self.folder)


def warned_designs(tally):
    """What yosys warns of is told with its line, and the design is translated."""
    wanted = [line for line in read(os.path.join(WARNED, "EXPECTED")).splitlines()
              if not line.startswith("#")]
    for source in designs_in(WARNED):
        name = os.path.basename(source)
        done = run([script("gates"), name], WARNED)
        lines = [line.removeprefix("gates: ") for line in done.err.splitlines()]
        right = done.status == 0 and done.out and lines == [line for line in wanted
                                                            if line.startswith(name)]
        tally.note(f"gates warns of {lines[0] if lines else name}", right, done.why())


def netlist_with_cells(tally, folder):
    """A register in a cell goes by the net that the cell drives, and cells that are not used, a
    latch among them, do not count."""
    rtl, netlist, cells = (os.path.join(DESIGNS, "netlists", name)
                           for name in ("rtl.v", "netlist.v", "cells.v"))
    spec, implementation = os.path.join(folder, "rtl.v"), os.path.join(folder, "netlist.v")
    made = run([script("gates"), rtl, "-o", spec])
    done = run([script("gates"), "--top", "counter", netlist, "--cells", cells, "-o",
                implementation])
    answer = bbeq(spec, implementation)
    right = (made.status == 0 and done.status == 0 and answer.status == 0
             and "table u y 0001" in answer.out)
    tally.note("gates --cells: a netlist with cells fits its RTL", right, done.why() + answer.why())
    done = run([script("gates"), netlist, cells])
    tally.note("gates without --cells: cells that are not used could be tops",
               is_told(done, "gates") and "--top" in done.err, done.why())


# Designs whose operators on words stay, and what is told of those that do not.
SIGNED = ((7, "ge"), (7, "gt"), (11, "add"))
WITH_WORDS = ("words.v", "accumulate.v", "alu_hole.v", "bcd.v", "comparator.v", "cpu.v", "minmax.v",
              "packed.sv", "shifter.v")


def words_tries(tally, folder):
    """With --words the text has the ports, registers and boxes that it has without, and does the
    same; the operators stand in it."""
    for name in WITH_WORDS:
        source, made, plain = (os.path.join(DESIGNS, name), os.path.join(folder, "words.v"),
                               os.path.join(folder, "plain.v"))
        done = [run([script("gates"), "--keep-order", *words, source, "-o", path])
                for words, path in ((["--words"], made), ([], plain))]
        if any(one.status for one in done):
            tally.note(f"gates --words {name}", False, " ".join(one.why() for one in done))
            continue
        texts = [read(path) for path in (made, plain)]
        kept = [re.findall(r"^module .*|^  (?:input|output|reg) .*|^  \w+ \S+ ?\(\.", text,
                           re.MULTILINE) for text in texts]
        tally.note(f"gates --words {name}: names and boxes stay, and operators stand in it",
                   kept[0] == kept[1] and " on words, " in texts[0].splitlines()[0]
                   and " on words, " not in texts[1].splitlines()[0], texts[0][:300])
        right, answer = is_read(made)
        tally.note(f"gates --words {name}: read", right, answer.why())
        done = is_equivalent(source, made, folder)
        tally.note(f"gates --words {name}: equivalent to its source", done.status == 0, done.why())
        if ", 0 boxes" in texts[0].splitlines()[0]:
            answer = bbeq(plain, made)
            tally.note(f"gates --words {name}: agrees with the gates of the same source",
                       answer.status == 0, answer.why())
    done = run([script("gates"), "--words", "mux.v"], DESIGNS)
    right = done.status == 0 and " on words, " not in done.out.splitlines()[0]
    tally.note("gates --words maps what an index is made of", right, done.why())
    done = run([script("gates"), "--words", "words.v"], DESIGNS)
    told = [f"gates: words.v:{line}: a signed ${kind} is mapped to gates" for line, kind in SIGNED]
    right = done.status == 0 and done.err.splitlines() == told
    tally.note("gates --words tells which signed operators are mapped", right, done.why())


def yosys_tests(tally, folder):
    """Tests of yosys' sources, where these are at hand: gates translates one rightly, or says in a
    line what stands in the way."""
    tests = os.environ.get("YOSYS_TESTS")
    for source in designs_in(tests) if tests else ():
        done = run([script("gates"), source])
        if done.status == 0:
            try_design(tally, source, folder)
        else:
            lines = done.err.splitlines()
            tally.note(f"gates refuses {os.path.basename(source)}: {lines[0] if lines else ''}",
                       done.status == 125 and lines
                       and all(line.startswith("gates: ") for line in lines), done.why())


# cells: the simulation models that yosys installs for its technologies are small designs by other
# hands.

class Cells(Tries):
    part = "cells"

    def test_cells(self):
        data = os.path.join(os.path.dirname(os.path.dirname(shutil.which("yosys"))), "share",
                            "yosys")
        for line in read(os.path.join(DESIGNS, "CELLS")).splitlines():
            if line.startswith("#") or not line.strip():
                continue
            path, top, wanted = line.split(None, 2)
            source, made = os.path.join(data, path), os.path.join(self.folder, "cell.v")
            if not os.path.exists(source):
                self.note(f"gates --top {top} {path}", False, "yosys has not installed it")
                continue
            done = run([script("gates"), "--top", top, source, "-o", made])
            if wanted == "made":
                right, answer = is_read(made) if done.status == 0 else (False, done)
                self.note(f"gates --top {top} {path}: read", right, answer.why())
            else:
                self.note(f"gates --top {top} {path}: {wanted}",
                          done.status == 125 and wanted in done.err, done.why())
