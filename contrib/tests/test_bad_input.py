"""Bad input: what each command says of words, files, names, streams and moments that it cannot work
with."""
import os
import signal
import subprocess
import time

from tests.tries import (BBEQ, LIMIT, REFUSED, SMALL_PROOF, Tries, bbeq, example, is_told, read,
                         run, script, take_signals, write)


# bad

SCRIPTS = ("gates", "fill", "wave", "order", "ladder", "names", "why", "page", "drat", "lrat",
           "certify", "edits", "evaluate", "made", "benchmark", "parts", "run", "minutes", "solve",
           "check")


class Bad(Tries):
    """Bad input: each script says in one line what is wrong, and where that is known what to do."""

    part = "bad"

    def setUp(self):
        super().setUp()
        self.empty = write(self.folder, "empty", "")
        self.opened = write(self.folder, "open", "rung ternary none\nverdict open\n")
        self.sides = example("carry", "spec.v"), example("carry", "impl.v")

    def told(self, name, *words):
        """Tries a command whose words it cannot work with."""
        done = run([script(name), *words], self.folder)
        shown = " ".join(os.path.basename(word) for word in words)
        # Of the others, 0 to 6 are the program's own.
        statuses = (1, 64, 125) if name == "lrat" else (64, 125)
        self.note(f"{name} {shown}: {done.err.strip().replace(self.folder + '/', '')}",
                  is_told(done, name) and done.status in statuses, done.why())

    def test_words(self):
        for name in SCRIPTS:
            if name != "check":
                for words in ([], ["--no-such-word", "a", "b"]):
                    done = run([script(name), *words])
                    self.note(f"{name} {' '.join(words) or 'without words'}",
                              is_told(done, name) and done.status == 64, done.why())
            done = run([script(name), "--help"])
            self.note(f"{name} --help", done.status == 0 and len(done.out) > 100 and not done.err,
                      done.why())

    def test_program(self):
        """A $BBEQ that names no program is said, and no other is taken for it."""
        env = {**os.environ, "BBEQ": os.path.join(self.folder, "nowhere")}
        for name in ("ladder", "solve", "parts", "order"):
            done = run([script(name), *self.sides, *["-o", "out"] * (name in ("parts", "order"))],
                       self.folder, env=env)
            self.note(f"{name} where $BBEQ is no program", is_told(done, name)
                      and done.status == 125 and "$BBEQ is " in done.err, done.why())

    def test_reports(self):
        spec, implementation = self.sides
        refused = write(self.folder, "refused", "refused impl token line 4\n")
        cut = write(self.folder, "cut", "rung ternary error\n")
        noise = write(self.folder, "noise", "hello\nverdict\n")
        for name, words in (("fill", [implementation]), ("wave", [spec, implementation]),
                            ("drat", [])):
            for report in ("nowhere", self.empty, refused, cut, noise, self.opened):
                done = run([script(name), report, *words], self.folder)
                self.note(f"{name} with the report `{os.path.basename(report)}`",
                          is_told(done, name), done.why())

    def test_pairs(self):
        bad_pairs(self, self.folder)

    def test_files(self):
        (spec, implementation), empty, opened = self.sides, self.empty, self.opened
        rtl, hole = example("counter", "counter.v"), write(
            self.folder, "hole.v", "module hole(input a, output y);\nendmodule\n")
        broken = write(self.folder, "broken.v", "module m(a, y); input a; output y; assign y = ;\n")
        report = write(self.folder, "report",
                       "rung input repair\ntable u co 00010111\nverdict repairable\n")
        vector = write(self.folder, "vector",
                       "rung ternary error\noutput sum\ninput a=0 b=0 cin=0\nverdict error\n")
        endless = write(self.folder, "endless.v", "module a(input x, output y); b u(x, y); "
                        "endmodule\nmodule b(input x, output y); a u(x, y); endmodule\n")
        adders = example("adder", "spec.v"), example("adder", "impl.v")
        adder = write(self.folder, "adder", bbeq(*adders).out)
        proof = write(self.folder, "proof", SMALL_PROOF)
        for name, words in (
                ("gates", ["nowhere.v"]), ("gates", [empty]), ("gates", [broken]),
                ("gates", ["--top", "other", rtl]), ("gates", [rtl, "--cells", "nowhere.v"]),
                ("gates", ["--top", "counter", rtl, "--cells", "nowhere.v"]),
                ("gates", ["--top", "", rtl]),
                ("gates", ["--top", "counter", "--parameter", "WIDTH", rtl]),
                ("gates", ["--top", "counter", "--parameter", "OTHER=1", rtl]),
                ("gates", [endless]), ("gates", [hole]),
                ("wave", [adder, *adders, "--vcd", "no/such/folder.vcd"]),
                ("wave", [adder, *adders, "--vcd", self.folder]),
                ("fill", [report, implementation, "-o", "no/such/folder.v"]),
                ("order", [spec, "-o", "no/such/folder.v"]),
                ("drat", [proof, "-o", "no/such/folder"]), ("fill", [self.folder, implementation]),
                ("lrat", [BBEQ, BBEQ]), ("gates", [os.path.join(REFUSED, "no_clock.v")]),
                ("gates", [self.folder]), ("gates", [rtl, "-o", "no/such/folder.v"]),
                ("fill", [report, "nowhere.v"]), ("fill", [report, empty]),
                ("fill", [report, broken]), ("fill", [report, rtl]), ("fill", [report, spec]),
                ("wave", [vector, "nowhere.v", implementation]), ("wave", [vector, spec, broken]),
                ("wave", [vector, rtl, implementation]),
                ("wave", ["--vector", "2", vector, spec, implementation]),
                ("wave", [vector, example("buffer", "spec.v"), example("buffer", "impl.v")]),
                ("order", ["nowhere.v"]), ("order", [empty]), ("order", [broken]), ("order", [rtl]),
                ("order", ["--top-spec", "other", spec]), ("evaluate", [spec, "nowhere.v"]),
                ("evaluate", [spec, broken]),
                ("evaluate", [example("buffer", "spec.v"), implementation]),
                ("evaluate", [implementation, spec]), ("evaluate", [spec, implementation, opened]),
                ("lrat", ["nowhere", "nowhere"]), ("lrat", [empty, empty]),
                ("minutes", ["nowhere"]), ("minutes", [empty])):
            self.told(name, *words)


GATES, OTHER = "which `gates` makes of RTL", "the report is of other texts"


def bad_pairs(tally, folder):
    """RTL in the place of a text that bbeq read, a report of other texts, and one that shows no
    vector: what to do is told."""
    spec, implementation, rtl = (example("carry", "spec.v"), example("carry", "impl.v"),
                                 example("counter", "unfinished.v"))
    tables = write(folder, "tables", "rung input repair\ntable u co 00010111\nverdict repairable\n")
    short = write(folder, "short", "rung input repair\ntable u co 0001\nverdict repairable\n")
    vector = write(folder, "wrong",
                   "rung ternary error\noutput sum\ninput a=0 b=0 cin=0\nverdict error\n")
    other = write(folder, "other", "rung ternary error\noutput y\ninput a=0 b=0\nverdict error\n")
    longer = write(folder, "longer",
                   "rung ternary error\noutput y\ninput a=0 b=0 cin=0 d=1\nverdict error\n")
    nameless = write(folder, "nameless",
                     "rung ternary error\noutput y\ninput a=0 b=0 cin=0\nverdict error\n")
    without = write(folder, "without", "rung input error\nverdict error\n")
    whole = write(folder, "whole", "rung output error\ninput a=0 b=0 cin=0\nverdict error\n")
    for name, words, wanted in (
            ("fill", [tables, rtl], GATES), ("wave", [vector, rtl, implementation], GATES),
            ("wave", [vector, spec, rtl], GATES), ("order", [rtl], GATES),
            ("fill", [short, implementation], OTHER), ("fill", [tables, spec], OTHER),
            ("fill", [tables, example("lanes", "impl.v")], OTHER),
            ("wave", [vector, spec, implementation], OTHER),
            ("wave", [other, spec, implementation], OTHER),
            ("wave", [longer, spec, implementation], OTHER),
            ("wave", [nameless, spec, implementation], OTHER),
            ("wave", [without, spec, implementation], "shows no vector"),
            ("wave", [tables, spec, implementation], "no wrong vector"),
            ("wave", [whole, spec, spec], OTHER), ("fill", [vector, implementation], "no tables")):
        done = run([script(name), *words], folder)
        shown = " ".join(os.path.basename(word) for word in words)
        tally.note(f"{name} {shown} says what to do: {done.err.strip().replace(folder + '/', '')}",
                   is_told(done, name) and wanted in done.err, done.why())


# messages

TYPED = """package p;
  typedef logic [3:0] word_t;
  typedef enum logic [1:0] {IDLE, BUSY} state_t;
endpackage
"""
MODULE = ("module m(input logic clk, input logic [1:0] a, output logic [3:0] y, z);\n  assign z = "
          "a;\n  {}\nendmodule\n")
BOX = "an empty module in its place is a box; else --undef"
TOLD = {"an import": (TYPED + "module m import p::*; (input word_t a, output word_t y); assign y = "
                      "a; endmodule\n", "m.sv:5: ", "an import"),
        "two ranges": (MODULE.format("logic [1:0][1:0] w; assign y = w; assign w = {a, a};"),
                       "m.sv:3: ", "a packed array of several ranges"),
        "a cast": (TYPED + MODULE.format("p::state_t s; assign y = s; always_comb s = "
                                         "p::state_t'(a);"), "m.sv:7: ", "--sv2v"),
        "a cast to a type that is not known":
        (TYPED + MODULE.format("assign y = state_t'(a);"), "m.sv:7: ",
         "does not read a cast to a type of SystemVerilog: leave it out, or --sv2v"),
        "a pattern": (MODULE.format("logic [1:0] w [2]; assign w = '{a, a}; assign y = w[0];"),
                      "m.sv:3: ", "--sv2v"), "a name of a package":
        (TYPED + MODULE.format("always_comb case (a) BUSY: y = 1; default: y = 0; endcase"),
         "m.sv:7: ", "PACKAGE::BUSY"), "an array of a type":
        (TYPED + MODULE.format("p::word_t [1:0] w; assign w = {a, a, a, a}; assign y = w[1];"),
         "m.sv:7: ", "with too few bits"), "an array of a type in the header":
        (TYPED + "module m(input p::word_t [1:0] a, output y); assign y = a[1][0]; endmodule\n",
         "m.sv:5: ", "with too few bits"),
        "an empty block": (MODULE.format("logic [3:0] n; always_comb begin end\n  always_ff "
                                         "@(posedge clk) y <= n;"), "m.sv:3: ", BOX),
        "an empty function":
        (MODULE.format("function [3:0] f(input [1:0] b); endfunction\n  assign y = f(a);"), "m.sv:",
         "the result of function f is read and has no driver"),
        "a net without a driver": (MODULE.format("logic [3:0] n; assign y = n;"), "m.sv:3: ", BOX),
        "a parameter": (MODULE.format("part #(.W(2)) u(a, y);")
                        + "module part(input logic [1:0] a, output logic [3:0] y); endmodule\n",
                        "module part has no parameter W", "`fill --rtl FILE`")}
# What a message says to write there is read.
MENDED = {"write PACKAGE::NAME": TYPED + MODULE.format("p::word_t w; assign y = w; assign w = a;"),
          "give it one range": MODULE.format("logic [3:0] w; assign y = w; assign w = {a, a};"),
          "leave it out": TYPED + MODULE.format("p::state_t s; assign y = s; assign s = a;"),
          "assign each part": MODULE.format("logic [1:0] w [2]; assign y = w[0]; always_comb begin "
                                            "w[0] = a; w[1] = a; end")}
TURNED = "module m(input clk, input [1:0] a, output [3:0] y); assign y = {a, a}; endmodule\n"
WIDE = """module m(input clk, input [9:0] at, input [63:0] in, output [63:0] out);
  reg [63:0] words [31:0]; reg [4:0] last;
  always @(posedge clk) begin words[at[4:0]] <= in; last <= at[9:5]; end
  assign out = words[last];
endmodule
"""


class Messages(Tries):
    """What `gates` tells a designer whom something stops: the line, what stands in the way, and
    what to do."""

    part = "messages"

    def test_messages(self):
        for name, (text, place, wanted) in TOLD.items():
            done = run([script("gates"), os.path.basename(write(self.folder, "m.sv", text))],
                       self.folder)
            right = is_told(done, "gates") and place in done.err and wanted in done.err
            self.note(f"gates tells of {name}: {done.err.strip()}", right, done.why())
        for name, text in MENDED.items():
            done = run([script("gates"), write(self.folder, "m.sv", text)])
            self.note(f"gates reads what it says to write: {name}", done.status == 0, done.why())
        plain = write(self.folder, "m.sv", TYPED + MODULE.format("assign y = a == BUSY;"))
        done = run([script("gates"), os.path.basename(plain)], self.folder)
        told = ("m.sv:7: warning: BUSY is not declared, and is taken for a wire of one bit; a name "
                "of a package is PACKAGE::BUSY\n")
        self.note("gates warns of a name of a package", done.status == 125 and told in done.err,
                  done.why())
        boxed = (MODULE.format("part u(a, y);")
                 + "module part(input logic [1:0] a, output logic [3:0] y); endmodule\n")
        done = run([script("gates"), write(self.folder, "boxed.sv", boxed)])
        self.note("an empty module in the place of a block is a box",
                  done.status == 0 and "1 box." in done.out, done.why())
        wide_tries(self, self.folder)
        turned_tries(self, self.folder)


def wide_tries(tally, folder):
    """More bits than the program takes: told with their number, the registers with theirs, and then
    by the program."""
    made = os.path.join(folder, "wide.v")
    done = run([script("gates"), write(folder, "wide_source.v", WIDE), "-o", made])
    lines = done.err.splitlines()
    right = (done.status == 0 and "are 2128 bits, and bbeq takes at most "
             "2048: 75 of inputs" in lines[0] and len(lines) == 34)
    right = right and "64 bits: register words[0]" in done.err
    tally.note(f"gates tells of too many bits: {lines[0] if lines else ''}", right, done.why())
    done = bbeq(made, made)
    tally.note("bbeq refuses them", done.out == "refused pair pins\n", done.why())


def turned_tries(tally, folder):
    """With sv2v, or what stands for it, SystemVerilog is turned first; what it says is told."""
    tools = os.path.join(folder, "tools")
    os.mkdir(tools)
    env = {**os.environ, "PATH": f"{tools}:{os.environ['PATH']}"}
    source = write(folder, "m.sv", TOLD["two ranges"][0])
    for name, body, status, wanted in (("turns", f"cat <<'T'\n{TURNED}T\n", 0, "endmodule"),
                                       ("refuses", 'echo "m.sv:2: no" >&2; exit 1\n', 125,
                                        "gates: sv2v: m.sv:2: no")):
        os.chmod(write(tools, "sv2v", "#!/bin/sh\n" + body), 0o755)
        done = run([script("gates"), "--sv2v", source], env=env)
        tally.note(f"gates --sv2v where sv2v {name} it",
                   done.status == status and wanted in done.out + done.err, done.why())
    bare = {**os.environ,
            "PATH": os.pathsep.join(part for part in os.environ["PATH"].split(os.pathsep)
                                    if not os.path.exists(os.path.join(part, "sv2v")))}
    done = run([script("gates"), "--sv2v", source], env=bare)
    tally.note("gates --sv2v where there is none",
               is_told(done, "gates") and "is not installed" in done.err, done.why())


# hostile

# Names that a shell or yosys takes for more than a name.
NAMES = ("[ab].v", "[!a].v", "*.v", "?.v", "{a,b}.v", "a b.v", " a.v", "a.v ", '"a.v', 'a"b.v',
         "a'b.v", "a;b.v", "a`b.v", "$a.v", "$(a).v", "${a}.v", "a\nb.v", "a\tb.v", "./-a.v",
         "./--top.v", "~a.v", "a\\b.v", "\\a.v", "%a.v", "#a.v", "!a.v", "(a).v", "<a.v",
         ">a.v", "|a.v", "&a.v", "a:b.v", "a.v:3", "\xe9.v", "\u65e5\u672c.v", "\udcff.v", ".v",
         "..v", "@a.v", "=a.v", "+a.v", "a" * 250 + ".v")
PLAIN = "module m(a, y); input a; output y; assign y = ~a; endmodule\n"
BROKEN = "module m(a, y); input a; output y; assign y = ; endmodule\n"


def named(folder, name, text):
    path = os.path.join(folder, name)
    with open(path, "w", encoding="utf-8") as file:
        file.write(text)
    return path


def names_part(tally, folder):
    """Each file has a port of its own, so that the text tells which file was read; a.v and b.v
    stand beside them all."""
    for decoy in ("a.v", "b.v"):
        write(folder, decoy, PLAIN)
    for at, name in enumerate(NAMES):
        path = named(folder, name, PLAIN.replace("y", f"y{at}"))
        done = run([script("gates"), name], folder)
        shown = name.encode("unicode_escape", "backslashreplace").decode()
        tally.note(f"gates reads {shown[:40]}", done.status == 0 and f"output y{at};" in done.out,
                   done.why())
        named(folder, name, BROKEN)
        done = run([script("gates"), name], folder)
        is_told_so = done.err.startswith("gates: ") and "folder" not in done.err
        tally.note(f"gates tells of {shown[:40]}", done.status == 125 and is_told_so, done.why())
        os.remove(path)


def files_part(tally, folder):
    for name, data in (("empty", b""), ("marked", b"\xef\xbb\xbf" + PLAIN.encode()),
                       ("wide", b"\xff\xfem\0"), ("blank", b"// nothing\n")):
        path = os.path.join(folder, name + ".v")
        with open(path, "wb") as file:
            file.write(data)
        done = run([script("gates"), path])
        tally.note(f"gates: {name}: {done.err.strip().replace(folder, '.')}",
                   is_told(done, "gates") and "--top" not in done.err, done.why())
    plain = write(folder, "plain.v", PLAIN)
    for shown, words, text in (("-", ["-"], PLAIN), ("/dev/stdin", ["/dev/stdin"], PLAIN)):
        done = run([script("gates"), *words], text=text)
        tally.note(f"gates {shown}", done.status == 0 and "not(y, a)" in done.out
                   or "assign y" in done.out, done.why())
    done = run(["bash", "-c", f"'{script('gates')}' <(cat '{plain}')"])
    tally.note("gates reads a pipe", done.status == 0 and "endmodule" in done.out, done.why())
    inner = os.path.join(folder, "inner")
    os.mkdir(inner)
    write(inner, "width.vh", "`define GATE ~a\n")
    write(inner, "user.v", '`include "width.vh"\n' + PLAIN.replace("~a", "`GATE"))
    done = run([script("gates"), os.path.join("inner", "user.v")], folder)
    tally.note("gates finds what stands beside a source", done.status == 0, done.why())
    beside_part(tally, folder)
    done = run([script("gates"), "--include", "nowhere", plain], folder)
    tally.note("gates: an --include that is not there", is_told(done, "gates"), done.why())
    done = run([script("gates"), "--define", "", plain], folder)
    tally.note("gates: an empty --define", done.status == 64 and len(done.err.splitlines()) == 1,
               done.why())


def beside_part(tally, folder):
    """Two sources with a header and a memory of one name each, and what stands above a source."""
    for name, sign in (("left", "&"), ("right", "|")):
        below = os.path.join(folder, name, "below")
        os.makedirs(below)
        write(os.path.join(folder, name), "above.vh", f"`define ABOVE {sign}\n")
        write(below, "sign.vh", f"`define SIGN {sign}\n")
        write(below, "rom.hex", "1\n0\n" if sign == "&" else "0\n1\n")
        write(below, f"{name}.v", f'''`include "sign.vh"
`include "../above.vh"
module {name}(input p, q, output y, z, r);
  reg [0:0] rom [0:1]; initial $readmemh("rom.hex", rom);
  assign y = p `SIGN q; assign z = p `ABOVE q; assign r = rom[p];
endmodule
''')
    both = write(folder, "both.v", "module both(input p, q, output a, b, c, d, e, f); left l(p, q, "
                 "a, b, c); right k(p, q, d, e, f); endmodule\n")
    done = run([script("gates"), both, os.path.join("left", "below", "left.v"),
                os.path.join("right", "below", "right.v")], folder)
    wanted = ("and(a, p, q);", "assign b = a;", "not(c, p);", "or(d, p, q);", "assign e = d;",
              "assign f = p;")
    tally.note("gates: what stands beside each source is its own",
               done.status == 0 and all(line in done.out for line in wanted), done.why())


def outputs_part(tally, folder):
    """No older text stays where a run is refused, and none is lost where the script reads it."""
    spec, implementation = example("carry", "spec.v"), example("carry", "impl.v")
    report = write(folder, "report", "rung input repair\ntable u co 00010111\nverdict repairable\n")
    vector = write(folder, "vector", "rung ternary error\noutput y\ninput a=0\nverdict error\n")
    right, wrong = write(folder, "right.v", PLAIN), write(folder, "wrong.v", PLAIN.replace("~", ""))
    broken, cut = write(folder, "broken.v", BROKEN), write(folder, "cut", "rung input repair\n")
    out = os.path.join(folder, "out")
    runs = {"gates": [right], "fill": [report, implementation], "order": ["--no-count", spec],
            "wave": [vector, right, wrong]}
    refused = {"gates": [broken], "fill": [cut, implementation], "order": ["--no-count", broken],
               "wave": [cut, right, wrong]}
    for name, words in runs.items():
        to = "--vcd" if name == "wave" else "-o"
        write(folder, "out", "older\n")
        done = run([script(name), *refused[name], to, out])
        is_aside = not os.path.exists(out) and read(out + "~") == "older\n"
        tally.note(f"{name} leaves no older text where it is refused",
                   is_told(done, name) and is_aside, done.why())
        done = run([script(name), *words, to, "/dev/full"])
        is_named = done.err.startswith(f"{name}: /dev/full: ")
        tally.note(f"{name} names the device that is full", done.status == 125 and is_named,
                   done.why())
        done = run([script(name), *words, to, out])
        beside = [left for left in os.listdir(folder) if left.endswith(".part")]
        tally.note(f"{name} writes the whole",
                   done.status == 0 and len(read(out)) > 50 and not beside, done.why())
        if name != "wave":
            done = run(["bash", "-c", '"$0" "$@" >&-', script(name), *words])
            told = f"{name}: standard output: it is closed\n"
            tally.note(f"{name} with a standard output that is closed",
                       done.status == 125 and done.err == told, done.why())
    same = write(folder, "same.v", PLAIN)
    done = run([script("gates"), same, "-o", same])
    tally.note("gates writes over its source", done.status == 0 and "endmodule" in read(same),
               done.why())
    same = write(folder, "same.v", BROKEN)
    done = run([script("gates"), same, "-o", same])
    tally.note("gates keeps a source that it cannot read",
               done.status == 125 and read(same) == BROKEN, done.why())


def cut_part(tally, folder):
    """A report that ends anywhere, or whose line does: one line is told, or the script does its
    work."""
    spec, implementation = example("carry", "spec.v"), example("carry", "impl.v")
    whole = ("rung ternary error\noutput sum\ninput a=0 b=0 cin=0\nrung input repair\ntable u co "
             "00010111\nclause 0 1\nstep 1 0 0/1\nverdict error\n")
    places = range(0, len(whole), 7)
    for name, words in (("fill", [implementation]), ("wave", [spec, implementation]), ("drat", []),
                        ("evaluate", None)):
        wrong = []
        for place in places:
            for text in (whole[:place], whole[:place] + "\nverdict repairable\n",
                         whole[:place] + "\nverdict error\n"):
                report = write(folder, "report", text)
                done = run([script(name), *([spec, implementation, report] if words is None
                                            else [report, *words])], folder)
                if "Traceback" in done.err or done.status not in (0, 125):
                    wrong.append((place, done.why()))
        tally.note(f"{name} with a report that is cut anywhere", not wrong, str(wrong[:1]))
    deep = "(" * 199 + "a" + ")" * 199
    nested = write(folder, "nested.v",
                   PLAIN.replace("~a", deep) + "module b(a, y); input a; output y; endmodule\n")
    repairable = write(folder, "report", "verdict repairable\n")
    for name, words in (("order", ["--no-count", "--top-spec", "m", nested]),
                        ("fill", [repairable, nested, "--top", "m"])):
        done = run([script(name), *words])
        tally.note(f"{name} reads what nests to 199", done.status == 0 and "endmodule" in done.out,
                   done.why())


def failing_part(tally, _folder):
    done = run([script("order"), example("carry", "spec.v")],
               env={**os.environ, "BBEQ": "/bin/false"})
    tally.note("order with a program that fails", done.status == 125
               and "/bin/false ended with 1" in done.err, done.why())


class Hostile(Tries):
    """Hostile names and files: a script reads the file that is named and no other, says in one line
    what it cannot work with, and leaves no older text behind."""

    part = "hostile"

    def test_names(self):
        names_part(self, self.folder)

    def test_files(self):
        files_part(self, self.folder)

    def test_outputs(self):
        outputs_part(self, self.folder)

    def test_cut(self):
        cut_part(self, self.folder)

    def test_failing(self):
        failing_part(self, self.folder)


# ended

def folders_tries(tally, folder):
    for name in ("d1", "d[12]", "d?", "d*", "d{1,2}", "d 1", "d\xe9", "-d", "d'1", 'd"1', "d$HOME",
                 "d\\1"):
        os.mkdir(os.path.join(folder, name))
        write(os.path.join(folder, name), "x.v",
              PLAIN.replace("y", "right" if name != "d1" else "wrong"))
    for name in sorted(os.listdir(folder)):
        done = run([script("gates"), os.path.join(".", name, "x.v")], folder)
        right = "output right;" in done.out if name != "d1" else "output wrong;" in done.out
        tally.note(f"gates reads {name.encode('unicode_escape').decode()}/x.v",
                   done.status == 0 and right, done.why())


def streams_tries(tally, folder):
    right, wrong = write(folder, "right.v", PLAIN), write(folder, "wrong.v", PLAIN.replace("~", ""))
    report = write(folder, "report", bbeq(right, wrong).out)
    proof, waves, out = write(folder, "proof",
                              SMALL_PROOF), os.path.join(folder, "w.vcd"), os.path.join(folder, "p")
    closed = {"wave": [report, right, wrong, "--vcd", waves], "drat": [proof, "-o", out],
              "names": [right, wrong], "ladder": [right, wrong], "why": [report, right, wrong],
              "evaluate": [right, wrong], "made": ["4"]}
    for name, words in closed.items():
        for kind in (">&-", ">/dev/full", "| true"):
            done = run(["bash", "-o", "pipefail", "-c", f'"$0" "$@" {kind}', script(name), *words],
                       folder)
            is_ended = isinstance(done.status, int) and done.status < 126
            tally.note(f"{name} {kind}", "Traceback" not in done.err and is_ended, done.why())
    for line in ("output", "output ", "next", "rung", "input", "input a", "input =", "table",
                 "table u", "vector", "clause", "step"):
        texts = write(folder, "cut", f"rung ternary error\n{line}\ninput a=0\nverdict error\n")
        for name, words in (("wave", [right, wrong]), ("fill", [wrong]), ("drat", []),
                            ("why", [right, wrong])):
            done = run([script(name), texts, *words], folder)
            tally.note(f"{name} with a line `{line}`",
                       "Traceback" not in done.err and done.status in (0, 125), done.why())
    nested = PLAIN.replace("~a", "(" * 198 + "a" + ")" * 198)
    left, other = write(folder, "nested.v", nested), write(folder, "other.v",
                                                           nested.replace("(a)", "(~a)"))
    done = run([script("wave"), write(folder, "report", bbeq(left, other).out), left, other,
                "--vcd", waves])
    tally.note("wave reads what nests to 198", done.status == 0, done.why())


def ended_tries(tally, folder):
    """Each script in the midst of another program's work: what it began is ended, and no word is
    said."""
    slow = os.path.join(folder, "slow")
    os.mkdir(slow)
    for tool in ("yosys", "iverilog", "bbeq"):
        os.chmod(write(slow, tool, f'#!/bin/sh\necho $$ > "{folder}/started"\nexec sleep 60\n'),
                 0o755)
    spec, implementation = example("carry", "spec.v"), example("carry", "impl.v")
    right, wrong = write(folder, "right.v", PLAIN), write(folder, "wrong.v", PLAIN.replace("~", ""))
    repair = write(folder, "repair", bbeq(spec, implementation).out)
    error = write(folder, "error", bbeq(right, wrong).out)
    env = {**os.environ, "PATH": f"{slow}:{os.environ['PATH']}", "BBEQ": os.path.join(slow, "bbeq")}
    for name, words in (("gates", [right]), ("wave", [error, right, wrong]),
                        ("ladder", [spec, implementation]), ("order", [spec]),
                        ("why", [error, right, wrong]),
                        ("fill", [repair, implementation, "--spec", spec])):
        for number in (signal.SIGINT, signal.SIGTERM):
            end_one(tally, folder, name, words, number, env)


def is_gone(number):
    """A process has ended, or does so within seconds; that nobody has asked for its status does not
    matter."""
    for _ in range(300):
        try:
            with open(f"/proc/{number}/stat", encoding="latin-1") as file:
                if file.read().rpartition(")")[2].split()[0] == "Z":
                    return True
        except OSError:
            return True
        time.sleep(0.1)
    return False


def end_one(tally, folder, name, words, number, env):
    started = os.path.join(folder, "started")
    if os.path.exists(started):
        os.remove(started)
    child = subprocess.Popen([script(name), *words], env=env, stdout=subprocess.DEVNULL,
                             stderr=subprocess.PIPE, text=True, cwd=folder,
                             preexec_fn=take_signals)
    until = time.monotonic() + LIMIT
    while not (os.path.exists(started) and read(started).strip()) and time.monotonic() < until:
        time.sleep(0.05)
    child.send_signal(number)
    _, err = child.communicate(timeout=LIMIT)
    right = child.returncode == 128 + number and not err and is_gone(read(started).strip())
    tally.note(f"{name} ends at signal {int(number)} with what it started", right,
               f"status {child.returncode}; {err[-200:]}")


class Ended(Tries):
    """What a user of the scripts met beside hostile names: folders with patterns in their names,
    streams that are closed, reports whose lines name nothing, texts that nest deep, and scripts
    that are ended while another program works for them."""

    part = "ended"

    def test_folders(self):
        folders_tries(self, self.folder)

    def test_streams(self):
        streams_tries(self, self.folder)

    def test_ended(self):
        ended_tries(self, self.folder)
