"""The filled implementation behind the verdict: of $CHECK_PAIRS drawn pairs, a third of them with
shared contents and a third with a care output, half of them with odd names of ports, the text is
read by the program, by a simulator and by yosys, and what it does is tried at all vectors by
`evaluate`'s own means; and `fill --flat` takes it out of a report."""
import os
import random
import re
import shutil
from collections import Counter

from bbeq_tools.developing.drawn import drawn_cared, drawn_pair, drawn_shared
from bbeq_tools.verilog.language import Reader, tokens, top_of, written
from tests.test_reports import DRAWN, pair_in
from tests.tries import Tries, bbeq, example, is_told, read, run, script, write

# Names that have to be escaped, or look like words of the text; none with a backquote, in which
# iverilog sees a macro.
ODD = ("_", "___x", "filled", "module", "_3", "_t0", "(*", "//", "/*", ";", "\\", "a[0]", "x.y",
       "1'b0", "@(posedge", '"', "endmodule", "fill", "table")
EXAMPLES = ("carry", "counter", "holes", "mixer", "packet", "shared", "stages", "sum", "twins")
KINDS = ("as they are", "shared", "care")

# Modules in which two nets have one name: an input and an output; an input and a register below; an
# output and another register.
TWICE = {
    "a[0]": "module m(a,\\a[0] ); input [0:0] a; output \\a[0] ; buf(\\a[0] ,a[0]); endmodule\n",
    "u.q": "module m(c,\\u.q ,y); input c,\\u.q ; output y; r u(c,\\u.q ,y); endmodule\nmodule "
    "r(c,d,q); input c,d; output q; reg q; always @(posedge c) q <= d; endmodule\n", "v.q":
    "module m(c,d,\\v.q ); input c,d; output \\v.q ; wire w; r v(c,d,w); not(\\v.q ,w); endmodule\n"
    "module r(c,d,q); input c,d; output q; reg q; always @(posedge c) q <= d; endmodule\n",
}


class Filled(Tries):
    part = "filled"

    def test_filled(self):
        told = Counter((KINDS[seed % 3], try_filled(self, self.folder, seed))
                       for seed in range(DRAWN))
        texts = {kind: told[kind, "filled"] for kind in KINDS}
        self.note(f"texts by kind of drawn pairs: {texts}, at least a tenth of all each",
                  all(10 * count >= DRAWN for count in texts.values()))
        for name, texts in TWICE.items():
            pair = write(self.folder, "spec.v", texts), write(self.folder, "impl.v", texts)
            done = bbeq(*pair, "--fill")
            self.note(f"fill clash {name}", done.status == 0
                      and done.out.endswith(f"\nverdict repairable\nfill clash {name}\n"),
                      done.why())
        try_again(self, self.folder)
        try_flat(self, self.folder)
        for name in EXAMPLES:
            try_example(self, self.folder, name)


# Drawn pairs.

def drawn_texts(seed):
    """Two texts, the words that they are compared with, and whether contents are shared and which
    output is the care output. With either most are such that some contents agree."""
    if seed % 3 == 1:
        return drawn_shared(3 * seed), ["--shared"], True, None
    if seed % 3 == 2:
        texts, care, shared = drawn_cared(3 * seed)
        return texts, ["--care", care] + ["--shared"] * shared, shared, care
    return drawn_pair(seed), [], False, None


def port_names(text):
    modules = {module.name: module for module in Reader(text).modules()}
    return set(top_of("a text", modules, None).ports)


def renamed(text, names):
    """The text with other names in the place of some, wherever these stand."""
    parts, place = [], 0
    for token in tokens(text):
        if token.kind == "name" and token.text in names:
            parts += [text[place:token.start], written(names[token.text])]
            place = token.end
    return "".join(parts) + text[place:]


def with_odd_names(seed, texts, care):
    """The two texts with odd names of some ports, and the name that the care output has then."""
    draw = random.Random(f"odd {seed}")
    ports = sorted(port_names(texts[0]) | port_names(texts[1]))
    used = {token.text for text in texts for token in tokens(text)}
    names = dict(zip(draw.sample(ports, len(ports)),
                     draw.sample([name for name in ODD if name not in used], min(len(ports), 6))))
    if care:
        base, index = re.fullmatch(r"(\w+)(.*)", care).groups()
        care = names.get(base, base) + index
    return [renamed(text, names) for text in texts], care


def try_filled(tally, folder, seed):
    """The result is what stands behind the verdict of the pair: a text, or nothing. No drawn pair
    has a name that clashes."""
    texts, words, shared, care = drawn_texts(seed)
    if seed % 2:
        texts, care = with_odd_names(seed, texts, care)
        words = ["--care", care] + words[2:] if care else words
    spec, implementation = write(folder, "spec.v", texts[0]), write(folder, "impl.v", texts[1])
    plain, done = bbeq(spec, implementation, *words), bbeq(spec, implementation, *words, "--fill")
    name = f"filled pair {seed}"
    tally.note(f"{name}: the report up to the verdict is the same",
               done.status == plain.status and done.out.startswith(plain.out), done.why())
    behind = done.out[len(plain.out):]
    if plain.status or not behind.startswith("fill\n"):
        tally.note(f"{name}: nothing stands behind another verdict", plain.status and behind == "",
                   "\n".join([*texts, done.why()]))
        return "nothing"
    filled = write(folder, "filled.v", behind[5:])
    tally.note(f"{name}: the program reads the text and finds no difference",
               *agrees(spec, filled, words))
    tally.note(f"{name}: other readers take it without a warning", *is_read(filled))
    pair = pair_in((texts[0], behind[5:]), shared, care)
    tally.note(f"{name}: it agrees at all vectors", not pair.boxes and pair.difference({}) is None,
               "\n".join([*texts, behind]))
    return "filled"


def agrees(spec, filled, words):
    done = bbeq(spec, filled, *words)
    return done.status == 0 and "table" not in done.out, done.why()


IMPLICIT = re.compile(r"is implicitly declared\.$")


def is_read(filled):
    """Whether iverilog and yosys take the text without a warning, where they are there; but yosys
    tells each net that a gate or an assignment declares (IEEE 1364-2005, 4.5)."""
    for command in (["iverilog", "-o", os.devnull, filled],
                    ["yosys", "-q", "-p", f"read_verilog {filled}; hierarchy -check -top filled"]):
        if shutil.which(command[0]):
            done = run(command)
            warnings = [line
                        for line in (done.out + done.err).splitlines() if not IMPLICIT.search(line)]
            if done.status or warnings:
                return False, f"{command[0]}: {done.why()}"
    return True, ""


# A made pair.

def try_again(tally, folder):
    done = bbeq("--make", "16", "--fill")
    if "\nfill\n" not in done.out:
        tally.note("a made pair is filled", False, done.why())
        return
    filled = write(folder, "filled.v", done.out.split("\nfill\n")[-1])
    run([script("made"), "16", "-o", folder])
    again = bbeq(os.path.join(folder, "spec.v"), filled)
    tally.note("a made pair is filled", done.status == 0 and again.status == 0, again.why())


# fill --flat

PORTS = ("module t(p, \\q+ ); input [2:1] p; output [0:1] \\q+ ; bx u(p, \\q+ ); endmodule\nmodule "
         "bx(i, o); input [1:0] i; output [1:0] o; endmodule\n")
PORTS_SPEC = ("module s(p, \\q+ ); input [2:1] p; output [0:1] \\q+ ; assign \\q+ = {~p[1], "
              "p[2]}; endmodule\n")


def try_flat(tally, folder):
    spec, implementation = write(folder, "s.v", PORTS_SPEC), write(folder, "t.v", PORTS)
    report = write(folder, "report", bbeq(spec, implementation, "--fill").out)
    done = run([script("fill"), "--flat", report])
    tally.note("fill --flat takes the text out of a report",
               done.status == 0 and done.out == read(report).split("\nfill\n")[1], done.why())
    wrapped = os.path.join(folder, "wrapped.v")
    done = run([script("fill"), "--flat", report, "--ports", implementation, "-o", wrapped])
    done = done if done.status else bbeq(spec, wrapped, "--top-impl", "t")
    tally.note("fill --flat --ports keeps the ports",
               done.status == 0 and "module t(p, \\q+ );" in read(wrapped), done.why())
    tally.note("  other readers take it", *is_read(wrapped))
    clash, other = write(folder, "clash.v", TWICE["a[0]"]), write(folder, "plain",
                                                                  bbeq(spec, implementation).out)
    nor = bbeq(example("nor", "spec.v"), example("nor", "impl.v"), "--fill").out
    told = {"two nets of the filled implementation":
            write(folder, "clash", bbeq(clash, clash, "--fill").out),
            "run bbeq with --fill": other, "is cut": write(folder, "cut", read(report)[:-20]),
            "since the verdict is error": write(folder, "error", nor),
            "too large": write(folder, "large", "verdict repairable\nfill toolarge\n")}
    for why, report in told.items():
        done = run([script("fill"), "--flat", report])
        tally.note(f"fill --flat tells why there is no text: {why}",
                   is_told(done, "fill") and why in done.err, done.why())
    done = run([script("fill"), "--flat", os.path.join(folder, "report"), "--ports",
                example("carry", "impl.v")])
    tally.note("fill --ports refuses another implementation",
               is_told(done, "fill") and "other texts" in done.err, done.why())
    for words in ([report, implementation, "--flat"], ["--flat", report, "--style", "case"],
                  [report, "--ports", implementation], ["--flat", report, "--shared"]):
        done = run([script("fill"), *words])
        tally.note(f"fill refuses words: {' '.join(words[1:])[-20:]}",
                   is_told(done, "fill") and "--help" in done.err, done.why())


# Both ways to a finished design.

def try_example(tally, folder, name):
    """The text of the program, the text of `fill`, and the specification agree with each other."""
    spec, implementation = example(name, "spec.v"), example(name, "impl.v")
    report = write(folder, "report", bbeq(spec, implementation, "--fill").out)
    flat, filled = os.path.join(folder, "flat.v"), os.path.join(folder, "filled.v")
    done = run([script("fill"), "--flat", report, "-o", flat])
    done = done if done.status else run([script("fill"), "--style", "assign", report,
                                         implementation, "-o", filled])
    right = done.status == 0 and all(bbeq(one, other).status == 0
                                     for one, other in ((flat, filled), (filled, flat),
                                                        (spec, flat)))
    tally.note(f"example {name}: both ways to a finished design agree", right, done.why())
    if "always" not in read(spec) and shutil.which("yosys") and shutil.which("berkeley-abc"):
        tally.note(f"example {name}: berkeley-abc finds no difference",
                   *is_equivalent(spec, implementation, report, folder))


def is_equivalent(spec, implementation, report, folder):
    """Whether berkeley-abc finds the specification and the filled text equal, both made into AIGER
    by yosys."""
    wrapped, sides = os.path.join(folder, "wrapped.v"), []
    done = run([script("fill"), "--flat", report, "--ports", implementation, "-o", wrapped])
    for place, path in enumerate((spec, wrapped)):
        sides.append(os.path.join(folder, f"side{place}.aig"))
        if done.status == 0:
            done = run(["yosys", "-q", "-p", f"read_verilog {path}; hierarchy -auto-top; proc; "
                        f"flatten; techmap; aigmap; write_aiger -symbols {sides[-1]}"])
    if done.status == 0:
        done = run(["berkeley-abc", "-c", f"cec {' '.join(sides)}"])
    return done.status == 0 and "are equivalent" in done.out, done.why()
