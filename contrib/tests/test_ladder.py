"""The tries of `ladder`, whose report is the program's own, and of `names`, whose renames
`gates` follows."""
import json
import os
import re

from tests.test_parts import CARED
from tests.tries import BBEQ, Tries, bbeq, example, is_told, read, run, script, write

SPEC = """module m(input clk, a, b, output reg q, output z);
  reg [1:0] state;
  always @(posedge clk) begin q <= a ^ b; state <= {a, a & b}; end
  assign z = &state;
endmodule
"""
# The same with another input, a register behind an output of its own, and a path to the state.
OTHER = """module m(input clk, a, b_i, output q, z);
  reg q_reg;
  reg [1:0] fsm_state;
  always @(posedge clk) begin q_reg <= a ^ b_i; fsm_state <= {a, a & b_i}; end
  assign q = q_reg;
  assign z = &fsm_state;
endmodule
"""
WIDER = SPEC.replace("[1:0] state", "[2:0] state").replace("{a, a & b}", "{a, b, a & b}")
# A module that is empty, or has a register.
IN_A_BOX = """module m(clk, a, b, q, z);
  input clk, a, b; output q, z;
  bx state(clk, a, b, q, z);
endmodule
module bx(i, j, k, o, p); input i, j, k; output o, p; {} endmodule
"""
STORING = "reg r; always @(posedge i) r <= j; buf(o, r); buf(p, k);"
RING = "reg a, b; always @(posedge c) a <= b; always @(posedge c) b <= a;"
# That one register is 1 is kept, and that the first one is, is not.
RINGS = tuple(f"module s(c, y, k); input c; output y, k; {RING} assign y = 1'b0; {invariant} "
              "endmodule\n" for invariant in ("xor(k, a, b);", "buf(k, a);"))
BOTH = f"module t(c, y); input c; output y; {RING} and(y, a, b); endmodule\n"


class Ladder(Tries):
    part = "ladder"

    def test_ladder(self):
        pairs = [example(name, file) for name in ("carry", "adder", "alu", "nor", "lanes",
                                                  "counter") for file in ("spec.v", "impl.v")]
        for spec, implementation in zip(pairs[::2], pairs[1::2]):
            for words in ([], ["--all"], ["--from", "local", "--to", "input"],
                          ["--nodes", "3", "--patterns=4"]):
                own, joined = bbeq(spec, implementation,
                                   *words), run([script("ladder"), spec, implementation, *words])
                lines = len(
                    re.findall(r"^\w+ (?:none|error|repair|nodes|clauses|wide) \d+\.\d\d s \d+ MB$",
                               joined.err, re.MULTILINE))
                self.note(f"ladder {os.path.basename(os.path.dirname(spec))} {' '.join(words)}",
                          (own.status, own.out) == (joined.status, joined.out)
                          and lines == own.out.count("rung "), joined.why())
        spec, implementation = example("carry", "spec.v"), example("carry", "impl.v")
        cared = [write(self.folder, f"cared{at}.v", text) for at, text in enumerate(CARED)]
        own, joined = bbeq(*cared, "--care", "k",
                           "--shared"), run([script("ladder"), *cared, "--care", "k", "--shared"])
        self.note("ladder --care --shared", (own.status, own.out) == (joined.status, joined.out)
                  and own.status == 0, joined.why())
        both = write(self.folder, "both.v", BOTH)
        for said, text in zip(("kept", "broken"), RINGS):
            pair = [write(self.folder, f"{said}.v", text), both, "--invariant", "k"]
            own, joined = bbeq(*pair), run([script("ladder"), *pair])
            self.note(f"ladder with an invariant that is {said}", (own.status, own.out) == (
                joined.status, joined.out) and own.out.startswith(f"invariant {said}\n"),
                      joined.why())
        told = os.path.join(self.folder, "told.json")
        done = run([script("ladder"), spec, implementation, "--json", told])
        found = json.loads(read(told)) if os.path.exists(told) else {}
        self.note("ladder --json", found.get("verdict") == "repairable"
                  and found["checks"][-1]["lines"] == ["table u co 00010111"], done.why())
        broken = write(self.folder, "broken.v", "module m(a; endmodule\n")
        for words in ([broken, implementation], [spec, "nowhere.v"],
                      ["--top-spec", "other", spec, implementation]):
            own, joined = bbeq(*words), run([script("ladder"), *words])
            self.note(f"ladder {' '.join(map(os.path.basename, words))}",
                      (own.status, own.out) == (joined.status, joined.out), joined.why())
        slow = write(self.folder, "slow",
                     "#!/bin/sh\ncase \"$*\" in *local*) sleep 60;; esac\nexec " + BBEQ + ' "$@"\n')
        os.chmod(slow, 0o755)
        done = run([script("ladder"), spec, implementation, "--limit", "2"],
                   env={**os.environ, "BBEQ": slow})
        self.note("ladder --limit", done.status == 0 and "local no answer in time 2." in done.err
                  and "rung local" not in done.out, done.why())
        done = run([script("ladder"), spec, implementation, "--limit", "2", "--to", "local"],
                   env={**os.environ, "BBEQ": slow})
        self.note("ladder gives no verdict where a check was ended",
                  done.status == 7 and "verdict" not in done.out, done.why())
        for words in (["--limit", "0"], ["--from", "expand", "--to", "local"], ["--nodes"],
                      ["--nothing"], ["--make", "4"]):
            done = run([script("ladder"), spec, implementation, *words])
            self.note(f"ladder {' '.join(words)}", is_told(done, "ladder"), done.why())


class Names(Tries):
    part = "names"

    def test_names(self):
        def gates(name, text, *words):
            made = os.path.join(self.folder, name)
            run([script("gates"), write(self.folder, "source.v", text), *words, "-o", made])
            return made
        spec, other, wider = gates("spec.v", SPEC), gates("other.v", OTHER), gates("wider.v", WIDER)
        renames = os.path.join(self.folder, "renames")
        done = run([script("names"), spec, other, "-o", renames])
        lines = done.out.splitlines()
        first = [re.sub(r"\), .*", ")", line) for line in lines]
        self.note("names tells all that differ, on both sides", len(lines) == 6
                  and "spec input b (1 bit): perhaps b_i (1 bit)" in lines
                  and "impl register fsm_state (2 bits): perhaps state (2 bits)" in first,
                  done.why())
        self.note("names writes the likeliest pairs", sorted(read(renames).splitlines())
                  == ["b_i b", "fsm_state state", "q_reg q"], read(renames))
        done = bbeq(spec, gates("renamed.v", OTHER, "--rename", renames))
        self.note("gates --rename follows them", done.out.endswith("verdict repairable\n"),
                  done.why())
        done = run([script("names"), spec, wider])
        self.note("names tells of a state machine that was recoded", "2 bits in the specification "
                  "and 3 in the implementation; a state machine" in done.out, done.why())
        boxed, own = (write(self.folder, name, IN_A_BOX.format(body))
                      for name, body in (("boxed.v", ""), ("own.v", STORING)))
        done = run([script("names"), own, boxed])
        self.note("names tells of a register that would be in a box", done.out == "spec register "
                  "state.r (1 bit): state is a box there, and registers stay outside boxes\n",
                  done.why())
        done = run([script("names"), spec, spec])
        self.note("names where nothing differs", done.out
                  == "both have the same ports and registers, of the same widths\n", done.why())
        for text in ("a b_i\n", "nothing b\n", "a\n", "q z\n", "a x\nb_i x\n"):
            done = run([script("gates"), write(self.folder, "source.v", OTHER), "--rename",
                        write(self.folder, "bad", text)])
            self.note(f"gates --rename `{'; '.join(text.splitlines())}`", is_told(done, "gates"),
                      done.why())
        done = run([script("names"), spec, "nowhere.v"])
        self.note("names with a file that is not there", is_told(done, "names"), done.why())
