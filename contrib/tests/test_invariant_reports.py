"""The tries of scripts on reports with an invariant: they take its name, and say what it means and
what they do not look at; a page shows the event that breaks one."""
import os
import re

from tests.tries import Tries, bbeq, is_told, read, run, script, write

RING = ("module t(input c, output k); reg [1:0] s; always @(posedge c) s <= {s[0], s[1]}; "
        "assign k = s[0] ^ s[1]; endmodule\n")
HOLE = "module hole(input a, output b); endmodule\n"
# Right where one bit is 1, with an inverter in the box.
FITS = HOLE + ("module t(input c); reg [1:0] s; wire w; hole u(.a(s[0]), .b(w)); "
               "always @(posedge c) s <= {s[0], w}; endmodule\n")
MISSES = FITS.replace("{s[0], w}", "{s[1], w}")


class Reports(Tries):
    part = "invariants"

    def files(self, spec, implementation):
        """The names of the two texts and of the report on them, which is to begin and end so."""
        texts = [write(self.folder, "spec.v", spec), write(self.folder, "impl.v", implementation)]
        return [write(self.folder, "report", bbeq(*texts, "--invariant", "k").out), *texts]

    def says(self, name, words, status, *told):
        done = run([script(words[0]), *words[1:]])
        self.note(name, done.status == status and all(text in done.err for text in told)
                  and len(done.err.splitlines()) == len(told), done.why())
        return done.out

    def test_repairable(self):
        report, spec, implementation = self.files(RING, FITS)
        self.note("its report", read(report).startswith("invariant kept\n")
                  and read(report).endswith("table u b 10\nverdict repairable\n"), read(report))
        told = "from states in which the invariant is 1"
        self.says("fill", ["fill", report, implementation], 0, told)
        self.says("fill --spec without a name", ["fill", report, implementation, "--spec", spec],
                  125, "--invariant NAME")
        for option in ("--invariant", "--care"):
            self.says(f"fill --spec {option}", ["fill", report, implementation, "--spec", spec,
                                                option, "k"], 0, "the invariant k is 0", told)
            out = self.says(f"evaluate {option}", ["evaluate", spec, implementation, report, option,
                                                   "k"], 0, "that each event keeps it is not")
            self.note("what evaluate says", "agree at every vector at which k is 1" in out, out)
        self.says("evaluate without a name", ["evaluate", spec, implementation, report], 125,
                  "--invariant NAME")
        self.says("parts", ["parts", spec, implementation, "-o", os.path.join(self.folder, "parts"),
                            "--invariant", "k"], 64, "--care k")
        self.says("run", ["run", self.folder, "--invariant", "k"], 64, "give it to bbeq")

    def test_error(self):
        report, spec, implementation = self.files(RING, MISSES)
        self.note("its report", read(report).startswith("invariant kept\n")
                  and read(report).endswith("verdict error\n"), read(report))
        for name, told in (("why", "not looked at"), ("certify", "is not checked")):
            for option in ("--invariant", "--care"):
                self.says(f"{name} {option}", [name, report, spec, implementation, option, "k"], 0,
                          told)
            done = run([script(name), report, spec, implementation])
            self.note(f"{name} without a name", is_told(done, name)
                      and "--invariant NAME" in done.err, done.why())
            bare = write(self.folder, "bare", read(report).partition("\n")[2])
            words = [name, bare, spec, implementation, "--invariant", "k"]
            self.says(f"{name} of a report without one", words, 125, "does not begin")

    def test_broken(self):
        """The event of docs/REPORT.md, which takes the bit that is to be 1 elsewhere."""
        report, spec, implementation = self.files(RING.replace("^", "&~"), FITS)
        for words in (["why", report, spec, implementation], ["fill", report, implementation],
                      ["certify", report, spec, implementation],
                      ["evaluate", spec, implementation, report],
                      ["wave", report, spec, implementation]):
            self.says(f"{words[0]} of an event", words, 125, "does not keep the invariant")
        page = os.path.join(self.folder, "page.html")
        run([script("page"), report, spec, implementation, "-o", page])
        text = re.sub(r"\s+", " ", re.sub(r"<[^>]*>", " ", read(page)))
        self.note("page of an event", all(part in text for part in (
            "The invariant is not kept", "As the event comes c=0 s[1:0]=1",
            "Edges of inputs c rises", "Inputs after it c=0")))
