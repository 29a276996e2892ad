"""The two texts of a made pair, written from their description in docs/REPORT.md: a ripple-carry
adder, and the same with an empty module in the place of the full adder in the middle."""

WIDEST = 256
CELL = "(a,b,c,s,o);\ninput a,b,c;\noutput s,o;\n"
FULL_ADDER = f"module fa{CELL}xor(s,a,b,c);\nassign o = a & b | a & c | b & c;\nendmodule\n"
HOLE = f"module hole{CELL}endmodule\n"


def made_texts(width):
    """The specification and the implementation."""
    places = list(reversed(range(width)))
    ins = ",".join([name for place in places for name in (f"a{place}", f"b{place}")] + ["ci"])
    outs = ",".join([f"s{place}" for place in places] + ["co"])
    carries = ["ci", *(f"c{place}" for place in range(1, width)), "co"]
    stages = [f" u{place}(a{place},b{place},{carries[place]},s{place},{carries[place + 1]});\n"
              for place in range(width)]
    head = f"module add({ins},{outs});\ninput {ins};\noutput {outs};\n"

    def text(missing, more):
        body = "".join(("hole" if place == missing else "fa") + stage
                       for place, stage in enumerate(stages))
        return head + body + "endmodule\n" + FULL_ADDER + more

    return text(None, ""), text(width // 2, HOLE)
