"""Says what is true of a specification and an implementation with boxes, by trying everything.

It tells whether some contents of the boxes make the two agree at every vector that counts, and
shows the first that do; of a report it tells whether the tables agree. It shares nothing with the
program, neither the reading of a text nor the netlist that is made of it, so that what the two say
can be compared; and it is slow, so the texts have to be small."""
import sys

from bbeq_tools.cli import Fault, run_script
from bbeq_tools.reference.truths import (CHECKS, MOST_CONTENTS, MOST_INPUTS, MOST_PINS, climb,
                                         pair_of)
from bbeq_tools.report.cared import add_care_words, care_of_report, why_open
from bbeq_tools.report.reports import other_texts, read_report, tables, verdict
from bbeq_tools.verilog.language import read_modules, top_of
from bbeq_tools.words import Words


def parse_words():
    parser = Words(prog="evaluate", description=__doc__.split("\n\n")[0],
                   epilog=f"There may be {MOST_INPUTS} inputs and registers, {MOST_PINS} input and "
                   f"{MOST_PINS} output pins a box, and {MOST_CONTENTS} bits in the contents of "
                   "all boxes. Edges and clocks are not looked at.")
    parser.add_argument("specification", metavar="SPEC", help="the specification")
    parser.add_argument("implementation", metavar="IMPL", help="the implementation")
    parser.add_argument("report", metavar="REPORT", nargs="?",
                        help="a report of the two: whether its tables agree")
    parser.add_argument("--top-spec", metavar="NAME", help="the top module, as for bbeq")
    parser.add_argument("--top-impl", metavar="NAME", help="the top module, as for bbeq")
    parser.add_argument("--lines", action="store_true",
                        help="print the report that is due; of several last tables, the first")
    parser.add_argument("--from", dest="first", choices=CHECKS, default="ternary",
                        help="the first check, as for bbeq")
    parser.add_argument("--to", dest="last", choices=CHECKS, default="expand",
                        help="the last check, as for bbeq")
    parser.add_argument("--all", action="store_true", help="go on after a mistake, as bbeq does")
    parser.add_argument("--shared", action="store_true",
                        help="boxes of one module have the same contents, as for bbeq")
    add_care_words(parser)
    words = parser.parse_args()
    if words.lines and words.invariant:
        parser.error("--lines stands with --care: evaluate looks at no events, so it cannot say "
                     "what becomes of an invariant")
    return words


def modules_of(path, top):
    _, modules = read_modules(path)
    return modules, top_of(path, modules, top)


def tell_report(pair, report, lines, care):
    """Whether the tables of a report agree, and if not, where they are wrong; the status is then
    1."""
    contents = pair.contents_in(tables(lines))
    if contents is None:
        raise Fault(f"{report}: its tables are not those of these boxes; {other_texts(lines)}")
    wrong = pair.difference(contents)
    if wrong:
        print("the tables do not agree", *wrong, sep="\n")
        sys.exit(1)
    print("the tables agree at every vector" + (f" at which {care} is 1" if care else ""))


def command():
    words = parse_words()
    lines = read_report(words.report) if words.report else []
    if why_open(lines):
        raise Fault(f"{words.report}: the verdict is {verdict(lines)}{why_open(lines)}")
    words.care = care_of_report("evaluate", words, lines, "vectors count where the invariant {} is "
                                "1; that each event keeps it is not looked at")
    pair = pair_of(modules_of(words.specification, words.top_spec),
                   modules_of(words.implementation, words.top_impl), words.shared, words.care)
    if words.report:
        tell_report(pair, words.report, lines, words.care)
    elif words.lines:
        print(*climb(pair, words.first, words.last, words.all), sep="\n")
    else:
        found = next(pair.completions(), None)
        print(*["no contents agree"] if found is None
              else ["some contents agree", *pair.table_lines(found)], sep="\n")


def main():
    run_script("evaluate", command)
