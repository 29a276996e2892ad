"""Writes an implementation with its boxes filled, from the tables of a report.

A report that ends with `verdict repairable` has a table line for each output of each box. This
script puts a module with these contents in the place of each empty module, as expressions or as
case statements. Where a pin is x, an output is x or what it is for both values of the pin; with
`case` all outputs are x then. Where instances of one module have different contents, each content
gets a module of its own, and so do the modules above it. With --shared a module has the same
contents in all its instances, and is filled once. No proof speaks of what this script writes.

With --flat it takes the filled implementation out of a report of `bbeq --fill`: one module of
single bits without hierarchy, of which it is proved that it agrees with the specification. --ports
puts it into a module with the name and the ports of the implementation."""
import re
import sys

from bbeq_tools.cli import Fault, Output, run_script
from bbeq_tools.report.cared import add_care_words, care_of_report, invariant_word, why_open
from bbeq_tools.report.filler import STYLES, Filler
from bbeq_tools.report.ports import around
from bbeq_tools.report.reports import (all_lines, filled_in, other_texts, read_report, tables,
                                       verdict)
from bbeq_tools.report.unused import with_unused
from bbeq_tools.verilog.language import read_modules, top_of
from bbeq_tools.words import Words


def parse_words():
    parser = Words(prog="fill", description=__doc__.split("\n\n")[0])
    parser.add_argument("report", metavar="REPORT",
                        help="a file with what bbeq printed; - is standard input")
    parser.add_argument("implementation", metavar="IMPL", nargs="?",
                        help="the implementation that bbeq read; not with --flat")
    parser.add_argument("-o", "--output", metavar="OUT",
                        help="where to write (otherwise standard output)")
    parser.add_argument("--top", help="the top module, as --top-impl of bbeq")
    parser.add_argument("--style", choices=tuple(STYLES),
                        help="contents as short expressions (sums, the default), as a case "
                        "statement with a line a row, or for each output with rows of equal bits "
                        "joined (casez), or as trees of choices (assign); bbeq reads sums and "
                        "assign")
    whose = parser.add_mutually_exclusive_group()
    whose.add_argument("--shared", action="store_true", help="the report is one with --shared: its "
                       "tables are those of modules, each of which is filled in its place")
    whose.add_argument("--boxes", action="store_true",
                       help="it is not, where its tables would fit as those of modules too")
    parser.add_argument("--only", action="store_true", help="write the filled modules alone")
    parser.add_argument("--rtl", action="append", default=[], metavar="FILE", help="give the "
                        "filled modules the parameters that they have in this RTL, so that its "
                        "instances fit; the contents are those of the values that were compared")
    parser.add_argument("--spec", metavar="SPEC", help="join as `default` the rows that no vector "
                        "brings to a box of the top, with the other tables as they are; the "
                        "program has to find the two repairable with 0 there and with 1")
    parser.add_argument("--top-spec", help="the top module of SPEC, as for bbeq")
    add_care_words(parser)
    parser.add_argument("--flat", action="store_true", help="write the filled implementation that "
                        "stands in a report of bbeq --fill")
    parser.add_argument("--ports", metavar="IMPL", help="with --flat: write a module with the name "
                        "and the ports of this implementation around it")
    words = parser.parse_args()
    if words.flat and (words.implementation or words.style or words.shared or words.boxes
                       or words.only or words.rtl or words.spec or words.top_spec or words.top
                       and not words.ports):
        parser.error("--flat stands with REPORT, --ports and its --top, and -o alone")
    if (words.care or words.invariant) and not words.spec:
        parser.error("--care and --invariant stand with --spec, which has bbeq compare again")
    if not words.flat and (words.implementation is None or words.ports):
        parser.error("--ports stands with --flat alone" if words.ports else "IMPL is missing")
    words.style = words.style or "sums"
    return words


COMMENT = re.compile(r"//[^\n]*|/\*.*?\*/", re.DOTALL)
HEADER = re.compile(r"\bmodule\s+(?:automatic\s+|static\s+)?(\w+)(.*?)\bendmodule\b", re.DOTALL)


def parameters(paths):
    """For each module of the RTL the list of its parameters, as it is to stand behind the module's
    name."""
    found = {}
    for path in paths:
        with open(path, encoding="latin-1") as file:
            text = COMMENT.sub(" ", file.read())
        for module in HEADER.finditer(text):
            name, rest = module.groups()
            listed = re.match(r"[^;(]*#\s*\((.*?)\)\s*(?:\(|;)", rest, re.DOTALL)
            parts = [listed.group(1)] if listed else re.findall(r"\bparameter\b[^;]*", rest)
            if parts:
                found[name] = f" #({', '.join(' '.join(part.split()) for part in parts)}) "
    return found


def filler_of(words, text, modules, lines, shared):
    return Filler(text, modules, tables(lines), words.style, other_texts(lines),
                  parameters(words.rtl), shared)


def has_other_contents(other, top, filler):
    """Whether tables that are read as those of modules fit too, and fill some box otherwise."""
    try:
        other.fill(top, True)
    except Fault:
        return False
    return other.variants != filler.variants


def write_flat(words):
    """The filled implementation of the report, in a module with the ports of the implementation
    where this is asked for."""
    output = Output(words.output, [words.report, *([words.ports] if words.ports else [])])
    lines, is_whole = all_lines(words.report)
    filled = filled_in(words.report, lines, is_whole)
    tell_invariant(lines)
    output.write((around(words.ports, words.top, filled) if words.ports else "") + filled)


def tell_invariant(lines):
    """From which states the filled implementation is right."""
    if invariant_word(lines) == "kept":
        print("fill: the filled implementation behaves as the specification from states in which "
              "the invariant is 1; that it starts in such a state is for you to show",
              file=sys.stderr)


def command():
    words = parse_words()
    if words.flat:
        write_flat(words)
        return
    output = Output(words.output, [words.report, words.implementation, *words.rtl,
                                   *([words.spec] if words.spec else [])])
    if words.shared and words.spec:
        raise Fault("--spec goes by the rows of each box, so it does not stand beside --shared")
    lines = read_report(words.report)
    if verdict(lines) != "repairable":
        raise Fault(f"{words.report}: the report has no tables, since its verdict is "
                    f"{verdict(lines)}{why_open(lines)}")
    text, modules = read_modules(words.implementation)
    top = top_of(words.implementation, modules, words.top)
    filler = filler_of(words, text, modules, lines, words.shared)
    if words.spec:
        care_of_report("fill", words, lines, "rows are joined that no vector brings, also none "
                       "where the invariant {} is 0")
        filler.tables = with_unused(words, text, modules, top, filler.tables)
    filler.check_parameters()
    filled = filler.fill(top, words.only)
    if (not words.shared and not words.boxes
            and has_other_contents(filler_of(words, text, modules, lines, True), top, filler)):
        raise Fault(f"{words.report}: the tables fit as those of boxes and as those of modules: "
                    "say --boxes or --shared")
    for warning in filler.warnings():
        print(f"fill: warning: {warning}", file=sys.stderr)
    tell_invariant(lines)
    output.write(filled)


def main():
    run_script("fill", command)
