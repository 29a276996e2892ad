"""Writes pairs whose answers are known, and measures the program on them.

Forty pairs have no boxes: adders, multipliers, rotators, comparators, priority encoders, lanes of
an ALU, case statements, memories, state machines and counts of ones, each of two structures or of
one and what yosys makes of it; five have a wrong gate. Forty have boxes: arbiters, a chain of
exclusive ors, adders, counts, decimal adders and small processors, each once right and once with a
wrong gate that the boxes hide and do not mend. They are the same in each call, but for what another
yosys makes. FOLDER/list names them with their verdicts, as `run` takes it."""
import os
import shutil
import subprocess
from argparse import Namespace
from typing import Dict, List, Tuple

from bbeq_tools.benchmark.folders import LIST, Listed, read_pairs, write_pairs
from bbeq_tools.benchmark.measures import ABCS, DECIDED, LATE, Limits, Measure, ways_of
from bbeq_tools.benchmark.pairs import holed_plans, plain_plans, small_plans
from bbeq_tools.cli import Fault, python_call, run_script
from bbeq_tools.program import is_program
from bbeq_tools.words import Words

WRONG = 1  # The status where an answer is wrong.
HEAD = (f"{'pair':34} {'due':10} {'gates':>13} {'boxes':>5} {'way':6}",
        f" {'seconds':>8} {'MB':>6} answer")
EPILOG = """--measure compares each pair by `expand` alone, by the whole ladder and, where it has no
boxes and abc is installed, by abc's cec on what yosys writes as BLIF. The status is 1 where an
answer is wrong: error of a right pair, repairable of a wrong one, a refusal, or none at all. An
open verdict, and none within the limits, are counted apart."""


def parse_words() -> Namespace:
    parser = Words(prog="benchmark", description=__doc__.split("\n\n")[0] if __doc__ else None,
                   epilog=EPILOG)
    parser.add_argument("folder", metavar="FOLDER", help="where the pairs are, or are written")
    parser.add_argument("--small", action="store_true", help="six small pairs in place of eighty")
    parser.add_argument("--measure", nargs="+", metavar="PROGRAM",
                        help="run one program or two on the pairs that stand in FOLDER, or are "
                        "written there first")
    parser.add_argument("--only", metavar="TEXT", default="",
                        help="measure pairs with this text in their names")
    parser.add_argument("--limit", type=int, default=20, metavar="SECONDS",
                        help="processor seconds of a run (otherwise 20)")
    parser.add_argument("--memory", type=int, default=4_000, metavar="MB",
                        help="address space of a run (otherwise 4000)")
    parser.add_argument("--runs", type=int, default=1, metavar="N",
                        help="tell the least of so many runs (otherwise one)")
    words = parser.parse_args()
    if min(words.limit, words.memory, words.runs) < 1:
        parser.error("--limit, --memory and --runs are at least 1")
    if words.measure and len(words.measure) > 2:
        parser.error("--measure takes one program or two")
    return words


def told(measure: Measure) -> str:
    by = f" by {measure.line}" if measure.line else ""
    return f" {measure.seconds:8.2f} {measure.memory / 1e6:6.0f} {measure.answer + by:30}"


def row(pair: Listed, way: str, measures: List[Measure]) -> str:
    sizes = "{}+{}".format(*pair.sizes)
    return (f"{pair.name:34} {pair.due:10} {sizes:>13} {pair.boxes:5} {way:6}"
            + "".join(told(measure) + "WRONG " * measure.is_wrong(pair.due)
                      for measure in measures)).rstrip()


def summary(way: str, measures: List[List[Measure]]) -> str:
    """How many pairs were decided this way, and in which time."""
    parts = []
    for several in zip(*measures):
        decided = sum(measure.answer in DECIDED for measure in several)
        late = sum(measure.answer == LATE for measure in several)
        parts.append(f"{decided} of {len(several)} decided, {late} late, "
                     f"{sum(measure.seconds for measure in several):.1f} s")
    return f"{way}: {'; '.join(parts)}"


def measure_all(words: Namespace, pairs: List[Listed]) -> int:
    """Prints a line for each pair and way as it ends, and at last what was decided; the number of
    wrong answers."""
    limits = Limits(words.limit, words.memory * 1_000_000, words.runs)
    abc, wrong = next(filter(None, (shutil.which(name) for name in ABCS)), None), 0
    found: Dict[Tuple[bool, str], List[List[Measure]]] = {}
    print(HEAD[0] + HEAD[1].ljust(47) * len(words.measure), flush=True)
    for pair in pairs:
        for way, measures in ways_of(pair, words.measure, abc, limits):
            found.setdefault((pair.boxes > 0, way), []).append(measures)
            wrong += sum(measure.is_wrong(pair.due) for measure in measures)
            print(row(pair, way, measures), flush=True)
    for (has_boxes, way), several in found.items():
        print(summary(f"{way}, {'with' if has_boxes else 'without'} boxes", several))
    if not abc:
        print("cec: abc is not installed (Debian: apt-get install berkeley-abc)")
    print(f"{len(pairs)} pairs, {wrong} wrong answers")
    return wrong


def write_apart(words: Namespace) -> None:
    """Writes the pairs in a process of its own: the memory that a run is said to take is at least
    that of the process that starts it."""
    command = [*python_call("benchmark.benchmark"), words.folder, *["--small"] * words.small]
    status = subprocess.run(command, check=False).returncode
    if status:
        raise SystemExit(status)


def command() -> None:
    words = parse_words()
    for program in words.measure or ():
        if not is_program(program):
            raise Fault(f"{program} is no program")
    if not words.measure:
        write_pairs(words.folder, small_plans() if words.small
                    else [*plain_plans(), *holed_plans()])
        return
    if not os.path.exists(os.path.join(words.folder, LIST)):
        write_apart(words)
    words.measure = list(map(os.path.abspath, words.measure))
    pairs = [pair for pair in read_pairs(words.folder) if words.only in pair.name]
    if not pairs:
        raise Fault(f"no pair has {words.only} in its name")
    raise SystemExit(WRONG if measure_all(words, pairs) else 0)


def main() -> None:
    run_script("benchmark", command)
