"""Tries wrong bodies of a crate's functions, which its proofs must refuse: the .edit files of its
must-fail/, which `rt ci` tries too, and the .md files, which it does not.

It works on a copy of the crates, by `rt ci CRATE`, so that what an earlier `rt ci` proved on this
machine is not proved again. A line for each edit has its processor seconds and the first thing that
refused it. The status is 1 where an edit is let through, cannot be read or was not tried, and 125
where the edits cannot be tried at all.
`contrib/minutes --edits` says when each was last tried."""
import argparse
import datetime
import os
import re
import shutil
import subprocess
import sys
import tempfile

from bbeq_tools.cli import Fault, run_script
from bbeq_tools.words import Words
from gate_tools.kinds import EDITS, SEED, by_work
from gate_tools.processes import watched
from gate_tools.tried import Tried, crates_with_edits, edits_of, read_tried, sum_of, write_tried

TOP = os.path.dirname(os.path.dirname(os.path.dirname(os.path.realpath(__file__))))
SAID = re.compile(
    r"rt: must-fail (\w+)/(\S+)\.edit: ([A-Za-z ]+?)(?:, as it must be)?(?:: (.*)| \((.*)|$)")
REFUSED = "refused"
NOT_TRIED = "NOT TRIED"


def parse_words():
    parser = Words(prog="edits", description=__doc__,
                   formatter_class=argparse.RawDescriptionHelpFormatter)
    parser.add_argument("crates", metavar="CRATE", nargs="*", help="crates with a folder must-fail")
    parser.add_argument("--all", action="store_true", help="all crates that have edits")
    words = parser.parse_args()
    known = crates_with_edits(TOP)
    unknown = [crate for crate in words.crates if crate not in known]
    if unknown:
        parser.error(f"{unknown[0]} is no crate with edits")
    if words.all == bool(words.crates):
        parser.error("name crates, or --all")
    if shutil.which("rt") is None:
        raise Fault("rt of the Rattle kit is not on the PATH")
    return known if words.all else words.crates


def copy_crates(to):
    """What rt reads, without edits and without what it made."""
    for name in ("crates.txt", "HANDLES"):
        shutil.copy(os.path.join(TOP, name), to)
    shutil.copytree(os.path.join(TOP, "crates"), os.path.join(to, "crates"),
                    ignore=shutil.ignore_patterns("out", "must-fail"))
    subprocess.run(["git", "init", "-q", to], check=True)


def put_edits(to, crate):
    """Puts each edit of the crate into the copy; of an .md file the lines that rt reads."""
    source, folder = (os.path.join(it, "crates", crate, "must-fail") for it in (TOP, to))
    os.makedirs(folder)
    for name in os.listdir(source):
        edit, _, end = name.rpartition(".")
        with open(os.path.join(source, name), encoding="utf-8") as file:
            lines = [line for line in file if end == "edit"
                     or line.startswith(("file: ", "old: ", "new:"))]
        with open(os.path.join(folder, f"{edit}.edit"), "w", encoding="utf-8") as file:
            file.writelines(lines)


def results_of(lines):
    """What rt said of each edit: the result and the reason."""
    found = {}
    for line in lines:
        said = SAID.match(line)
        if said:
            found[said[2]] = said[3], (said[4] or said[5] or "")
    return found


def tried(to, crate, before):
    """Tries a crate's edits, and returns a record for each, with what rt wrote."""
    put_edits(to, crate)
    lines = []
    _, watch = watched(["rt", "ci", crate], lines.append, cwd=to)
    shutil.rmtree(os.path.join(to, "crates", crate, "must-fail"))
    works, results = by_work(watch), results_of(lines)
    seconds = {work.edit: sum(it.seconds for it in processes) for work, processes in works.items()
               if (work.crate, work.kind) == (crate, EDITS)}
    seed = sum(it.seconds for work, processes in works.items()
               if (work.crate, work.kind) == (crate, SEED) for it in processes)
    now = datetime.datetime.now(datetime.timezone.utc).strftime("%Y-%m-%d %H:%M")
    records = []
    for number, edit in enumerate(edits_of(TOP, crate)):
        result, reason = results.get(edit, (NOT_TRIED, ""))
        record = Tried(crate, edit, sum_of(TOP, crate, edit), now,
                       round(seconds.get(number, 0.0), 1), result, reason)
        older = before.get((crate, edit))
        is_kept = record.seconds == 0 and older and (older.sum, older.result) == (record.sum,
                                                                                  result)
        records.append(older if is_kept else record)
    return records, seed, lines


def command():
    crates, missed = parse_words(), 0
    with tempfile.TemporaryDirectory(prefix="edits-") as to:
        copy_crates(to)
        for crate in crates:
            table = read_tried(TOP)
            records, seed, lines = tried(to, crate, table)
            write_tried(TOP, {**table, **{(it.crate, it.edit): it for it in records}})
            for it in records:
                print(f"{it.result:12} {it.seconds:6.1f} s  {it.crate}/{it.edit}: {it.reason}")
            print(f"{crate}: {len(records)} edits, {seed:.1f} s for the check that they begin with",
                  flush=True)
            lost = sum(it.result != REFUSED for it in records)
            if any(it.result == NOT_TRIED for it in records):
                print("\n".join(["what rt said at the end:", *lines[-12:]]))
            missed += lost
    print("all were refused" if not missed else f"{missed} were not refused")
    sys.exit(1 if missed else 0)


def main():
    run_script("edits", command)
