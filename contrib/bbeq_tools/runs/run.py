"""Runs bbeq on each part of a folder that `parts` wrote, and joins the answers; or on each pair of
a list.

Runs go to GNU parallel where it is installed, else one goes after another. A report is kept under a
hash of the two texts, the words and the program, and is not made again while these stay. A line of
a list has SPEC, IMPL and words of bbeq, quoted as in a shell, and behind a word `=` the verdict
that is due, where one is; files are looked for from the list's folder."""
import os
import re
import shlex
import sys
from fcntl import LOCK_SH

from bbeq_tools.cli import Fault, Misuse, run_script
from bbeq_tools.report.printed import print_report
from bbeq_tools.runs.folders import SIDES, locked, read_parts
from bbeq_tools.runs.joined import STATUSES, joined
from bbeq_tools.runs.kept import Job
from bbeq_tools.runs.program_words import unknown_word
from bbeq_tools.runs.runs import CLIMB_SECONDS, Runs
from bbeq_tools.words import Words

REFUSED = ("fill", "make", "rup", "proof", "invariant")
NOT_AS_LISTED = 7
GIVEN_BY = {"proved": "by the proved program", "unproved": "by the unproved program",
            "unknown": "by a program from elsewhere"}


def parse_words():
    parser = Words(prog="run", description=__doc__.split("\n\n")[0],
                   usage="run FOLDER|LIST [options] [words of bbeq]",
                   epilog="The program is $BBEQ, or bbeq on the PATH, or the one that was built in "
                   "this repository. For a folder the status is the program's own, of the joined "
                   "report; for a list 0 where each pair has the verdict that is listed, or some "
                   "verdict where none is, and else 7.", allow_abbrev=False)
    parser.add_argument("target", metavar="FOLDER|LIST",
                        help="a folder of parts, or a list of pairs")
    parser.add_argument("--jobs", type=int, metavar="N",
                        help="how many runs go at once, on each host (otherwise one a processor)")
    parser.add_argument("--hosts", metavar="FILE", help="run on these hosts by ssh, a line each as "
                        "for parallel's --sshloginfile; `:` is this machine")
    parser.add_argument("--timeout", type=float, metavar="SECONDS",
                        help="end a run that takes longer")
    parser.add_argument("--kept", metavar="FOLDER",
                        help="where reports are kept (otherwise FOLDER/kept, or LIST.kept)")
    parser.add_argument("--climb", action="store_true", help="try what is open again, each step "
                        f"for {CLIMB_SECONDS} seconds or those of --timeout")
    parser.add_argument("--part", type=int, metavar="K",
                        help="run this part of a folder alone, and print its own report")
    words, others = parser.parse_known_args()
    words.others = tuple(word for word in others if word != "--")
    for option in ("jobs", "timeout"):
        value = getattr(words, option)
        if value is not None and not value > 0:
            parser.error(f"--{option} is more than 0")
    return words


def check_others(words):
    """Words of bbeq whose reports cannot be joined, and words that are none of bbeq."""
    for option in REFUSED:
        if any(word == f"--{option}" or word.startswith(f"--{option}=") for word in words):
            raise Misuse(f"--{option} is of a pair and not of its parts; give it to bbeq")
    unknown = unknown_word(words)
    if unknown:
        raise Misuse(f"{unknown} is no word of `run` or of bbeq")


def measured(answer):
    return f"{answer.seconds:.2f} s", f"{answer.memory / 1e6:.0f} MB"


# A folder of parts.

def cut_words(pair, words):
    """The words with those for which the pair was cut; others of these would need another cut."""
    for option, cure in (("--shared", "--shared"), ("--care", "--care NAME")):
        given = [word for word in words if word == option or word.startswith(f"{option}=")]
        if given and not any(word.partition("=")[0] == option for word in pair["words"]):
            raise Fault(f"the parts were not cut for {option}: run `parts` with {cure}")
    missing = [word for word in pair["words"]
               if not any(other.partition("=")[0] == word.partition("=")[0] for other in words)]
    return (*missing, *words)


def part_job(folder, number, words):
    return Job(str(number), *(os.path.realpath(os.path.join(folder, str(number), side))
                              for side in SIDES), words)


def run_part(words, pair):
    """Runs one part, beside others that do the same, as an array of jobs of a cluster does."""
    if not 1 <= words.part <= pair["parts"]:
        raise Fault(f"{words.target}: there are parts 1 to {pair['parts']}, and no "
                    f"part {words.part}")
    job = part_job(words.target, words.part, cut_words(pair, words.others))
    with locked(os.path.join(words.target, job.name, "lock")):
        answer = Runs(words,
                      words.kept or os.path.join(words.target, "kept")).all([job]).get(job.name)
    print_report(answer.report if answer else "")
    if not answer or answer.status is None:
        raise Fault(f"part {words.part}: {answer.verdict if answer else 'no answer'}")
    return answer.status


def run_folder(words):
    if words.part is not None:
        with locked(os.path.join(words.target, "lock"), LOCK_SH):
            return run_part(words, read_parts(words.target))
    with locked(os.path.join(words.target, "lock")):
        pair = read_parts(words.target)
        others = cut_words(pair, words.others)
        jobs = [part_job(words.target, number, others) for number in range(1, pair["parts"] + 1)]
        runs = Runs(words, words.kept or os.path.join(words.target, "kept"))
        answers = runs.all(jobs)
    for name, steps in runs.brought.items():
        print(f"run: part {name} was open; {steps} brought it through: {answers[name].verdict}",
              file=sys.stderr)
    lines, status = joined(pair, [answers.get(job.name) for job in jobs])
    print_report("".join(f"{line}\n" for line in lines))
    return status


# A list of pairs.

def listed(path):
    """The pairs of a list: a job for each, and the verdict that is due or None."""
    with open(path, encoding="utf-8", errors="surrogateescape") as file:
        text = file.read()
    if re.search(r"^\s*(end)?module\b", text, re.MULTILINE):
        raise Fault(f"{path}: it is a netlist and no list of pairs; `solve SPEC IMPL` compares two")
    lines = text.splitlines()
    found, folder = [], os.path.dirname(os.path.realpath(path))
    for number, line in enumerate(lines, 1):
        try:
            words = shlex.split(line, comments=True)
        except ValueError as error:
            raise Fault(f"{path}: line {number}: {str(error).lower()}") from None
        due = None
        if "=" in words:
            at = words.index("=")
            words, due = words[:at], " ".join(words[at + 1:])
        if not words:
            continue
        if len(words) < 2 or due == "" or any(word.startswith("-") for word in words[:2]):
            raise Fault(f"{path}: line {number}: a line has SPEC and IMPL, words of bbeq, and the "
                        "verdict that is due behind `=`")
        check_others(words[2:])
        files = [os.path.join(folder, word) for word in words[:2]]
        found.append((Job(str(number), *files, tuple(words[2:])), due))
    return found


def is_as_listed(answer, due):
    if due is None:
        return answer is not None and answer.verdict in STATUSES
    return answer is not None and answer.verdict == due


def unread(job):
    """What the program says of a file that cannot be read, or nothing."""
    for side, path in zip(("spec", "impl"), job[1:3]):
        if not os.path.isfile(path) or not os.access(path, os.R_OK):
            return f"unread {side}"
    return ""


def run_list(words):
    """Runs the pairs of a list, and tells of each its verdict, seconds and memory."""
    pairs = listed(words.target)
    jobs = [job._replace(words=(*job.words, *words.others)) for job, _ in pairs]
    runs = Runs(words, words.kept or f"{words.target}.kept")
    answers = runs.all([job for job in jobs if not unread(job)])
    wrong = 0
    for (job, due), asked in zip(pairs, jobs):
        answer = answers.get(job.name)
        columns = [answer.verdict if answer else unread(job) or "no answer",
                   *(measured(answer) if answer else ("", ""))]
        notes = [] if is_as_listed(answer, due) else [f"listed as {due}" if due else "no verdict"]
        wrong += bool(notes)
        notes += ([f"brought through by {runs.brought[job.name]}"] if job.name in runs.brought
                  else [])
        shown = " ".join([*(os.path.relpath(path) for path in job[1:3]),
                          *map(shlex.quote, asked.words)])
        print(f"{columns[0]:12} {columns[1]:>9} {columns[2]:>8}  {shown}"
              + "".join(f"; {note}" for note in notes))
    print(f"{len(pairs)} pairs: {len(pairs) - wrong} as listed, {wrong} not; "
          f"{GIVEN_BY[runs.kept.kind]}")
    return NOT_AS_LISTED if wrong else 0


def command():
    words = parse_words()
    check_others(words.others)
    if not os.path.exists(words.target):
        raise Fault(f"{words.target}: it is neither a folder of parts nor a list")
    if os.path.isdir(words.target):
        status = run_folder(words)
    elif words.part is not None:
        raise Fault("--part is of a folder of parts")
    else:
        status = run_list(words)
    sys.stdout.flush()
    sys.exit(status)


def main():
    run_script("run", command)
