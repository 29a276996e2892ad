"""Runs a program on pairs, with a limit of processor seconds, and says what it took and what it
answered."""
import os
import resource
import signal
import subprocess
import tempfile
from typing import Callable, Dict, Iterator, List, NamedTuple, Optional, Sequence, Tuple

from bbeq_tools.benchmark.folders import Listed
from bbeq_tools.benchmark.netlists import TO_BLIF, made_by_yosys

ABCS = ("berkeley-abc", "yosys-abc", "abc")  # By the packages that have it.
WAYS: Dict[str, List[str]] = {"expand": ["--from", "expand"], "ladder": []}
DECIDED = ("repairable", "error")
LATE, NO_MEMORY, NOTHING = "late", "no memory", "no answer"
NOT_DECIDED = ("open", LATE, NO_MEMORY, NOTHING)
WANT_OF_MEMORY = 5  # The status of bbeq.
ABC_ANSWERS = {"Networks are equivalent": "repairable", "Networks are NOT EQUIVALENT": "error",
               "Networks are UNDECIDED": "open"}


class Limits(NamedTuple):
    seconds: int
    memory: int  # Bytes of address space.
    runs: int


class Measure(NamedTuple):
    """The least processor seconds of some runs, the most memory in bytes, the answer, and the line
    that decided."""

    seconds: float
    memory: int
    answer: str
    line: str

    def is_wrong(self, due: str) -> bool:
        """It is another answer than the one that is due, and not none in time."""
        return self.answer not in (due, *NOT_DECIDED)


def measured(command: Sequence[str], limits: Limits) -> Tuple[float, int, int, str]:
    """Processor seconds, bytes, status and output of one run. The kernel ends it at its limit."""
    def bound() -> None:
        resource.setrlimit(resource.RLIMIT_CPU, (limits.seconds, limits.seconds + 1))
        resource.setrlimit(resource.RLIMIT_AS, (limits.memory, limits.memory))
        resource.setrlimit(resource.RLIMIT_CORE, (0, 0))

    with tempfile.TemporaryFile() as output:
        child = subprocess.Popen(command, stdin=subprocess.DEVNULL, stdout=output,
                                 stderr=subprocess.DEVNULL, preexec_fn=bound)
        try:
            _, status, usage = os.wait4(child.pid, 0)
            child.returncode = os.waitstatus_to_exitcode(status)
        except BaseException:
            child.kill()
            child.wait()
            raise
        output.seek(0)
        text = output.read().decode("latin-1")
    return (usage.ru_utime + usage.ru_stime, usage.ru_maxrss * 1024, child.returncode, text)


def answer_of(status: int, text: str) -> Tuple[str, str]:
    """The answer of bbeq, and the line of the check that was last."""
    if status == -signal.SIGXCPU:
        return LATE, ""
    if status in (WANT_OF_MEMORY, -signal.SIGKILL):  # Linux kills where it handed out too much.
        return NO_MEMORY, ""
    lines = text.splitlines()
    rungs = [line.partition(" ")[2] for line in lines if line.startswith("rung ")]
    verdicts = [line.partition(" ")[2] for line in lines if line.startswith("verdict ")]
    if not verdicts:
        return " ".join(lines[:1]) or f"status {status}", ""
    return verdicts[-1], rungs[-1] if rungs else ""


def abc_answer_of(status: int, text: str) -> Tuple[str, str]:
    """The answer of abc."""
    if status == -signal.SIGXCPU:
        return LATE, ""
    found = [answer for words, answer in ABC_ANSWERS.items() if words in text]
    return (found or [NOTHING])[0], ""


def least(command: Sequence[str], limits: Limits,
          read: Callable[[int, str], Tuple[str, str]]) -> Measure:
    """The least of some runs; a run that is late is not made again."""
    best: Optional[Measure] = None
    for _ in range(limits.runs):
        seconds, memory, status, text = measured(command, limits)
        now = Measure(seconds, memory, *read(status, text))
        best = now if best is None else now._replace(seconds=min(seconds, best.seconds),
                                                     memory=max(memory, best.memory))
        if now.answer == LATE:
            break
    assert best is not None
    return best


def of_program(program: str, way: Sequence[str], pair: Listed, limits: Limits) -> Measure:
    return least([program, *way, "--", pair.path("spec.v"), pair.path("impl.v")], limits,
                 answer_of)


def of_abc(abc: str, pair: Listed, limits: Limits) -> Measure:
    """abc's cec, on what yosys makes of the texts."""
    paths: List[str] = []
    for side in ("spec", "impl"):
        paths.append(pair.path(f"{side}.blif"))
        if not os.path.exists(paths[-1]):
            made_by_yosys(TO_BLIF, pair.path(f"{side}.v"), "", paths[-1])
    words = " ".join(f'"{path}"' for path in paths)
    return least([abc, "-c", f"cec {words}"], limits, abc_answer_of)


def ways_of(pair: Listed, programs: Sequence[str], abc: Optional[str],
            limits: Limits) -> Iterator[Tuple[str, List[Measure]]]:
    """Each way to compare a pair, with a measure for each program."""
    for name, words in WAYS.items():
        yield name, [of_program(program, words, pair, limits) for program in programs]
    if abc and not pair.boxes:
        yield "cec", [of_abc(abc, pair, limits)]
