"""Runs several ways at once: so many of them go on as there are processors, those that have had the
least time first, and the others wait, begun or not. The first answer that decides ends all."""
import os
import signal
import sys
import time

from bbeq_tools.runs.answers import Answer
from bbeq_tools.runs.timed import Started

TOLD_EACH = 4  # Seconds between lines of progress.
TICK, LEAST_SLICE = 0.1, 0.25  # Seconds.
DELAY = 0.1  # Seconds after which a way begins that has to make texts first.


def available_memory():
    """The bytes that are free on this machine, or in the control group where that has fewer."""
    with open("/proc/meminfo", "rb") as file:
        lines = dict(line.split(b":") for line in file)
    free = int(lines[b"MemAvailable"].split()[0]) * 1024
    most, used = group_memory("max"), group_memory("current")
    return free if most is None or used is None else min(free, max(most - used, 0))


def group_memory(name):
    """A number of bytes of the control group, or None where it has none."""
    try:
        with open(f"/sys/fs/cgroup/memory.{name}", "rb") as file:
            return int(file.read())
    except (OSError, ValueError):
        return None


def resident(process):
    try:
        with open(f"/proc/{process}/statm", "rb") as file:
            return int(file.read().split()[1]) * os.sysconf("SC_PAGE_SIZE")
    except (OSError, IndexError, ValueError):
        return 0


class Turn:
    """A way, the run that it wants or has, and the seconds that its runs had."""

    def __init__(self, name, way, handicap):
        self.name, self.way, self.is_slow = name, way, handicap is not None
        self.seconds = handicap or 0.0
        self.run, self.is_running, self.attempt = None, False, None
        self.answer, self.found = None, []
        self.take(None)

    @property
    def is_left(self):
        return self.attempt is not None

    def take(self, answer):
        """Hands an answer to the way, which wants another run or ends."""
        try:
            self.attempt = self.way.send(answer)
        except StopIteration as end:
            self.attempt, self.answer = None, end.value

    def note(self, answer, why=None):
        rungs = [line for line in answer.report.splitlines() if line.startswith("rung ")]
        said = why or (", ".join(rung[5:] for rung in rungs) if rungs else answer.verdict)
        self.found.append((self.attempt, answer, said))

    def told(self):
        return [(attempt, answer, said) for attempt, answer, said in self.found
                if attempt.is_told or answer.status != 3]

    def go_on(self, budget, guard):
        if self.run is None:
            self.run = Started(self.attempt.command, budget, self.attempt.is_quiet, guard)
        elif not self.is_running:
            self.run.send(signal.SIGCONT)
        self.is_running = True

    def pause(self):
        if self.run is not None and self.is_running:
            self.run.send(signal.SIGSTOP)
        self.is_running = False

    def kill(self):
        if self.run is not None:
            self.run.send(signal.SIGKILL)

    def close(self, guard):
        """Ends its run, and gives what it printed."""
        run, self.run, self.is_running = self.run, None, False
        run.end()
        guard.drop(run.group)
        with run.output:
            return Answer(run.status, run.seconds, run.memory,
                          run.printed().decode("latin-1"))


class Portfolio:
    """The ways by their names. `slow` has those that have to make texts first, each with the
    seconds that it counts as having had."""

    def __init__(self, ways, jobs, budget, guard, slow=None):
        self.turns = [Turn(name, way, (slow or {}).get(name)) for name, way in ways.items()]
        self.jobs, self.budget, self.guard = jobs, budget, guard
        self.began = self.told = self.chosen = self.looked = time.monotonic()
        self.known, self.unfinished = "", []

    def solve(self, limit):
        """The turn that has the answer that decides, or None. `limit` is the time at which there
        has to be one. The signal that a run has ended is held back until it is waited for."""
        signal.signal(signal.SIGCHLD, signal.SIG_DFL)
        others = signal.pthread_sigmask(signal.SIG_BLOCK, {signal.SIGCHLD})
        try:
            return self.take_turns(limit)
        finally:
            signal.pthread_sigmask(signal.SIG_SETMASK, others)

    def take_turns(self, limit):
        is_new = True
        while left := [turn for turn in self.turns if turn.is_left]:
            now = time.monotonic()
            if limit is not None and now >= limit:
                return None
            self.account(now)
            if is_new or now >= self.next_choice():
                self.choose(left, now)
                self.chosen = now
            self.tell(now)
            is_new = False
            for turn in left:
                if turn.run is not None and turn.run.has_ended():
                    self.take(turn)
                    is_new = True
                    if turn.answer:
                        return turn
            is_new = self.bound_memory() or is_new
            if not is_new:
                wakes = [now + TICK, self.next_choice(), self.told + TOLD_EACH,
                         *([limit] if limit is not None else [])]
                signal.sigtimedwait({signal.SIGCHLD}, max(min(wakes) - now, 0))
        return None

    def next_choice(self):
        """The time at which others may take their turn."""
        begun = self.began + DELAY
        return (begun if self.chosen < begun else
                self.chosen + max(LEAST_SLICE, (self.chosen - self.began) / 20))

    def decided_soon(self, name, seconds):
        """The turn of this name, if its run decides within so many seconds."""
        turn = next(turn for turn in self.turns if turn.name == name)
        if turn.run is not None:
            turn.go_on(self.budget, self.guard)
            if turn.run.wait(seconds):
                self.take(turn)
        return turn if turn.answer else None

    def account(self, now):
        for turn in self.turns:
            if turn.is_running:
                turn.seconds += now - self.looked
        self.looked = now

    def take(self, turn):
        answer = turn.close(self.guard)
        if answer.signal:
            print(f"solve: {turn.attempt.label}: {answer.verdict}, which is no answer",
                  file=sys.stderr, flush=True)
        if answer.signal or not turn.attempt.is_quiet:
            turn.note(answer, answer.verdict if answer.signal else None)
        turn.take(answer)

    def choose(self, left, now):
        """Lets those go on that have had the least time, as far as there is memory for all that
        have begun."""
        if now < self.began + DELAY:
            left = [turn for turn in left if not turn.is_slow] or left
        begun = sum(turn.attempt.memory for turn in left if turn.run is not None)
        chosen = []
        for turn in sorted(left, key=lambda turn: turn.seconds):
            if turn.run is None and begun + turn.attempt.memory > self.budget:
                if turn.attempt.memory > self.budget:
                    self.leave(turn, f"needs {told_bytes(turn.attempt.memory)}, more than half of "
                               "the memory that is free")
                continue
            begun += turn.attempt.memory if turn.run is None else 0
            chosen.append(turn)
            if len(chosen) == self.jobs:
                break
        for turn in left:
            if turn not in chosen:
                turn.pause()
        for turn in chosen:
            turn.go_on(self.budget, self.guard)

    def leave(self, turn, why):
        turn.note(Answer(None, 0.0, 0, ""), why)
        turn.attempt = None

    def bound_memory(self):
        """Ends the largest run where all together take more than they may; says whether it did."""
        sizes = {turn: resident(turn.run.group) for turn in self.turns if turn.run is not None}
        if sum(sizes.values()) <= self.budget:
            return False
        largest = max(sizes, key=sizes.get)
        largest.close(self.guard)
        self.leave(largest, "ended, since all runs took more than half of the memory that was free")
        return True

    def tell(self, now):
        if now - self.told < TOLD_EACH:
            return
        self.told = now
        runs = "; ".join(self.told_runs(now))
        print(f"solve: {now - self.began:.0f} s: {runs}", file=sys.stderr, flush=True)
        known = "; ".join(told_found(found) for turn in self.turns for found in turn.told()[-1:])
        if known and known != self.known:
            print(f"solve:   so far {known}", file=sys.stderr, flush=True)
            self.known = known

    def told_runs(self, now):
        """The runs that have begun and not ended."""
        return [f"{turn.attempt.label} ({max(now - turn.run.began, 0):.0f} s, "
                f"{told_bytes(resident(turn.run.group))}{'' if turn.is_running else ', waits'})"
                for turn in self.turns if turn.run is not None]

    def kill(self):
        for turn in self.turns:
            turn.kill()

    def close(self):
        """Ends all runs, and keeps which they were."""
        self.unfinished = self.told_runs(time.monotonic())
        self.kill()
        for turn in self.turns:
            if turn.run is not None:
                turn.close(self.guard)

    def found(self):
        """What is worth telling of what the runs found."""
        return [found for turn in self.turns for found in turn.told()]


def told_found(found):
    attempt, answer, said = found
    took = f" ({answer.seconds:.1f} s, {told_bytes(answer.memory)})" if answer.memory else ""
    return f"{attempt.label}: {said}{took}"


def told_bytes(count):
    return f"{count / 1e9:.1f} GB" if count >= 1e9 else f"{count / 1e6:.0f} MB"
