"""The processes that a command starts, with the processor time and the memory that each takes.

rt writes no times into its log. A process is therefore looked at in /proc while it runs; what it
takes after the last look, less than a second, is lost."""
import os
import subprocess
import time
from dataclasses import dataclass

TICKS = os.sysconf("SC_CLK_TCK")
PAUSE = 0.5


@dataclass
class Process:
    """A process: times in seconds since the first look, peak memory in bytes."""

    parent: int
    words: list[str]
    folder: str
    began: float
    ended: float = 0.0
    seconds: float = 0.0
    peak: int = 0


def status_of(pid):
    """The fields of /proc/PID/stat after the name: parent 1, user time 11, system time 12, start
    19."""
    with open(f"/proc/{pid}/stat", encoding="utf-8", errors="replace") as file:
        text = file.read()
    return text[text.rindex(")") + 2:].split()


def statuses():
    found = {}
    for name in os.listdir("/proc"):
        if name.isdigit():
            try:
                found[int(name)] = status_of(name)
            except (OSError, ValueError):
                pass  # It has ended.
    return found


def below(root, found):
    """The processes that root started, and those that they started."""
    children = {}
    for pid, fields in found.items():
        children.setdefault(int(fields[1]), []).append(pid)
    reached, waiting = [], [root]
    while waiting:
        pid = waiting.pop()
        reached.append(pid)
        waiting += children.get(pid, ())
    return reached[1:]


def peak_of(pid):
    with open(f"/proc/{pid}/status", encoding="utf-8", errors="replace") as file:
        for line in file:
            if line.startswith("VmHWM:"):
                return 1024 * int(line.split()[1])
    return 0


class Watch:
    """What is known of the processes below one."""

    def __init__(self, root):
        self.root, self.start, self.seen = root, time.monotonic(), {}

    def look(self):
        found, now = statuses(), time.monotonic() - self.start
        for pid in below(self.root, found):
            try:
                self.note(pid, found[pid], now)
            except OSError:
                pass  # It has ended since the statuses were read.

    def note(self, pid, fields, now):
        """A process may become another program, so its words are read at each look."""
        with open(f"/proc/{pid}/cmdline", "rb") as file:
            words = file.read().decode("utf-8", "replace").split("\0")[:-1]
        folder = os.readlink(f"/proc/{pid}/cwd")
        process = self.seen.setdefault((pid, fields[19]), Process(int(fields[1]), [], "", now))
        process.words, process.folder = words or process.words, folder
        process.ended = now
        process.seconds = (int(fields[11]) + int(fields[12])) / TICKS
        process.peak = max(process.peak, peak_of(pid))


def watched(words, on_line, **how):
    """Runs a command, gives each line that it writes to on_line, and returns its status and the
    watch."""
    running = subprocess.Popen(words, stdin=subprocess.DEVNULL, stdout=subprocess.PIPE,
                               stderr=subprocess.STDOUT, **how)
    watch, rest = Watch(running.pid), b""
    os.set_blocking(running.stdout.fileno(), False)
    try:
        while running.poll() is None:
            watch.look()
            rest = forwarded(rest + (running.stdout.read() or b""), on_line)
            time.sleep(PAUSE)
        rest = forwarded(rest + (running.stdout.read() or b""), on_line)
    finally:
        if running.poll() is None:
            running.terminate()
            running.wait()
    if rest:
        on_line(rest.decode("utf-8", "replace"))
    return running.returncode, watch


def forwarded(text, on_line):
    """Gives the whole lines of text to on_line, and returns what comes after the last of them."""
    *lines, rest = text.split(b"\n")
    for line in lines:
        on_line(line.decode("utf-8", "replace"))
    return rest
