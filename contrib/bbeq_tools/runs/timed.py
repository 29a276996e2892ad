"""Runs a command with a limit of time, and says what it printed, its seconds and its memory. As a
script of its own it runs bbeq on a pair where `run` sends it, on another host too, so it needs no
other file."""
import os
import signal
import sys
import time

OVER = "over"  # In the place of a status: the time was over.
FAILED = 125  # The status of what could not be started.
LONGEST_SLEEP = 0.05  # Seconds between two looks at a run.
SET_PARENT_DEATH_SIGNAL = 1


def unnamed_file():
    """A file that is gone with its last reader. `tempfile` takes longer to load than a small run of
    bbeq, as do other modules that are not imported at the top."""
    try:
        handle = os.open(os.environ.get("TMPDIR") or "/tmp", os.O_TMPFILE | os.O_RDWR, 0o600)
    except OSError:
        import tempfile
        return tempfile.TemporaryFile()
    return open(handle, "w+b")


def die_with(parent):
    """Lets the kernel kill this process where its parent ends."""
    try:
        import _ctypes
        prctl = _ctypes.dlsym(_ctypes.dlopen(None, 0), "prctl")
        _ctypes.call_cdeclfunction(prctl, (SET_PARENT_DEATH_SIGNAL, int(signal.SIGKILL)))
    except (ImportError, AttributeError):  # `ctypes` takes longer, and is more widely known.
        import ctypes
        ctypes.CDLL(None).prctl(SET_PARENT_DEATH_SIGNAL, signal.SIGKILL)
    if os.getppid() != parent:
        os._exit(FAILED)


class Started:
    """A command that runs in a session of its own. Its output goes to a file, so that nobody has
    to read it meanwhile. Where this process is killed, the kernel kills the command, and a guard
    all that the command started: it knows of the command before this begins."""

    def __init__(self, command, most_memory=None, is_quiet=False, guard=None):
        self.output = unnamed_file()
        self.began, self.seconds = time.monotonic(), 0.0
        self.status, self.memory, parent = None, 0, os.getpid()
        self.group = os.fork()
        if not self.group:
            try:
                self.become(command, most_memory, is_quiet, guard, parent)
            except OSError as error:
                os.write(2, f"{command[0]}: {error.strerror}\n".encode("utf-8", "replace"))
            finally:
                os._exit(FAILED)

    def become(self, command, most_memory, is_quiet, guard, parent):
        """What the new process does until it is the command."""
        die_with(parent)
        os.setsid()
        if guard is not None:
            guard.add(os.getpid())
        if most_memory is not None:
            import resource
            resource.setrlimit(resource.RLIMIT_AS, (most_memory, most_memory))
        os.dup2(self.output.fileno(), 1)
        os.set_inheritable(1, True)
        if is_quiet:
            os.dup2(os.open(os.devnull, os.O_WRONLY), 2)
        for number in (signal.SIGPIPE, signal.SIGXFSZ):  # Python ignores these.
            signal.signal(number, signal.SIG_DFL)
        signal.pthread_sigmask(signal.SIG_UNBLOCK, {signal.SIGCHLD})
        os.execvp(command[0], command)

    def has_ended(self, options=os.WNOHANG):
        """Whether it has ended; then its status, its seconds and its most memory are known."""
        if self.status is None:
            ended, status, usage = os.wait4(self.group, options)
            if ended:
                self.status = os.waitstatus_to_exitcode(status)
                self.seconds = time.monotonic() - self.began
                self.memory = usage.ru_maxrss * 1024
        return self.status is not None

    def wait(self, limit):
        """Whether it ended before so many seconds were over; without a limit it does."""
        while not self.has_ended():
            passed = time.monotonic() - self.began
            if limit and passed >= limit:
                return False
            time.sleep(min(LONGEST_SLEEP, 0.001 + passed / 20))
        return True

    def send(self, number):
        """Sends a signal to the command and all that it started."""
        if self.status is None:
            try:
                os.killpg(self.group, number)
            except ProcessLookupError:  # It has no session yet.
                os.kill(self.group, number)

    def end(self):
        """Ends it, with all that it started."""
        self.send(signal.SIGKILL)
        self.has_ended(0)

    def printed(self):
        self.output.seek(0)
        return self.output.read()


def finished(command, limit):
    """What a command printed, its status, the most memory that it took in bytes, and whether its
    time was over."""
    run = Started(command)
    try:
        is_over = not run.wait(limit)
    finally:
        run.end()
    with run.output:
        text = run.printed().decode("utf-8", "replace")
    return text, run.status, run.memory, is_over


def answer(command, limit):
    """The status, the seconds and the bytes of memory as words, and the report."""
    start = time.monotonic()
    text, status, memory, over = finished(command, limit)
    return [str(OVER if over else status), f"{time.monotonic() - start:.2f}",
            str(memory)], "" if over else text


def main():
    """The words: the name of the run, the seconds or 0, the program, the words for it as a list in
    JSON, and two files. It prints a line with the name, the words of the answer and the length of
    the report, and the report."""
    signal.signal(signal.SIGTERM, lambda number, _frame: sys.exit(128 + number))
    import json
    name, limit, program, words, *files = sys.argv[1:]
    found, text = answer([program, *json.loads(words), "--", *files], float(limit))
    report = text.encode("latin-1", "replace")
    sys.stdout.buffer.write(f"{' '.join([name, *found, str(len(report))])}\n".encode() + report
                            + b"\n")


if __name__ == "__main__":
    main()
