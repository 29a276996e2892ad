"""How a script of this folder runs, what it cannot work with, and the text that it writes.

A start of `solve` takes longer than many runs of bbeq, so the modules that it needs at first import
at the top only what loads in no time, here and elsewhere; the rest they import where it is used."""
from __future__ import annotations

import errno
import os
import signal
import sys

TYPE_CHECKING = False
if TYPE_CHECKING:
    from typing import Callable, Iterable, NoReturn, TextIO

WRONG_WORDS, FAILED = 64, 125  # Statuses; 0 to 6 are the program's own.


class Fault(Exception):
    """A text or a report that a script cannot work with; the message is one line."""


class Misuse(Fault):
    """Words that a script does not take."""


def python_call(module: str) -> list[str]:
    """The words that run the command of a module of this package in a process of its own."""
    start = os.path.join(os.path.dirname(os.path.realpath(__file__)), "start.py")
    cache = (["-X", f"pycache_prefix={sys.pycache_prefix}"] if sys.pycache_prefix
             else ["-B"] * sys.dont_write_bytecode)
    return [sys.executable, "-I", "-S", *cache, start, f"bbeq_tools.{module}", sys.argv[0]]


class Closed:
    """What stands for a standard stream that the caller has closed."""

    def write(self, _text: str) -> NoReturn:
        raise OSError(errno.EBADF, "it is closed", "standard output")

    def flush(self) -> None:
        pass

    def isatty(self) -> bool:
        return False


def run_script(name: str, main: Callable[[], None]) -> None:
    """Runs a script; what it cannot do is said on standard error, and the status is 125. Where a
    person or a signal ends it, what it started is ended too, and the status is that of the
    signal."""
    sys.setrecursionlimit(20_000)  # The language nests to 200, each of which takes several calls.
    signal.signal(signal.SIGTERM, lambda number, _frame: sys.exit(128 + number))
    sys.stdout = sys.stdout or Closed()  # type: ignore[assignment]
    # Where standard error is closed, what is printed there would go to standard output.
    sys.stderr = sys.stderr or open(os.devnull, "w", encoding="ascii", errors="replace")
    for stream in (sys.stdout, sys.stderr):
        if hasattr(stream, "reconfigure"):
            stream.reconfigure(errors="backslashreplace")
    try:
        main()
        sys.stdout.flush()
    except SystemExit:
        Output.put_aside()
        raise
    except KeyboardInterrupt:
        end(128 + signal.SIGINT)
    except BrokenPipeError:
        end(FAILED)
    except (Fault, OSError) as fault:
        text = (f"{fault.filename or 'standard output'}: {fault.strerror}"
                if isinstance(fault, OSError) else str(fault))
        for line in text.splitlines():
            print(f"{name}: {line}", file=sys.stderr)
        end(WRONG_WORDS if isinstance(fault, Misuse) else FAILED)
    except Exception:  # pylint: disable=broad-except
        import traceback
        traceback.print_exc()
        end(FAILED)


def write_bytes(text: bytes) -> None:
    """Writes to standard output as it is."""
    sys.stdout.flush()
    if isinstance(sys.stdout, Closed):
        sys.stdout.write("")
    sys.stdout.buffer.write(text)
    sys.stdout.flush()


def end(status: int) -> NoReturn:
    """Ends the script; what was not written has no older text, and what is left of its output goes
    nowhere."""
    Output.put_aside()
    if not isinstance(sys.stdout, Closed):
        os.dup2(os.open(os.devnull, os.O_WRONLY), sys.stdout.fileno())
    sys.exit(status)


class Output:
    """The text that a script is to write: to a file, or to standard output where none is named.

    It is written beside the file, and gets its name when it is whole. Where the run ends otherwise,
    a file of that name that was there gets `~` behind its name, unless the script reads it, so that
    no older text is taken for the one that was asked for."""

    begun: list[Output] = []

    def __init__(self, path: str | None, inputs: Iterable[str] = (),
                 encoding: str = "latin-1") -> None:
        self.path, self.encoding = path, encoding
        is_older = path is not None and os.path.isfile(path) and not any(
            os.path.exists(other) and os.path.samefile(path, other) for other in inputs)
        self.older = os.path.realpath(path) if path is not None and is_older else None
        Output.begun.append(self)

    def write(self, text: str) -> None:
        self.older = None
        if self.path is None:
            sys.stdout.write(text)
            return
        try:
            if os.path.exists(self.path) and not os.path.isfile(self.path):
                self.fill(open(self.path, "w", encoding=self.encoding, errors="backslashreplace"),
                          text)
            else:
                self.replace(os.path.realpath(self.path), text)
        except OSError as error:
            raise Fault(f"{self.path}: {error.strerror}") from None

    @staticmethod
    def fill(file: TextIO, text: str) -> None:
        with file:
            file.write(text)

    def replace(self, path: str, text: str) -> None:
        import tempfile
        handle, beside = tempfile.mkstemp(prefix=".", suffix=".part", dir=os.path.dirname(path))
        try:
            self.fill(open(handle, "w", encoding=self.encoding, errors="backslashreplace"), text)
            mask = os.umask(0)
            os.umask(mask)
            os.chmod(beside, 0o666 & ~mask)
            os.replace(beside, path)
        except BaseException:
            os.remove(beside)
            raise

    @staticmethod
    def put_aside() -> None:
        """The older texts of what was not written."""
        for output in Output.begun:
            if output.older and os.path.isfile(output.older):
                os.replace(output.older, output.older + "~")
