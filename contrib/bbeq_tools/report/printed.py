"""How a script prints a report of bbeq, and the lines that are verdicts."""
import sys

from bbeq_tools.cli import write_bytes

MOST_BITS = 4_096  # Of a table on a terminal.


def is_verdict(line: str) -> bool:
    return line in ("verdict error", "verdict open", "verdict repairable")


def print_report(report: str) -> None:
    """Prints a report byte for byte, on a terminal without the bits of long tables."""
    if sys.stdout.isatty():
        report = "".join(map(on_terminal, report.splitlines(keepends=True)))
    write_bytes(report.encode("latin-1", "backslashreplace"))


def on_terminal(line: str) -> str:
    front, _, bits = line.rstrip("\n").rpartition(" ")
    if not line.startswith("table ") or len(bits) <= MOST_BITS:
        return line
    return f"{front} .. ({len(bits):,} bits, which a report in a file has)\n"
