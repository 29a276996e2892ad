"""What comes of a run of the program."""
from collections import namedtuple

from bbeq_tools.report.printed import is_verdict

KEPT_STATUSES = (0, 1, 3)
SHELL_SIGNALS = 128  # A shell adds this to the signal that ended its command.


class Answer(namedtuple("Answer", "status seconds memory report is_kept", defaults=(False,))):
    """The status is None where the run's time was over."""

    @property
    def verdict(self):
        """The verdict, or what ended the run without one."""
        lines = self.report.splitlines()
        found = next((line for line in lines if is_verdict(line)), None)
        if self.status in KEPT_STATUSES and found:
            return found.split()[1]
        if self.status is None:
            return f"no answer in {self.seconds:.1f} s"
        if self.signal:
            from signal import strsignal
            return f"ended by signal {self.signal} ({strsignal(self.signal) or 'unknown'})"
        return lines[0] if lines else f"status {self.status}"

    @property
    def signal(self):
        """The number of the signal that ended the run, or None; of a shell that ran the program it
        is in the status."""
        if self.status is None or 0 <= self.status <= SHELL_SIGNALS:
            return None
        return -self.status if self.status < 0 else self.status - SHELL_SIGNALS

    @property
    def is_decided(self):
        return self.verdict in ("error", "repairable")
