"""What `fill` makes of the tables of a report, beside the specification in a simulator: drawn pairs
with registers of one to three clocks and both edges are taken through events, and outputs and
states are to be the same. A bit of a table is flipped as well: where `evaluate` finds that the
tables agree no more, the simulator has to see it, and elsewhere it may not."""
import os
from concurrent.futures import ThreadPoolExecutor

from bbeq_tools.developing.clocked import Clocked
from tests.test_events import differences
from tests.tries import Tries, bbeq, run, script, write

DRAWN = int(os.environ.get("CHECK_FILLED_EVENTS", "300"))
STYLES = ("sums", "case", "casez", "assign")


def drawn_pairs():
    """Those that some contents make equal; each third has a mistake elsewhere."""
    seed = 0
    while True:
        if seed % 3 != 2:
            yield seed, Clocked(seed, reads_clocks=True)
        seed += 1


def flipped(report, draw):
    """The report with one bit of one table flipped."""
    lines = report.splitlines()
    at = draw.choice([place for place, line in enumerate(lines) if line.startswith("table ")])
    head, _, bits = lines[at].rpartition(" ")
    place = draw.randrange(len(bits))
    lines[at] = f"{head} {bits[:place]}{1 - int(bits[place])}{bits[place + 1:]}"
    return "".join(f"{line}\n" for line in lines)


class Filled:
    """A pair with its report, and what became of it."""

    def __init__(self, folder, seed, pair):
        self.pair, self.name, self.why = pair, f"drawn pair {seed}", ""
        self.folder, self.style = os.path.join(folder, str(seed)), STYLES[seed % len(STYLES)]
        os.mkdir(self.folder)
        self.care = ["--care", pair.care] if pair.care else []
        self.texts = [write(self.folder, "spec.v", pair.specification),
                      write(self.folder, "impl.v", pair.implementation)]
        done = bbeq(*self.texts, *self.care)
        self.status, self.right = done.status, None
        if done.status == 0:
            self.right = self.simulated(done.out)
            changed = flipped(done.out, pair.draw)
            report = write(self.folder, "changed", changed)
            self.agrees = run([script("evaluate"), *self.texts, report, *self.care]).status
            self.changed = self.simulated(changed)

    def simulated(self, report):
        """How many differences the simulator sees where the boxes have these tables, or -1."""
        path = write(self.folder, "report", report)
        made = run([script("fill"), "--boxes", "--style", self.style, path, self.texts[1]])
        done = made if made.status else differences(self.folder, self.pair, "t", made.out)
        self.why = done.why()
        return int(done.out) if done.status == 0 and done.out.strip().isdecimal() else -1


class FilledEvents(Tries):
    part = "filled_events"

    def test_filled_events(self):
        drawn = drawn_pairs()
        with ThreadPoolExecutor(os.cpu_count()) as pool:
            found = list(pool.map(lambda pair: Filled(self.folder, *pair),
                                  [next(drawn) for _ in range(DRAWN)]))
        for one in found:
            self.note(f"{one.name}: the filled text runs as the specification",
                      one.status == 0 and one.right == 0, one.why)
        planted = [one for one in found if one.status == 0 and one.agrees == 1]
        for one in found:
            if one.status == 0 and one not in planted:
                self.note(f"{one.name}: a bit that does not matter",
                          one.agrees == 0 and one.changed == 0, one.why)
        self.note("each planted difference can be simulated",
                  all(one.changed >= 0 for one in planted))
        # Where a care output is 0 in most states, runs end before they come to the difference.
        due = [one for one in planted if not one.pair.care]
        seen = sum(one.changed > 0 for one in due)
        self.note(f"{seen} of {len(due)} planted differences are seen",
                  len(due) >= DRAWN // 5 and seen >= 0.95 * len(due))
