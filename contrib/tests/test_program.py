"""The program with hostile files, streams, limits and moments, and on texts that are damaged: each
run ends with a status of its own, and says nothing on standard error."""
import os
import random
import signal
import subprocess
import time

from bbeq_tools.developing.drawn import drawn_pair
from tests.tries import BBEQ, LIMIT, Tries, bbeq, example, read, run, write

MUTATED = int(os.environ.get("CHECK_MUTATED", "1000"))
SPEC, IMPLEMENTATION = example("carry", "spec.v"), example("carry", "impl.v")
MARKS = "();,[]{}=~&|^?:@.\\\"'*/"
PIECES = ("module ", "endmodule ", "assign ", "input ", "4'b1x0z ", "[1:0]", "(* ", "/* ", "1",
          "x ")
WHOLE = "module m(a, y); input a; output y; assign y = {}; endmodule\n"


def shell(command, *words):
    """A line of bash, whose $1 and so on are the words, and whose $0 is the program."""
    return run(["bash", "-o", "pipefail", "-c", command, BBEQ, *words])


def streams_part(tally, folder):
    """Where a text comes from and where the report goes."""
    os.mkfifo(os.path.join(folder, "pipe"))
    for name, command, status, out in (
            ("a folder", '"$0" . "$2"', 4, "unread spec\n"),
            ("a folder for the second", '"$0" "$1" .', 4, "unread impl\n"),
            ("pipes", '"$0" <(cat "$1") <(cat "$2")', 0, None),
            ("standard input", '"$0" /dev/stdin "$2" <"$1"', 0, None),
            ("a named pipe", 'cat "$1" >"$3/pipe" & "$0" "$3/pipe" "$2"', 0, None),
            ("a text twice", '"$0" "$1" "$1"', 0, None),
            ("/dev/null", '"$0" /dev/null "$2"', 2, "refused spec"),
            ("/dev/zero", '"$0" /dev/zero "$2"', 2, "refused spec toolong\n"),
            ("no file", '"$0" "$3/none" "$2"', 4, "unread spec\n"),
            ("an empty name", '"$0" "" "$2"', 2, "refused usage\n"),
            ("a full device", '"$0" "$1" "$2" >/dev/full', 6, ""),
            ("closed output", '"$0" "$1" "$2" >&-', 6, ""),
            ("a broken pipe", '"$0" "$1" "$2" | exec true; exit "${PIPESTATUS[0]}"', 6, ""),
            ("closed input", '"$0" "$1" "$2" <&-', 0, None),
            ("closed error", '"$0" "$1" "$2" 2>&-', 0, None),
            ("a word that is not UTF-8", '"$0" $\'\\xff\' "$2"', 5, "")):
        done = shell(command, SPEC, IMPLEMENTATION, folder)
        if out is None:
            right = done.status == status and done.out.endswith("verdict repairable\n")
        else:  # A pipe that is broken late has taken the report.
            right = (done.status == status or name == "a broken pipe"
                     and done.status == 0) and done.out.startswith(out)
        tally.note(f"bbeq with {name}", right and (out != "" or not done.out) and not done.err,
                   done.why())


def texts():
    """Texts in place of the specification, and how the answer begins."""
    text = read(SPEC)
    noise = random.Random(1).randbytes(5_000_000).decode("latin-1")
    chain = "".join(f"wire w{n}; not(w{n}, {f'w{n - 1}' if n else 'a'});\n" for n in range(100_000))
    yield "a byte order mark", "\xef\xbb\xbf" + text, "refused spec token line 1"
    yield "two bytes a letter", "\xff\xfe" + "\0".join(text) + "\0", "refused spec token line 1"
    yield "CR and LF", text.replace("\n", "\r\n"), "rung"
    yield "CR alone", text.replace("\n", "\r"), "r"
    yield "a zero byte", text.replace("module", "mod\0ule", 1), "refused spec"
    yield "noise", noise, "refused spec token line 1"
    yield "an executable", read(BBEQ), "refused spec t"
    yield "5,000,000 parentheses", WHOLE.format("(" * 5_000_000 + "a" + ")"
                                                * 5_000_000), "refused spec deep line 1"
    yield "10,000,000 tildes", WHOLE.format("~" * 10_000_000 + "a"), "refused"
    yield "a chain of 100,000 wires", WHOLE.format("w99999;\n"
                                                   + chain.rstrip(";\n")), "refused pair port"
    yield "a comment that does not end", text + "/*", "refused spec token"
    yield "a name of 1,000,000 letters", WHOLE.format("a"
                                                      * 1_000_000), "refused spec unknown line 1"
    yield "a text that ends in a module", text[:text.rindex("endmodule")], "refused spec unended"


def texts_part(tally, folder):
    for name, text, answer in texts():
        done = bbeq(write(folder, "text.v", text), IMPLEMENTATION)
        right = done.status in (0, 1, 2, 3) and done.out.startswith(answer) and not done.err
        tally.note(f"bbeq with {name}: {done.out[:40].strip()}", right, done.why())


def limits_part(tally, folder):
    # Below some 4 MB the system does not begin a program.
    for limit, statuses in (("-v 4000", (0, 5, 126, 127, 134, 137, 139)), ("-v 20000", (0, 5)),
                            ("-v 200000", (0, 5)), ("-s 256", (0,)), ("-n 3", (4, 127)),
                            ("-t 1", (0,))):
        done = shell(f'ulimit {limit}; exec "$0" "$1" "$2"', SPEC, IMPLEMENTATION)
        right = done.status in statuses and (done.status != 5 or not done.out)
        tally.note(f"bbeq under ulimit {limit}: status {done.status}", right, done.why())
    done = shell('ulimit -v 200000; exec "$0" --nodes 50000000 "$1" "$2"', SPEC, IMPLEMENTATION)
    tally.note("bbeq --nodes 50000000 under ulimit -v 200000",
               (done.status, done.out, done.err) == (5, "", ""), done.why())


def moments_part(tally, folder):
    """A signal ends a run; one that is stopped goes on."""
    pipe = os.path.join(folder, "slow")
    os.mkfifo(pipe)
    for number in (signal.SIGTERM, signal.SIGINT, signal.SIGHUP):
        child = subprocess.Popen([BBEQ, pipe, IMPLEMENTATION], stdout=subprocess.PIPE,
                                 stderr=subprocess.PIPE, text=True,
                                 preexec_fn=lambda number=number: signal.signal(number,
                                                                                signal.SIG_DFL))
        time.sleep(0.2)
        child.send_signal(number)
        out, err = child.communicate(timeout=LIMIT)
        right = (child.returncode, out, err) == (-number, "", "")
        tally.note(f"bbeq ends at signal {int(number)}", right, f"{child.returncode} {err}")
    child = subprocess.Popen([BBEQ, "--make", "256"], stdout=subprocess.PIPE,
                             stderr=subprocess.PIPE, text=True)
    child.send_signal(signal.SIGSTOP)
    time.sleep(0.2)
    child.send_signal(signal.SIGCONT)
    out, err = child.communicate(timeout=LIMIT)
    right = child.returncode == 0 and out.endswith("verdict repairable\n") and not err
    tally.note("bbeq goes on after it was stopped", right, err)


def mutated(text, draw):
    """A text with a few bytes or pieces taken away, doubled, exchanged, or replaced by others."""
    for _ in range(draw.randrange(1, 4)):
        at, to = sorted(draw.randrange(len(text) + 1) for _ in range(2))
        to = min(to, at + draw.choice((1, 1, 2, 8, 40)))
        some = draw.choice((chr(draw.randrange(256)), draw.choice(MARKS) * 2, draw.choice(PIECES)))
        piece = draw.choice(("", text[at:to] * 2, text[at:to][::-1], some, some, some))
        text = text[:at] + piece + text[to:]
    return text


def mutated_part(tally, folder):
    wrong, statuses = [], set()
    for seed in range(MUTATED):
        draw, pair = random.Random(f"mutated {seed}"), drawn_pair(seed)
        changed = [mutated(text, draw) if draw.randrange(3) else text for text in pair]
        done = bbeq(*(write(folder, name, text)
                      for name, text in zip(("spec.v", "impl.v"), changed)))
        statuses.add(done.status)
        if done.status not in (0, 1, 2, 3) or done.err or not done.out.endswith("\n"):
            wrong.append((seed, done.why()))
    tally.note(f"bbeq on {MUTATED} damaged pairs: statuses {sorted(statuses)}", not wrong,
               str(wrong[:2]))


class Program(Tries):
    part = "program"

    def test_streams(self):
        streams_part(self, self.folder)

    def test_texts(self):
        texts_part(self, self.folder)

    def test_limits(self):
        limits_part(self, self.folder)

    def test_moments(self):
        moments_part(self, self.folder)

    def test_mutated(self):
        mutated_part(self, self.folder)
