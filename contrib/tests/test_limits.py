"""Texts at the limits and one past them, files and streams as a system has them, and how much stack
and memory the program needs."""
import os
import resource
import subprocess
import threading
import time

from tests.tries import BBEQ, LIMIT, Done, Tries, write

MOST_BYTES = 33_554_432
BUFFER = "module s(a,y); input a; output y; buf(y,a); endmodule\n"
EQUAL = ("".join(f"rung {rung} none\n" for rung in ("ternary", "symbolic", "local", "output"))
         + "rung input repair\nverdict repairable\n")


def run_limited(words, stack=None, space=None, stdout=subprocess.PIPE, stdin=subprocess.DEVNULL,
                user=None):
    """A run within so many kilobytes of stack and of address space."""

    def prepare():
        for which, size in ((resource.RLIMIT_STACK, stack), (resource.RLIMIT_AS, space)):
            if size:
                resource.setrlimit(which, (size * 1024, size * 1024))
        if user:
            os.setuid(user)

    done = subprocess.run([BBEQ, *words], stdout=stdout, stderr=subprocess.PIPE, stdin=stdin,
                          preexec_fn=prepare, timeout=LIMIT, check=False)
    return Done(done.returncode, (done.stdout or b"").decode("latin-1"),
                done.stderr.decode("latin-1"))


class Pair:
    """Two texts in a folder, and the words that name them."""

    def __init__(self, folder, spec, implementation=BUFFER):
        self.words = [write(folder, "s.v", spec), write(folder, "i.v", implementation)]


def answers(tally, name, done, status, out):
    """The status, and the text or its end where it begins with three dots."""
    right = done.out.endswith(out[3:]) if out.startswith("...") else done.out == out
    tally.note(name, done.status == status and right and not done.err,
               f"{status}, {out[-80:]!r} is due; {done.why()}")


# Limits of a text.


def brackets(count, one="(", other=")"):
    return ("module s(a,y); input a; output y;\nassign y = "
            f"{one * count}a{other * count};\nendmodule\n")


def levels(count):
    inner = "".join(f"module m{i}(a,y); input a; output y; m{i + 1} u(a,y); endmodule\n"
                    for i in range(1, count))
    return f"{inner}module m{count}(a,y); input a; output y; buf(y,a); endmodule\n"


def doubled_levels(count):
    inner = "".join(f"module m{i}(a,y); input a; output y; m{i + 1} u(a,y); m{i + 1} "
                    "v(a,w); endmodule\n" for i in range(1, count))
    return f"{inner}module m{count}(a,y); input a; output y; buf(y,a); endmodule\n"


def wires(last):
    declared = "".join(f"wire [65535:0] w{i};" for i in range(15))
    return f"module s(a,y); input a; output y; buf(y,a); {declared} wire [{last}:0] x;\nendmodule\n"


def many_cells(bits):
    """A chain of 31 operands of 65,536 bits, and one of two operands of so many."""
    chain, pair = " & ".join(["{65536{a}}"] * 31), " & ".join([f"{{{bits}{{a}}}}"] * 2)
    return (f"module s(a,y,w); input a; output [65535:0] y; output [{bits - 1}:0] w;\n"
            f"assign y = {chain};\nassign w = {pair};\nendmodule\n")


def wide_box(pins):
    return (f"module t(a,y); input a; output y; bw u(.p({{{pins}{{a}}}}),.o(y)); endmodule\n"
            f"module bw(p,o); input [{pins - 1}:0] p; output o; endmodule\n")


def assigned(value):
    return f"module s(a,y); input a; output y; wire w;\nassign w = {value};\nbuf(y,a); endmodule\n"


# Operators that are not read.
NO_TOKENS = ("a * a", "a / a", "a % a", "a ** a")
NO_STATEMENTS = ("-a", "+a", "a === a", "a !== a", "a <<< 1", "a >>> 1", "!!a", "!&a", "a +",
                 "a < > a")


def text_limits(tally, folder):
    for name, spec, line in (
            ("200 levels of brackets", brackets(200), None), ("201", brackets(201), "deep line 2"),
            ("200 signs", brackets(200, "~", ""), None),
            ("20,000 signs", brackets(20_000, "~", ""), None),
            ("200 braces", brackets(200, "{", "}"), None),
            ("201 braces", brackets(201, "{", "}"), "deep line 2"),
            ("99 conditions", brackets(99, "(a ? a : ", ")"), None),
            ("10,000 arms", brackets(10_000, "a ? a : ", ""), None),
            ("64 levels of instances", levels(64), None),
            ("65", levels(65), "toodeep " + ".".join(["u"] * 64)),
            ("64 levels of two instances each", doubled_levels(64), "toolarge"),
            ("1,000,000 bits", wires(16_957), None), ("one bit more", wires(16_958), "toolarge"),
            ("a net of 65,537 bits",
             "module s(a,y); input a; output y; buf(y,a);\nwire [65536:0] w; endmodule\n",
             "width line 2 w"), ("an expression of 65,536 bits", assigned("{65536{a}}"), None),
            ("of 65,537", assigned("{65537{a}}"), "width line 2 wide"),
            ("a number of 128 bits", assigned("128'd" + str(2 ** 128 - 1)), None),
            ("of 129", assigned("129'd1"), "token line 2"),
            ("the number 2^31 - 1", assigned(str(2 ** 31 - 1)), None),
            ("2^31", assigned(str(2 ** 31)), "token line 2"),
            ("a sum of 5,000 operands", assigned(" + ".join(["a"] * 5_000)), None),
            ("a &&& a", assigned("a &&& a"), None),
            ("200 levels round sums", brackets(200, "(1'b1 + ", ")"), None),
            ("a shift of 65,536 bits by as many", assigned("{65536{a}} << {65536{a}}"), "toolarge"),
            *((text, assigned(text), "token line 2") for text in NO_TOKENS),
            *((text, assigned(text), "statement line 2") for text in NO_STATEMENTS),
            ("a text of 33,554,432 bytes", " " * MOST_BYTES, "notop"),
            ("a byte more", " " * (MOST_BYTES + 1), "toolong")):
        begun = time.monotonic()
        done = run_limited(Pair(folder, spec).words)
        answers(tally, f"{name}, {time.monotonic() - begun:.2f} s", done, 2 if line else 0,
                f"refused spec {line}\n" if line else EQUAL)
    for bits, status, out in ((33_917, 3, "rung ternary none\nverdict open\n"),
                              (33_918, 2, "refused spec toolarge\n")):
        pair = Pair(folder, many_cells(bits), many_cells(33_917))
        answers(tally, f"30 times 65,536 and {bits} cells",
                run_limited([*pair.words, "--to", "ternary"]), status, out)
    # Of the pins all 0 and all 1 alone are reached, and the rest is least.
    table = "0" * (2 ** 24 - 1) + "1"
    for pins, status, out in ((24, 0,
                               f"...rung input repair\ntable u o {table}\nverdict repairable\n"),
                              (25, 3, "...rung input none\nrung expand wide\nverdict open\n")):
        answers(tally, f"a box of {pins} pins",
                run_limited(Pair(folder, BUFFER, wide_box(pins)).words), status, out)
    for last, status, out in ((2047, 0, EQUAL), (2048, 2, "refused pair pins\n")):
        text = f"module m(a); input [{last}:0] a; endmodule\n"
        answers(tally, f"{last + 1} inputs", run_limited(Pair(folder, text, text).words), status,
                out)


# Files and streams.


def grown_file(tally, folder):
    """A file that grows while it is read gives one of its states."""
    pair = Pair(folder, "")
    text = "".join(f"module m{i}(a,y); input a; output y; m{i + 1} u(a,y); endmodule\n"
                   for i in range(1, 60)) * 20
    pieces = [text[at:at + 997] for at in range(0, len(text), 997)] + [BUFFER]
    states = set()
    for number in range(len(pieces) + 1):
        write(folder, "s.v", "".join(pieces[:number]))
        states.add(run_limited(pair.words).out)
    found = set()
    for _ in range(5):
        write(folder, "s.v", "")

        def grow():
            with open(pair.words[0], "a", encoding="latin-1") as file:
                for piece in pieces:
                    file.write(piece)
                    file.flush()
                    time.sleep(0.001)

        writer = threading.Thread(target=grow)
        writer.start()
        while writer.is_alive():
            found.add(run_limited(pair.words).out)
        writer.join()
    tally.note(f"a file that grows: {len(found)} answers, each of one of its states",
               len(found) > 1 and found <= states, str(found - states)[:200])


def files(tally, folder):
    good = Pair(folder, BUFFER).words
    closed = os.path.join(folder, "closed.v")
    with open(closed, "w", encoding="ascii") as file:
        file.write(BUFFER)
    os.chmod(closed, 0)
    os.chmod(folder, 0o755)
    user = 65534 if os.geteuid() == 0 else None
    for name, words, status, out in (
            ("a folder", [folder, good[1]], 4, "unread spec\n"),
            ("no such file", [good[0], "nowhere.v"], 4, "unread impl\n"),
            ("an empty file", ["/dev/null", good[1]], 2, "refused spec notop\n"),
            ("/dev/zero", ["/dev/zero", good[1]], 2, "refused spec toolong\n"),
            ("/dev/zero second", [good[0], "/dev/zero"], 2, "refused impl toolong\n"),
            ("a file through a file", [good[0] + "/x", good[1]], 4, "unread spec\n"),
            ("a long name", ["x" * 5000, good[1]], 4, "unread spec\n")):
        answers(tally, name, run_limited(words), status, out)
    answers(tally, "a file without permission", run_limited([closed, good[1]], user=user), 4,
            "unread spec\n")
    with subprocess.Popen(["yes"], stdout=subprocess.PIPE) as endless:
        answers(tally, "an endless pipe",
                run_limited(["/dev/stdin", good[1]], stdin=endless.stdout), 2,
                "refused spec toolong\n")
        endless.kill()
    grown_file(tally, folder)


def streams(tally, folder):
    """A status of 6 and no signal where nobody takes the report."""
    small, large = Pair(folder, BUFFER).words, write(folder, "large.v", wide_box(22))
    for name, words in (("a short report", small), ("a long report", [small[0], large])):
        with open("/dev/full", "wb") as full:
            answers(tally, f"{name} on a full disk", run_limited(words, stdout=full), 6, "")
        reader, writer = os.pipe()
        os.close(reader)
        answers(tally, f"{name} into a closed pipe", run_limited(words, stdout=writer), 6, "")
        os.close(writer)
    shown = subprocess.run(["bash", "-c", '"$0" "$1" "$2" | head -c 1; echo " ${PIPESTATUS[0]}"',
                            BBEQ, small[0], large], capture_output=True, text=True, timeout=LIMIT,
                           check=False).stdout
    tally.note(f"a long report into head -c 1: {shown.strip()}", shown == "r 6\n")
    closed = subprocess.run(["bash", "-c", '"$0" "$1" "$1" >&-; echo $?', BBEQ, small[0]],
                            capture_output=True, text=True, timeout=LIMIT, check=False)
    tally.note("a closed standard output", closed.stdout == "6\n", closed.stdout)


# Stack and memory.


def parity(inputs, top, first, rest=""):
    """The sum of all inputs, the first of them behind this."""
    return (f"module {top}(a,y); input [{inputs - 1}:0] a; output y; {rest}assign y = "
            f"{' ^ '.join([first] + [f'a[{i}]' for i in range(1, inputs)])}; endmodule\n")


def deep_pairs():
    """A pair, words, status and the end of the report for each recursion at its bound."""
    for name, count, one, other in (("brackets", 200, "(", ")"), ("braces", 200, "{", "}"),
                                    ("operands", 200, "(a & ", ")"),
                                    ("conditions", 99, "(a ? a : ", ")"),
                                    ("choices", 99, "(", " ? a : a)")):
        yield f"{count} {name}, one in the other", brackets(count, one, other), BUFFER, [], 0, EQUAL
    yield "64 levels of instances", levels(64), levels(64), [], 0, EQUAL
    yield "diagrams of 2,048 variables", parity(2048, "s", "a[0]"), parity(2048, "t",
                                                                           "a[0]"), [], 0, EQUAL
    boxed = parity(2046, "t", "z",
                   "bx u(a[0],z); ") + "module bx(i,o); input i; output o; endmodule\n"
    yield ("diagrams of 2,046 inputs and a box", parity(2046, "s", "a[0]"), boxed, [], 0,
           "...table u o 01\nverdict repairable\n")
    yield ("2,000,000 cells", many_cells(33_917), many_cells(33_917), ["--to", "ternary"], 3,
           "rung ternary none\nverdict open\n")


def stack(tally, folder):
    """What 8,192 kB suffice for, and how few do, to 16 kB; where a stack begins differs from run to
    run."""
    for name, spec, implementation, words, status, out in deep_pairs():
        pair = Pair(folder, spec, implementation)

        def passes(kilobytes):
            done = run_limited([*pair.words, *words], stack=kilobytes)
            return done.status == status and (done.out.endswith(out[3:]) if out.startswith("...")
                                              else done.out == out)

        done = run_limited([*pair.words, *words], stack=8192)
        answers(tally, f"{name} within 8,192 kB of stack", done, status, out)
        if done.status == status:
            low, high = 1, 512
            while low + 1 < high:
                middle = (low + high) // 2
                low, high = (low, middle) if passes(16 * middle) else (middle, high)
            tally.note(f"{name} within {16 * high + 16} kB",
                       all(passes(16 * high + 16) for _ in range(5)))


def memory(tally, folder):
    """The largest budgets, with room for neither. Each vector has two clauses for each row of the
    box, and more than a few are needed."""
    inputs = ", ".join(f"a{i}" for i in range(16))
    spec = f"module s({inputs}, y); input {inputs}; output y; xor(y, {inputs}); endmodule\n"
    box = f"module bx({inputs}, o); input {inputs}; output o; endmodule\n"
    pair = Pair(folder, spec,
                spec.replace("xor(y,", "bx u(").replace("); endmodule", ", y); endmodule") + box)
    answers(tally, "--nodes 50000000 without their memory",
            run_limited([*pair.words, "--nodes", "50000000"], space=400_000), 5, "")
    words = ["--from", "expand", "--clauses", "8000000"]
    answers(tally, "--clauses 8000000 without their memory",
            run_limited([*pair.words, *words], space=100_000), 5, "")


class Limits(Tries):
    part = "limits"

    def test_text_limits(self):
        text_limits(self, self.folder)

    def test_files(self):
        files(self, self.folder)

    def test_streams(self):
        streams(self, self.folder)

    def test_memory(self):
        memory(self, self.folder)

    def test_stack(self):
        stack(self, self.folder)
