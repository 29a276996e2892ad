"""The tries of `page`: pages of all examples and of reports of every kind, hostile names, a large
design, and, where Chromium is installed, what it shows of them."""
import os
import re
import shutil
from html.parser import HTMLParser

from bbeq_tools.page.browser import Browser, find_browser
from bbeq_tools.report.reports import tables
from tests.pages import NAMES, PAIRS, made
from tests.test_bad_input import NAMES as FILES
from tests.tries import Tries, bare_path, bbeq, is_told, read, run, script, write

VOID = {"meta", "br", "path", "line", "rect", "circle", "polygon", "polyline"}
MOST_BYTES, MOST_SECONDS, CELLS = 2_000_000, 2.0, 100_000
ATTACKS = ["<script>document.title='run'</script>", "</script><script>document.title='run'//",
           "<img/src=x/onerror=document.title='run'>", "\"onload=\"document.title='run'",
           "'onclick='document.title=1", "&lt;b&gt;", "&amp;", "&#60;script>", "</pre>", "</svg>",
           "</title><svg/onload=alert(1)>", "<!--", "-->", "]]>", "<![CDATA[", "<?php", "</style>",
           "javascript:alert(1)", "${alert(1)}", "{{7*7}}", "%3Cscript%3E", "\\u003cscript>",
           "<a/href=//x>", "<base/href=//x>", "<iframe/src=//x>", "<link/href=//x>",
           "<meta/http-equiv=refresh>", "<form/action=//x>", "<details/ontoggle=alert(1)>",
           "<summary>", "<use/href=//x>", "<foreignObject>", "<style>*{display:none}</style>",
           "n0:i0:w", "n0;digraph", "label=\"x\"", "|{<i0>}", "a[3:0]", "[0]", "x=1", "`", "~a&b"]


class Reading(HTMLParser):
    """The text of a page, the tags that do not fit, and what it would load."""

    def __init__(self, text):
        super().__init__()
        self.open, self.wrong, self.loads, self.parts, self.scripts = [], [], [], [], 0
        self.feed(text)
        self.close()
        self.wrong += self.open
        self.text = "".join(self.parts)

    def handle_starttag(self, tag, attrs):
        self.scripts += tag == "script"
        for name, value in attrs:
            is_link = name in ("src", "href", "xlink:href", "action", "data", "style")
            if is_link and not (value or "").startswith("#") or name.startswith("on"):
                self.loads.append((tag, name, value))
        if tag not in VOID:
            self.open.append(tag)

    def handle_startendtag(self, tag, attrs):
        if tag not in VOID:
            self.wrong.append(tag)

    def handle_endtag(self, tag):
        if not self.open or self.open.pop() != tag:
            self.wrong.append(tag)

    def handle_data(self, data):
        self.parts.append(data)


def pages(tally, name, words):
    """Makes a page, and tries what holds of each; gives its reading."""
    out = os.path.join(tally.folder, "page.html")
    done = run([script("page"), *words, "-o", out], tally.folder)
    tally.note(f"page of {name}", done.status == 0 and not done.out + done.err, done.why())
    if done.status:
        return None
    reading = Reading(read_utf8(out))
    tally.note(f"{name}: its elements fit", not reading.wrong, str(reading.wrong[:3]))
    tally.note(f"{name}: it loads nothing", not reading.loads, str(reading.loads[:3]))
    tally.note(f"{name}: it has one script", reading.scripts == 1)
    return reading


def read_utf8(path):
    with open(path, encoding="utf-8") as file:
        return file.read()


class Pages(Tries):
    """A page says what the report says."""

    part = "page"
    needs = ()

    def test_reports(self):
        for name in NAMES:
            pair = made(self.folder, name)
            reading = pages(self, name, pair.words)
            if reading:
                self.compare(name, pair, reading.text)

    def compare(self, name, pair, text):
        """Each line of the report, each check and each row of a table stand in the page."""
        lines = pair.text.splitlines()
        missing = [line for line in lines if line not in text]
        self.note(f"{name}: each line of the report", not missing, str(missing[:1]))
        missing = [line for line in lines if line.startswith("rung ")
                   and line.split()[1] not in text]
        self.note(f"{name}: each check", not missing, str(missing[:1]))
        for box, outputs in tables(lines).items():
            rows = ["".join(bits) for bits in zip(*(bits for _, bits in outputs))]
            pins = (len(rows) - 1).bit_length()
            self.note(f"{name}: the rows of {box}", all(
                f"{row:0{pins}b}{bits}" in re.sub(r"\s", "", text)
                for row, bits in enumerate(rows)) or len(rows) > 1024)
        words = {0: ("finished", "Equivalent", "right"), 1: ("error", "differ", "suit", "fails")}
        verdict = lines[-1]
        wanted = (words[0] if verdict in ("verdict repairable", "rup yes") else words[1]
                  if verdict == "verdict error" or verdict.startswith("rup no") else
                  ("Open", "Refused"))
        self.note(f"{name}: its verdict in words", any(word in text for word in wanted))

    def test_words(self):
        pair = made(self.folder, "one")
        reading = pages(self, "one --spec --fill", [*pair.words, "--spec", "--fill"])
        self.note("the filled boxes", "assign s = p ? ~q : q;" in reading.text)
        pair = made(self.folder, "several")
        second = pages(self, "several --vector 2", [*pair.words, "--vector", "2"])
        self.note("the second vector", "Vector 2 of" in second.text)
        text = bbeq(*pair.sides, "--proof", "--fill").out
        self.note("a report with a filled circuit", pages(self, "--fill", [
            write(self.folder, "f", text), *pair.sides]) is not None)
        for words in (["--vector", "9"], ["--top-spec", "other"]):
            done = run([script("page"), *pair.words, *words], self.folder)
            self.note(f"page {' '.join(words)}", is_told(done, "page"), done.why())
        other = made(self.folder, "next")
        done = run([script("page"), pair.words[0], *other.sides], self.folder)
        self.note("a report of other texts", is_told(done, "page"), done.why())

    def test_unused(self):
        """Rows that no vector brings are grey with --spec."""
        spec = write(self.folder, "s.v", "module m(a, y); input a; output y; assign y = ~a; "
                     "endmodule\n")
        impl = write(self.folder, "i.v", "module m(a, y); input a; output y; g u(a, a, y); "
                     "endmodule\nmodule g(p, q, o); input p, q; output o; endmodule\n")
        report = write(self.folder, "r", bbeq(spec, impl).out)
        for words, count in ((["--spec"], 2), ([], 0)):
            done = run([script("page"), report, spec, impl, *words])
            self.note(f"grey rows with {words}", done.out.count('<tr class="unused">') == count,
                      done.why())

    def test_without_dot(self):
        pair = made(self.folder, "ternary")
        tools = bare_path(os.path.join(self.folder, "bin"))
        done = run([script("page"), *pair.words], env={**os.environ, "PATH": tools})
        self.note("without graphviz the page says so", "graphviz" in done.out
                  and "<svg" in done.out and 'class="gate"' not in done.out, done.why())
        done = run([script("page"), *pair.words, "--png", "p.png"], self.folder,
                   env={**os.environ, "PATH": tools})
        self.note("without chromium a picture is refused", done.status not in (0, "none in time")
                  and "chromium is not installed" in done.err, done.why())


def hostile_pair(folder):
    """A pair whose ports, nets, boxes and modules have hostile names, and an error at each."""
    assert len(ATTACKS) == 42
    names = [f"\\{name} " for name in ATTACKS]
    ports = ", ".join([*names, "y"])
    head = f"module top({ports}); input {', '.join(names)}; output y;\n"
    spec = head + f"assign y = {' ^ '.join(names)};\nendmodule\n"
    boxes = "".join(f"wire \\w{name} ; {module} \\b{name} ({module}, \\w{name} );\n"
                    for name, module in zip(ATTACKS, names))
    modules = "".join(f"module {name}(i, o); input i; output o; endmodule\n" for name in names)
    wires = " ^ ".join(f"\\w{name} " for name in ATTACKS)
    impl = head + boxes + f"assign y = 1'b0 & ({wires});\nendmodule\n"
    return write(folder, "s.v", spec), write(folder, "i.v", impl + modules)


class Hostile(Tries):
    """42 names that a browser, or dot, could take for more than a name."""

    part = "page_names"
    needs = ()

    def test_names(self):
        sides = hostile_pair(self.folder)
        report = write(self.folder, "report", bbeq(*sides).out)
        reading = pages(self, "42 hostile names", [report, *sides])
        for name in ATTACKS:
            self.note(f"{name} is shown", name in reading.text)
        browser_shows(self, os.path.join(self.folder, "page.html"), "42 hostile names")
        spec = read(sides[0])
        other = write(self.folder, "o.v", spec.replace("^", "&", 1))
        refused = write(self.folder, "other", bbeq(sides[0], other).out)
        pages(self, "42 hostile names without boxes", [refused, sides[0], other])

    def test_files(self):
        pair = made(self.folder, "nor")
        for name in FILES:
            path = os.path.join(self.folder, name)
            shutil.copy(pair.sides[1], path)
            out = os.path.join(self.folder, "page.html")
            done = run([script("page"), pair.words[0], pair.sides[0], path, "-o", out])
            shown = name.encode("unicode_escape", "backslashreplace").decode()[:40]
            self.note(f"page of the file {shown}", done.status == 0 and not done.err
                      and not Reading(read_utf8(out)).wrong, done.why())
            os.remove(path)


def browser_shows(tally, path, name, seconds=None):
    """What Chromium makes of a page: it asks for nothing else, runs no name, and opens what is
    cut."""
    if not find_browser():
        print(f"left  {name}: chromium is not installed")
        return
    with Browser(1000) as browser:
        browser.open(path)
        asked = [event["params"]["request"]["url"] for event in browser.events
                 if event.get("method") == "Network.requestWillBeSent"]
        tally.note(f"{name}: Chromium asks for the page alone", len(asked) == 1, str(asked[:3]))
        tally.note(f"{name}: no name is run", browser.value("document.title") not in ("run", "1"))
        took = browser.value("performance.getEntriesByType('navigation')[0].loadEventEnd") / 1000
        tally.note(f"{name}: it opens in {took:.2f} s", seconds is None or took <= seconds)
        click(tally, browser, name)


def click(tally, browser, name):
    """Clicks what is cut, the button, and a fold."""
    link = browser.value("(document.querySelector('svg a') || {getAttribute: () => null})"
                         ".getAttribute('href')")
    if link:
        browser.value("document.querySelector('svg a').dispatchEvent("
                      "new MouseEvent('click', {bubbles: true}))")
        tally.note(f"{name}: a click opens what is cut",
                   browser.value(f"document.getElementById('{link[1:]}').open"))
    if browser.value("document.querySelector('button') !== null"):
        browser.value("document.querySelector('button').click()")
        tally.note(f"{name}: the button opens all",
                   browser.value("[...document.querySelectorAll('details')].every(d => d.open)"))


class Shown(Tries):
    """Pages in headless Chromium."""

    part = "page_shown"
    needs = ()

    def test_examples(self):
        for name in NAMES:
            if name not in PAIRS:
                pair = made(self.folder, name)
                if pages(self, name, pair.words):
                    browser_shows(self, os.path.join(self.folder, "page.html"), name)

    def test_picture(self):
        if not find_browser():
            self.skipTest("chromium is not installed")
        pair = made(self.folder, "nor")
        out = os.path.join(self.folder, "p.png")
        done = run([script("page"), *pair.words, "--png", out])
        with open(out, "rb") as file:
            data = file.read()
        self.note("page --png", done.status == 0 and not done.out and data[:4] == b"\x89PNG"
                  and len(data) < 60_000, f"{len(data)} bytes; {done.why()}")

    def test_large(self):
        """A page of a design of 100,000 cells."""
        sides = large_pair(self.folder, CELLS)
        report = write(self.folder, "report", bbeq(*sides, "--to", "ternary").out)
        reading = pages(self, "100,000 cells", [report, *sides])
        out = os.path.join(self.folder, "page.html")
        size = os.path.getsize(out)
        self.note(f"100,000 cells: {size} bytes", bool(reading) and size <= MOST_BYTES)
        browser_shows(self, out, "100,000 cells", MOST_SECONDS)


def large_pair(folder, cells):
    """Layers of gates that read those before them, and one output that is wrong."""
    width = 200
    rows = [[f"i[{at}]" for at in range(width)]]
    lines = [f"module m(i, o); input [{width - 1}:0] i; output [{width - 1}:0] o;"]
    for row in range(cells // width):
        lines.append(f"wire [{width - 1}:0] w{row};")
        before = rows[-1]
        for at in range(width):
            left, right = before[at], before[(at * 7 + row) % width]
            lines.append(f"assign w{row}[{at}] = {left} {'&|^'[(at + row) % 3]} {right};")
        rows.append([f"w{row}[{at}]" for at in range(width)])
    lines += [f"assign o[{at}] = {rows[-1][at]};" for at in range(width)]
    spec = "\n".join([*lines, "endmodule", ""])
    impl = spec.replace(f"assign o[9] = {rows[-1][9]};", f"assign o[9] = ~{rows[-1][9]};")
    return write(folder, "s.v", spec), write(folder, "i.v", impl)
