"""Writes a report as one page of HTML, to be opened in any browser.

The page has the verdict in plain words and what to do next; each check with what it reported; where
the report shows a vector, waves of both designs and drawings of the logic of what is wrong; and the
contents of the boxes as tables and sums of products. It needs no other file, and loads none."""
import os
import tempfile
from argparse import Namespace
from typing import Dict, List, Optional, Set, Tuple

from bbeq_tools.cli import Fault, Output, run_script
from bbeq_tools.page.account import Account, read_account
from bbeq_tools.page.advice import Words as Said
from bbeq_tools.page.browser import Browser
from bbeq_tools.page.compose import Subject, page
from bbeq_tools.page.picture import with_palette
from bbeq_tools.page.sides import Side, check_fit
from bbeq_tools.report.filler import Filler
from bbeq_tools.report.reports import add_report_words, other_texts
from bbeq_tools.report.unused import with_unused
from bbeq_tools.words import Words

WIDTH = 1000  # Of a picture, in pixels.


def parse_words() -> Namespace:
    parser = Words(prog="page", description=(__doc__ or "").split("\n\n")[0],
                   epilog="Drawings need graphviz, and pictures chromium (Debian: apt-get install "
                   "graphviz chromium). A page without graphviz says that it has no drawings.")
    add_report_words(parser)
    parser.add_argument("-o", "--output", metavar="FILE",
                        help="where to write (otherwise standard output)")
    parser.add_argument("--png", metavar="FILE",
                        help="write a picture of the page too, or, without -o, alone")
    parser.add_argument("--shared", action="store_true", help="the report is one with --shared")
    parser.add_argument("--vector", type=int, default=1, metavar="N",
                        help="which input line of the report, from 1 (default 1)")
    parser.add_argument("--spec", action="store_true", help="show the rows in grey that no vector "
                        "brings to a box of the top; the program is asked, as by `fill --spec`")
    parser.add_argument("--fill", action="store_true",
                        help="show the text of the filled boxes, as `fill --only` writes it")
    return parser.parse_args()


def read_sides(words: Namespace, account: Account) -> List[Side]:
    """The two designs; none where the program did not read them."""
    if account.verdict in ("refused", "unread", "rup"):
        return []
    sides = [Side("spec", words.specification, words.top_spec),
             Side("impl", words.implementation, words.top_impl)]
    if account.vectors:
        if not 1 <= words.vector <= len(account.vectors):
            raise Fault(f"{words.report}: the report has {len(account.vectors)} vectors, and no "
                        f"number {words.vector}")
        check_fit(account.vectors[words.vector - 1][2], sides)
    return sides


def care_of(sides: List[Side]) -> Optional[str]:
    """The care output of a run: the one that the implementation lacks."""
    if not sides:
        return None
    others = [name for name in sides[0].flat.outputs if name not in sides[1].flat.outputs]
    return others[0] if len(others) == 1 else None


def unused_rows(words: Namespace, account: Account, sides: List[Side]) -> Dict[str, Set[int]]:
    """The rows that no vector brings, by their box."""
    if not words.spec or not account.tables:
        return {}
    if words.shared:
        raise Fault("--spec goes by the rows of each box, so it does not stand beside --shared")
    option = "care" if account.invariant is None else "invariant"
    asked = Namespace(spec=words.specification, top_spec=words.top_spec, care=None, invariant=None)
    setattr(asked, option, care_of(sides))
    side = sides[1]
    found = with_unused(asked, side.flat.text, side.flat.modules, side.flat.top, account.tables)
    return {path: {row for _, bits in lines for row, bit in enumerate(bits) if bit == "-"}
            for path, lines in found.items()}


def filled_text(words: Namespace, account: Account, side: Side) -> Optional[str]:
    """The modules that stand in the place of the empty ones."""
    if not words.fill or not account.tables:
        return None
    paths = {box.path for box in side.flat.boxes}
    is_shared = words.shared or not set(account.tables) <= paths
    filler = Filler(side.flat.text, side.flat.modules, account.tables, "assign",
                    other_texts(account.lines), shared=is_shared)
    return filler.fill(side.flat.top, True)


def subject_of(words: Namespace) -> Subject:
    account = read_account(words.report)
    sides = read_sides(words, account)
    is_shared = words.shared or bool(sides) and bool(account.tables) and not (
        set(account.tables) <= {box.path for box in sides[1].flat.boxes})
    said = Said(shown(words.report), shown(words.specification), shown(words.implementation),
                care_of(sides), is_shared)
    unused = unused_rows(words, account, sides) if sides else {}
    filled = filled_text(words, account, sides[1]) if sides else None
    return Subject(account, said, sides, unused, filled, words.vector)


def shown(path: str) -> str:
    """A name of a file; bytes that are no text are spelt out."""
    return path.encode("utf-8", "backslashreplace").decode()


def write_picture(path: str, text: str) -> None:
    """A picture of the page by headless Chromium."""
    with tempfile.TemporaryDirectory(prefix="page") as folder:
        file = os.path.join(folder, "page.html")
        with open(file, "w", encoding="utf-8") as page_file:
            page_file.write(text)
        with Browser(WIDTH) as browser:
            browser.open(file)
            picture = browser.picture()
    try:
        with open(path, "wb") as output:
            output.write(with_palette(picture))
    except OSError as error:
        raise Fault(f"{path}: {error.strerror}") from None


def outputs(words: Namespace) -> Tuple[Optional[Output], Optional[str]]:
    inputs = [words.report, words.specification, words.implementation]
    is_wanted = words.output is not None or words.png is None
    return (Output(words.output, inputs, "utf-8") if is_wanted else None), words.png


def command() -> None:
    words = parse_words()
    output, picture = outputs(words)
    text = page(subject_of(words))
    if output:
        output.write(text)
    if picture:
        write_picture(picture, text)


def main() -> None:
    run_script("page", command)
