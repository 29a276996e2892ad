"""Draws the crates of crates.txt as docs/crates.svg, each block of the file in a frame of its own.

An arrow leads from a crate to a library that it uses. Arrows that others imply are left out (the
transitive reduction), and so are the libraries of the kit. Graphviz `dot` places the crates; they
link to their folders, and show the first sentence of their heads."""
import re
import subprocess
from pathlib import Path
from typing import Dict, List, NamedTuple, Optional, Set

from bbeq_tools.cli import Fault, Output, run_script
from bbeq_tools.developing.definitions import CRATES
from bbeq_tools.words import Words

MAP = CRATES.parent / "docs" / "crates.svg"
COLOURS = ("#f2f2f2", "#e3eefa", "#e6f4e6", "#fdf1dc", "#f1e6f7", "#fbe6e6", "#e2f3f3", "#f5f0e1")
LIMIT = 60  # Seconds for the drawing.


class Crate(NamedTuple):
    name: str
    block: str
    uses: List[str]


def crates_in(text: str) -> List[Crate]:
    """The crates of a list, each with the comment above its block, and those of its libraries that
    are of the list too."""
    rows, block = [], ""
    for line in text.splitlines():
        if line.startswith("#"):
            block = line[1:].strip()
        elif line.strip():
            name, _, libraries = line.partition(":")
            rows.append(Crate(name.strip(), block, libraries.split()))
    listed = {crate.name for crate in rows}
    return [crate._replace(uses=[name for name in crate.uses if name in listed]) for crate in rows]


def below(name: str, uses: Dict[str, List[str]], known: Dict[str, Set[str]]) -> Set[str]:
    """All that a crate uses, by others too; `known` keeps what was found."""
    if name not in known:
        found = set(uses[name])
        for other in uses[name]:
            found |= below(other, uses, known)
        known[name] = found
    return known[name]


def reduced(crates: List[Crate]) -> List[Crate]:
    """Each crate with those libraries alone that it uses by no other one."""
    uses = {crate.name: crate.uses for crate in crates}
    known: Dict[str, Set[str]] = {}
    return [crate._replace(uses=[name for name in crate.uses if not any(
        name in below(other, uses, known) for other in crate.uses)]) for crate in crates]


def sentence_of(name: str) -> str:
    """The first sentence of a crate's head, or its name where it has none."""
    lines: List[str] = []
    for root in ("lib.rt", "main.rt"):
        path = CRATES / name / "src" / root
        for line in path.read_text(encoding="utf-8").splitlines() if path.is_file() else ():
            if not line.startswith("//!"):
                break
            lines.append(line[3:].strip())
    first = re.match(r"(.+?[.:])(?: |$)", " ".join(lines))
    return first.group(1).rstrip(".:") if first else name


def quoted(text: str) -> str:
    return '"' + text.replace("\\", "\\\\").replace('"', '\\"') + '"'


def dot_text(crates: List[Crate]) -> str:
    lines = ["digraph crates {", "rankdir=TB; nodesep=0.12; ranksep=0.5; newrank=true;",
             "fontname=Helvetica; fontsize=13; node [shape=box style=filled fillcolor=white "
             "fontname=Helvetica fontsize=11 height=0.3 margin=\"0.08,0.03\"];",
             "edge [color=\"#00000077\" arrowsize=0.5];"]
    blocks = list(dict.fromkeys(crate.block for crate in crates))
    for at, block in enumerate(blocks):
        lines.append(f"subgraph cluster_{at} {{ label={quoted(block)}; labeljust=l; "
                     f"color=\"#999999\"; style=filled; fillcolor={quoted(COLOURS[at % 8])};")
        lines += [f"{crate.name} [URL={quoted(f'../crates/{crate.name}')} "
                  f"tooltip={quoted(sentence_of(crate.name))}];"
                  for crate in crates if crate.block == block]
        lines.append("}")
    lines += [f"{crate.name} -> {name};" for crate in reduced(crates) for name in crate.uses]
    return "\n".join([*lines, "}", ""])


def drawn(text: str) -> str:
    """What dot draws, without the lines that name its version."""
    try:
        done = subprocess.run(["dot", "-Tsvg"], input=text, capture_output=True, text=True,
                              timeout=LIMIT, check=False)
    except FileNotFoundError:
        raise Fault("dot is not installed (Debian: apt-get install graphviz)") from None
    except subprocess.TimeoutExpired:
        raise Fault(f"dot took more than {LIMIT} seconds") from None
    if done.returncode:
        raise Fault(f"dot: {done.stderr.strip()}")
    return re.sub(r"<!--.*?-->\n?", "", done.stdout, flags=re.DOTALL)


def arrows_in(svg: str) -> Set[str]:
    """The arrows of a drawing, each as `FROM->TO`."""
    return set(re.findall(r"<title>(\w+->\w+)</title>",
                          svg.replace("&#45;", "-").replace("&gt;", ">")))


def arrows_of(crates: List[Crate]) -> Set[str]:
    return {f"{crate.name}->{name}" for crate in reduced(crates) for name in crate.uses}


def all_crates(top: Optional[Path] = None) -> List[Crate]:
    return crates_in(((top or CRATES.parent) / "crates.txt").read_text(encoding="utf-8"))


def command() -> None:
    parser = Words(prog="crate-map", description=(__doc__ or "").split("\n\n", maxsplit=1)[0])
    parser.add_argument("-o", metavar="OUT", default=str(MAP), help="the drawing (docs/crates.svg)")
    parser.add_argument("--dot", action="store_true", help="write the text for dot instead")
    words = parser.parse_args()
    text = dot_text(all_crates())
    Output(words.o).write(text if words.dot else drawn(text))


def main() -> None:
    run_script("crate-map", command)
