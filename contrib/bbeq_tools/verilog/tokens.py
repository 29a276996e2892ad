"""The tokens of a text of the language (docs/LANGUAGE.md), and how a name is written in one."""
import re
from typing import List, Optional, Tuple

from bbeq_tools.cli import Fault

Place = Tuple[int, int]

RESERVED = frozenset("""
always and assign automatic begin buf bufif0 bufif1 case casex casez cell cmos config deassign
default defparam design disable edge else end endcase endconfig endfunction endgenerate
endmodule endprimitive endspecify endtable endtask event for force forever fork function
generate genvar highz0 highz1 if ifnone incdir include initial inout input instance integer join
large liblist library localparam macromodule medium module nand negedge nmos nor noshowcancelled
not notif0 notif1 or output parameter pmos posedge primitive pull0 pull1 pulldown pullup
pulsestyle_ondetect pulsestyle_onevent rcmos real realtime reg release repeat rnmos rpmos rtran
rtranif0 rtranif1 scalared showcancelled signed small specify specparam strong0 strong1 supply0
supply1 table task time tran tranif0 tranif1 tri tri0 tri1 triand trior trireg unsigned use
uwire vectored wait wand weak0 weak1 while wire wor xnor xor
""".split())


class Token:
    """One token: kind is 'name', 'word', 'sized', 'plain' or 'mark'; start and end are its place in
    the text."""

    __slots__ = ("kind", "text", "start", "end", "line")

    def __init__(self, kind: str, text: str, start: int, end: int, line: int) -> None:
        self.kind, self.text, self.start, self.end, self.line = kind, text, start, end, line

    def __repr__(self) -> str:
        return f"{self.text!r} on line {self.line}"


PIECES = re.compile(r"""
    (?P<simple>[A-Za-z_][A-Za-z0-9_$]*)
  | (?P<skip>\s+|//[^\n]*|/\*.*?\*/|`(?:timescale|celldefine|endcelldefine)\b[^\n]*)
  | (?P<attribute>\(\*(?!\)))
  | (?P<sized>[0-9][0-9_]*\s*'\s*[bodhBODH]\s*[0-9a-fA-FxXzZ_?]+)
  | (?P<plain>[0-9][0-9_]*)
  | (?P<escaped>\\[!-~]+)
  | (?P<mark><=|>=|==|!=|<<|>>|&&|\|\||~\^|\^~|~&|~\||[()\[\]{},;:.=@&|^~?+\-<>!])
""", re.VERBOSE | re.DOTALL)
ATTRIBUTE_PARTS = re.compile(r'"(?:\\.|[^"\\])*"|//[^\n]*|/\*.*?\*/|\*\)|.', re.DOTALL)


def attribute_end(text: str, start: int) -> Optional[int]:
    """The place behind the attribute that begins at `start`, or None."""
    place = start + 2
    while place < len(text):
        part = ATTRIBUTE_PARTS.match(text, place)
        assert part  # Any character is a part.
        place = part.end()
        if part.group() == "*)":
            return place
    return None


def tokens(text: str, attributes: Optional[List[Place]] = None) -> List[Token]:
    """The tokens of a text; comments, attributes and the three directives are passed over. The
    places of the attributes go to the list that is given for them."""
    found: List[Token] = []
    place, line = 0, 1
    pieces = PIECES.finditer(text)
    while place < len(text):
        piece = next(pieces, None)
        end = piece.end() if piece and piece.start() == place else None
        if piece and piece.lastgroup == "attribute" and end is not None:
            end = attribute_end(text, place)
        if piece is None or end is None:
            raise Fault(f"line {line}: no token of the language begins here")
        kind, token = piece.lastgroup, piece.group()
        if kind == "simple":
            found.append(Token("word" if token in RESERVED else "name", token, place, end, line))
        elif kind == "mark":
            found.append(Token(kind, token, place, end, line))
        elif kind == "escaped":
            found.append(Token("name", token[1:], place, end, line))
        else:
            if kind == "attribute":
                pieces = PIECES.finditer(text, end)
                if attributes is not None:
                    attributes.append((place, end))
            elif kind in ("sized", "plain"):
                found.append(Token(kind, token, place, end, line))
            line += text.count("\n", place, end)
        place = end
    return found


def written(name: str) -> str:
    """A name as it stands in a text: escaped, with the blank that ends it, where it is no simple
    identifier."""
    if re.fullmatch(r"[A-Za-z_][A-Za-z0-9_$]*", name) and name not in RESERVED:
        return name
    return f"\\{name} "
