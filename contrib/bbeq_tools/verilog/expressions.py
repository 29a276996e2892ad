"""Reads expressions from tokens, by recursive descent (docs/LANGUAGE.md, "Grammar")."""
from typing import Optional

from bbeq_tools.cli import Fault
from bbeq_tools.verilog.modules import Bounds, Expression
from bbeq_tools.verilog.tokens import Token, tokens

ENDS = (",", ")", "}", ";")  # What stands behind an expression.


def number_of(digits: str) -> Optional[int]:
    """The number that a base letter and digits write; None where one of them stands for no bit of
    its own, as x does."""
    try:
        return int(digits[1:].strip().replace("_", ""),
                   {"b": 2, "o": 8, "d": 10, "h": 16}[digits[0].lower()])
    except ValueError:
        return None


class Cursor:
    """The tokens of a text, and the place up to which they are read."""

    def __init__(self, text: str) -> None:
        self.text, self.tokens, self.at = text, tokens(text), 0

    def look(self, ahead: int = 0) -> Optional[Token]:
        place = self.at + ahead
        return self.tokens[place] if place < len(self.tokens) else None

    def start(self) -> int:
        """The place of the next token."""
        return self.tokens[self.at].start

    def end(self) -> int:
        """The place behind the token that was taken last."""
        return self.tokens[self.at - 1].end

    def sees(self, *texts: str) -> bool:
        if self.at >= len(self.tokens):
            return False
        token = self.tokens[self.at]
        return token.text in texts and token.kind in ("mark", "word")

    def take(self, *texts: str) -> Token:
        if self.at >= len(self.tokens):
            raise Fault("the text ends within a module")
        token = self.tokens[self.at]
        if texts and (token.text not in texts or token.kind not in ("mark", "word")):
            raise Fault(f"line {token.line}: `{token.text}` is not of the language here")
        self.at += 1
        return token

    def take_name(self) -> Token:
        token = self.take()
        if token.kind != "name":
            raise Fault(f"line {token.line}: `{token.text}` stands where a name is due")
        return token

    def take_number(self) -> int:
        token = self.take()
        if token.kind != "plain":
            raise Fault(f"line {token.line}: `{token.text}` stands where a plain number is due")
        return int(token.text.replace("_", ""))


class Expressions(Cursor):
    """Reads expressions; a level of operators is one list of operands, grouped to the left."""

    def expression(self) -> Expression:
        token, behind = self.look(), self.look(1)
        if (token and behind and token.kind == "name" and behind.kind == "mark"
                and behind.text in ENDS):
            self.at += 1
            return "net", token.text, None
        first = self.level(0)
        if not self.sees("?"):
            return first
        self.take()
        then = self.expression()
        self.take(":")
        return "conditional", first, then, self.expression()

    # The levels of precedence, the loosest first (IEEE 1364-2005, table 5-4).
    LEVELS = (("||",), ("&&",), ("|",), ("^", "~^", "^~"), ("&",), ("==", "!="),
              ("<", "<=", ">", ">="), ("<<", ">>"), ("+", "-"))
    BITWISE = ("&", "|", "^", "~^", "^~")
    FOLDS = ("!", "&", "~&", "|", "~|", "^", "~^", "^~")

    def level(self, depth: int) -> Expression:
        if depth == len(self.LEVELS):
            return self.unary()
        parts, operators = [self.level(depth + 1)], []
        while self.sees(*self.LEVELS[depth]):
            operators.append(self.take().text)
            parts.append(self.level(depth + 1))
        if not operators:
            return parts[0]
        return "chain" if operators[0] in self.BITWISE else "words", parts, operators

    def unary(self) -> Expression:
        signs = self.signs()
        if self.sees(*self.FOLDS):
            operator, inner = self.take().text, self.signs()
            return self.inverted(("fold", self.inverted(self.primary(), inner), operator), signs)
        return self.inverted(self.primary(), signs)

    def signs(self) -> int:
        count = 0
        while self.sees("~"):
            self.take()
            count += 1
        return count

    @staticmethod
    def inverted(operand: Expression, signs: int) -> Expression:
        return ("not", operand, signs) if signs else operand

    def primary(self) -> Expression:
        token = self.take()
        if token.kind == "name":
            return "net", token.text, self.select()
        if token.kind == "sized":
            size, digits = token.text.split("'")
            return "bits", int(size.replace("_", "")), number_of(digits.strip())
        if token.kind == "plain":
            return "bits", 32, int(token.text.replace("_", ""))
        if token.text == "(":
            inner = self.expression()
            self.take(")")
            return inner
        if token.text == "{":
            return self.braces()
        raise Fault(f"line {token.line}: `{token.text}` begins no expression of the language")

    def select(self) -> Bounds:
        if not self.sees("["):
            return None
        self.take("[")
        left = right = self.take_number()
        if self.take(":", "]").text == ":":
            right = self.take_number()
            self.take("]")
        return left, right

    def braces(self) -> Expression:
        first, ahead = self.look(), self.look(1)
        if (first and first.kind == "plain" and ahead and ahead.text == "{"
                and ahead.kind == "mark"):
            count = self.take_number()
            self.take("{")
            inner = self.braces()
            self.take("}")
            return "repeat", count, inner
        parts = [self.expression()]
        while self.take(",", "}").text == ",":
            parts.append(self.expression())
        return "concatenation", parts
