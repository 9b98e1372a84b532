"""Tokens of antt.

A name is any run of characters other than spaces and `( ) { } . ; , @ " « »`, so
`[`, `|`, `=`, `→` and `n+n` are names too: what a run means is the parser's affair.
"""

import re
from dataclasses import dataclass, field

from .errors import AnttError

NO_NAME = set('(){}.;,@"«»')
PLACE = "◌"  # in an operator's name, a place for an operand
RESERVED = set(
    "data record deriving module where use mod pub package open as unfoldable abbrev axiom unfold unfolding ruleset mutual "
    "infix infixl infixr elim let in do λ ∀ Type 𝕀 𝔽 coe fcoe tcoe hcom com ∨ ∧ [ ] | = : → ← ↦ × _".split()
)
NUMERAL = re.compile(r"0x[0-9a-fA-F_]+$|0o[0-7_]+$|0b[01_]+$|[0-9][0-9_]*$")
ESCAPES = {"n": "\n", "t": "\t", "r": "\r", "0": "\0", "\\": "\\", '"': '"', "'": "'"}


@dataclass
class Token:
    kind: str  # name, path, number, text, projection, symbol or end
    text: str
    file: str
    line: int
    column: int
    first: bool = False  # the first token of its line: layout goes by it
    parts: list = field(default_factory=list)  # of a path: the names between its dots
    value: object = None  # of a number or a text

    @property
    def where(self):
        return f"{self.file}:{self.line}:{self.column + 1}"

    def is_name(self, text):
        return self.kind == "name" and self.text == text

    def is_symbol(self, text):
        return self.kind == "symbol" and self.text == text


def is_name_character(c):
    return c != "" and not c.isspace() and c not in NO_NAME


def unescaped(name):
    """`«x»` is x. What would mean something else without its marks keeps them: a reserved word, a numeral."""
    is_plain = all(is_name_character(c) and c != PLACE for c in name) and name not in RESERVED and not NUMERAL.match(name)
    return name if name and is_plain else f"«{name}»"


class Lexer:
    def __init__(self, text, file):
        self.text = text
        self.file = file
        self.at = 0
        self.line = 1
        self.line_start = 0
        self.line_has_token = False
        self.tokens = []

    def look(self, ahead=0):
        i = self.at + ahead
        return self.text[i] if 0 <= i < len(self.text) else ""

    def fail(self, message):
        raise AnttError(message, f"{self.file}:{self.line}:{self.at - self.line_start + 1}")

    def add(self, kind, text, column, **more):
        token = Token(kind, text, self.file, self.line, column, not self.line_has_token, **more)
        self.line_has_token = True
        self.tokens.append(token)

    def newline(self):
        self.line += 1
        self.line_start = self.at
        self.line_has_token = False

    def run(self):
        while self.at < len(self.text):
            c = self.look()
            if c == "\n":
                self.at += 1
                self.newline()
            elif c.isspace():
                self.at += 1
            elif self.text.startswith("--", self.at):
                self.skip_line()
            elif self.text.startswith("{-", self.at):
                self.skip_block()
            elif c == '"':
                self.quoted()
            elif c == ".":
                self.dot()
            elif is_name_character(c) or c == "«":
                self.name()
            else:
                self.add("symbol", c, self.column())
                self.at += 1
        return self.tokens

    def column(self):
        return self.at - self.line_start

    def skip_line(self):
        while self.at < len(self.text) and self.look() != "\n":
            self.at += 1

    def skip_block(self):
        """Comments may stand in one another."""
        start, depth = self.at, 0
        for found in re.finditer(r"\{-|-\}", self.text[start:]):
            depth += 1 if found[0] == "{-" else -1
            if depth == 0:
                break
        else:
            self.fail("a comment is not closed")
        while self.at < start + found.end():
            self.at += 1
            if self.text[self.at - 1] == "\n":
                self.newline()

    def quoted(self):
        column = self.column()
        self.at += 1
        out = []
        while self.look() != '"':
            if self.look() in ("", "\n"):
                self.fail("a quoted text is not closed")
            out.append(self.character())
        self.at += 1
        self.add("text", "".join(out), column, value="".join(out))

    def character(self):
        c = self.look()
        self.at += 1
        if c != "\\":
            return c
        e = self.look()
        self.at += 1
        if e in ESCAPES:
            return ESCAPES[e]
        coded = re.compile(r"x([0-9a-fA-F]{2})|u\{([0-9a-fA-F_]+)\}").match(self.text, self.at - 1)
        if not coded:
            self.fail(f"the escape \\{e} is not known")
        self.at = coded.end()
        return chr(int((coded[1] or coded[2]).replace("_", ""), 16))

    def dot(self):
        """A dot right behind `)` and before a name is a projection (those of a name are part of a path and were read with it)."""
        column, before = self.column(), self.look(-1)
        self.at += 1
        if before != "" and not before.isspace() and (is_name_character(self.look()) or self.look() == "«"):
            self.add("projection", self.run_of_name(), column)
        else:
            self.add("symbol", ".", column)

    def run_of_name(self):
        if self.look() == "«":
            end = self.text.find("»", self.at)
            if end < 0:
                self.fail("an escaped name is not closed")
            name = self.text[self.at + 1 : end]
            self.at = end + 1
            return unescaped(name)
        start = self.at
        while is_name_character(self.look()):
            self.at += 1
        return self.text[start : self.at]

    def name(self):
        column = self.column()
        parts = [self.run_of_name()]
        while self.look() == "." and (is_name_character(self.look(1)) or self.look(1) == "«"):
            self.at += 1
            parts.append(self.run_of_name())
        if len(parts) > 1:
            self.add("path", ".".join(parts), column, parts=parts)
        elif NUMERAL.match(parts[0]):
            self.add("number", parts[0], column, value=number_of(parts[0].replace("_", "")))
        else:
            self.add("name", parts[0], column)


def number_of(digits):
    return int(digits, 10 if digits.isdigit() else 0)


def tokens_of(text, file):
    return Lexer(text, file).run()
