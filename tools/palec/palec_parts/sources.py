"""The text of a program: its lines and tokens, by the rules of docs/language.md."""
import re
from dataclasses import dataclass
from pathlib import Path

# A run of bytes that begin no token counts as its first one.
TOKEN = re.compile(rb"#[^\n]*|[ \t\r\n]+|(?P<name>[A-Za-z][A-Za-z0-9_]*)|(?P<number>[0-9]+)"
                   rb"|(?P<mark><=>|==|=>|!=|~=|&&|\|\||[=!~&|<>()\[\]{}:;,.*+^$@?])"
                   rb"|(?P<other>[^A-Za-z0-9 \t\r\n#<>=!~&|()\[\]{}:;,.*+^$@?])[^A-Za-z0-9 \t\r\n#<>=!~&|()\[\]{}:;,.*+^$@?]*")


@dataclass
class Token:
    """A word of the text, with its line and column, counted in bytes from 1. `kind` is name, number, mark, other or end."""

    kind: str
    text: str
    line: int
    column: int


# A text is at most so long, with a request behind it; a longer one is refused, so no more of it is read.
MOST_BYTES, REQUEST_BYTES = 1 << 20, 64


def read_text(path):
    with open(path, "rb") as file:
        return file.read(MOST_BYTES + 1)


class Source:
    """A program's file."""

    def __init__(self, path, data=None):
        self.path, self.name = str(path), Path(path).name
        self.data = read_text(path) if data is None else data
        self.lines = self.data.decode("utf-8", "replace").split("\n")
        self._tokens, self._lines = None, {}

    def tokens(self):
        """All tokens, and one at the end of the text."""
        if self._tokens is None:
            self._tokens, line, start = [], 1, 0
            for found in TOKEN.finditer(self.data):
                if found.lastgroup:
                    text = found.group(found.lastgroup).decode("utf-8", "replace")
                    self._tokens.append(Token(found.lastgroup, text, line, found.start() - start + 1))
                newlines = found.group().count(b"\n")
                if newlines:
                    line += newlines
                    start = found.start() + found.group().rindex(b"\n") + 1
            for token in self._tokens:
                self._lines.setdefault(token.line, []).append(token)
            self._tokens.append(Token("end", "", line, len(self.data) - start + 1))
        return self._tokens

    def tokens_on(self, line):
        self.tokens()
        return self._lines.get(line, [])

    def token_at(self, line, column):
        """The token that begins there, if one does."""
        return next((it for it in [*self.tokens_on(line), self.tokens()[-1]] if (it.line, it.column) == (line, column)), None)

    def first_on(self, line, prefer=()):
        """The token that a finding at a line points to: the first of those words on it, else the first one, else the line's beginning."""
        here = self.tokens_on(line)
        return next((it for it in here if it.text in prefer), here[0] if here else Token("other", " ", line, 1))

    def line(self, number):
        return self.lines[number - 1] if 0 < number <= len(self.lines) else ""

    def is_one_piece(self):
        """Whether no request can stand behind it: a line is `---`, at which it would be cut, or it is as long as a text may be."""
        return b"---" in self.data.split(b"\n") or len(self.data) + REQUEST_BYTES > MOST_BYTES

    def field_token(self, name):
        """The token that declares a pointer field, named `T.f`, or None."""
        wanted, _, field = name.partition(".")
        tokens, owner = self.tokens(), ""
        for at in range(len(tokens) - 1):
            owner = tokens[at + 1].text if tokens[at].text == "type" else owner
            if owner == wanted and tokens[at].text == "pointer" and tokens[at + 1].text == field:
                return tokens[at + 1]
        return None

    def fields_of(self, type_name):
        """The fields of a cell of a type, or of a variant as `T:v`, each with the value that a new cell has."""
        wanted, _, variant = type_name.partition(":")
        tokens, at = self.tokens(), 0
        while at + 1 < len(tokens) and not (tokens[at].text == "type" and tokens[at + 1].text == wanted):
            at += 1
        fields, block, depth, name = [], "", 0, ""
        for place in range(at + 2, len(tokens)):
            token = tokens[place]
            if token.text in ("type", "pred", "proc") and depth == 0:
                break
            depth += {"{": 1, "}": -1}.get(token.text, 0)
            if token.text == "|" and depth == 0:
                block = tokens[place + 1].text
            name = tokens[place + 1].text if depth == 1 and token.text in ("bool", "data", "pointer") and place + 1 < len(tokens) else ""
            if name and block in ("", variant):
                fields.append((name, "false" if token.text == "bool" else "null"))
        return fields
