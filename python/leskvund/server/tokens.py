"""The tokens of a text with their places, by docs/syntax.md; it also goes on behind what the program refuses."""
from __future__ import annotations

import re
from dataclasses import dataclass

TOKEN = re.compile(r"""
    (?P<blank>   [\x20\t\r\n\f]+ | %[^\n]* | //[^\n]* | /\*.*?(?:\*/|\Z))
  | (?P<quoted>  '(?:[^'\n]|'')*'?)
  | (?P<name>    [a-z]\w*)
  | (?P<link>    [A-Z_]\w*)
  | (?P<integer> \d+)
  | (?P<context> \$[A-Za-z_]\w*)
  | (?P<rules>   @[A-Za-z_]\w*)
  | (?P<sign>    :-|@@|=:=|=\\=|=<|>=|\\=|.)
""", re.ASCII | re.DOTALL | re.VERBOSE)
# Kinds of tokens behind which a minus is an operator.
OPERANDS = ('quoted', 'name', 'link', 'integer', 'context')
NAMES = ('quoted', 'name', 'integer')


@dataclass(frozen=True)
class Token:
    """A token: its kind, its text, and where it stands, in letters from the beginning of the text."""

    kind: str
    text: str
    start: int

    @property
    def end(self) -> int:
        """The place behind it."""
        return self.start + len(self.text)

    @property
    def is_name(self) -> bool:
        """Whether an atom can have it for its name."""
        return self.kind in NAMES

    @property
    def name(self) -> str:
        """The name as the program prints it, so that two spellings of one name are one."""
        if self.kind == 'integer':
            return str(int(self.text))
        if self.kind != 'quoted':
            return self.text
        inner = self.text[1:-1]
        return inner if re.fullmatch(r'[a-z]\w*', inner, re.ASCII) else self.text


def tokens_of(text: str) -> list[Token]:
    """The tokens of a text, without blanks and comments."""
    tokens: list[Token] = []
    for found in TOKEN.finditer(text):
        kind = str(found.lastgroup)
        if kind == 'blank':
            continue
        if kind == 'integer' and tokens and is_minus(tokens, found.start()):
            minus = tokens.pop()
            tokens.append(Token(kind, minus.text + found.group(), minus.start))
        else:
            tokens.append(Token(kind, found.group(), found.start()))
    return tokens


def is_minus(tokens: list[Token], start: int) -> bool:
    """Whether the last token is a minus that belongs to the integer behind it."""
    minus = tokens[-1]
    if minus.text != '-' or minus.kind != 'sign' or minus.end != start:
        return False
    before = tokens[-2] if len(tokens) > 1 else None
    if before is None or before.text == 'mod':
        return True
    return before.kind not in OPERANDS and before.text not in (')', ']')
