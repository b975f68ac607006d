"""Cuts the text of a file of code or of definitions into tokens, each with its place."""
import re
from typing import NamedTuple


class Token(NamedTuple):
    """A token: what it is (name, number, text, sign), how it is written, and its first place and the place after it."""

    kind: str
    text: str
    start: int
    end: int


CODE = re.compile(
    r"""(?P<space>\s+|//[^\n]*|/\*.*?\*/)
    |(?P<text>b?"(?:\\.|[^"\\])*"|b?'(?:\\(?:x[0-9a-fA-F]{2}|u\{[^}]*\}|.)|[^'\\\n])')
    |(?P<life>'[A-Za-z_]\w*)
    |(?P<number>0x[0-9a-fA-F_]+(?:[ui]\w+)?|0b[01_]+(?:[ui]\w+)?|\d[\d_]*(?:[ui]\d+|[ui]size)?)
    |(?P<name>\$?[^\W\d]\w*)
    |(?P<sign>\.\.=|<<=|>>=|::|->|=>|==|!=|<=|>=|&&|\|\||<<|>>|\+=|-=|\*=|/=|%=|&=|\|=|\^=|\.\.|.)""",
    re.X | re.S,
)

# of definitions: a name may hold signs within, as n+n, and `record`s are projected by a point without a space
DEFINITION = re.compile(
    r"""(?P<space>\s+|--[^\n]*)
    |(?P<text>"(?:\\.|[^"\\])*")
    |(?P<number>0x[0-9a-fA-F]+|\d+)
    |(?P<projected>\.(?:[^\W\d]\w*|\d+))
    |(?P<name>(?:◌[^\s◌(){}]+◌?|[^\W\d][\w']*)(?:\.(?:[^\W\d][\w']*))*)
    |(?P<sign>\+\+|==|&&|\|\||\[\]|[(){};:=,→×⊎≡≤<≢∷+*/%^↔λ_\-]|.)""",
    re.X | re.S,
)


def tokens(text, pattern=CODE, at=0, end=None):
    """Returns the tokens of a part of a text, without spaces and comments."""
    found = []
    for it in pattern.finditer(text, at, len(text) if end is None else end):
        if it.lastgroup != "space":
            found.append(Token(it.lastgroup, it[0], it.start(), it.end()))
    return found
