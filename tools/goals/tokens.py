"""The tokens of a text, for texts that have no fault in them: ISO/IEC 14882:2017, [lex]."""
import re
from dataclasses import dataclass

from .refusal import Refused

KEYS = frozenset("""alignas alignof and and_eq asm auto bitand bitor bool break case catch char char16_t char32_t class compl const
constexpr const_cast continue decltype default delete do double dynamic_cast else enum explicit export extern false float for friend goto
if inline int long mutable namespace new noexcept not not_eq nullptr operator or or_eq private protected public register reinterpret_cast
return short signed sizeof static static_assert static_cast struct switch template this thread_local throw true try typedef typeid typename
union unsigned using virtual void volatile wchar_t while xor xor_eq std""".split())

PIECE = re.compile(rb"""(?P<blank>[ \t\r\n]+|//[^\n]*|/\*.*?\*/|\#[^\n]*)
    |(?P<lib>std::[A-Za-z_][A-Za-z0-9_]*)
    |(?P<name>[A-Za-z_][A-Za-z0-9_]*)
    |(?P<number>[0-9]+)
    |(?P<text>"(?:[^"\\\n]|\\.)*"|'(?:[^'\\\n]|\\.)')
    |(?P<mark><=|>=|==|!=|\+=|-=|\*=|/=|%=|\+\+|--|&&|\|\||::|->|<<|>>|[{}()\[\]<>=+\-*/%!&,;:.])""", re.DOTALL | re.VERBOSE)

ESCAPES = {b"n": b"\n", b"t": b"\t", b"\\": b"\\", b'"': b'"', b"'": b"'"}


@dataclass(frozen=True, order=True)
class Place:
    """A line and a column, from 1; a column is a byte."""
    line: int
    col: int


@dataclass(frozen=True)
class Token:
    """A word of a kind (`key`, `lib`, `name`, `number`, `text`, `mark`, and `end` behind the last one) at a place."""
    kind: str
    word: str
    place: Place
    value: bytes = b""


def text_bytes(piece: bytes) -> bytes:
    """The bytes that a text in quotes stands for."""
    return re.sub(rb"\\(.)", lambda m: ESCAPES[m.group(1)], piece[1:-1], flags=re.DOTALL)


def token_of(kind: str, piece: bytes, place: Place) -> Token:
    """A piece of the text as a token."""
    if kind == "text":
        return Token("text", "", place, text_bytes(piece))
    word = piece.decode("ascii")
    if kind == "lib":
        return Token("lib", word.removeprefix("std::"), place)
    if kind == "name" and word in KEYS:
        return Token("key", word, place)
    return Token(kind, word, place)


def tokens_of(text: bytes) -> list[Token]:
    """The tokens of a text, and one of the kind `end` behind them."""
    found: list[Token] = []
    at, line, line_start = 0, 1, 0
    while at < len(text):
        piece = PIECE.match(text, at)
        place = Place(line, at - line_start + 1)
        if piece is None:
            raise Refused(f"no token at {place.line}:{place.col}")
        if piece.lastgroup != "blank":
            found.append(token_of(str(piece.lastgroup), piece.group(), place))
        line += piece.group().count(b"\n")
        at = piece.end()
        line_start = max(line_start, text.rfind(b"\n", 0, at) + 1)
    found.append(Token("end", "", Place(line, at - line_start + 1)))
    return found
