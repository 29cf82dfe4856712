"""Reads expressions off tokens: ISO/IEC 14882:2017, [expr]."""
from . import syntax as s
from .refusal import Refused
from .tokens import Place, Token

LEVELS = [["||"], ["&&"], ["==", "!="], ["<", "<=", ">", ">="], ["+", "-"], ["*", "/", "%"]]
SUM = 4
PREFIXES = ("!", "-", "*", "++", "--")


class Cursor:
    """A place among tokens."""

    def __init__(self, tokens: list[Token]):
        self.tokens = tokens
        self.at = 0

    def token(self, ahead: int = 0) -> Token:
        """A token from here on; behind the last one stands one of the kind `end`."""
        return self.tokens[min(self.at + ahead, len(self.tokens) - 1)]

    def sees(self, kind: str, *words: str, ahead: int = 0) -> bool:
        """Whether a token is one of these words of a kind; without words, one of the kind."""
        token = self.token(ahead)
        return token.kind == kind and (not words or token.word in words)

    def take(self, kind: str, *words: str) -> Token:
        """The next token, which has to be one of these."""
        token = self.token()
        if not self.sees(kind, *words):
            raise Refused(f"grammar, at {token.place.line}:{token.place.col}")
        self.at += 1
        return token

    def skips(self, kind: str, *words: str) -> bool:
        """Takes the next token if it is one of these."""
        found = self.sees(kind, *words)
        self.at += found
        return found

    def mark(self, word: str) -> Place:
        """The next token, which has to be this mark: its place."""
        return self.take("mark", word).place

    def name(self) -> s.Word:
        """The next token, which has to be a name."""
        token = self.take("name")
        return s.Word(token.place, token.word)


def expression(c: Cursor, level: int = 0) -> s.Expr:
    """An expression of a level: operators of a lower one stand in parentheses alone."""
    if level == len(LEVELS):
        return unary(c)
    left = expression(c, level + 1)
    while c.sees("mark", *LEVELS[level]):
        operator = c.take("mark")
        left = s.Binary(operator.place, operator.word, left, expression(c, level + 1))
    return left


def sum_of(c: Cursor) -> s.Expr:
    """An item of a print."""
    return expression(c, SUM)


def unary(c: Cursor) -> s.Expr:
    """Operators before an operand."""
    if c.sees("mark", *PREFIXES):
        operator = c.take("mark")
        return s.Prefix(operator.place, operator.word, unary(c))
    return postfix(c)


def postfix(c: Cursor) -> s.Expr:
    """What stands behind an operand."""
    left = primary(c)
    while c.sees("mark", "++", "--", "[", ".", "->"):
        mark = c.take("mark")
        if mark.word in ("++", "--"):
            left = s.Postfix(mark.place, mark.word, left)
        elif mark.word == "[":
            left = s.Index(mark.place, left, expression(c))
            c.mark("]")
        else:
            left = member(c, left, mark)
    return left


def member(c: Cursor, left: s.Expr, mark: Token) -> s.Expr:
    """A member call, or the name of a member."""
    name = c.name()
    if mark.word == "." and c.sees("mark", "("):
        return s.MemberCall(name.place, left, name.name, arguments(c))
    return s.Member(mark.place, left, mark.word, name)


def arguments(c: Cursor, opening: str = "(", closing: str = ")") -> list[s.Expr]:
    """Expressions in parentheses or braces, which may be none."""
    c.mark(opening)
    found: list[s.Expr] = []
    while not c.sees("mark", closing):
        if found:
            c.mark(",")
        found.append(expression(c))
    c.mark(closing)
    return found


def primary(c: Cursor) -> s.Expr:
    """A literal, a name, a call, or an expression in parentheses."""
    token = c.token()
    if c.skips("number"):
        return s.Number(token.place, int(token.word))
    if c.skips("key", "true", "false"):
        return s.Truth(token.place, token.word == "true")
    if c.skips("lib"):
        return s.LibCall(token.place, token.word, arguments(c))
    if c.skips("mark", "("):
        inner = expression(c)
        c.mark(")")
        return s.Parentheses(token.place, inner)
    name = c.name()
    if c.sees("mark", "("):
        return s.OwnCall(name.place, name.name, arguments(c))
    return s.Name(name.place, name.name)
