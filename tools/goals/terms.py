"""Terms of antt: what they are, how they are written, and which names they use."""
from __future__ import annotations

from collections.abc import Iterator, Sequence
from dataclasses import dataclass

from .tokens import Place

WIDTH = 140
STEP = 2
CHUNK = 90


@dataclass(frozen=True)
class Word:
    """A name or a numeral."""
    text: str


@dataclass(frozen=True)
class Apply:
    """A name with arguments."""
    function: str
    arguments: tuple[Term, ...]


@dataclass(frozen=True)
class Row:
    """A list."""
    items: tuple[Term, ...]


@dataclass(frozen=True)
class Record:
    """A record by its fields."""
    fields: tuple[tuple[str, Term], ...]


@dataclass(frozen=True)
class Bytes:
    """A list of bytes."""
    value: bytes


@dataclass
class Site:
    """The number of a site, which is known once all sites are."""
    place: Place
    number: int = -1


Term = Word | Apply | Row | Record | Bytes | Site

NOTHING = Word("None")


def apply(function: str, *arguments: Term) -> Term:
    """A name with arguments, or the name alone."""
    return Apply(function, arguments) if arguments else Word(function)


def row(items: Sequence[Term]) -> Row:
    """A list."""
    return Row(tuple(items))


def natural(number: int) -> Word:
    """A numeral."""
    return Word(str(number))


def integer(number: int) -> Term:
    """A whole number."""
    return apply("pos", natural(number)) if number >= 0 else apply("negsuc", natural(-number - 1))


def some(term: Term | None) -> Term:
    """What may be there."""
    return NOTHING if term is None else apply("Some", term)


def at(place: Place) -> Term:
    """A place."""
    return apply("at", natural(place.line), natural(place.col))


def is_plain(value: bytes) -> bool:
    """Whether these bytes can stand in quotes."""
    return all(32 <= byte < 127 or byte == 10 for byte in value)


def quoted(value: bytes) -> str:
    """Plain bytes, in quotes."""
    return 'codes "' + value.decode("ascii").replace("\\", "\\\\").replace('"', '\\"').replace("\n", "\\n") + '"'


def bytes_text(value: bytes) -> str:
    """A list of bytes: in quotes where that can be, in pieces where it is long."""
    if not value:
        return "[]"
    if not is_plain(value):
        return " ∷ ".join(map(str, value)) + " ∷ []"
    pieces = [quoted(value[at:at + CHUNK]) for at in range(0, len(value), CHUNK)]
    return " ++ (".join(pieces) + ")" * (len(pieces) - 1)


def flat(term: Term) -> str:
    """A term on one line."""
    match term:
        case Word(text):
            return text
        case Site():
            return str(term.number)
        case Bytes(value):
            return bytes_text(value)
        case Apply(function, arguments):
            return " ".join([function, *map(argument, arguments)])
        case Row(items):
            return "".join(flat(item) + " ∷ " for item in items) + "[]"
        case Record(fields):
            return "record { " + "; ".join(f"{name} = {flat(value)}" for name, value in fields) + " }"


def is_one_word(term: Term) -> bool:
    """Whether a term needs no parentheses as an argument."""
    return isinstance(term, (Word, Site)) or term == Row(()) or term == Bytes(b"")


def argument(term: Term) -> str:
    """A term as an argument, on one line."""
    return flat(term) if is_one_word(term) else f"({flat(term)})"


def written(term: Term, start: int, indent: int) -> list[str]:
    """The lines of a term whose first line begins in a column, and whose others are indented."""
    if start + len(flat(term)) <= WIDTH:
        return [flat(term)]
    match term:
        case Apply(function, arguments):
            return applied(function, arguments, start, indent)
        case Row(items):
            return listed(items, indent)
        case Record(fields):
            return recorded(fields, indent)
    return split_bytes(flat(term), indent)


def split_bytes(text: str, indent: int) -> list[str]:
    """Long bytes, cut between their pieces."""
    lines = [""]
    for piece in text.replace(" ++ (", " ++\n(").replace(" ∷ ", " ∷\n").split("\n"):
        if len(lines[-1]) + len(piece) + indent + 1 > WIDTH and lines[-1]:
            lines.append(" " * indent)
        lines[-1] += (" " if lines[-1].strip() else "") + piece
    return lines


def applied(function: str, arguments: Sequence[Term], start: int, indent: int) -> list[str]:
    """A name with arguments, over several lines."""
    lines, width = [function], start + len(function)
    for term in arguments:
        text = argument(term)
        if width + 1 + len(text) <= WIDTH:
            lines[-1] += " " + text
            width += 1 + len(text)
        elif indent + STEP + len(text) <= WIDTH:
            lines.append(" " * (indent + STEP) + text)
            width = len(lines[-1])
        else:
            inner = written(term, width + 2, indent + STEP)
            lines[-1] += " (" + inner[0]
            lines += inner[1:]
            lines[-1] += ")"
            width = len(lines[-1])
    return lines


def listed(items: Sequence[Term], indent: int) -> list[str]:
    """A list, an item a line, from the next line on."""
    lines = [""]
    for item in items:
        inner = written(item, indent + STEP, indent + STEP)
        lines += [" " * (indent + STEP) + inner[0], *inner[1:]]
        lines[-1] += " ∷"
    return [*lines, " " * (indent + STEP) + "[]"]


def recorded(fields: Sequence[tuple[str, Term]], indent: int) -> list[str]:
    """A record, a field a line."""
    lines = ["record {"]
    for name, value in fields:
        head = " " * (indent + STEP) + f"{name} = "
        inner = written(value, len(head), indent + STEP)
        lines += [(head + inner[0]).rstrip(), *inner[1:]]
        lines[-1] += ";"
    return [*lines, " " * indent + "}"]


def words_of(term: Term) -> Iterator[str]:
    """The names and numerals that a term uses, and the operators of lists and bytes."""
    match term:
        case Word(text):
            yield text
        case Bytes(value) if value:
            yield from bytes_words(value)
        case Apply(function, arguments):
            yield function
            for inner in arguments:
                yield from words_of(inner)
        case Row(items):
            yield "[]"
            for inner in items:
                yield "◌∷◌"
                yield from words_of(inner)
        case Record(fields):
            for _, inner in fields:
                yield from words_of(inner)
        case Bytes():
            yield "[]"


def bytes_words(value: bytes) -> Iterator[str]:
    """The names that a list of bytes uses."""
    if not is_plain(value):
        yield from ("◌∷◌", "[]")
    else:
        yield "codes"
        if len(value) > CHUNK:
            yield "◌++◌"
