"""Types of expressions: ISO/IEC 14882:2017, [basic.types], [conv] and [expr.arith.conv] of the scalars that there are."""
from dataclasses import dataclass

from .refusal import Refused
from .syntax import IteratorType


@dataclass(frozen=True)
class Scalar:
    """A number of a type: `Int`, `Bool`, `Size` or `Diff`."""
    name: str


@dataclass(frozen=True)
class Container:
    form: str
    is_const: bool


@dataclass(frozen=True)
class Iterator:
    """An iterator of a form, and whether its container is const."""
    form: str
    is_const: bool


@dataclass(frozen=True)
class Pair:
    """An iterator of a form with a bool, or two iterators."""
    iterator: Iterator
    has_bool: bool


@dataclass(frozen=True)
class Reference:
    """A reference to an element of a form, which has a key and a value where `is_paired` holds."""
    is_paired: bool


@dataclass(frozen=True)
class Appender:
    """A call of `std::back_inserter`."""


@dataclass(frozen=True)
class Nothing:
    """What a call gives that gives nothing."""


Type = Scalar | Container | Iterator | Pair | Reference | Appender | Nothing

ITERATORS = {"iterator": False, "const_iterator": True}
INT, BOOL, SIZE, DIFF = Scalar("Int"), Scalar("Bool"), Scalar("Size"), Scalar("Diff")


def number_type(type_: Type) -> str:
    """The scalar of a number."""
    if isinstance(type_, Scalar):
        return type_.name
    raise Refused(f"a number is due, and there is {type_}")


def iterator_of(written: IteratorType) -> Iterator:
    """The iterator that a type names."""
    if written.name.name not in ITERATORS:
        raise Refused(f"no iterator is called {written.name.name}")
    return Iterator(written.container.form, ITERATORS[written.name.name])


def common(left: str, right: str) -> str:
    """The type in which two numbers meet."""
    for name in ("Size", "Diff"):
        if name in (left, right):
            return name
    return "Int"


def kind_of(type_: Type) -> str:
    """What a type is to the table of calls."""
    match type_:
        case Scalar():
            return "number"
        case Iterator():
            return "iterator"
        case Container():
            return "container"
        case Appender():
            return "appender"
    raise Refused(f"an argument of a type that no call takes: {type_}")
