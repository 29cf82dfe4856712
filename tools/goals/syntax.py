"""The tree of a text, as it is written: ISO/IEC 14882:2017, [gram], as far as the language goes."""
from __future__ import annotations

from dataclasses import dataclass

from .tokens import Place


@dataclass(frozen=True)
class Word:
    """A name at its place."""
    place: Place
    name: str


@dataclass(frozen=True)
class Expr:
    """An expression; its place is that of its operator, of its call's name, or of its first token."""
    place: Place


@dataclass(frozen=True)
class Number(Expr):
    value: int


@dataclass(frozen=True)
class Truth(Expr):
    value: bool


@dataclass(frozen=True)
class Name(Expr):
    name: str


@dataclass(frozen=True)
class OwnCall(Expr):
    name: str
    arguments: list[Expr]


@dataclass(frozen=True)
class LibCall(Expr):
    name: str
    arguments: list[Expr]


@dataclass(frozen=True)
class Parentheses(Expr):
    inner: Expr


@dataclass(frozen=True)
class Prefix(Expr):
    operator: str
    operand: Expr


@dataclass(frozen=True)
class Postfix(Expr):
    operator: str
    operand: Expr


@dataclass(frozen=True)
class Binary(Expr):
    operator: str
    left: Expr
    right: Expr


@dataclass(frozen=True)
class Index(Expr):
    container: Expr
    index: Expr


@dataclass(frozen=True)
class MemberCall(Expr):
    object: Expr
    name: str
    arguments: list[Expr]


@dataclass(frozen=True)
class Member(Expr):
    """`.first` and its like: the selector is `.` or `->`."""
    object: Expr
    selector: str
    name: Word


@dataclass(frozen=True)
class ContainerType:
    """A form's lib at its place."""
    place: Place
    form: str


@dataclass(frozen=True)
class IteratorType:
    """A container's type, and the name behind its `::`, which may be any."""
    container: ContainerType
    name: Word


@dataclass(frozen=True)
class ReferenceHead:
    """`int&`, `const auto&`: what stands before a reference's name, at its first token."""
    place: Place
    is_const: bool
    is_auto: bool


@dataclass(frozen=True)
class ReadEffect:
    place: Place
    variables: list[Word]


@dataclass(frozen=True)
class PrintItem:
    """A text, a line's end (`None`) or an expression; the tokens of the item lie from `start` to before `end`."""
    start: Place
    end: Place
    value: bytes | Expr | None


@dataclass(frozen=True)
class PrintEffect:
    place: Place
    items: list[PrintItem]


@dataclass(frozen=True)
class Evaluation:
    expr: Expr


@dataclass(frozen=True)
class Assignment:
    """The place is that of the operator."""
    place: Place
    operator: str
    left: Expr
    right: Expr


Effect = ReadEffect | PrintEffect | Evaluation | Assignment


@dataclass(frozen=True)
class ReadCondition:
    """`std::cin >> x`, or `!(std::cin >> x)` with the place of the `!`."""
    read: ReadEffect
    negation: Place | None


Condition = ReadCondition | Expr


@dataclass(frozen=True)
class ScalarDeclaration:
    """The scalar is `None` for `auto`, and the value `None` where there is none."""
    place: Place
    scalar: str | None
    name: Word
    value: Expr | None


@dataclass(frozen=True)
class ReferenceDeclaration:
    head: ReferenceHead
    name: Word
    value: Expr


@dataclass(frozen=True)
class ContainerDeclaration:
    """How it is made: `absent`, `copy` (of a name), `braces` (behind a `=` or not) or `call` (arguments in parentheses)."""
    type: ContainerType
    name: Word
    how: str
    arguments: list[Expr]
    has_equal: bool = False


Declaration = ScalarDeclaration | ReferenceDeclaration | ContainerDeclaration


@dataclass(frozen=True)
class Block:
    open: Place
    items: list[Stmt]
    close: Place


@dataclass(frozen=True)
class Declared:
    declaration: Declaration


@dataclass(frozen=True)
class If:
    place: Place
    condition: Condition
    then: Stmt
    otherwise: Stmt | None


@dataclass(frozen=True)
class While:
    place: Place
    condition: Condition
    body: Stmt


@dataclass(frozen=True)
class For:
    place: Place
    first: Declaration | Effect | None
    condition: Condition | None
    last: Effect | None
    body: Stmt


@dataclass(frozen=True)
class ElementValue:
    """`int` or `auto` before the variable of a range-for, which takes the values of elements."""
    is_auto: bool


@dataclass(frozen=True)
class RangeFor:
    place: Place
    element: ElementValue | ReferenceHead
    name: Word
    container: Word
    body: Stmt


@dataclass(frozen=True)
class Jump:
    """`break` or `continue`."""
    place: Place
    word: str


@dataclass(frozen=True)
class Return:
    place: Place
    value: Expr | None


@dataclass(frozen=True)
class Does:
    """Its place is that of its first token."""
    place: Place
    effect: Effect


Stmt = Block | Declared | If | While | For | RangeFor | Jump | Return | Does


@dataclass(frozen=True)
class ScalarParameter:
    """`int x` or `int& x`, at its first token."""
    place: Place
    scalar: str
    is_reference: bool
    name: Word


@dataclass(frozen=True)
class ContainerParameter:
    """`std::vector<int>& v`, with `const` before it or not, at its first token."""
    place: Place
    is_const: bool
    type: ContainerType
    name: Word


@dataclass(frozen=True)
class IteratorParameter:
    type: IteratorType
    name: Word


Parameter = ScalarParameter | ContainerParameter | IteratorParameter
Result = str | IteratorType | None


@dataclass(frozen=True)
class Function:
    """Its result is a scalar, an iterator's type, or nothing; its place is that of its first token."""
    place: Place
    name: Word
    result: Result
    parameters: list[Parameter]
    body: Block
