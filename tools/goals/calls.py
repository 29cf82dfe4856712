"""Heads of calls, and what a call is told by: its place, its name and the names of its arguments."""
from __future__ import annotations

from collections.abc import Sequence
from dataclasses import dataclass

from .library import LibraryRow
from .terms import NOTHING, Site, Term, Word, apply, at, natural, row, some
from .tokens import Place
from .types import Type, number_type

COMPARISONS = {"==": "Equal", "!=": "NotEqual", "<": "Less", "<=": "LessEqual", ">": "Greater", ">=": "GreaterEqual"}
ARITHMETIC = {"+": "Add", "-": "Subtract", "*": "Multiply", "/": "Divide", "%": "Remainder"}
MOVES = {"++": "Increment", "--": "Decrement", "+=": "AddAssign", "-=": "SubtractAssign"}


@dataclass(frozen=True)
class Told:
    """By what a failure at a call is told. The object is argument 0; an argument has a name where it is a plain name."""
    place: Place
    call: str
    names: tuple[int | None, ...]


def operands(terms: Sequence[Term]) -> Term:
    """Operands in their order."""
    found: Term = Word("none")
    for term in reversed(terms):
        found = apply("with", term, found)
    return found


def converted(to: str, type_: Type, term: Term) -> Term:
    """A number as one of a type."""
    return term if number_type(type_) == to else apply("convert", Word(f"t.{to}"), term)


def slot_operand(slot: str, type_: Type, term: Term) -> Term:
    """An argument as the operand that a slot takes."""
    return term if slot in ("iterator", "container", "output") else converted(slot, type_, term)


def row_operands(found: LibraryRow, arguments: Sequence[tuple[Type, Term]]) -> list[Term]:
    """The operands of a row's call."""
    return [slot_operand(slot, type_, term) for slot, (type_, term) in zip(found.slots(), arguments)]


def name_list(names: Sequence[int | None]) -> Term:
    """The numbers of the names of arguments; behind the last name nothing is listed."""
    listed = list(names)
    while listed and listed[-1] is None:
        listed.pop()
    return row([NOTHING if name is None else some(natural(name)) for name in listed])


def head(callee: Term, told: Told, site: Site | None = None, container: int | None = None) -> Term:
    """A call without its operands; the container is the object of a member call."""
    object_ = some(None if container is None else natural(container))
    return apply("head", callee, at(told.place), some(site), object_, name_list(told.names))


def row_callee(found: LibraryRow, appends: bool = False) -> Term:
    """What a call of a row calls; with `std::back_inserter` as its output it appends."""
    return apply("callees.Appends" if appends else "callees.Row", natural(found.number))


def operator_callee(name: str) -> Term:
    """What an operator on iterators calls."""
    return apply("callees.Operator", Word(f"operators.{name}"))


def comparison_callee(word: str) -> Term:
    """What a comparison of iterators calls."""
    return apply("callees.Operator", apply("operators.Compare", Word(f"c.{COMPARISONS[word]}")))
