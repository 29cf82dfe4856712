"""Variables, and the numbers of what a typed tree names: variables by their sort, names, sites and loops."""
from __future__ import annotations

from dataclasses import dataclass, field

from .refusal import Refused
from .syntax import Word
from .terms import Site
from .tokens import Place
from .types import Container, Iterator, Reference, Scalar, Type

SORTS = {Scalar: "Scalar", Container: "Container", Iterator: "Iterator", Reference: "Reference"}


@dataclass(frozen=True)
class Variable:
    """A variable: its type, its number among those of its sort, and its name's number."""
    type: Type
    number: int
    label: int


@dataclass(frozen=True)
class Named:
    """A variable as a function lists it."""
    sort: str
    label: int
    place: Place


@dataclass
class Text:
    """What is numbered through the whole text."""
    names: list[str] = field(default_factory=list)
    sites: dict[Place, Site] = field(default_factory=dict)
    loops: list[Place] = field(default_factory=list)
    literals: set[int] = field(default_factory=set)

    def label(self, name: str) -> int:
        """The number of a declared name, which is a new one where it hasn't been declared before."""
        if name not in self.names:
            self.names.append(name)
        return self.names.index(name)

    def loop(self, place: Place) -> int:
        """The number of a loop that begins here."""
        self.loops.append(place)
        return len(self.loops) - 1

    def site(self, place: Place) -> Site:
        """The site at a place."""
        return self.sites.setdefault(place, Site(place))

    def number_sites(self) -> list[Place]:
        """Numbers the sites by their places; the places in order."""
        for number, place in enumerate(sorted(self.sites)):
            self.sites[place].number = number
        return sorted(self.sites)


class Scope:
    """The variables of a function that are in scope. References are numbered among the iterators."""

    def __init__(self, text: Text):
        self.text = text
        self.blocks: list[dict[str, Variable]] = [{}]
        self.counts = {"Scalar": 0, "Container": 0, "Iterator": 0}
        self.kept: list[dict[str, int]] = []
        self.listed: list[Named] = []

    def enter(self) -> None:
        """A block begins."""
        self.blocks.append({})
        self.kept.append(dict(self.counts))

    def leave(self) -> None:
        """A block ends, and what it declared."""
        self.blocks.pop()
        self.counts = self.kept.pop()

    def next_number(self, sort: str) -> int:
        """The next number of a sort."""
        counted = "Iterator" if sort == "Reference" else sort
        self.counts[counted] += 1
        return self.counts[counted] - 1

    def declare(self, name: Word, type_: Type) -> None:
        """A variable comes into scope."""
        sort = SORTS[type(type_)]
        label = self.text.label(name.name)
        self.blocks[-1][name.name] = Variable(type_, self.next_number(sort), label)
        self.listed.append(Named(sort, label, name.place))

    def declare_hidden(self) -> None:
        """The two iterators of a range-for come into scope."""
        self.next_number("Iterator")
        self.next_number("Iterator")

    def find(self, name: str) -> Variable:
        """The variable of a name."""
        for block in reversed(self.blocks):
            if name in block:
                return block[name]
        raise Refused(f"unknown name {name}")
