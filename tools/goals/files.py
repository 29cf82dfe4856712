"""Files of goals: for each case its text as a comment, its tree, and what is stated of the tree."""
from __future__ import annotations

import re
import textwrap
from dataclasses import dataclass

from .terms import WIDTH, Term, words_of, written

WORDS = {"as", "in", "data", "open", "record", "use", "pub", "mod", "search"}


@dataclass(frozen=True)
class Vocabulary:
    """What the files of a command name: modules by their aliases, and names by their modules.

    A tree whose case has no name that it can have begins with the prefix; the names of goals end with one of the endings.
    """
    aliases: dict[str, str]
    modules: dict[str, list[str]]
    prefix: str
    endings: tuple[str, ...]

    def reserved(self) -> set[str]:
        """The names that no goal may have."""
        return WORDS.union(self.aliases, *self.modules.values())


@dataclass(frozen=True)
class Goal:
    """A case as a goal: its name in the file, its text, and its tree of a type.

    It states that the left term is the right one, or the left term alone. Its proof opens these definitions.
    """
    name: str
    title: str
    source: bytes
    type: str
    tree: Term
    ending: str
    left: Term
    right: Term | None
    opened: list[str]


def identifier(title: str, taken: set[str], vocabulary: Vocabulary) -> str:
    """A name for a goal that isn't taken yet, from its case's name."""
    words = re.sub(r"[^a-z0-9]+", "_", title.lower()).strip("_")
    base = words if words[:1].isalpha() and words not in vocabulary.reserved() else f"{vocabulary.prefix}_{words}"
    name, number = base, 2
    while not taken.isdisjoint(names_of(name, vocabulary)):
        name, number = f"{base}_{number}", number + 1
    taken |= names_of(name, vocabulary)
    return name


def names_of(name: str, vocabulary: Vocabulary) -> set[str]:
    """The names that a goal takes."""
    return {name} | {f"{name}_{ending}" for ending in vocabulary.endings}


def drawn(line: str) -> str:
    """A line as a comment can hold it: what can't be drawn is a space, so that columns stay."""
    return "".join(character if character.isprintable() else " " for character in line).rstrip()


def comment(goal: Goal) -> list[str]:
    """The case's name and its text, as comments; directives are left out, and what is too long for a line goes on in the next one."""
    lines = [line for line in goal.source.decode("utf-8", "replace").splitlines() if not line.startswith("#")]
    cut = [piece for line in lines for piece in textwrap.wrap(drawn(line), WIDTH, subsequent_indent=" " * 6) or [""]]
    return [f"-- {goal.title}", *(f"-- {piece}".rstrip() for piece in cut)]


def definition(goal: Goal) -> list[str]:
    """The definition of a goal's tree."""
    head = f"{goal.name} = "
    lines = written(goal.tree, len(head), 0)
    return [f"abbrev pub {goal.name} : {goal.type}", (head + lines[0]).rstrip(), *lines[1:]]


def stated(goal: Goal, head: str) -> list[str]:
    """What is stated, behind the goal's name."""
    left = written(goal.left, len(head), 2)
    if goal.right is None:
        return [head + left[0], *left[1:]]
    right = written(goal.right, 6, 4)
    lines = [head + left[0], *left[1:], "    ≡ " + right[0], *right[1:]]
    if len(lines) == 2 and len(" ".join(lines)) <= WIDTH:
        return [lines[0] + " " + lines[1].strip()]
    return lines


def statement(goal: Goal) -> list[str]:
    """The goal itself."""
    name = f"{goal.name}_{goal.ending}"
    lines = stated(goal, f"{name} : ")
    if goal.opened:
        lines.append("unfolding " + " ".join(goal.opened))
    return [*lines, f"{name} = refl"]


def used(goals: list[Goal], with_goals: bool) -> set[str]:
    """The names that a file of goals uses."""
    words: set[str] = set()
    for goal in goals:
        words |= {goal.type, *words_of(goal.tree)}
        if with_goals:
            words |= {"refl", *goal.opened, *words_of(goal.left)}
        if with_goals and goal.right is not None:
            words |= {"◌≡◌", *words_of(goal.right)}
    return words


def imports(words: set[str], vocabulary: Vocabulary) -> list[str]:
    """The lines that bring these names into scope."""
    aliases = vocabulary.aliases.items()
    lines = [f"use {module} as {alias}" for alias, module in aliases if any(word.startswith(f"{alias}.") for word in words)]
    for module, names in vocabulary.modules.items():
        listed = [name for name in names if name in words]
        width = WIDTH - len(f"use {module}.{{}}")
        for piece in textwrap.wrap(", ".join(listed), width, break_on_hyphens=False):
            lines.append(f"use {module}.{{{piece.rstrip(',')}}}")
    return lines


def file_of(title: str, goals: list[Goal], vocabulary: Vocabulary, with_goals: bool = True) -> str:
    """A file of goals, or of their trees alone."""
    lines = [f"-- {title}", *imports(used(goals, with_goals), vocabulary)]
    for goal in goals:
        lines += ["", *comment(goal), *definition(goal)]
        if with_goals:
            lines += ["", *statement(goal)]
    return "\n".join(lines) + "\n"
