"""Turns the expected text of a run back into its end and its output.

The text ends the output's last line where the output doesn't, so from the text alone one can't tell whether the output ended with a line
feed. It is told by what the text can have printed last; where both can be, the case is refused.
"""
from __future__ import annotations

import re
from collections.abc import Iterator
from dataclasses import dataclass, fields, is_dataclass

from . import syntax as s
from .refusal import Refused
from .statements import Tree
from .terms import NOTHING, Bytes, Term, Word, apply, at, integer, natural, some
from .tokens import Place

KINDS = ["invalid iterator", "wrong container", "bad range", "end iterator", "out of range", "empty container", "own elements", "no room",
         "overlap", "not partitioned", "not sorted", "invalid reference"]
FAULTS = ["overflow", "zero divisor", "unset variable", "no return value", "too many calls"]
LONGEST = 2000

LAST = re.compile(rb"(?:(?P<before>.*)\n)?run: (?P<end>[^\n]*)\n", re.DOTALL)
LOST = re.compile(rb"(?:(?P<before>.*)\n)?run: output cut, (?P<lost>\d+) bytes lost", re.DOTALL)
TRAP = re.compile(r"trap at (\d+):(\d+): ([a-z ]+) in (\S+): (.+?)(?:, invalidated at (\d+):(\d+))?")
FAULT = re.compile(r"language fault at (\d+):(\d+): ([a-z ]+)")
THROWN = re.compile(r"exception at (\d+):(\d+)")


@dataclass(frozen=True)
class Ending:
    """How a run ends, at which place if at one, what it wrote, and how many bytes were lost."""
    end: Term
    place: Place | None
    is_done: bool
    output: bytes
    lost: int


def ending_of(tree: Tree, out: bytes) -> Ending:
    """The end and the output that an expected text tells."""
    last = LAST.fullmatch(out)
    if last is None:
        raise Refused("its expected text has no last line of a run")
    end, place = end_of(tree, last["end"].decode("ascii"))
    before, lost = last["before"], 0
    if before is not None and (cut := LOST.fullmatch(before)):
        before, lost = cut["before"], int(cut["lost"])
    is_done = last["end"].startswith(b"done ")
    output = b"" if before is None else whole_output(tree, before, place, is_done)
    if len(output) > LONGEST:
        raise Refused(f"its output is longer than {LONGEST} bytes")
    return Ending(end, place, is_done, output, lost)


def end_of(tree: Tree, line: str) -> tuple[Term, Place | None]:
    """The end that the last line tells, and its place."""
    if line == "out of steps":
        return Word("OutOfSteps"), None
    if line.startswith("done "):
        return apply("Done", integer(int(line.removeprefix("done ")))), None
    if found := FAULT.fullmatch(line):
        place = Place(int(found[1]), int(found[2]))
        return apply("Language", at(place), natural(FAULTS.index(found[3]) + 1)), place
    if found := THROWN.fullmatch(line):
        place = Place(int(found[1]), int(found[2]))
        return apply("Thrown", at(place)), place
    if found := TRAP.fullmatch(line):
        place = Place(int(found[1]), int(found[2]))
        return apply("Trapped", trap(tree, place, found)), place
    raise Refused(f"the end {line!r}")


def trap(tree: Tree, place: Place, found: re.Match[str]) -> Term:
    """A trap from its line."""
    kind, call, who = KINDS.index(found[3]) + 1, found[4], found[5]
    argument, name = who_of(tree, place, kind, call, who)
    killer = None if found[6] is None else natural(tree.sites.index(Place(int(found[6]), int(found[7]))))
    named = NOTHING if name is None else some(natural(name))
    return apply("trap", at(place), natural(kind), Bytes(call.encode()), natural(argument), named, some(killer))


def who_of(tree: Tree, place: Place, kind: int, call: str, who: str) -> tuple[int, int | None]:
    """The argument and its name's number from the words that say whose need it is."""
    calls = [told.names for told in tree.told if (told.place, told.call) == (place, call)]
    if not calls:
        raise Refused(f"no {call} stands at {place.line}:{place.col}")
    if found := re.fullmatch(r"argument (\d+)", who):
        return int(found[1]), None
    if call == "for":
        start, name = who.split(" of ")
        return {"begin": 1, "end": 2}[start], tree.text.names.index(name)
    label = tree.text.names.index(who)
    arguments = {argument for names in calls for argument, name in enumerate(names) if name == label and can_fail(kind, argument)}
    if not arguments or (len(arguments) > 1 and kind != 1):
        raise Refused(f"{who} is the name of {len(arguments)} arguments of {call}")
    return min(arguments), label


def can_fail(kind: int, argument: int) -> bool:
    """Whether a need of a kind can fail at an argument: the object has to be large enough, not empty or sorted, and nothing else.

    Where one iterator is two arguments and is invalid, the first one fails.
    """
    return argument > 0 or KINDS[kind - 1] in ("out of range", "empty container", "not sorted")


def calls_function(node: object) -> bool:
    """Whether an expression calls a function of the text."""
    if isinstance(node, s.OwnCall):
        return True
    if isinstance(node, list):
        return any(map(calls_function, node))
    return is_dataclass(node) and any(calls_function(getattr(node, field.name)) for field in fields(node))


def contains(item: s.PrintItem, place: Place | None) -> bool:
    """Whether a place lies in an item of a print."""
    return place is not None and item.start <= place < item.end


def last_items(prints: list[s.PrintEffect], place: Place | None, is_done: bool) -> Iterator[s.PrintItem]:
    """The items that a run which ends at a place can have printed last."""
    for effect in prints:
        items = effect.items
        for before, item in zip(items, items[1:]):
            if contains(item, place) and not calls_function(item.value):
                yield before
                return
    for effect in prints:
        yield effect.items[-1]
        for before, item in zip(effect.items, effect.items[1:]):
            if not is_done and (calls_function(item.value) or contains(item, place)):
                yield before


def can_end(item: s.PrintItem, output: bytes) -> bool:
    """Whether this item can have ended this output."""
    if item.value is None:
        return output.endswith(b"\n")
    if isinstance(item.value, bytes):
        return output.endswith(item.value)
    return output[-1:].isdigit()


def whole_output(tree: Tree, before: bytes, place: Place | None, is_done: bool) -> bytes:
    """The output whose text, with its last line ended, is this and a line feed."""
    if not before:
        return b"\n"
    items = list(last_items(tree.prints, place, is_done))
    found = [output for output in (before, before + b"\n") if any(can_end(item, output) for item in items)]
    if len(found) != 1:
        raise Refused("its expected text doesn't tell whether its output ended with a line feed")
    return found[0]
