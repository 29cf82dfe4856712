"""The rules of typing, by the words that refuse a text: read from the crate sl_typing, src/rules.rt."""
from __future__ import annotations

import re
from dataclasses import dataclass
from functools import cache
from pathlib import Path

from .cases import Case
from .refusal import Refused
from .tokens import Place

RULES = Path(__file__).resolve().parents[2] / "crates/sl_typing/src/rules.rt"
CONSTANT = re.compile(r"^pub const (\w+): u8 = \d+;$", re.MULTILINE)
REFUSAL = re.compile(rb"(?P<file>[^\n]+):(?P<line>\d+):(?P<col>\d+): refused: (?P<rule>[a-z ]+)\n")
WRONG_INPUT = 2


@dataclass(frozen=True)
class Broken:
    """A rule, by the name of its number, that a text breaks at a place."""
    place: Place
    rule: str


@cache
def rule_names() -> list[str]:
    """The names of the rules' numbers."""
    return CONSTANT.findall(RULES.read_text())


def first_broken(case: Case) -> Broken | None:
    """The rule that a case's text breaks first: what isn't refused breaks none."""
    if case.status is None or case.out is None:
        raise Refused("it isn't a case of a command")
    if case.status != WRONG_INPUT:
        return None
    found = REFUSAL.fullmatch(case.out)
    if found is None:
        raise Refused("its text isn't refused at a place")
    rule = found["rule"].decode("ascii").upper().replace(" ", "_")
    if rule not in rule_names():
        raise Refused(f"its text isn't refused by typing: {found['rule'].decode('ascii')}")
    return Broken(Place(int(found["line"]), int(found["col"])), rule)
