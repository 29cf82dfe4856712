"""The table of the library's calls, read from the crate sl_specs: src/table.rt in order, with the numbers that src/rows gives the rows."""
import re
from dataclasses import dataclass
from functools import cache
from pathlib import Path

from .refusal import Refused

SPECS = Path(__file__).resolve().parents[2] / "crates/sl_specs/src"
ENTRY = re.compile(r"^    (\w+) (\w+) (\d+) \(([\w, ]*)\) -> (\w+)(?:\((\w+)\))?, (changes|keeps);\s+needs \(([\w, ]*)\); kills (\w+),$",
                   re.MULTILINE)
NUMBERED = re.compile(r"/// `([^`]*)`\s+pub const \w+: u16 = (\d+);")

RANGES = ("OwnRange", "IntRange", "SecondIntRange", "WrittenRange", "RandomAccessRange", "AnyRange")
CONVERSIONS = {"Count": "Size", "Element": "Int", "Key": "Int", "Int": "Int", "Distance": "Diff", "OptionalDistance": "Diff"}
ITERATORS = ("Position", "SplicedPosition", "Output", "IteratorVariable", "Iterator", "BidirectionalIterator")


@dataclass(frozen=True)
class LibraryRow:
    """A row of the table. `gives` is the word of its result, `scalar` the type of a number that it gives."""
    number: int
    form: str | None
    call: str
    letters: tuple[str, ...]
    gives: str
    scalar: str | None
    kills: str

    def slots(self) -> list[str]:
        """What each argument has to be: `iterator`, `container`, `output`, or the type that a number becomes."""
        found: list[str] = []
        for letter in self.letters:
            if letter in RANGES:
                found += ["iterator", "iterator"]
            elif letter in CONVERSIONS:
                found.append(CONVERSIONS[letter])
            elif letter in ITERATORS:
                found.append("output" if letter == "Output" else "iterator")
            elif letter != "InitializerList":
                found.append("container")
        return found

    def takes(self, count: int) -> bool:
        """Whether it may have so many arguments."""
        most = len(self.slots())
        return count == most or ("OptionalDistance" in self.letters and count == most - 1)


@cache
def call_texts() -> dict[str, str]:
    """The names of calls by their variants."""
    return dict(re.findall(r'Call::(\w+) => "([^"]*)"', (SPECS / "call.rt").read_text()))


@cache
def row_texts() -> dict[int, str]:
    """What src/rows says that each number's row is."""
    text = "".join(path.read_text() for path in sorted((SPECS / "rows").glob("*.rt")))
    return {int(number): name for name, number in NUMBERED.findall(text)}


@cache
def table() -> list[LibraryRow]:
    """The rows in order."""
    rows = []
    for found in ENTRY.findall((SPECS / "table.rt").read_text()):
        form, call, _, letters, gives, scalar, _, _, kills = found
        listed = tuple(letter for letter in letters.split(", ") if letter)
        rows.append(LibraryRow(len(rows), None if form == "std" else form, call_texts()[call], listed, gives, scalar or None, kills))
    check(rows)
    return rows


def check(rows: list[LibraryRow]) -> None:
    """The places in the table are the numbers of src/rows, by the form and the call."""
    for row in rows:
        name = row_texts()[row.number].split("(")[0]
        if name.split(".", 1)[-1].split("::")[-1] != row.call:
            raise SystemExit(f"crates/sl_specs: row {row.number} is {name} in src/rows and {row.call} in src/table.rt")
    if len(rows) != len(row_texts()):
        raise SystemExit(f"crates/sl_specs: {len(rows)} rows are read from src/table.rt, and {len(row_texts())} from src/rows")


def rows_called(form: str | None, call: str) -> list[LibraryRow]:
    """The rows of a call of a form, or of an algorithm."""
    return [row for row in table() if row.form == form and row.call == call]


def row_for(form: str | None, call: str, kinds: list[str]) -> LibraryRow:
    """The row of a call with arguments of these kinds: `iterator`, `container`, `appender` or `number`."""
    for row in rows_called(form, call):
        if row.takes(len(kinds)) and all(fits(kind, slot) for kind, slot in zip(kinds, row.slots())):
            return row
    raise Refused(f"no row for {call} of {form} on {kinds}")


def fits(kind: str, slot: str) -> bool:
    """Whether an argument of a kind may stand at a slot."""
    if slot == "output":
        return kind in ("iterator", "appender")
    if slot in ("iterator", "container"):
        return kind == slot
    return kind == "number"
