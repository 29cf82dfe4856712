"""Case files: see CONTRIBUTING.md, "A case". Only cases of a command are read here."""
from dataclasses import dataclass, field

from .refusal import Refused


@dataclass
class Case:
    """One case: its name, its words, its files, its status, and what is due."""
    name: str
    words: list[str] = field(default_factory=list)
    files: dict[str, bytes] = field(default_factory=dict)
    status: int | None = None
    out: bytes | None = None


def section_body(data: bytes, start: int, heading: list[str]) -> tuple[bytes, int]:
    """What belongs to a heading that ends before `start`, and where the next heading begins."""
    if len(heading) > 1 and heading[-2] == "bytes":
        end = start + int(heading[-1])
        return data[start:end], end + 1
    end = start
    while end < len(data) and not data.startswith(b"%% ", end):
        line = data.find(b"\n", end)
        end = len(data) if line < 0 else line + 1
    return data[start:end], end


def sections(data: bytes):
    """The headings of a case file as words, each with what belongs to it."""
    at = 0
    while at < len(data):
        line = data.find(b"\n", at)
        line = len(data) if line < 0 else line
        heading = data[at:line].decode("utf-8").split(" ")
        if heading[0] != "%%":
            raise Refused(f"no heading where one is due, at byte {at}")
        body, at = section_body(data, line + 1, heading[1:])
        yield heading[1:], body


def read_cases(path: str) -> list[Case]:
    """The cases of a file, in order."""
    with open(path, "rb") as file:
        data = file.read()
    cases: list[Case] = []
    for heading, body in sections(data):
        match heading:
            case ["case", *name]:
                cases.append(Case(" ".join(name)))
            case ["words", *words]:
                cases[-1].words = words
            case ["file", name, *_]:
                cases[-1].files[name] = body
            case ["status", number]:
                cases[-1].status = int(number)
            case ["out", *_]:
                cases[-1].out = body
    return cases


def command_text(case: Case) -> bytes:
    """The text that a case of a command hands to it."""
    if len(case.words) < 2 or case.words[1] not in case.files:
        raise Refused("it isn't a case of a command on a text")
    return case.files[case.words[1]]


def run_words(case: Case) -> tuple[bytes, list[int], list[int], int]:
    """The text, the input, the schedule and the steps of a case of `run`."""
    if len(case.words) != 5 or case.words[0] != "run" or case.out is None:
        raise Refused("it isn't a case of run")
    file, input_name, schedule_name, steps = case.words[1:]
    return case.files[file], numbers(case, input_name), numbers(case, schedule_name), int(steps)


def numbers(case: Case, name: str) -> list[int]:
    """The list that a file holds; `-` is the empty one."""
    if name == "-":
        return []
    try:
        return [int(word) for word in case.files[name].split()]
    except ValueError:
        raise Refused(f"{name} holds no list") from None
