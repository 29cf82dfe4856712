"""What the commands that turn cases into goals have in common."""
from __future__ import annotations

import argparse
import sys
from collections.abc import Callable
from dataclasses import dataclass
from pathlib import Path

from .cases import Case, read_cases
from .files import Goal, Vocabulary, file_of, identifier
from .refusal import Refused


@dataclass(frozen=True)
class Command:
    """What a command does, in words; the title and the names of its files; and how it turns a case with a name into a goal."""
    description: str
    title: str
    vocabulary: Vocabulary
    goal_of: Callable[[Case, str], Goal]


def options(command: Command) -> argparse.Namespace:
    """What the command line asks."""
    parser = argparse.ArgumentParser(description=command.description)
    parser.add_argument("file", help="a file of cases")
    parser.add_argument("--named", default="", help="a text that the names of the cases hold")
    parser.add_argument("--take", nargs=2, type=int, metavar=("FROM", "COUNT"), help="which of them")
    parser.add_argument("--trees", action="store_true", help="the trees without goals")
    parser.add_argument("--split", nargs=2, metavar=("COUNT", "FOLDER"), help="files of so many goals, in a folder")
    return parser.parse_args()


def chosen(cases: list[Case], asked: argparse.Namespace) -> list[Case]:
    """The cases that are asked for."""
    found = [case for case in cases if asked.named in case.name]
    if asked.take:
        start, count = asked.take
        found = found[start:start + count]
    return found


def turned(cases: list[Case], command: Command) -> list[Goal]:
    """The cases as goals, without those that can't be turned."""
    goals: list[Goal] = []
    taken: set[str] = set()
    for case in cases:
        try:
            goals.append(command.goal_of(case, identifier(case.name, taken, command.vocabulary)))
        except Refused as why:
            print(f"left out: {case.name}: {why}", file=sys.stderr)
    return goals


def write_split(goals: list[Goal], size: int, folder: Path, command: Command, with_goals: bool) -> None:
    """Writes files of so many goals."""
    folder.mkdir(parents=True, exist_ok=True)
    for number, start in enumerate(range(0, len(goals), size), 1):
        text = file_of(command.title, goals[start:start + size], command.vocabulary, with_goals)
        (folder / f"Goals{number:03}.antt").write_text(text)


def run_command(command: Command) -> int:
    """Reads the cases and writes the goals."""
    asked = options(command)
    cases = chosen(read_cases(asked.file), asked)
    goals = turned(cases, command)
    if asked.split:
        write_split(goals, int(asked.split[0]), Path(asked.split[1]), command, not asked.trees)
    else:
        print(file_of(command.title, goals, command.vocabulary, not asked.trees), end="")
    return 0 if len(goals) == len(cases) else 1
