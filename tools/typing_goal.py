#!/usr/bin/env python3
"""Turns cases of a command on a text into closed goals about typing: the tree of the text as a term, and that it breaks the rule that the
case expects first, at the place that it expects, or no rule where the case accepts the text.

Which rules a text breaks is a definition (crates/sl_typing/specs), and this computes it by the proof checker, with none of the program's
code. The reader here is one of its own: it reads a text that is in the language, and doesn't look whether it is. A case that it can't turn
(also one whose text is refused by its tokens or the grammar) is named on the standard error, with the reason, and left out.

usage, from any folder:
  tools/typing_goal.py FILE.cases                    goals for the cases of a file, as a file of proofs
  tools/typing_goal.py --named TEXT FILE.cases       for those whose name holds this text
  tools/typing_goal.py --take FROM COUNT FILE.cases  for so many of them, from a place on (the first is 0)
  tools/typing_goal.py --trees .. FILE.cases         the trees alone
  tools/typing_goal.py --split COUNT FOLDER FILE.cases
                                                     files Goals001.antt and so on, of so many goals each

The status is 0 where each case was turned, and 1 where some weren't.
"""
import sys

sys.dont_write_bytecode = True

from goals.command import Command, run_command
from goals.typing_goals import VOCABULARY, goal_of

if __name__ == "__main__":
    sys.exit(run_command(Command(
        "turns cases of a command on a text into closed goals about typing",
        "Texts, each with the rule of typing that it breaks first, or with none, made from cases by tools/typing_goal.py.",
        VOCABULARY, goal_of)))
