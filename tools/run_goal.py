#!/usr/bin/env python3
"""Turns cases of `run` into closed goals about runs: the typed tree of the text as a term, and that its run comes to the end and the output
that the case expects.

A run is a definition (crates/sl_model/specs), and this computes it on a text by the proof checker, with none of the program's code. The
reader here is one of its own: it reads a text that is in the language, and doesn't look whether it is. A case that it can't turn is named
on the standard error, with the reason, and left out.

usage, from any folder:
  tools/run_goal.py FILE.cases                    goals for the cases of a file, as a file of proofs
  tools/run_goal.py --named TEXT FILE.cases       for those whose name holds this text
  tools/run_goal.py --take FROM COUNT FILE.cases  for so many of them, from a place on (the first is 0)
  tools/run_goal.py --trees .. FILE.cases         the trees alone
  tools/run_goal.py --split COUNT FOLDER FILE.cases
                                                  files Goals001.antt and so on, of so many goals each

The status is 0 where each case was turned, and 1 where some weren't.
"""
import sys

sys.dont_write_bytecode = True

from goals.command import Command, run_command
from goals.run_goals import VOCABULARY, goal_of

if __name__ == "__main__":
    sys.exit(run_command(Command(
        "turns cases of `run` into closed goals about runs",
        "Closed runs of texts, made from cases by tools/run_goal.py.",
        VOCABULARY, goal_of)))
