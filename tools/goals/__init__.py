"""Closed goals about runs and typing: what tools/run_goal.py and tools/typing_goal.py are made of.

| Module | What is there |
|---|---|
| refusal | why a case isn't turned into a goal |
| cases | case files |
| tokens, syntax, expressions, grammar | a text, its tokens and its tree |
| library | the table of the library's calls, read from the crate sl_specs |
| types, scope | types, variables and their numbers |
| typing, calls, statements | the typed tree of a text, as terms |
| endings | the expected text of a run, as an end and an output |
| trees | the tree of a text as it is written, as a term |
| rules | the rules of typing, read from the crate sl_typing, and which one a case breaks |
| terms, files | terms of antt, and files of goals |
| run_goals, typing_goals | a case as a goal about its run, or about the rule that it breaks |
| command | what both commands have in common |
"""
