"""Goals about typing: the tree of a text as it is written, and that it breaks this rule first, or none."""
from __future__ import annotations

from .cases import Case, command_text
from .files import Goal, Vocabulary
from .refusal import Refused
from .rules import Broken, first_broken
from .terms import Term, Word, apply, at, row
from .trees import program

LONGEST = 20_000
DECLARED = "Rattle.sl_syntax.specs.declared"
VOCABULARY = Vocabulary({
    "t": "Rattle.sl_base.specs.declared.scalar.Scalar.TheVariants",
    "f": "Rattle.sl_base.specs.declared.form.Form.TheVariants",
    "o": f"{DECLARED}.operator.Arithmetic.TheVariants",
    "assignment": f"{DECLARED}.operator.Assignment.TheVariants",
    "operator": f"{DECLARED}.operator.BinaryOperator.TheVariants",
    "c": f"{DECLARED}.operator.Comparison.TheVariants",
    "behind": f"{DECLARED}.operator.PostfixOperator.TheVariants",
    "before": f"{DECLARED}.operator.PrefixOperator.TheVariants",
    "selector": f"{DECLARED}.operator.Selector.TheVariants",
    "element": f"{DECLARED}.tree.element.Element.TheVariants",
    "type": f"{DECLARED}.tree.element.ElementType.TheVariants",
    "parameter": f"{DECLARED}.tree.function.Param.TheVariants",
    "result": f"{DECLARED}.tree.function.ResultType.TheVariants",
    "rule": "Rattle.sl_typing.specs.declared.rules.TheConstants",
}, {
    "Rattle.std.specs.Prelude": ["◌≡◌", "◌++◌", "refl", "true", "false", "[]", "◌∷◌", "Some", "None", "codes"],
    "Rattle.sl_syntax.specs.Tree": """number truth name call library_call parentheses prefix binary postfix index member_call member
        none absent copies braces arguments declares_scalar declares_auto declares_reference declares_container text end_line
        value reads prints evaluates assigns tests_read tests_no_read tests first_scalar first_auto first_effect block choice
        choice_else while for range_for break continue gives_back does declares states Program""".split(),
    "Rattle.sl_typing.specs.ProgramFaults": ["program_faults"],
    "Rattle.sl_typing.specs.Typing": ["FirstBroken"],
    "Rattle.sl_typing.proofs.Examples.Words": """at id all items read container_type iterator_type reference_head function main_alone
        fault""".split(),
}, "text", ("breaks", "breaks_none"))


def goal_of(case: Case, name: str) -> Goal:
    """A case as a goal."""
    source, broken = command_text(case), first_broken(case)
    if len(source) > LONGEST:
        raise Refused(f"its text is longer than {LONGEST} bytes")
    try:
        tree = program(source)
    except (IndexError, KeyError, ValueError) as why:
        raise Refused(f"its text isn't one of the language: {why!r}") from why
    left, right = claim(name, broken)
    ending = "breaks_none" if broken is None else "breaks"
    return Goal(name, case.name, source, "Program", tree, ending, left, right, ["program_faults"])


def claim(name: str, broken: Broken | None) -> tuple[Term, Term | None]:
    """What is stated of the tree of this name."""
    if broken is None:
        return apply("program_faults", Word(name)), row([])
    return apply("FirstBroken", Word(name), apply("fault", at(broken.place), Word(f"rule.{broken.rule}"))), None
