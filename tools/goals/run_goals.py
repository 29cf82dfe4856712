"""Goals about runs: the typed tree of a text, and that its run computes to the expected end and output."""
from __future__ import annotations

from .cases import Case, run_words
from .endings import Ending, ending_of
from .files import Goal, Vocabulary
from .refusal import Refused
from .statements import tree_of
from .terms import Bytes, Term, apply, integer, natural, row, words_of

DECLARED = "Rattle.sl_syntax.specs.declared"
VOCABULARY = Vocabulary({
    "t": "Rattle.sl_base.specs.declared.scalar.Scalar.TheVariants",
    "f": "Rattle.sl_base.specs.declared.form.Form.TheVariants",
    "access": f"{DECLARED}.operator.Access.TheVariants",
    "o": f"{DECLARED}.operator.Arithmetic.TheVariants",
    "c": f"{DECLARED}.operator.Comparison.TheVariants",
    "callees": f"{DECLARED}.typed.callee.Callee.TheVariants",
    "part": f"{DECLARED}.typed.element.ElementPart.TheVariants",
    "taken": f"{DECLARED}.typed.element.Taken.TheVariants",
    "operators": f"{DECLARED}.typed.operator.Operator.TheVariants",
    "parameter": f"{DECLARED}.typed.parameter.ParameterKind.TheVariants",
    "sort": f"{DECLARED}.typed.variable.VariableKind.TheVariants",
}, {
    "Rattle.std.specs.Prelude": ["◌≡◌", "◌++◌", "refl", "true", "false", "[]", "◌∷◌", "Some", "None", "pos",
                                 "negsuc", "codes"],
    "Rattle.std.specs.Fmt": ["digits"],
    f"{DECLARED}.typed.step.Fix.TheVariants": ["Prefix", "Postfix"],
    f"{DECLARED}.typed.step.Step.TheVariants": ["Up", "Down"],
    "Rattle.sl_syntax.specs.Typed": """literal held iterator convert negate logical_not logical_and logical_or arithmetic comparison
        increment move call own_call first second container handed_scalar scalar reference element none with read not_read test always text endline
        number reads prints evaluates assigns updates moves_to unset_scalar set_scalar set_iterator binds_reference makes no_first
        declares_first does_first block declares choice choice_else while for range_for break continue gives_back does Typed""".split(),
    "Rattle.sl_specs.specs.Table": ["table"],
    "Rattle.sl_model.specs.Runs.Ends": ["Done", "Trapped", "OutOfSteps", "Language", "Thrown"],
    "Rattle.sl_model.specs.Runs.Run": ["run"],
    "Rattle.sl_model.proofs.Examples.Short": ["at", "head", "all", "finish", "trap"],
}, "run", ("ends",))


def goal_of(case: Case, name: str) -> Goal:
    """A case as a goal."""
    source, inputs, picks, steps = run_words(case)
    try:
        tree = tree_of(source)
    except (AssertionError, IndexError, KeyError, ValueError) as why:
        raise Refused(f"its text isn't one of the language: {why!r}") from why
    ending = ending_of(tree, case.out or b"")
    run = apply("run", apply(name), row([integer(z) for z in inputs]), row([natural(n) for n in picks]), natural(steps))
    finish = apply("finish", ending.end, Bytes(ending.output), natural(ending.lost))
    return Goal(name, case.name, source, "Typed", tree.term, "ends", run, finish, opened(tree.term, ending))


def opened(tree: Term, ending: Ending) -> list[str]:
    """The definitions that a goal has to open: by one numbers are printed, by the other calls find their row."""
    prints_number = any(48 <= byte < 58 for byte in ending.output)
    calls_library = any(word in words_of(tree) for word in ("callees.Row", "callees.Appends"))
    return ["digits"] * prints_number + ["table"] * calls_library
