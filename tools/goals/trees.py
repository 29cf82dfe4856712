"""The source tree of a text, as a term: crates/sl_syntax/specs/Tree in the words of crates/sl_typing/proofs/Examples/Words."""
from __future__ import annotations

from collections.abc import Sequence

from . import syntax as s
from .calls import ARITHMETIC, COMPARISONS
from .grammar import program_of
from .terms import Bytes, Term, Word, apply, at, natural, row, some
from .tokens import Place

LOGICAL = {"||": "Or", "&&": "And"}
PREFIXES = {"!": "Not", "-": "Negate", "*": "Dereference", "++": "Increment", "--": "Decrement"}
STEPS = {"++": "Increment", "--": "Decrement"}
SELECTORS = {".": "Dot", "->": "Arrow"}
MAIN = Place(1, 1), Place(1, 5), Place(1, 12)


def truth(value: bool) -> Term:
    """A truth value."""
    return Word("true" if value else "false")


def identifier(place: Place, name: str) -> Term:
    """A name at its place."""
    return apply("id", Word(f'"{name}"'), natural(place.line), natural(place.col))


def id_of(x: s.Word) -> Term:
    """A name at its place."""
    return identifier(x.place, x.name)


def arithmetic(operator: str) -> Term:
    """An operator that calculates, by its first byte: that of `+=` is the one of `+`."""
    return Word(f"o.{ARITHMETIC[operator[0]]}")


def binary_operator(operator: str) -> Term:
    """An operator between two operands."""
    if operator in LOGICAL:
        return Word(f"operator.{LOGICAL[operator]}")
    if operator in COMPARISONS:
        return apply("operator.Comparison", Word(f"c.{COMPARISONS[operator]}"))
    return apply("operator.Arithmetic", arithmetic(operator))


def expressions(terms: Sequence[s.Expr]) -> Term:
    """Expressions in their order."""
    return apply("all", row([expression(e) for e in terms])) if terms else Word("none")


def expression(e: s.Expr) -> Term:
    """An expression."""
    match e:
        case s.Number(place, value):
            return apply("number", at(place), natural(value))
        case s.Truth(place, value):
            return apply("truth", at(place), truth(value))
        case s.Name(place, name):
            return apply("name", identifier(place, name))
        case s.Parentheses(place, inner):
            return apply("parentheses", at(place), expression(inner))
        case s.Prefix(place, operator, operand):
            return apply("prefix", Word(f"before.{PREFIXES[operator]}"), at(place), expression(operand))
        case s.Binary(place, operator, left, right):
            return apply("binary", expression(left), binary_operator(operator), at(place), expression(right))
    return with_suffix(e)


def with_suffix(e: s.Expr) -> Term:
    """A call, or an operand with a piece behind it."""
    match e:
        case s.OwnCall(place, name, arguments):
            return apply("call", identifier(place, name), expressions(arguments))
        case s.LibCall(place, name, arguments):
            return apply("library_call", identifier(place, name), expressions(arguments))
        case s.Postfix(place, operator, operand):
            return apply("postfix", expression(operand), Word(f"behind.{STEPS[operator]}"), at(place))
        case s.Index(place, container, index):
            return apply("index", expression(container), at(place), expression(index))
        case s.MemberCall(place, object_, name, arguments):
            return apply("member_call", expression(object_), identifier(place, name), expressions(arguments))
        case s.Member(place, object_, selector, name):
            return apply("member", expression(object_), Word(f"selector.{SELECTORS[selector]}"), at(place), id_of(name))
    raise TypeError(e)


def container_type(x: s.ContainerType) -> Term:
    """A container's type."""
    return apply("container_type", at(x.place), Word(f"f.{x.form}"))


def iterator_type(x: s.IteratorType) -> Term:
    """An iterator's type."""
    return apply("iterator_type", container_type(x.container), id_of(x.name))


def element_type(is_auto: bool) -> Term:
    """How the type of an element is written."""
    return Word("type.Auto" if is_auto else "type.Int")


def reference_head(x: s.ReferenceHead) -> Term:
    """What stands before a reference's name."""
    return apply("reference_head", at(x.place), truth(x.is_const), element_type(x.is_auto))


def initializer(x: s.ContainerDeclaration) -> Term:
    """What a container is made from."""
    match x:
        case s.ContainerDeclaration(how="copy", arguments=[s.Name(place, name)]):
            return apply("copies", identifier(place, name))
        case s.ContainerDeclaration(how="braces"):
            return apply("braces", truth(x.has_equal), expressions(x.arguments))
        case s.ContainerDeclaration(how="call"):
            return apply("arguments", expressions(x.arguments))
    return Word("absent")


def declaration(x: s.Declaration) -> Term:
    """A declaration."""
    match x:
        case s.ContainerDeclaration():
            return apply("declares_container", container_type(x.type), id_of(x.name), initializer(x))
        case s.ReferenceDeclaration(head, name, value):
            return apply("declares_reference", reference_head(head), id_of(name), expression(value))
        case s.ScalarDeclaration(place, None, name, value):
            return apply("declares_auto", at(place), id_of(name), expression(value))
    value = some(None if x.value is None else expression(x.value))
    return apply("declares_scalar", at(x.place), Word(f"t.{x.scalar}"), id_of(x.name), value)


def read(x: s.ReadEffect) -> Term:
    """A read of variables."""
    return apply("read", at(x.place), row([id_of(name) for name in x.variables]))


def printed(x: s.PrintItem) -> Term:
    """An item of a print."""
    if x.value is None:
        return apply("end_line", at(x.start))
    if isinstance(x.value, bytes):
        return apply("text", at(x.start), Bytes(x.value))
    return apply("value", expression(x.value))


def effect(x: s.Effect) -> Term:
    """What is done for its effect."""
    match x:
        case s.ReadEffect():
            return apply("reads", read(x))
        case s.PrintEffect(place, listed):
            return apply("prints", at(place), row([printed(item) for item in listed]))
        case s.Evaluation(e):
            return apply("evaluates", expression(e))
    operator = Word("assignment.Set") if x.operator == "=" else apply("assignment.Update", arithmetic(x.operator))
    return apply("assigns", expression(x.left), operator, at(x.place), expression(x.right))


def condition(x: s.Condition) -> Term:
    """What is tested."""
    if not isinstance(x, s.ReadCondition):
        return apply("tests", expression(x))
    return apply("tests_read", read(x.read)) if x.negation is None else apply("tests_no_read", at(x.negation), read(x.read))


def items(listed: Sequence[s.Stmt]) -> Term:
    """Items in their order."""
    return row([item(x) for x in listed])


def item(x: s.Stmt) -> Term:
    """An item of a block."""
    return apply("declares", declaration(x.declaration)) if isinstance(x, s.Declared) else apply("states", statement(x))


def statement(x: s.Stmt) -> Term:
    """A statement."""
    match x:
        case s.Block(opening, listed, close):
            return apply("block", at(opening), apply("items", items(listed)), at(close))
        case s.If(place, tested, then, None):
            return apply("choice", at(place), condition(tested), statement(then))
        case s.If(place, tested, then, otherwise):
            return apply("choice_else", at(place), condition(tested), statement(then), statement(otherwise))
        case s.While(place, tested, body):
            return apply("while", at(place), condition(tested), statement(body))
        case s.For():
            return for_loop(x)
        case s.RangeFor(place, taken, name, container, body):
            return apply("range_for", at(place), element(taken), id_of(name), id_of(container), statement(body))
        case s.Jump(place, word):
            return apply(word, at(place))
        case s.Return(place, value):
            return apply("gives_back", at(place), some(None if value is None else expression(value)))
        case s.Does(place, done):
            return apply("does", at(place), effect(done))
    raise TypeError(x)


def element(x: s.ElementValue | s.ReferenceHead) -> Term:
    """How the variable of a range-for takes an element."""
    if isinstance(x, s.ReferenceHead):
        return apply("element.Reference", reference_head(x))
    return apply("element.Value", element_type(x.is_auto))


def for_loop(x: s.For) -> Term:
    """A `for`."""
    first = some(None if x.first is None else first_part(x.first))
    tested = some(None if x.condition is None else condition(x.condition))
    last = some(None if x.last is None else effect(x.last))
    return apply("for", at(x.place), first, tested, last, statement(x.body))


def first_part(x: s.Declaration | s.Effect) -> Term:
    """The first part of a `for`."""
    match x:
        case s.ScalarDeclaration(place, None, name, value):
            return apply("first_auto", at(place), id_of(name), expression(value))
        case s.ScalarDeclaration(place, scalar, name, value):
            return apply("first_scalar", at(place), Word(f"t.{scalar}"), id_of(name), expression(value))
    return apply("first_effect", effect(x))


def parameter(x: s.Parameter) -> Term:
    """A parameter."""
    match x:
        case s.ScalarParameter(place, scalar, is_reference, name):
            kind = "parameter.Reference" if is_reference else "parameter.Value"
            return apply(kind, at(place), Word(f"t.{scalar}"), id_of(name))
        case s.ContainerParameter(place, True, type_, name):
            return apply("parameter.ConstContainer", at(place), container_type(type_), id_of(name))
        case s.ContainerParameter(_, False, type_, name):
            return apply("parameter.Container", container_type(type_), id_of(name))
    return apply("parameter.Iterator", iterator_type(x.type), id_of(x.name))


def result(x: s.Result) -> Term:
    """What a function gives back."""
    if x is None:
        return Word("result.Void")
    return apply("result.Scalar", Word(f"t.{x}")) if isinstance(x, str) else apply("result.Iterator", iterator_type(x))


def function(x: s.Function) -> Term:
    """A function."""
    body = at(x.body.open), apply("items", items(x.body.items)), at(x.body.close)
    return apply("function", at(x.place), result(x.result), id_of(x.name), row([parameter(p) for p in x.parameters]), *body)


def is_plain_main(x: s.Function) -> bool:
    """Whether a text begins with this function as `int main() {`."""
    return (x.place, x.name.place, x.body.open) == MAIN and (x.name.name, x.result, x.parameters) == ("main", "Int", [])


def program(source: bytes) -> Term:
    """The tree of a text."""
    functions = program_of(source)
    if len(functions) == 1 and is_plain_main(functions[0]):
        body = functions[0].body
        return apply("main_alone", items(body.items), at(body.close))
    return row([function(x) for x in functions])
