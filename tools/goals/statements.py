"""The typed tree of statements, functions and a whole text, as terms."""
from __future__ import annotations

from dataclasses import dataclass, field

from . import syntax as s
from .calls import ARITHMETIC, Told, converted, head, operands, row_callee, row_operands
from .grammar import program_of
from .library import row_for, rows_called
from .refusal import Refused
from .scope import Named, Text
from .terms import NOTHING, Bytes, Record, Term, Word, apply, at, integer, natural, row, some
from .tokens import Place
from .types import Container, Iterator, Nothing, Reference, Scalar, Type, common, iterator_of, kind_of, number_type
from .typing import Expressions, Signature, element_parts

PAIRED = ("Map", "HashMap", "MultiMap")


@dataclass
class Tree:
    """The typed tree of a text, and what its expected end is read by."""
    term: Term
    text: Text
    sites: list[Place]
    told: list[Told]
    prints: list[s.PrintEffect] = field(default_factory=list)


class Statements(Expressions):
    """Types the statements of a function."""

    def __init__(self, text: Text, functions: dict[str, Signature], told: list[Told], result: Type):
        super().__init__(text, functions, told)
        self.result = result
        self.prints: list[s.PrintEffect] = []

    def block(self, x: s.Block) -> Term:
        """A block; its brace is a site where it declares a container."""
        self.scope.enter()
        items = [self.statement(item) for item in x.items]
        self.scope.leave()
        declares = any(isinstance(item, s.Declared) and isinstance(item.declaration, s.ContainerDeclaration) for item in x.items)
        return apply("block", some(self.text.site(x.close) if declares else None), apply("all", row(items)))

    def statement(self, x: s.Stmt) -> Term:
        """A statement."""
        match x:
            case s.Block():
                return self.block(x)
            case s.Declared(declaration):
                return apply("declares", self.declaration(declaration))
            case s.If(_, condition, then, None):
                return apply("choice", self.condition(condition), self.statement(then))
            case s.If(_, condition, then, otherwise):
                return apply("choice_else", self.condition(condition), self.statement(then), self.statement(otherwise))
            case s.While(place, condition, body):
                return apply("while", natural(self.text.loop(place)), self.condition(condition), self.statement(body))
            case s.For():
                return self.for_loop(x)
            case s.RangeFor():
                return self.range_for(x)
            case s.Jump(_, word):
                return Word(word)
            case s.Return(_, value):
                return apply("gives_back", some(None if value is None else self.returned(value)))
            case s.Does(_, effect):
                return apply("does", self.effect(effect))
        raise Refused("a statement")

    def returned(self, value: s.Expr) -> Term:
        """A value as the function gives it back."""
        type_, term = self.typed(value)
        return converted(self.result.name, type_, term) if isinstance(self.result, Scalar) else term

    def for_loop(self, x: s.For) -> Term:
        """A `for`."""
        number = natural(self.text.loop(x.place))
        self.scope.enter()
        first = self.first(x.first)
        condition = Word("always") if x.condition is None else self.condition(x.condition)
        last = some(None if x.last is None else self.effect(x.last))
        body = self.statement(x.body)
        self.scope.leave()
        return apply("for", number, first, condition, last, body)

    def first(self, x: s.Declaration | s.Effect | None) -> Term:
        """The first part of a `for`."""
        if x is None:
            return Word("no_first")
        if isinstance(x, (s.ScalarDeclaration, s.ReferenceDeclaration, s.ContainerDeclaration)):
            return apply("declares_first", self.declaration(x))
        return apply("does_first", self.effect(x))

    def range_for(self, x: s.RangeFor) -> Term:
        """A range-for."""
        number, is_reference = natural(self.text.loop(x.place)), isinstance(x.element, s.ReferenceHead)
        variable, type_ = self.container(s.Name(x.container.place, x.container.name))
        self.tell(x.place, "for", [None, variable.label, variable.label])
        self.scope.enter()
        self.scope.declare_hidden()
        self.scope.declare(x.name, Reference(type_.form in PAIRED) if is_reference else Scalar("Int"))
        body = self.statement(x.body)
        self.scope.leave()
        taken = Word("taken.Reference" if is_reference else "taken.Value")
        return apply("range_for", number, taken, natural(variable.number), at(x.place), natural(variable.label), body)

    def condition(self, x: s.Condition) -> Term:
        """A condition."""
        if isinstance(x, s.ReadCondition):
            return apply("not_read" if x.negation else "read", self.read_variables(x.read))
        type_, term = self.typed(x)
        number_type(type_)
        return apply("test", term)

    def read_variables(self, x: s.ReadEffect) -> Term:
        """The variables of a read."""
        return row([natural(self.variable(s.Name(name.place, name.name), Scalar).number) for name in x.variables])

    def effect(self, x: s.Effect) -> Term:
        """An effect."""
        match x:
            case s.ReadEffect():
                return apply("reads", self.read_variables(x))
            case s.PrintEffect():
                self.prints.append(x)
                return apply("prints", row([self.printed(item) for item in x.items]))
            case s.Evaluation(expr):
                return apply("evaluates", self.typed(expr)[1])
        return self.assignment(x)

    def printed(self, x: s.PrintItem) -> Term:
        """An item of a print."""
        if x.value is None:
            return Word("endline")
        if isinstance(x.value, bytes):
            return apply("text", Bytes(x.value))
        type_, term = self.typed(x.value)
        number_type(type_)
        return apply("number", term)

    def assignment(self, x: s.Assignment) -> Term:
        """An assignment of a container, an iterator or a number."""
        type_ = self.scope.find(x.left.name).type if isinstance(x.left, s.Name) else None
        if isinstance(type_, Container):
            return apply("evaluates", self.container_assignment(x, type_))
        if isinstance(type_, Iterator) and x.operator == "=":
            return apply("moves_to", natural(self.variable(x.left, Iterator).number), self.typed(x.right)[1])
        if isinstance(type_, Iterator):
            return apply("evaluates", self.moved(x.place, x.operator, "Prefix", x.left, [x.right])[1])
        left_type, left = self.left(x.left)
        right_type, right = self.typed(x.right)
        left_scalar = number_type(left_type)
        if x.operator == "=":
            return apply("assigns", left, converted(left_scalar, right_type, right))
        scalar = common(left_scalar, number_type(right_type))
        operator = Word(f"o.{ARITHMETIC[x.operator[0]]}")
        types = Word(f"t.{scalar}"), Word(f"t.{left_scalar}")
        return apply("updates", operator, *types, at(x.place), left, converted(scalar, right_type, right))

    def container_assignment(self, x: s.Assignment, type_: Container) -> Term:
        """`a = b` of containers."""
        (found,) = rows_called(type_.form, "=")
        told = self.tell(x.place, "=", [self.label(x.left), self.label(x.right)])
        called = head(row_callee(found), told, self.text.site(x.place), self.variable(x.left, Container).number)
        return apply("call", called, operands([self.typed(x.right)[1]]))

    def declaration(self, x: s.Declaration) -> Term:
        """A declaration: the variable comes into scope behind it."""
        match x:
            case s.ContainerDeclaration():
                return self.container_declaration(x)
            case s.ReferenceDeclaration():
                parts = element_parts(self.left(x.value)[1])
                self.scope.declare(x.name, Reference(False))
                return apply("binds_reference", *parts)
            case s.ScalarDeclaration(_, scalar, name, None):
                self.scope.declare(name, Scalar(str(scalar)))
                return apply("unset_scalar", Word(f"t.{scalar}"))
        type_, term = self.typed(x.value)
        if x.scalar is None and isinstance(type_, Iterator):
            self.scope.declare(x.name, type_)
            return apply("set_iterator", term)
        scalar = x.scalar or number_type(type_)
        self.scope.declare(x.name, Scalar(scalar))
        return apply("set_scalar", Word(f"t.{scalar}"), converted(scalar, type_, term))

    def container_declaration(self, x: s.ContainerDeclaration) -> Term:
        """A declaration of a container. Elements in braces are arguments as those of a call are."""
        form, arguments = x.type.form, [self.typed(e) for e in x.arguments]
        told = self.tell(x.type.place, "constructor", [None, *map(self.label, x.arguments)])
        if x.how == "braces" and arguments:
            (found,) = [r for r in rows_called(form, "constructor") if "InitializerList" in r.letters]
            listed = [converted("Int", *argument) for argument in arguments]
        else:
            found = row_for(form, "constructor", [kind_of(type_) for type_, _ in arguments])
            listed = row_operands(found, arguments)
        self.scope.declare(x.name, Container(form, False))
        return apply("makes", Word(f"f.{form}"), head(row_callee(found), told), operands(listed))


def parameter_type(x: s.Parameter) -> Type:
    """The type of a parameter's variable."""
    match x:
        case s.ContainerParameter(_, is_const, type_):
            return Container(type_.form, is_const)
        case s.IteratorParameter(type_):
            return iterator_of(type_)
    return Scalar(x.scalar)


def parameter_kind(x: s.Parameter) -> Term:
    """How a parameter takes its operand."""
    match x:
        case s.ContainerParameter(_, is_const, type_):
            return apply("parameter.Container", Word("access.Const" if is_const else "access.Whole"), Word(f"f.{type_.form}"))
        case s.IteratorParameter(type_):
            return iterator_kind(iterator_of(type_))
    return apply("parameter.Reference" if x.is_reference else "parameter.Value", Word(f"t.{x.scalar}"))


def iterator_kind(x: Iterator) -> Term:
    """An iterator as a parameter or a result."""
    return apply("parameter.Iterator", Word("true" if x.is_const else "false"), Word(f"f.{x.form}"))


def result_type(result: s.Result) -> Type:
    """What a function gives."""
    if result is None:
        return Nothing()
    return Scalar(result) if isinstance(result, str) else iterator_of(result)


def result_kind(result: s.Result) -> Term:
    """What a function gives back, as its tree says it."""
    if result is None:
        return NOTHING
    return some(apply("parameter.Value", Word(f"t.{result}")) if isinstance(result, str) else iterator_kind(iterator_of(result)))


def variable_term(x: Named) -> Term:
    """A variable that a function declares."""
    return Record((("kind", Word(f"sort.{x.sort}")), ("name", natural(x.label)), ("place", at(x.place))))


def function_term(function: s.Function, typist: Statements) -> Term:
    """A function."""
    for parameter in function.parameters:
        typist.scope.declare(parameter.name, parameter_type(parameter))
    body = typist.block(function.body)
    return Record((
        ("name", Bytes(function.name.name.encode())),
        ("parameters", row([parameter_kind(p) for p in function.parameters])),
        ("result", result_kind(function.result)),
        ("variables", row([variable_term(x) for x in typist.scope.listed])),
        ("body", body),
        ("close", at(function.body.close)),
    ))


def constants(text: Text) -> list[int]:
    """0, 1, each literal and its two neighbours."""
    return sorted({0, 1} | {literal + step for literal in text.literals for step in (-1, 0, 1)})


def tree_of(source: bytes) -> Tree:
    """The typed tree of a text."""
    text, told, functions, terms = Text(), [], {}, []
    prints: list[s.PrintEffect] = []
    for number, function in enumerate(program_of(source)):
        functions[function.name.name] = Signature(number, function.parameters, result_type(function.result))
        typist = Statements(text, functions, told, result_type(function.result))
        terms.append(function_term(function, typist))
        prints += typist.prints
    if "main" not in functions:
        raise Refused("no main")
    sites = text.number_sites()
    term = Record((
        ("functions", row(terms)),
        ("main", natural(functions["main"].number)),
        ("sites", row([at(place) for place in sites])),
        ("loops", row([at(place) for place in text.loops])),
        ("names", row([Bytes(name.encode()) for name in text.names])),
        ("constants", row([integer(number) for number in constants(text)])),
    ))
    return Tree(term, text, sites, told, prints)
