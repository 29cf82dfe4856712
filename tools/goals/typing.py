"""The typed tree of expressions, as terms: each conversion is a node, and variables, rows and sites are numbers."""
from __future__ import annotations

from dataclasses import dataclass

from . import syntax as s
from .calls import (ARITHMETIC, COMPARISONS, MOVES, Told, comparison_callee, converted, head, operands, operator_callee, row_callee,
                    row_operands)
from .library import LibraryRow, row_for
from .refusal import Refused
from .scope import Scope, Text, Variable
from .terms import Apply, Term, Word, apply, at, integer, natural
from .tokens import Place
from .types import BOOL, DIFF, INT, Appender, Container, Iterator, Nothing, Pair, Reference, Scalar, Type, common, kind_of, number_type

Found = tuple[Type, Term]


@dataclass(frozen=True)
class Signature:
    """What a call of a function of the text asks and gives."""
    number: int
    parameters: list[s.Parameter]
    result: Type


def stripped(e: s.Expr) -> s.Expr:
    """An expression without parentheses around it."""
    return stripped(e.inner) if isinstance(e, s.Parentheses) else e


class Expressions:
    """Types the expressions of a function."""

    def __init__(self, text: Text, functions: dict[str, Signature], told: list[Told]):
        self.text = text
        self.functions = functions
        self.scope = Scope(text)
        self.told = told

    def tell(self, place: Place, call: str, names: list[int | None]) -> Told:
        """A call, by what a failure at it is told."""
        found = Told(place, call, tuple(names))
        self.told.append(found)
        return found

    def label(self, e: s.Expr) -> int | None:
        """The number of a plain name."""
        return self.scope.find(e.name).label if isinstance(e, s.Name) else None

    def variable(self, e: s.Expr, kind: type) -> Variable:
        """The variable of a type that an expression is, also in parentheses."""
        inner = stripped(e)
        found = self.scope.find(inner.name) if isinstance(inner, s.Name) else None
        if found is None or not isinstance(found.type, kind):
            raise Refused(f"no variable of this type at {e.place.line}:{e.place.col}")
        return found

    def container(self, e: s.Expr) -> tuple[Variable, Container]:
        """The container that an expression names, and its type."""
        found = self.variable(e, Container)
        assert isinstance(found.type, Container)
        return found, found.type

    def typed(self, e: s.Expr) -> Found:
        """The type and the term of an expression."""
        match e:
            case s.Number(_, value):
                return INT, self.literal("Int", value)
            case s.Truth(_, value):
                return BOOL, self.literal("Bool", int(value))
            case s.Name():
                return self.named(e)
            case s.Parentheses(_, inner):
                return self.typed(inner)
            case s.OwnCall():
                return self.own_call(e)
            case s.LibCall():
                return self.library_call(e)
            case s.Prefix():
                return self.prefixed(e)
            case s.Postfix(_, _, operand):
                return self.stepped(e.place, e.operator, "Postfix", operand)
            case s.Binary():
                return self.binary(e)
            case s.Index():
                return INT, apply("held", self.left(e)[1])
            case s.MemberCall():
                return self.member_call(e)
            case s.Member():
                return self.member(e)
        raise Refused(f"an expression at {e.place.line}:{e.place.col}")

    def literal(self, scalar: str, value: int) -> Term:
        """A literal."""
        self.text.literals.add(value)
        return apply("literal", Word(f"t.{scalar}"), integer(value))

    def named(self, e: s.Name) -> Found:
        """A variable as an operand."""
        found = self.scope.find(e.name)
        match found.type:
            case Container():
                return found.type, apply("container", natural(found.number))
            case Iterator():
                return found.type, apply("iterator", natural(found.number))
            case _:
                type_, term = self.left(e)
                return type_, apply("held", term)

    def left(self, e: s.Expr) -> Found:
        """The type and the term of a left side."""
        match e:
            case s.Name():
                return self.left_name(e)
            case s.Prefix(_, "*", operand):
                return INT, self.element("*", "Dereference", e.place, operand)
            case s.Index():
                return INT, self.indexed(e)
            case s.MemberCall():
                found, called, listed = self.member_parts(e)
                if found.gives == "Element":
                    return INT, apply("element", called, listed)
            case s.Member(_, _, "->"):
                return INT, self.element("->", "ArrowFirst" if e.name.name == "first" else "ArrowSecond", e.place, e.object)
            case s.Member(_, object_, "."):
                return INT, self.use(object_, "First" if e.name.name == "first" else "Second")
        raise Refused(f"no left side at {e.place.line}:{e.place.col}")

    def left_name(self, e: s.Name) -> Found:
        """A scalar, or a reference to a whole element."""
        found = self.scope.find(e.name)
        match found.type:
            case Scalar():
                return found.type, apply("scalar", natural(found.number), at(e.place))
            case Reference(False):
                return INT, self.use(e, "Whole")
        raise Refused(f"no left side at {e.place.line}:{e.place.col}")

    def use(self, e: s.Expr, part: str) -> Term:
        """A use of a reference to an element."""
        found = self.variable(e, Reference)
        self.tell(e.place, "use", [None, found.label])
        return apply("reference", natural(found.number), at(e.place), natural(found.label), Word(f"part.{part}"))

    def element(self, call: str, operator: str, place: Place, operand: s.Expr) -> Term:
        """The element at an iterator."""
        _, term = self.typed(operand)
        told = self.tell(place, call, [None, self.label(operand)])
        return apply("element", head(operator_callee(operator), told), operands([term]))

    def indexed(self, e: s.Index) -> Term:
        """`a[e]`"""
        variable, type_ = self.container(e.container)
        argument = self.typed(e.index)
        found = row_for(type_.form, "[]", [kind_of(argument[0])])
        told = self.tell(e.place, "[]", [self.label(e.container), self.label(e.index)])
        site = self.text.site(e.place) if found.kills != "Nothing" else None
        return apply("element", head(row_callee(found), told, site, variable.number), operands(row_operands(found, [argument])))

    def member_parts(self, e: s.MemberCall) -> tuple[LibraryRow, Term, Term]:
        """The row, the head and the operands of a member call."""
        variable, type_ = self.container(e.object)
        arguments = [self.typed(x) for x in e.arguments]
        found = row_for(type_.form, e.name, [kind_of(x) for x, _ in arguments])
        told = self.tell(e.place, e.name, [self.label(e.object), *map(self.label, e.arguments)])
        site = self.text.site(e.place) if found.kills != "Nothing" else None
        return found, head(row_callee(found), told, site, variable.number), operands(row_operands(found, arguments))

    def member_call(self, e: s.MemberCall) -> Found:
        """A member call as an operand."""
        found, called, listed = self.member_parts(e)
        if found.gives == "Element":
            return INT, apply("held", apply("element", called, listed))
        _, type_ = self.container(e.object)
        iterator = Iterator(type_.form, type_.is_const)
        types: dict[str, Type] = {"Nothing": Nothing(), "Iterator": iterator, "IteratorAndBool": Pair(iterator, True),
                                  "IteratorPair": Pair(iterator, False)}
        return types[found.gives] if found.gives in types else Scalar(str(found.scalar)), apply("call", called, listed)

    def member(self, e: s.Member) -> Found:
        """`.first` and its like: of a pair, or of an element."""
        if e.selector == "->" or isinstance(e.object, s.Name):
            return INT, apply("held", self.left(e)[1])
        type_, term = self.typed(e.object)
        if not isinstance(type_, Pair):
            raise Refused(f"no pair at {e.place.line}:{e.place.col}")
        if e.name.name == "second" and type_.has_bool:
            return BOOL, apply("second", at(e.place), term)
        return type_.iterator, apply(e.name.name, at(e.place), term)

    def prefixed(self, e: s.Prefix) -> Found:
        """An operator before its operand."""
        if e.operator == "*":
            return INT, apply("held", self.left(e)[1])
        if e.operator in MOVES:
            return self.stepped(e.place, e.operator, "Prefix", e.operand)
        type_, term = self.typed(e.operand)
        if e.operator == "!":
            number_type(type_)
            return BOOL, apply("logical_not", at(e.place), term)
        result = common(number_type(type_), "Int")
        return Scalar(result), apply("negate", Word(f"t.{result}"), at(e.place), converted(result, type_, term))

    def stepped(self, place: Place, operator: str, fix: str, operand: s.Expr) -> Found:
        """`++` and `--`."""
        inner = stripped(operand)
        if isinstance(inner, s.Name) and isinstance(self.scope.find(inner.name).type, Iterator):
            return self.moved(place, operator, fix, operand, [])
        type_, term = self.left(operand)
        step = "Up" if operator == "++" else "Down"
        return type_, apply("increment", Word(step), Word(fix), Word(f"t.{number_type(type_)}"), at(place), term)

    def moved(self, place: Place, operator: str, fix: str, operand: s.Expr, by: list[s.Expr]) -> Found:
        """An operator that moves an iterator variable, by a number where there is one."""
        variable = self.variable(operand, Iterator)
        listed = [converted("Diff", *self.typed(x)) for x in by]
        told = self.tell(place, operator, [None, self.label(operand), *map(self.label, by)])
        called = head(operator_callee(MOVES[operator]), told)
        return variable.type, apply("move", Word(fix), natural(variable.number), called, operands(listed))

    def binary(self, e: s.Binary) -> Found:
        """An operator between two operands."""
        left, right = self.typed(e.left), self.typed(e.right)
        if e.operator in ("&&", "||"):
            name = "logical_and" if e.operator == "&&" else "logical_or"
            return BOOL, apply(name, at(e.place), left[1], right[1])
        if isinstance(left[0], Iterator):
            return self.iterator_operator(e, left, right)
        type_ = common(number_type(left[0]), number_type(right[0]))
        both = converted(type_, *left), converted(type_, *right)
        if e.operator in COMPARISONS:
            return BOOL, apply("comparison", Word(f"c.{COMPARISONS[e.operator]}"), at(e.place), *both)
        return Scalar(type_), apply("arithmetic", Word(f"o.{ARITHMETIC[e.operator]}"), Word(f"t.{type_}"), at(e.place), *both)

    def iterator_operator(self, e: s.Binary, left: Found, right: Found) -> Found:
        """An operator on an iterator and an iterator or a number."""
        told = self.tell(e.place, e.operator, [None, self.label(e.left), self.label(e.right)])
        if e.operator in COMPARISONS:
            return BOOL, apply("call", head(comparison_callee(e.operator), told), operands([left[1], right[1]]))
        if isinstance(right[0], Iterator) and e.operator == "-":
            return DIFF, apply("call", head(operator_callee("Difference"), told), operands([left[1], right[1]]))
        name = {"+": "Add", "-": "Subtract"}[e.operator]
        return left[0], apply("call", head(operator_callee(name), told), operands([left[1], converted("Diff", *right)]))

    def library_call(self, e: s.LibCall) -> Found:
        """A call of an algorithm."""
        arguments = [self.algorithm_argument(x) for x in e.arguments]
        found = row_for(None, e.name, [kind_of(x) for x, _ in arguments])
        appends = any(isinstance(x, Appender) for x, _ in arguments)
        told = self.tell(e.place, e.name, [None, *map(self.label, e.arguments)])
        called = head(row_callee(found, appends), told, self.text.site(e.place) if appends else None)
        listed = row_operands(found, arguments)
        if "IteratorVariable" in found.letters:
            moved = self.variable(e.arguments[0], Iterator).number
            return Nothing(), apply("move", Word("Prefix"), natural(moved), called, operands(listed[1:]))
        return self.algorithm_result(found, arguments), apply("call", called, operands(listed))

    def algorithm_argument(self, e: s.Expr) -> Found:
        """An argument of an algorithm, which may be an appender: that is its container."""
        if isinstance(e, s.LibCall) and e.name == "back_inserter":
            variable, _ = self.container(e.arguments[0])
            return Appender(), apply("container", natural(variable.number))
        return self.typed(e)

    def algorithm_result(self, found: LibraryRow, arguments: list[Found]) -> Type:
        """What an algorithm gives."""
        if found.gives == "FirstArgument":
            return arguments[0][0]
        if found.gives == "Output":
            return Nothing() if isinstance(arguments[-1][0], Appender) else arguments[-1][0]
        return Scalar(found.scalar) if found.scalar else Nothing()

    def own_call(self, e: s.OwnCall) -> Found:
        """A call of a function of the text."""
        if e.name not in self.functions:
            raise Refused(f"unknown function {e.name}")
        function = self.functions[e.name]
        listed = [self.handed(parameter, x) for parameter, x in zip(function.parameters, e.arguments)]
        return function.result, apply("own_call", natural(function.number), at(e.place), operands(listed))

    def handed(self, parameter: s.Parameter, e: s.Expr) -> Term:
        """An argument as a parameter takes it."""
        match parameter:
            case s.ScalarParameter(_, _, True):
                return apply("handed_scalar", natural(self.variable(e, Scalar).number))
            case s.ScalarParameter(_, scalar):
                return converted(scalar, *self.typed(e))
            case s.ContainerParameter():
                return apply("container", natural(self.container(e)[0].number))
        return self.typed(e)[1]


def element_parts(term: Term) -> tuple[Term, Term]:
    """The head and the operands of an element."""
    if isinstance(term, Apply) and term.function == "element":
        return term.arguments[0], term.arguments[1]
    raise Refused("a reference to what is no element")
