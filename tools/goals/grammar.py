"""Reads the tree of a text off its tokens: ISO/IEC 14882:2017, [stmt.stmt] and [dcl.dcl]."""
from . import syntax as s
from .expressions import Cursor, arguments, expression, sum_of
from .refusal import Refused
from .tokens import Token, tokens_of

SCALAR_KEYS = {"int": "Int", "bool": "Bool"}
SCALAR_LIBS = {"size_t": "Size", "ptrdiff_t": "Diff"}
FORMS = {"vector": "Vector", "deque": "Deque", "list": "List", "set": "Set", "map": "Map", "unordered_set": "HashSet",
         "unordered_map": "HashMap", "multiset": "MultiSet", "multimap": "MultiMap"}
PAIRED = ("Map", "HashMap", "MultiMap")
ASSIGNMENTS = ("=", "+=", "-=", "*=", "/=", "%=")


def program_of(text: bytes) -> list[s.Function]:
    """The functions of a text."""
    c = Cursor(tokens_of(text))
    functions = [function(c)]
    while not c.sees("end"):
        functions.append(function(c))
    return functions


def sees_scalar(c: Cursor) -> bool:
    """Whether a scalar's type comes."""
    return c.sees("key", *SCALAR_KEYS) or c.sees("lib", *SCALAR_LIBS)


def scalar(c: Cursor) -> str:
    """A scalar's type."""
    if c.sees("key"):
        return SCALAR_KEYS[c.take("key", *SCALAR_KEYS).word]
    return SCALAR_LIBS[c.take("lib", *SCALAR_LIBS).word]


def container_type(c: Cursor) -> s.ContainerType:
    """A container's type."""
    lib = c.take("lib", *FORMS)
    form = FORMS[lib.word]
    c.mark("<")
    c.take("key", "int")
    if form in PAIRED:
        c.mark(",")
        c.take("key", "int")
    c.mark(">")
    return s.ContainerType(lib.place, form)


def iterator_type(c: Cursor, container: s.ContainerType) -> s.IteratorType:
    """An iterator's type, behind its container's."""
    c.mark("::")
    return s.IteratorType(container, c.name())


def result_of(c: Cursor) -> s.Result:
    """What a function gives back."""
    if c.sees("lib", *FORMS):
        return iterator_type(c, container_type(c))
    return None if c.skips("key", "void") else scalar(c)


def function(c: Cursor) -> s.Function:
    """A function."""
    place, result = c.token().place, result_of(c)
    name = c.name()
    c.mark("(")
    parameters: list[s.Parameter] = []
    while not c.sees("mark", ")"):
        if parameters:
            c.mark(",")
        parameters.append(parameter(c))
    c.mark(")")
    return s.Function(place, name, result, parameters, block(c))


def parameter(c: Cursor) -> s.Parameter:
    """A parameter."""
    place = c.token().place
    if sees_scalar(c):
        return s.ScalarParameter(place, scalar(c), c.skips("mark", "&"), c.name())
    is_const = c.skips("key", "const")
    type_ = container_type(c)
    if c.sees("mark", "::") and not is_const:
        return s.IteratorParameter(iterator_type(c, type_), c.name())
    c.mark("&")
    return s.ContainerParameter(place, is_const, type_, c.name())


def block(c: Cursor) -> s.Block:
    """Items in braces."""
    opening = c.mark("{")
    items: list[s.Stmt] = []
    while not c.sees("mark", "}"):
        items.append(item(c))
    return s.Block(opening, items, c.mark("}"))


def sees_reference(c: Cursor) -> bool:
    """Whether the head of a reference's declaration comes."""
    ahead = int(c.sees("key", "const"))
    return c.sees("key", "int", "auto", ahead=ahead) and c.sees("mark", "&", ahead=ahead + 1)


def sees_declaration(c: Cursor) -> bool:
    """Whether a declaration comes."""
    return sees_scalar(c) or c.sees("key", "auto", "const") or c.sees("lib", *FORMS)


def item(c: Cursor) -> s.Stmt:
    """A declaration or a statement."""
    if not sees_declaration(c):
        return statement(c)
    found = declaration(c)
    c.mark(";")
    return s.Declared(found)


def reference_head(c: Cursor) -> s.ReferenceHead:
    """The head of a reference's declaration."""
    place = c.token().place
    is_const = c.skips("key", "const")
    is_auto = c.take("key", "int", "auto").word == "auto"
    c.mark("&")
    return s.ReferenceHead(place, is_const, is_auto)


def declaration(c: Cursor) -> s.Declaration:
    """A declaration without its `;`."""
    if sees_reference(c):
        head, name = reference_head(c), c.name()
        c.mark("=")
        return s.ReferenceDeclaration(head, name, expression(c))
    if c.sees("lib", *FORMS):
        return container_declaration(c)
    place = c.token().place
    is_auto = c.skips("key", "auto")
    type_ = None if is_auto else scalar(c)
    name = c.name()
    if c.skips("mark", "="):
        return s.ScalarDeclaration(place, type_, name, expression(c))
    if is_auto:
        raise Refused("auto without a value")
    return s.ScalarDeclaration(place, type_, name, None)


def container_declaration(c: Cursor) -> s.ContainerDeclaration:
    """The declaration of a container."""
    type_, name = container_type(c), c.name()
    if c.sees("mark", "("):
        return s.ContainerDeclaration(type_, name, "call", arguments(c))
    has_equal = c.skips("mark", "=")
    if c.sees("mark", "{"):
        return s.ContainerDeclaration(type_, name, "braces", arguments(c, "{", "}"), has_equal)
    if has_equal:
        source = c.name()
        return s.ContainerDeclaration(type_, name, "copy", [s.Name(source.place, source.name)])
    return s.ContainerDeclaration(type_, name, "absent", [])


def statement(c: Cursor) -> s.Stmt:
    """A statement."""
    if c.sees("mark", "{"):
        return block(c)
    if c.sees("key", "if"):
        return choice(c)
    if c.sees("key", "while"):
        return while_loop(c, c.take("key"))
    if c.sees("key", "for"):
        return for_loop(c, c.take("key"))
    found = simple_statement(c)
    c.mark(";")
    return found


def simple_statement(c: Cursor) -> s.Stmt:
    """A statement that ends with a `;`, without it."""
    place = c.token().place
    if c.sees("key", "break", "continue"):
        return s.Jump(place, c.take("key").word)
    if c.skips("key", "return"):
        return s.Return(place, None if c.sees("mark", ";") else expression(c))
    return s.Does(place, effect(c))


def choice(c: Cursor) -> s.If:
    """An `if`; an `else` belongs to the nearest one."""
    place = c.take("key", "if").place
    c.mark("(")
    tested = condition(c)
    c.mark(")")
    then = statement(c)
    return s.If(place, tested, then, statement(c) if c.skips("key", "else") else None)


def while_loop(c: Cursor, word: Token) -> s.While:
    """A `while`, behind its word."""
    c.mark("(")
    tested = condition(c)
    c.mark(")")
    return s.While(word.place, tested, statement(c))


def for_loop(c: Cursor, word: Token) -> s.Stmt:
    """A `for`, behind its word."""
    c.mark("(")
    if sees_reference(c) or (c.sees("key", "int", "auto") and c.sees("mark", ":", ahead=2)):
        return range_for(c, word)
    first = None if c.sees("mark", ";") else (declaration(c) if sees_declaration(c) else effect(c))
    c.mark(";")
    tested = None if c.sees("mark", ";") else condition(c)
    c.mark(";")
    last = None if c.sees("mark", ")") else effect(c)
    c.mark(")")
    return s.For(word.place, first, tested, last, statement(c))


def range_for(c: Cursor, word: Token) -> s.RangeFor:
    """A range-for, behind its parenthesis."""
    element = reference_head(c) if sees_reference(c) else s.ElementValue(c.take("key", "int", "auto").word == "auto")
    name = c.name()
    c.mark(":")
    container = c.name()
    c.mark(")")
    return s.RangeFor(word.place, element, name, container, statement(c))


def condition(c: Cursor) -> s.Condition:
    """A condition."""
    if c.sees("lib", "cin"):
        return s.ReadCondition(read(c), None)
    if c.sees("mark", "!") and c.sees("mark", "(", ahead=1) and c.sees("lib", "cin", ahead=2):
        negation = c.mark("!")
        c.mark("(")
        found = read(c)
        c.mark(")")
        return s.ReadCondition(found, negation)
    return expression(c)


def read(c: Cursor) -> s.ReadEffect:
    """A read of variables."""
    place = c.take("lib", "cin").place
    c.mark(">>")
    variables = [c.name()]
    while c.skips("mark", ">>"):
        variables.append(c.name())
    return s.ReadEffect(place, variables)


def print_effect(c: Cursor) -> s.PrintEffect:
    """A print of items."""
    place = c.take("lib", "cout").place
    items: list[s.PrintItem] = []
    while c.skips("mark", "<<"):
        start = c.token()
        if c.skips("text"):
            items.append(s.PrintItem(start.place, c.token().place, start.value))
        elif c.skips("lib", "endl"):
            items.append(s.PrintItem(start.place, c.token().place, None))
        else:
            value = sum_of(c)
            items.append(s.PrintItem(start.place, c.token().place, value))
    return s.PrintEffect(place, items)


def effect(c: Cursor) -> s.Effect:
    """What is done for its effect."""
    if c.sees("lib", "cin"):
        return read(c)
    if c.sees("lib", "cout"):
        return print_effect(c)
    left = expression(c)
    if c.sees("mark", *ASSIGNMENTS):
        operator = c.take("mark")
        return s.Assignment(operator.place, operator.word, left, expression(c))
    return s.Evaluation(left)
