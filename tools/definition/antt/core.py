"""The small language that files are lowered to: every variable has a name of its own, every name is resolved."""

import itertools
from dataclasses import dataclass, field

_numbers = itertools.count()


@dataclass(eq=False)
class Variable:
    """A binder; each binder is an object of its own, so no name can be captured."""

    hint: str
    number: int = field(default_factory=lambda: next(_numbers))


@dataclass(eq=False)
class Var:
    variable: Variable


@dataclass(eq=False)
class Global:
    """A function of a file, by its entity."""

    function: object


@dataclass(eq=False)
class Prim:
    primitive: object


@dataclass(eq=False)
class Nat:
    value: int


@dataclass(eq=False)
class Text:
    value: str


@dataclass(eq=False)
class Nothing:
    """Where a type stands as an argument: it is never looked at."""


@dataclass(eq=False)
class Absent:
    """An implicit argument, under the name that a pattern gives it: it is not passed, so a use of it is an error."""


@dataclass(eq=False)
class Call:
    function: object
    arguments: list


@dataclass(eq=False)
class Lam:
    parameters: list
    body: object


@dataclass(eq=False)
class Let:
    """`waits`: a `let` of the text, computed when it is asked for; else an argument, computed at once."""

    variable: Variable
    value: object
    body: object
    waits: bool


@dataclass(eq=False)
class LetFunction:
    """A `where` helper."""

    variable: Variable
    parameters: list
    body: object
    rest: object


@dataclass(eq=False)
class Construct:
    constructor: object
    arguments: list


@dataclass(eq=False)
class Tuple:
    items: list


@dataclass(eq=False)
class Record:
    fields: dict


@dataclass(eq=False)
class Field:
    of: object
    name: str


@dataclass(eq=False)
class Case:
    """Branches on a variable's or an expression's constructor: (constructor, binders, body)."""

    scrutinee: object
    branches: list


def children(e):
    """The parts of a term, without what they bind."""
    match e:
        case Call():
            return [e.function, *e.arguments]
        case Lam():
            return [e.body]
        case Let():
            return [e.value, e.body]
        case LetFunction():
            return [e.body, e.rest]
        case Construct():
            return e.arguments
        case Tuple():
            return e.items
        case Record():
            return list(e.fields.values())
        case Field():
            return [e.of]
        case Case():
            return [e.scrutinee, *(body for _, _, body in e.branches)]
        case _:
            return []


def rebuild(e, f):
    """The same term with f applied to each part."""
    match e:
        case Call():
            return Call(f(e.function), [f(a) for a in e.arguments])
        case Lam():
            return Lam(e.parameters, f(e.body))
        case Let():
            return Let(e.variable, f(e.value), f(e.body), e.waits)
        case LetFunction():
            return LetFunction(e.variable, e.parameters, f(e.body), f(e.rest))
        case Construct():
            return Construct(e.constructor, [f(a) for a in e.arguments])
        case Tuple():
            return Tuple([f(a) for a in e.items])
        case Record():
            return Record({name: f(a) for name, a in e.fields.items()})
        case Field():
            return Field(f(e.of), e.name)
        case Case():
            return Case(f(e.scrutinee), [(c, binders, f(body)) for c, binders, body in e.branches])
        case _:
            return e


def fresh(e, names=None):
    """A copy with new binders, and terms for some variables."""
    names = dict(names or {})

    def renew(variable):
        names[variable] = Var(Variable(variable.hint))
        return names[variable].variable

    def go(e):
        match e:
            case Var():
                return names.get(e.variable, e)
            case Lam():
                return Lam([renew(p) for p in e.parameters], go(e.body))
            case Let():
                value = go(e.value)
                return Let(renew(e.variable), value, go(e.body), e.waits)
            case LetFunction():
                variable = renew(e.variable)
                parameters = [renew(p) for p in e.parameters]
                return LetFunction(variable, parameters, go(e.body), go(e.rest))
            case Case():
                scrutinee = go(e.scrutinee)
                return Case(scrutinee, [(c, [renew(b) for b in bs], go(body)) for c, bs, body in e.branches])
            case _:
                return rebuild(e, go)

    return go(e)


def substitute(e, variable, value):
    """The value must have no binders, or be used once: it is not copied."""

    def go(e):
        if isinstance(e, Var) and e.variable is variable:
            return value
        return rebuild(e, go)

    return go(e)


def mentions(e, test):
    """Whether some part of a term passes a test."""
    return test(e) or any(mentions(c, test) for c in children(e))
