"""Clauses to branches. antt splits exactly: at each step some column has a constructor in every clause still in play."""

from dataclasses import dataclass

from . import core
from .errors import AnttError


@dataclass
class Anything:
    """A variable, or `_` with the name None."""

    name: object


@dataclass
class Built:
    """A constructor and its parts."""

    constructor: object
    parts: list


@dataclass
class Split:
    """A tuple or a record: always matches. Parts are (field, pattern)."""

    parts: list


@dataclass
class Row:
    patterns: list
    names: dict  # what its variables stand for so far
    body: object  # a function from names to a term
    where: str


def match(scrutinees, rows):
    """A term that takes the row which matches the variables `scrutinees`."""
    rows = [settle(scrutinees, row) for row in rows]
    first = rows[0]
    for column in range(len(scrutinees)):
        if any(isinstance(row.patterns[column], Split) for row in rows):
            return open_column(scrutinees, rows, column)
    if all(isinstance(p, Anything) for p in first.patterns):
        if len(rows) > 1:
            raise AnttError("two clauses match one value: a pattern was misread, or a constructor is not in scope", rows[1].where)
        return first.body(first.names)
    column = splitting_column(rows)
    return core.Case(core.Var(scrutinees[column]), branches(scrutinees, rows, column))


def settle(scrutinees, row):
    """Names the variables of a row."""
    names = dict(row.names)
    for variable, pattern in zip(scrutinees, row.patterns):
        if isinstance(pattern, Anything) and pattern.name is not None:
            names[pattern.name] = core.Var(variable)
    return Row(row.patterns, names, row.body, row.where)


def hint(patterns):
    """A name for what some patterns match."""
    return next((p.name for p in patterns if isinstance(p, Anything) and p.name), "x")


# ---- tuples and records


def parts_of(term, pattern):
    """What the names of a pattern without constructors stand for."""
    if isinstance(pattern, Built):
        raise AnttError(f"`{pattern.constructor.name}` stands where only names can be bound")
    if isinstance(pattern, Anything):
        return {} if pattern.name is None else {pattern.name: term}
    names = {}
    for field, part in pattern.parts:
        names |= parts_of(core.Field(term, field), part)
    return names


def open_column(scrutinees, rows, column):
    """A tuple's or record's fields take the place of its column."""
    fields = {}
    for row in rows:
        if isinstance(row.patterns[column], Split):
            for field, part in row.patterns[column].parts:
                fields.setdefault(field, []).append(part)
    variables = [core.Variable(hint(parts)) for parts in fields.values()]
    result = match(replaced(scrutinees, column, variables), [open_row(row, column, fields) for row in rows])
    for variable, field in reversed(list(zip(variables, fields))):
        result = core.Let(variable, core.Field(core.Var(scrutinees[column]), field), result, waits=True)
    return result


def open_row(row, column, fields):
    pattern = row.patterns[column]
    if isinstance(pattern, Built):
        raise AnttError("a tuple and a constructor are matched with one value", row.where)
    parts = dict(pattern.parts) if isinstance(pattern, Split) else {}
    return Row(replaced(row.patterns, column, [parts.get(f, Anything(None)) for f in fields]), row.names, row.body, row.where)


def replaced(items, at, by):
    return items[:at] + by + items[at + 1 :]


# ---- constructors


def splitting_column(rows):
    for column in range(len(rows[0].patterns)):
        if all(isinstance(row.patterns[column], Built) for row in rows):
            return column
    raise AnttError("no argument has a constructor in all of these clauses: a constructor is not in scope", rows[0].where)


def branches(scrutinees, rows, column):
    constructors = []
    for row in rows:
        constructor = row.patterns[column].constructor
        if constructor not in constructors:
            constructors.append(constructor)
    if len({c.family for c in constructors}) > 1 or len({c.name for c in constructors}) < len(constructors):
        raise AnttError("constructors of different types are matched with one value", rows[0].where)
    return [branch(scrutinees, rows, column, c) for c in constructors]


def branch(scrutinees, rows, column, constructor):
    inner = []
    for row in rows:
        pattern = row.patterns[column]
        if pattern.constructor is constructor:
            inner.append(Row(replaced(row.patterns, column, pattern.parts), row.names, row.body, row.where))
    parts = zip(*(row.patterns[column : column + constructor.arity] for row in inner))
    binders = [core.Variable(hint(part)) for part in parts]
    return (constructor, binders, match(replaced(scrutinees, column, binders), inner))
