"""Expressions as they are written, each with its place. A pattern is an expression until it is known which names are constructors."""

from dataclasses import dataclass


@dataclass
class Name:
    text: str
    where: str


@dataclass
class Path:
    parts: list
    where: str


@dataclass
class Number:
    value: int
    where: str


@dataclass
class Text:
    value: str
    where: str


@dataclass
class Hole:
    """`_`: as a pattern it matches all; as a term it has no value here."""

    where: str


@dataclass
class TypeOnly:
    """An expression that can only be a type: it is never run."""

    where: str


@dataclass
class Arrow:
    """`A → B`; in a case of `elim`, `x → h` names what the `elim` gives for x."""

    left: object
    right: object
    where: str


@dataclass
class Product:
    """`A × B`"""

    items: list
    where: str


@dataclass
class Typed:
    """`(x y : A)`: the patterns that stand before the colon."""

    patterns: list
    where: str


@dataclass
class Implicit:
    """`{x = e}`: not passed when the definition is run. As a pattern it binds names."""

    names: list
    where: str


@dataclass
class Apply:
    function: object
    arguments: list
    where: str


@dataclass
class Project:
    of: object
    field: str
    where: str


@dataclass
class Tuple:
    items: list
    where: str


@dataclass
class Record:
    fields: list  # of (name, expression)
    where: str


@dataclass
class Lambda:
    patterns: list
    body: object
    where: str


@dataclass
class Let:
    pattern: object
    value: object
    body: object
    where: str


@dataclass
class Elim:
    scrutinee: object  # None for the function form `elim [ .. ]`
    cases: list  # of (pattern, expression)
    where: str
