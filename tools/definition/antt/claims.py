"""Claims that are proved by computing: closed equations and tests whose proofs are `refl` and `tt`."""

from pathlib import Path

from . import core, natives, syntax
from .entities import Function
from .lower import TermLowerer, parse_tokens
from .matching import Anything
from .parser import find_at_depth_0

PROOFS = {"refl", "tt"}


def modules_of(source, crates, crate):
    """All files of a crate's specs."""
    folder = Path(crates) / crate / "specs"
    for file in sorted(folder.rglob("*.antt")):
        parts = file.relative_to(folder).with_suffix("").parts
        if parts[-1] != "Lib":
            yield source.module(["Rattle", crate, "specs", *parts])


def is_proved_by_computing(function):
    """The one clause is `name = refl`, `name = tt`, or a tuple of these."""
    if function.sections or len(function.clauses) != 1:
        return False
    start, end = function.clauses[0]
    words = [t.text for t in function.module.tokens[start:end] if t.text not in ("(", ")", ",")]
    return words[1:2] == ["="] and len(words) > 2 and set(words[2:]) <= PROOFS


def claims_of(function):
    """(left, right) as terms for each equation that a declaration states; for a test `T b`, b and `true`."""
    module = function.module
    stated = parse_tokens(module.tokens, *function.signature, module.operators(()))
    return list(sides(TermLowerer(module, ()), stated, {}))


def sides(lowerer, e, names):
    """An abbreviation of claims is opened, where its one clause has names for its arguments."""
    match e:
        case syntax.Product():
            for item in e.items:
                yield from sides(lowerer, item, names)
        case syntax.Apply(function=syntax.Name(text="◌≡◌"), arguments=[left, right]):
            yield lowerer.term(left, names), lowerer.term(right, names)
        case syntax.Apply(function=syntax.Name(text="T"), arguments=[test]):
            yield lowerer.term(test, names), core.Construct(natives.TRUE, [])
        case syntax.Name() if isinstance(names.get(e.text), Stated):
            yield from sides(*names[e.text].parts)
        case syntax.Name():
            yield from opened(lowerer, e, [], names)
        case syntax.Apply(function=syntax.Name() as head):
            yield from opened(lowerer, head, e.arguments, names)


class Stated:
    """An argument of an abbreviation: what it says where it was written. As a term it is looked at only if it is no type."""

    def __init__(self, *parts):
        self.parts = parts


def opened(lowerer, head, arguments, names):
    found = lowerer.module.lookup(head.text)
    if not isinstance(found, Function) or found.sections or len(found.clauses) != 1:
        return
    (start, end), tokens = found.clauses[0], found.module.tokens
    inner, operators = TermLowerer(found.module, ()), found.module.operators(())
    equals = find_at_depth_0(tokens, start, end, {"="})
    patterns = [inner.pattern(p, []) for p in inner.left_side(found.name, start, equals, operators)]
    if find_at_depth_0(tokens, equals, end, {"where"}) or len(patterns) != len(arguments):
        return
    if all(isinstance(p, Anything) for p in patterns):
        given = {p.name: argument(lowerer, a, names) for p, a in zip(patterns, arguments)}
        yield from sides(inner, parse_tokens(tokens, equals + 1, end, operators), given)


def argument(lowerer, e, names):
    """A claim stays as it is written, all else is a term."""
    return Stated(lowerer, e, names) if list(sides(lowerer, e, names)) else lowerer.term(e, names)
