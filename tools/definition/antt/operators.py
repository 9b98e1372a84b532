"""Operators: names with places for operands, as `◌+◌`, `if◌then◌else◌` or `⟪◌⟫`."""

from dataclasses import dataclass

from .lexer import PLACE


@dataclass(frozen=True)
class Fixity:
    side: str  # infixl, infixr or infix
    level: int

    @property
    def right_level(self):
        """How tightly an operator must bind to stand in the last operand."""
        return self.level + (self.side != "infixr")


@dataclass(frozen=True)
class Operator:
    name: str
    parts: tuple  # the names between its places
    takes_left: bool  # an operand stands before its first part
    takes_right: bool
    fixity: object  # None if its parts enclose all operands: such an operator needs none

    @property
    def is_closed(self):
        return not self.takes_left and not self.takes_right


def is_operator(name):
    return PLACE in name and name.strip(PLACE) != "" and not name.startswith("«")


def operator(name, fixity):
    parts = tuple(part for part in name.split(PLACE) if part)
    return Operator(name, parts, name.startswith(PLACE), name.endswith(PLACE), fixity)


class Operators:
    """The operators that are in scope at some place. `fixity_of` is asked only for those that a text may use."""

    def __init__(self, names, fixity_of):
        self.names = {name for name in names if is_operator(name)}
        self.fixity_of = fixity_of
        self.known = {}
        self.by_part = {}  # (first part, whether an operand stands before it) -> names
        for name in sorted(self.names):
            first = next(part for part in name.split(PLACE) if part)
            self.by_part.setdefault((first, name.startswith(PLACE)), []).append(name)

    def extended(self, names, fixities):
        """With those of a `where` block."""
        return Operators(self.names | set(names) | set(fixities), lambda name: fixities.get(name) or self.fixity_of(name))

    def of(self, name):
        if name not in self.known:
            self.known[name] = operator(name, self.fixity_of(name))
        return self.known[name]

    def usable(self, first, takes_left):
        """Those with this first part that may stand between their operands, the ones of most parts first."""
        found = [self.of(name) for name in self.by_part.get((first, takes_left), [])]
        return sorted((o for o in found if o.fixity or o.is_closed), key=lambda o: -len(o.parts))

    def after_operand(self, part):
        return self.usable(part, True)

    def prefix(self, part):
        return [o for o in self.usable(part, False) if not o.is_closed]

    def closed(self, part):
        return [o for o in self.usable(part, False) if o.is_closed]

    def binary(self, name):
        """A section is written by a binary operator without one of its places: this is the operator, or None."""
        if name not in self.names or len(name) < 3:
            return None
        found = self.of(name)
        is_binary = found.takes_left and found.takes_right and len(found.parts) == 1
        return found if is_binary and found.fixity else None

    def left_section(self, text):
        """`◌+` of `(◌+ 1)`, unless something has that name."""
        is_section = text.startswith(PLACE) and not text.endswith(PLACE) and text not in self.names
        return self.binary(text + PLACE) if is_section else None

    def right_section(self, text):
        """`+◌` of `(1 +◌)`, unless something has that name."""
        is_section = text.endswith(PLACE) and not text.startswith(PLACE) and text not in self.names
        return self.binary(PLACE + text) if is_section else None
