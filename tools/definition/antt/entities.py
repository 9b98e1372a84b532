"""What a name can mean."""

from dataclasses import dataclass, field


@dataclass(eq=False)
class Section:
    """A `module _ (params) where` block: the names of its explicit parameters, of its implicit ones, and of implicit types and levels."""

    parameters: list
    implicits: list
    types: list


@dataclass(eq=False)
class Opened:
    """A field of t, after `open t use {..}`: where t's tokens stand."""

    start: int
    end: int
    field: str


@dataclass(eq=False)
class Function:
    module: object
    name: str
    sections: tuple  # the blocks around it, the outermost first
    signature: tuple  # the tokens of its type, as (start, end)
    marks: frozenset = frozenset()  # abbrev, unfoldable, pattern, pub, axiom
    clauses: list = field(default_factory=list)  # each (start, end) in the module's tokens
    where: str = ""
    erased: object = None  # whether it gives a type or a proof, once that is known
    opened: object = None  # of a name that `open t use {..}` brings: an Opened


@dataclass(eq=False)
class Constructor:
    name: str
    family: str  # data, bool, nat, list or string: how its values are represented
    arity: int
    arrows: tuple = ()  # for each argument, how many arguments it takes itself


@dataclass(eq=False)
class DataType:
    name: str
    constructors: dict


@dataclass(eq=False)
class RecordType:
    name: str
    fields: list
    fixities: dict  # of fields that are operators


@dataclass(eq=False)
class Projection:
    """`R.f`, the function that takes a field."""

    field: str


@dataclass(eq=False)
class Primitive:
    """A function of the runtime."""

    name: str
    arity: int
