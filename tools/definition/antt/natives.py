"""What the runtime itself provides: the native modules of antt, and faster forms of some library functions."""

from .entities import Constructor, DataType, Function, Primitive
from .operators import Fixity

NAT = "Prim.Native.Nat"
CHAR = "Prim.Native.Char"
STRING = "Prim.Native.String"

# Data types with a representation of their own in the runtime.
FAMILIES = {
    ("mathlib.Core.Bool", "Bool"): "bool",
    ("mathlib.Core.List.Defs", "List"): "list",
    ("mathlib.Core.Nat", "ℕ"): "nat",
    ("std.Bool", "Bool"): "bool",
    ("std.List", "List"): "list",
    ("std.Nat", "ℕ"): "nat",
}

# The runtime builds values of this type, so its constructors' numbers are fixed: 0, 1, 2.
ORDERING = ["lt", "eq", "gt"]


ORDERS = ["◌≤◌", "◌<◌", "◌∣◌"]


def data(name, family, constructors):
    return DataType(name, {c: Constructor(c, family, arity) for c, arity in constructors.items()})


def native_modules():
    nat = data("ℕ", "nat", {"zero": 0, "suc": 1})
    ordering = data("Ordering", "data", {c: 0 for c in ORDERING})
    string = data("String", "string", {"[]": 0, "◌∷◌": 2})
    table = {
        (NAT, "ℕ"): nat,
        (NAT, "Ordering"): ordering,
        (STRING, "String"): string,
        (CHAR, "Char"): DataType("Char", {}),
        (CHAR, "code"): Primitive("code", 1),
        (NAT, "pred"): Primitive("pred", 1),
        (STRING, "◌++◌"): Primitive("joined", 2),
        (STRING, "count"): Primitive("count", 1),
        (STRING, "len"): Primitive("len", 1),
    }
    for name in ORDERS:
        table[(NAT, name)] = DataType(name, {})
    for name, constructor in string.constructors.items():
        table[(STRING, name)] = constructor
    for name, constructor in nat.constructors.items():
        table[(NAT, name)] = constructor
    binary = {
        "◌+◌": "add",
        "◌-◌": "subtract",
        "◌*◌": "multiply",
        "◌/◌": "divide",
        "◌%◌": "remainder",
        "◌^◌": "power",
        "bit_and": "bitAnd",
        "bit_or": "bitOr",
        "bit_xor": "bitXor",
        "min": "min",
        "max": "max",
        "compare": "compare",
    }
    for name, runtime in binary.items():
        table[(NAT, name)] = Primitive(runtime, 2)
    return table


NATIVES = native_modules()

FIXITIES = {
    (NAT, "◌+◌"): Fixity("infixl", 65),
    (NAT, "◌-◌"): Fixity("infixl", 65),
    (NAT, "◌*◌"): Fixity("infixl", 70),
    (NAT, "◌/◌"): Fixity("infixl", 70),
    (NAT, "◌%◌"): Fixity("infixl", 70),
    (NAT, "◌^◌"): Fixity("infixr", 75),
    (NAT, "◌≤◌"): Fixity("infix", 50),
    (NAT, "◌<◌"): Fixity("infix", 50),
    (STRING, "◌∷◌"): Fixity("infixr", 67),
    (STRING, "◌++◌"): Fixity("infixr", 65),
}

# Library functions that the runtime has in a faster form. `check` holds each to the library's own clauses.
OVERRIDES = {
    ("lib.Dec", "eqb"): Primitive("eqb", 2),
    ("lib.Dec", "leb"): Primitive("leb", 2),
    ("lib.Dec", "ltb"): Primitive("ltb", 2),
    ("lib.ListN", "length"): Primitive("length", 1),
    ("lib.ListN", "get_or"): Primitive("getOr", 3),
    ("lib.ListN", "drop"): Primitive("drop", 2),
    ("mathlib.Core.Bool", "◌&&◌"): Primitive("and", 2),
    ("mathlib.Core.Bool", "◌||◌"): Primitive("or", 2),
    ("mathlib.Core.Bool", "not"): Primitive("not", 1),
    ("mathlib.Core.Bool", "cond"): Primitive("cond", 3),
}

# A function with such a result is a proof, and is not run.
PROPOSITIONS = {
    ("mathlib.Core.Path", "◌≡◌"),
    ("mathlib.Core.Logic", "◌≢◌"),
    ("mathlib.Core.Logic", "◌↔◌"),
    ("mathlib.Core.Bool", "So"),
    ("lib.Dec", "T"),
}


def is_proposition(entity):
    if isinstance(entity, Function):
        return (entity.module.name, entity.name) in PROPOSITIONS
    return any(entity is NATIVES[(NAT, name)] for name in ORDERS)


# Types and truncations of the prelude: they stand for nothing that is run.
TYPES = ["Unit", "⊥", "Dec", "Discrete", "IsProp", "IsSet", "Id", "Path", "¬◌", "∥◌∥₁", "∣◌∣₁"]

# Tactics that prove: their calls stand for nothing that is run either.
TACTICS = ["omega", "cc"]

# `yes` and `no` hold a proof, which is not run; a branch that calls `absurd` is never taken.
YES, NO = Constructor("yes", "data", 1), Constructor("no", "data", 1)
ABSURD = Primitive("absurd", 1)

PRELUDE = {
    "tt": Constructor("tt", "data", 0),
    "yes": YES,
    "no": NO,
    "refl": Constructor("refl", "data", 0),
    "absurd": ABSURD,
} | {name: DataType(name, {}) for name in TYPES + TACTICS}
PRELUDE["Dec"].constructors.update({"yes": YES, "no": NO})

UNMATCHED = Primitive("unmatched", 0)
TRUE = Constructor("true", "bool", 0)
FALSE = Constructor("false", "bool", 0)
