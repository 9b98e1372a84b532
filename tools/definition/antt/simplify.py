"""Terms that run faster and mean the same.

The changes that matter: a function that is handed a λ, as `◌>>=◌` is by a `do` block, is written out in place,
so that a block runs without closures; and so is a small function that may not look at an argument, so that
the argument is computed only where it is looked at.
"""

from . import core, natives
from .lower import call as plain_call
from .sharing import share

SMALL = 40  # nodes; a larger function is called, not written out
DEEP = 6  # functions that are written out in one another


def size(e):
    return 1 + sum(size(c) for c in core.children(e))


def is_atom(e):
    return isinstance(e, (core.Var, core.Nat, core.Text, core.Nothing)) or (isinstance(e, core.Construct) and not e.arguments)


def occurrences(e, variable):
    if isinstance(e, core.Var):
        return int(e.variable is variable)
    return sum(occurrences(c, variable) for c in core.children(e))


class Simplifier:
    """`lowered_of(entity)` gives another function, to be written out where it is small."""

    def __init__(self, lowered_of, shares=True):
        self.lowered_of = lowered_of
        self.shares = shares
        self.open = set()  # functions that are being written out: functions may call one another
        self.looks = {}  # for each function, which of its parameters it surely looks at
        self.waiting = set()  # variables whose values are put off, if that pays

    def run(self, parameters, body):
        body = self.simplify(body)
        return settle_lets(share(parameters, body) if self.shares else body)

    def simplify(self, e):
        if isinstance(e, core.Global):
            return self.named_atom(e)
        if isinstance(e, core.Let) and e.waits:
            self.waiting.add(e.variable)
        e = core.rebuild(e, self.simplify)
        if isinstance(e, core.Call):
            return self.call(e.function, e.arguments)
        if isinstance(e, core.Construct) and len(e.arguments) < e.constructor.arity:
            missing = e.constructor.arity - len(e.arguments)
            return as_function(missing, e.arguments, lambda all_: core.Construct(e.constructor, all_))
        return e

    def named_atom(self, e):
        """A name for a number is that number."""
        lowered = self.lowered_of(e.function)
        if lowered.arity == 0 and size(lowered.body) <= 3:
            value = self.simplify(lowered.body)
            if is_atom(value):
                return value
        return e

    # ---- calls

    def call(self, function, arguments):
        """A call of simple parts."""
        if isinstance(function, core.Lam):
            return self.beta(function, arguments)
        if isinstance(function, core.Prim):
            return self.known_primitive(function.primitive.name, arguments) or core.Call(function, arguments)
        if isinstance(function, core.Global):
            return self.call_of_global(function, arguments)
        return plain_call(function, arguments)

    def call_of_global(self, function, arguments):
        missing = self.lowered_of(function.function).arity - len(arguments)
        if missing > 0:
            return as_function(missing, arguments, lambda all_: self.call_of_global(function, all_))
        if any(isinstance(a, core.Lam) for a in arguments) or self.may_be_idle(function, arguments):
            return self.written_out(function, arguments)
        return core.Call(function, arguments)

    def may_be_idle(self, function, arguments):
        """Whether something is computed for a call that the function may not look at, as by an operator that takes the first of two answers."""
        looked_at = self.looks_at(function.function)
        return any(not is_cheap(a, self.waiting) and not looks for a, looks in zip(arguments, looked_at))

    def looks_at(self, entity):
        """For each parameter whether the function surely looks at it; while that is being found out, yes."""
        if entity not in self.looks:
            lowered = self.lowered_of(entity)
            self.looks[entity] = [True] * lowered.arity
            self.looks[entity] = [demands(lowered.body, p, self.looked_at) for p in lowered.parameters]
        return self.looks[entity]

    def looked_at(self, call):
        """The parts of a call that are surely looked at."""
        if not isinstance(call.function, core.Global):
            return core.children(call)
        looks = self.looks_at(call.function.function)
        return [a for i, a in enumerate(call.arguments) if i >= len(looks) or looks[i]]

    def beta(self, function, arguments):
        parameters, body = function.parameters, function.body
        count = min(len(parameters), len(arguments))
        if count < len(parameters):
            body = core.Lam(parameters[count:], body)
        for parameter, argument in reversed(list(zip(parameters[:count], arguments[:count]))):
            body = let_value(parameter, argument, body)
        return self.call(body, arguments[count:]) if arguments[count:] else body

    def known_primitive(self, name, arguments):
        """The tests of Bool as branches: what is not needed is not computed. A character's code is a number."""
        true, false = core.Construct(natives.TRUE, []), core.Construct(natives.FALSE, [])
        match name, arguments:
            case "code", [core.Text(value=text)]:
                return core.Nat(ord(text[0]))
            case "and", [a, b]:
                return if_then_else(a, b, false)
            case "or", [a, b]:
                return if_then_else(a, true, b)
            case "not", [a]:
                return if_then_else(a, false, true)
            case "cond", [a, b, c]:
                return if_then_else(a, b, c)
        return None

    def written_out(self, function, arguments):
        lowered = self.lowered_of(function.function)
        is_large = size(lowered.body) > SMALL or len(self.open) >= DEEP
        if len(arguments) != lowered.arity or is_large or is_recursive(lowered) or lowered.entity in self.open:
            return core.Call(function, arguments)
        names, lets = {}, []
        for parameter, argument, looks in zip(lowered.parameters, arguments, self.looks_at(lowered.entity)):
            used_once = occurrences(lowered.body, parameter) == 1
            if is_atom(argument) or (isinstance(argument, core.Lam) and used_once):
                names[parameter] = argument
            else:
                variable = core.Variable(parameter.hint)
                names[parameter] = core.Var(variable)
                lets.append((variable, argument, not looks))
        self.waiting |= {variable for variable, _, waits in lets if waits}
        self.open.add(lowered.entity)
        result = self.instantiate(lowered.body, names)
        self.open.remove(lowered.entity)
        for variable, argument, waits in reversed(lets):
            result = core.Let(variable, argument, result, waits)
        return result

    def instantiate(self, body, names):
        """A copy of a small function's body with terms for its parameters; the terms are simple already."""
        copy = core.fresh(body)

        def go(e):
            if isinstance(e, core.Var):
                return names.get(e.variable, e)
            if isinstance(e, core.Let) and e.waits:
                self.waiting.add(e.variable)
            e = core.rebuild(e, go)
            return self.call(e.function, e.arguments) if isinstance(e, core.Call) else e

        return go(copy)


def as_function(missing, arguments, whole):
    """A call with too few arguments, as a λ: arguments that are variables stay put off until it is called."""
    lets, atoms = [], []
    for argument in arguments:
        if is_atom(argument):
            atoms.append(argument)
        else:
            lets.append((core.Variable("given"), argument))
            atoms.append(core.Var(lets[-1][0]))
    parameters = [core.Variable("more") for _ in range(missing)]
    result = core.Lam(parameters, whole(atoms + [core.Var(p) for p in parameters]))
    for variable, argument in reversed(lets):
        result = core.Let(variable, argument, result, waits=False)
    return result


def is_recursive(lowered):
    return core.mentions(lowered.body, lambda e: isinstance(e, core.Global) and e.function is lowered.entity)


def if_then_else(test, yes, no):
    return core.Case(test, [(natives.TRUE, [], yes), (natives.FALSE, [], no)])


def let_value(variable, value, body):
    if is_atom(value):
        return core.substitute(body, variable, value)
    return core.Let(variable, value, body, waits=False)


# ---- lets: now, at the place of their one use, or when first asked for


def settle_lets(e, waiting=frozenset()):
    """From the outside inwards; `waiting` are the variables whose values are put off."""
    if isinstance(e, core.Let) and e.waits:
        return settle_let(e, waiting)
    if isinstance(e, core.Let):
        e = scrutinee_in_place(e)
    return core.rebuild(e, lambda part: settle_lets(part, waiting))


def settle_let(e, waiting):
    uses = occurrences(e.body, e.variable)
    if uses == 0:
        return settle_lets(e.body, waiting)
    if is_atom(e.value) or (uses == 1 and not used_under_function(e.body, e.variable)):
        return settle_lets(core.substitute(e.body, e.variable, e.value), waiting)
    now = is_cheap(e.value, waiting) or demands(e.body, e.variable)
    value = settle_lets(e.value, waiting)
    body = settle_lets(e.body, waiting if now else waiting | {e.variable})
    return core.Let(e.variable, value, body, waits=not now)


def scrutinee_in_place(e):
    """`let x = v in case x of ..`, where x is used for nothing else."""
    body = e.body
    if isinstance(body, core.Case) and isinstance(body.scrutinee, core.Var) and body.scrutinee.variable is e.variable:
        if occurrences(body, e.variable) == 1:
            return core.Case(e.value, body.branches)
    return e


def used_under_function(e, variable):
    """Whether a use stands where it may be computed more than once."""
    if isinstance(e, (core.Lam, core.LetFunction)) and occurrences(e.body, variable) > 0:
        return True
    return any(used_under_function(c, variable) for c in core.children(e))


def is_cheap(e, waiting):
    """What costs no more to compute than to put off."""
    match e:
        case core.Var():
            return e.variable not in waiting
        case core.Lam() | core.Nat() | core.Text() | core.Nothing():
            return True
        case core.Construct() if e.constructor.family == "nat":
            return not e.arguments
        case core.Field() | core.Construct() | core.Tuple() | core.Record():
            return all(is_cheap(c, waiting) for c in core.children(e))
    return False


def demands(e, variable, counted=core.children):
    """Whether a term surely computes a variable; `counted` are the parts of a call that it computes."""
    match e:
        case core.Var():
            return e.variable is variable
        case core.Lam():
            return False
        case core.Let():
            if demands(e.body, variable, counted):
                return True
            return demands(e.value, variable, counted) and (not e.waits or demands(e.body, e.variable, counted))
        case core.LetFunction():
            return demands(e.rest, variable, counted)
        case core.Case():
            if demands(e.scrutinee, variable, counted):
                return True
            return all(demands(body, variable, counted) for _, _, body in e.branches)
        case core.Call():
            return any(demands(part, variable, counted) for part in counted(e))
    return any(demands(c, variable, counted) for c in core.children(e))
