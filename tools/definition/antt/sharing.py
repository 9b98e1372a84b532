"""Calls that are written twice and computed once.

A definition may write `f x` in a test and again in a branch of it. Computed
twice at each level of a recursion that takes 2^n steps, so equal calls on one path are
bound by a `let` where the last of their variables is bound.
"""

from . import core


def share(parameters, body):
    """The body of a function of some parameters."""
    return Sharing().scope(list(parameters), body)


class Sharing:
    def scope(self, bound, body):
        """A term right under the binders of `bound`: calls that speak of them can be shared from here on."""
        body = self.inside(body)
        while bound:
            found = self.repeated(body, set(bound))
            if found is None:
                break
            variable = core.Variable("shared")
            body = core.Let(variable, found, replaced(body, key(found), core.Var(variable)), waits=True)
        return body

    def inside(self, e):
        """The same for all binders inside a term."""
        match e:
            case core.Lam():
                return core.Lam(e.parameters, self.scope(e.parameters, e.body))
            case core.Let():
                return core.Let(e.variable, self.inside(e.value), self.scope([e.variable], e.body), e.waits)
            case core.LetFunction():
                body = self.scope(e.parameters, e.body)
                return core.LetFunction(e.variable, e.parameters, body, self.inside(e.rest))
            case core.Case():
                branches = [(c, bs, self.scope(bs, body)) for c, bs, body in e.branches]
                return core.Case(self.inside(e.scrutinee), branches)
        return core.rebuild(e, self.inside)

    def repeated(self, body, bound):
        """The largest call that stands twice on one path and speaks of a bound variable."""
        counts, calls = {}, {}
        for k, n in path_counts(body, calls).items():
            if n > 1 and any(v in bound for v in variables_of(calls[k])):
                counts[k] = n
        if not counts:
            return None
        return calls[max(counts, key=lambda k: len(str(k)))]


def key(e):
    """Equal for equal terms without binders; None for others."""
    match e:
        case core.Var():
            return ("v", e.variable.number)
        case core.Nat() | core.Text():
            return ("l", e.value)
        case core.Global():
            return ("g", id(e.function))
        case core.Prim():
            return ("p", e.primitive.name)
        case core.Nothing():
            return ("n",)
        case core.Field():
            return joined("f", e.name, [e.of])
        case core.Call():
            return joined("c", "", [e.function, *e.arguments])
        case core.Construct():
            return joined("k", id(e.constructor), e.arguments)
        case core.Tuple():
            return joined("t", "", e.items)
        case core.Record():
            return joined("r", tuple(e.fields), list(e.fields.values()))
    return None


def joined(kind, name, parts):
    keys = tuple(key(part) for part in parts)
    return None if None in keys else (kind, name, keys)


def is_shareable(e):
    """A call of a function of a file; the runtime's own cost less than sharing does."""
    return isinstance(e, core.Call) and not isinstance(e.function, core.Prim)


def path_counts(e, calls):
    """How often each call stands on one path at most; of two branches only one is taken."""
    if isinstance(e, core.Case):
        counts = path_counts(e.scrutinee, calls)
        most = {}
        for _, _, body in e.branches:
            for k, n in path_counts(body, calls).items():
                most[k] = max(most.get(k, 0), n)
        return sum_of([counts, most])
    counts = sum_of([path_counts(part, calls) for part in core.children(e)])
    if is_shareable(e):
        k = key(e)
        if k is not None:
            calls[k] = e
            counts[k] = counts.get(k, 0) + 1
    return counts


def sum_of(all_counts):
    total = {}
    for counts in all_counts:
        for k, n in counts.items():
            total[k] = total.get(k, 0) + n
    return total


def variables_of(e):
    if isinstance(e, core.Var):
        return [e.variable]
    return [v for part in core.children(e) for v in variables_of(part)]


def replaced(e, k, by):
    if is_shareable(e) and key(e) == k:
        return by
    return core.rebuild(e, lambda part: replaced(part, k, by))
