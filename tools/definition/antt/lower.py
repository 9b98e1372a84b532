"""From what is written to core terms: names are resolved, clauses become branches, sections become parameters."""

from . import core, matching, natives, syntax
from .entities import Constructor, DataType, Function, Primitive, Projection, RecordType
from .errors import AnttError, located
from .modules import FIXITIES, fixity_line
from .parser import Parser, find_at_depth_0


class Lowered:
    """A function ready to run: its parameters and its body."""

    def __init__(self, entity, parameters, body):
        self.entity = entity
        self.parameters = parameters
        self.body = body

    @property
    def arity(self):
        return len(self.parameters)


def lower_function(entity):
    with located(entity.where):
        if not entity.clauses and not entity.opened:
            raise AnttError(f"`{entity.name}` has no clauses that could be run")
        return FunctionLowerer(entity).run()


def lower_expression(module, expression, names=None):
    """An expression that stands in a module, as in its signatures; `names` are terms for its free names."""
    return TermLowerer(module, ()).term(expression, names or {})


def parse_tokens(tokens, start, end, operators):
    return Parser(tokens, start, end, operators).whole()


def flattened(e):
    """`(f a) b` as `f a b`."""
    while isinstance(e, syntax.Apply) and isinstance(e.function, syntax.Apply):
        e = syntax.Apply(e.function.function, e.function.arguments + e.arguments, e.where)
    return e


class TermLowerer:
    def __init__(self, module, sections, section_terms=None):
        self.module = module
        self.tokens = module.tokens
        self.sections = sections
        self.section_terms = section_terms or {}  # section -> its parameters, as terms

    # ---- terms. `names` maps the local names in scope to terms

    def term(self, e, names):
        match e:
            case syntax.Number():
                return core.Nat(e.value)
            case syntax.Text():
                return core.Text(e.value)
            case syntax.Name():
                return self.name(e, names)
            case syntax.Path():
                return self.path(e, names)
            case syntax.Apply():
                return self.apply(e, names)
            case syntax.Project():
                return project(self.term(e.of, names), [e.field])
            case syntax.Tuple():
                return core.Tuple([self.term(item, names) for item in e.items])
            case syntax.Record():
                return core.Record({name: self.term(value, names) for name, value in e.fields})
            case syntax.Lambda():
                return self.lambda_(e, names)
            case syntax.Let():
                return self.let(e, names)
            case syntax.Elim():
                return self.elim(e, names)
            case syntax.TypeOnly() | syntax.Arrow() | syntax.Product() | syntax.Typed():
                return core.Nothing()
        raise AnttError(f"{described(e)} has no value that could be run", e.where)

    def name(self, e, names):
        if e.text in names:
            return self.local(e.text, names, e.where)
        with located(e.where):
            found = self.module.lookup(e.text)
            if found is None:
                raise AnttError(f"`{e.text}` is not in scope, or is nothing that could be run")
            return self.function(found) if isinstance(found, Function) else self.entity(found)

    def local(self, name, names, where):
        if isinstance(names[name], core.Absent):
            raise AnttError(f"`{name}` is an implicit argument, which is not passed when the definition is run", where)
        return names[name]

    def entity(self, found):
        match found:
            case Function():
                return core.Nothing() if is_erased(found) else core.Global(found)
            case Constructor():
                return construct(found, [])
            case Primitive():
                return core.Prim(found)
            case Projection():
                variable = core.Variable("r")
                return core.Lam([variable], core.Field(core.Var(variable), found.field))
            case DataType() | RecordType():
                return core.Nothing()
        raise AssertionError(found)

    def function(self, entity):
        """A function of a section around us is used without the section's parameters: they are supplied here."""
        arguments = []
        for section in entity.sections:
            if section not in self.section_terms:
                break
            arguments += self.section_terms[section]
        return core.Nothing() if is_erased(entity) else call(core.Global(entity), arguments)

    def path(self, e, names):
        """A local name with fields, what a type or module has under a name, or a function with fields."""
        if e.parts[0] in names:
            return project(self.local(e.parts[0], names, e.where), e.parts[1:])
        with located(e.where):
            found = self.module.lookup_path(e.parts)
            if found is not None:
                return self.entity(found)
            head = self.module.lookup(e.parts[0])
            if head is None:
                raise AnttError(f"`{'.'.join(e.parts)}` is not in scope, or is nothing that could be run")
            return project(self.function(head) if isinstance(head, Function) else self.entity(head), e.parts[1:])

    def apply(self, e, names):
        function = self.term(e.function, names)
        arguments = [a for a in e.arguments if not isinstance(a, syntax.Implicit)]
        with located(e.where):
            if isinstance(function, core.Nothing):
                return function  # a type applied to arguments
            if isinstance(function, core.Construct) and function.constructor in (natives.YES, natives.NO):
                return construct(function.constructor, [core.Nothing()])
            if isinstance(function, core.Prim) and function.primitive is natives.ABSURD:
                return core.Call(core.Prim(natives.UNMATCHED), [])
            return call(function, [self.term(a, names) for a in arguments])

    def let(self, e, names):
        variable, inner = self.bind(e.pattern, names)
        return core.Let(variable, self.term(e.value, names), self.term(e.body, inner), waits=True)

    def lambda_(self, e, names):
        variables = []
        for pattern in e.patterns:
            if isinstance(pattern, syntax.Implicit):
                names = names | absent(pattern.names)
            else:
                variable, names = self.bind(pattern, names)
                variables.append(variable)
        body = self.term(e.body, names)
        return core.Lam(variables, body) if variables else body

    def bind(self, pattern, names):
        """A binder of a λ or a let. A plain name binds, even one that is spelled like a constructor."""
        if isinstance(pattern, syntax.Typed) and len(pattern.patterns) == 1:
            return self.bind(pattern.patterns[0], names)
        if isinstance(pattern, syntax.Name):
            variable = core.Variable(pattern.text)
            return variable, names | {pattern.text: core.Var(variable)}
        variable = core.Variable("p")
        with located(pattern.where):
            return variable, names | matching.parts_of(core.Var(variable), self.pattern(pattern, []))

    # ---- elim

    def elim(self, e, names):
        """Where a case names what the `elim` gives for a part, the `elim` is a function that calls itself."""
        variable, again = core.Variable("e"), core.Variable("again")
        cases = [self.case(pattern, body, names, again) for pattern, body in e.cases]
        branches = matching.match([variable], [row for row, _ in cases]) if cases else core.Call(core.Prim(natives.UNMATCHED), [])
        scrutinee = None if e.scrutinee is None else self.term(e.scrutinee, names)
        if not any(recurs for _, recurs in cases):
            if scrutinee is None:
                return core.Lam([variable], branches)
            return core.Let(variable, scrutinee, branches, waits=False)
        whole = core.Variable("whole")
        rest = core.Call(core.Var(again), [core.Var(whole) if scrutinee is None else scrutinee])
        function = core.LetFunction(again, [variable], branches, rest)
        return core.Lam([whole], function) if scrutinee is None else function

    def case(self, pattern, body, names, again):
        """The row of a case, and whether it names what the `elim` gives for a part."""
        pattern, hypotheses = self.without_hypotheses(flattened(pattern))
        bound = []
        read = self.pattern(pattern, bound)
        if not isinstance(read, matching.Built):
            raise AnttError("a case of `elim` is no constructor that is in scope", pattern.where)

        def lowered(inner):
            lets = []
            for part, name, place in hypotheses:
                variable = core.Variable(name)
                lets.append((variable, given_for(inner[part], again, read.constructor.arrows[place : place + 1])))
                inner = inner | {name: core.Var(variable)}
            result = self.term(body, inner)
            for variable, value in reversed(lets):
                result = core.Let(variable, value, result, waits=True)
            return result

        return matching.Row([read], names | absent(bound), lowered, pattern.where), bool(hypotheses)

    def without_hypotheses(self, pattern):
        """A case's pattern with x for each `(x → h)`, and these as (x, h, place among the arguments)."""
        if not isinstance(pattern, syntax.Apply):
            return pattern, []
        arguments, hypotheses, place = [], [], 0
        for argument in pattern.arguments:
            if isinstance(argument, syntax.Arrow):
                part, name = argument.left, argument.right
                if isinstance(part, syntax.Hole):
                    part = syntax.Name(f"part {place}", part.where)
                if not isinstance(part, syntax.Name) or not isinstance(name, syntax.Name):
                    raise AnttError("`(part → name)` was expected", argument.where)
                hypotheses.append((part.text, name.text, place))
                argument = part
            place += not isinstance(argument, syntax.Implicit)
            arguments.append(argument)
        return syntax.Apply(pattern.function, arguments, pattern.where), hypotheses

    # ---- patterns

    def pattern(self, e, bound):
        """`bound` collects the names of implicit arguments."""
        e = flattened(e)
        match e:
            case syntax.Hole():
                return matching.Anything(None)
            case syntax.Name():
                found = self.module.lookup(e.text)
                if isinstance(found, Function) and "pattern" in found.marks:
                    raise AnttError(f"the translator does not read the `pattern abbrev` `{e.text}`", e.where)
                return self.built(found, [], e.where, bound) if isinstance(found, Constructor) else matching.Anything(e.text)
            case syntax.Path():
                return self.built(self.module.lookup_path(e.parts), [], e.where, bound)
            case syntax.Apply(function=syntax.Name(text=text)):
                return self.built(self.module.lookup(text), e.arguments, e.where, bound)
            case syntax.Apply(function=syntax.Path(parts=parts)):
                return self.built(self.module.lookup_path(parts), e.arguments, e.where, bound)
            case syntax.Tuple():
                return matching.Split([(str(i), self.pattern(item, bound)) for i, item in enumerate(e.items)])
            case syntax.Record():
                return matching.Split([(name, self.pattern(value, bound)) for name, value in e.fields])
            case syntax.Typed(patterns=[inner]):
                return self.pattern(inner, bound)
        raise AnttError(f"{described(e)} is no pattern that the translator reads", e.where)

    def built(self, constructor, arguments, where, bound):
        if not isinstance(constructor, Constructor):
            raise AnttError("a pattern's head is no constructor in scope", where)
        explicit = []
        for argument in arguments:
            if isinstance(argument, syntax.Implicit):
                bound += argument.names
            else:
                explicit.append(self.pattern(argument, bound))
        if constructor.arity != len(explicit):
            raise AnttError(f"`{constructor.name}` takes {constructor.arity} arguments and has {len(explicit)}", where)
        return matching.Built(constructor, explicit)

    # ---- clauses

    def clauses(self, name, clauses, names, operators):
        """Parameters and body of a function by clauses."""
        rows = [self.clause_row(name, i, j, names, operators) for i, j in clauses]
        width = len(rows[0].patterns)
        if any(len(row.patterns) != width for row in rows):
            raise AnttError(f"the clauses of `{name}` differ in their number of patterns", rows[0].where)
        parameters = [core.Variable(matching.hint([row.patterns[i] for row in rows])) for i in range(width)]
        return parameters, matching.match(parameters, rows)

    def clause_row(self, name, start, end, names, operators):
        """The row of one clause `left = body where helpers`."""
        where = self.tokens[start].where
        with located(where):
            equals = find_at_depth_0(self.tokens, start, end, {"="})
            at = find_at_depth_0(self.tokens, equals + 1, end, {"where"})
            bound, patterns = [], []
            for argument in self.left_side(name, start, equals, operators):
                if isinstance(argument, syntax.Implicit):
                    bound += argument.names
                else:
                    patterns.append(self.pattern(argument, bound))
            helpers, operators = ([], operators) if at is None else self.helpers(at + 1, end, operators)
            body = parse_tokens(self.tokens, equals + 1, end if at is None else at, operators)
        return matching.Row(patterns, names | absent(bound), lambda inner: self.with_helpers(helpers, body, inner, operators), where)

    def left_side(self, name, start, end, operators):
        """The patterns of a clause: `f a b`, `a + b`, or `(a + b) c`."""
        parser = Parser(self.tokens, start, end, operators)
        if self.tokens[start].is_name(name):
            parser.at += 1
            arguments = []
            while parser.at < end:
                arguments.append(parser.implicit() if parser.peek().is_symbol("{") else parser.atom())
            return arguments
        left = flattened(parser.whole())
        if not isinstance(left, syntax.Apply) or left.function != syntax.Name(name, left.function.where):
            raise AnttError(f"a clause of `{name}` was expected", self.tokens[start].where)
        return left.arguments

    # ---- where

    def helpers(self, start, end, operators):
        """The helpers of a `where` block as (name, clauses), and the operators in scope with them."""
        found, fixities = [], {}
        for i, j in self.module.logical_lines(start, end):
            split = find_at_depth_0(self.tokens, i, j, {":", "="})
            if self.tokens[i].kind == "name" and self.tokens[i].text in FIXITIES:
                fixities |= fixity_line(self.tokens, i, j)
            elif split is not None and self.tokens[split].text == ":":
                found.append((self.tokens[i].text, []))
            elif split is not None and found:
                found[-1][1].append((i, j))
            else:
                raise AnttError("the translator does not read this line of a `where` block", self.tokens[i].where)
        return found, operators.extended([name for name, _ in found], fixities)

    def with_helpers(self, helpers, body, names, operators):
        """Each helper is in scope for itself, for later ones and for the body."""
        if not helpers:
            return self.term(body, names)
        name, clauses = helpers[0]
        if not clauses:
            raise AnttError(f"`{name}` has no clauses that could be run", body.where)
        variable = core.Variable(name)
        inner = names | {name: core.Var(variable)}
        parameters, term = self.clauses(name, clauses, inner, operators)
        rest = self.with_helpers(helpers[1:], body, inner, operators)
        if not parameters:
            return core.Let(variable, term, rest, waits=True)
        return core.LetFunction(variable, parameters, term, rest)


class FunctionLowerer(TermLowerer):
    def __init__(self, entity):
        self.lowered = entity
        self.leading = []
        self.names, terms = {}, {}
        for section in entity.sections:
            variables = [core.Variable(p) for p in section.parameters]
            self.leading += variables
            terms[section] = [core.Var(v) for v in variables]
            self.names |= dict(zip(section.parameters, terms[section])) | absent(section.implicits)
            self.names |= {name: core.Nothing() for name in section.types}
        super().__init__(entity.module, entity.sections, terms)

    def run(self):
        entity, operators = self.lowered, self.module.operators(self.sections)
        if entity.opened:
            opened = entity.opened
            value = parse_tokens(self.tokens, opened.start, opened.end, operators)
            return Lowered(entity, self.leading, core.Field(self.term(value, self.names), opened.field))
        parameters, body = self.clauses(entity.name, entity.clauses, self.names, operators)
        return Lowered(entity, self.leading + parameters, body)


# ---- types and proofs


def is_erased(function):
    """Whether a function gives a type or a proof, by what stands last in its signature: such a function is never run."""
    if function.erased is None:
        module, (start, end) = function.module, function.signature
        arrow = find_at_depth_0(module.tokens, start, end, {"→"})
        while arrow is not None:
            start, arrow = arrow + 1, find_at_depth_0(module.tokens, arrow + 1, end, {"→"})
        first = module.tokens[start].text if start < end else ""
        function.erased = first == "Type" or gives_proof(module, start, end, module.operators(function.sections))
    return function.erased


def gives_proof(module, start, end, operators):
    names = {name for _, name in natives.PROPOSITIONS} | set(natives.ORDERS)
    if not any(token.text in names or f"◌{token.text}◌" in names for token in module.tokens[start:end]):
        return False
    try:
        e = flattened(parse_tokens(module.tokens, start, end, operators))
    except AnttError:
        return False
    return isinstance(e, syntax.Apply) and isinstance(e.function, syntax.Name) and natives.is_proposition(module.lookup(e.function.text))


# ---- small constructors of terms


def described(e):
    return {syntax.Hole: "a `_`", syntax.Implicit: "an implicit argument", syntax.Arrow: "an arrow"}.get(type(e), f"a {type(e).__name__}")


def absent(names):
    return {name: core.Absent() for name in names}


def given_for(part, again, arrows):
    """What an `elim` gives for a part: of a function, the function of what it gives for the results."""
    parameters = [core.Variable("x") for _ in range(sum(arrows))]
    result = core.Call(core.Var(again), [call(part, [core.Var(p) for p in parameters])])
    return core.Lam(parameters, result) if parameters else result


def project(term, fields):
    """A field of a type or a proof is one too."""
    for field in fields:
        term = term if isinstance(term, core.Nothing) else core.Field(term, field)
    return term


def call(function, arguments):
    if not arguments:
        return function
    if isinstance(function, core.Call):
        return call(function.function, function.arguments + arguments)
    if isinstance(function, core.Construct):
        return construct(function.constructor, function.arguments + arguments)
    return core.Call(function, arguments)


def construct(constructor, arguments):
    """May have too few arguments: code is then written for a function."""
    if len(arguments) > constructor.arity:
        raise AnttError(f"`{constructor.name}` has too many arguments")
    return core.Construct(constructor, arguments)
