"""Core terms as JavaScript.

Representations (runtime.js has the other half):
  ℕ            a number up to 2^53 - 1, a BigInt above: each value in one way only, so `===` is equality
  Bool         true, false
  List         NIL, or a Cons
  Char, String a text
  other data   {tag, f0, f1, ..}, or one shared object where there are no fields
  × and record an object with a property for each field
  functions    JavaScript functions; `length` is the number of arguments
"""

import json
import re

from . import core, natives

INLINE = {"eqb": "===", "leb": "<=", "ltb": "<"}


def mangled(name):
    """A name of antt as a JavaScript name: what JavaScript does not allow is spelled by its code."""
    return re.sub(r"[^A-Za-z0-9]", lambda m: "_" if m[0] in "_-." else f"${ord(m[0]):x}", name)


class Tags:
    """Numbers of constructors, by spelling: within one type spellings differ, and types never meet."""

    def __init__(self):
        self.numbers = {}
        for name in natives.ORDERING:
            self.of(name)

    def of(self, name):
        return self.numbers.setdefault(name, len(self.numbers))


class JavaScript:
    """A program: functions, constants and the constructors' numbers."""

    def __init__(self, arity_of):
        self.arity_of = arity_of
        self.tags = Tags()
        self.names = {}
        self.texts = []
        self.constants = {}  # text -> name, of closed expressions that are computed once

    def function_name(self, entity):
        if entity not in self.names:
            self.names[entity] = f"f{len(self.names)}_{mangled(entity.name)}"
        return self.names[entity]

    def add_function(self, entity, parameters, body, remembers=False):
        name = self.function_name(entity)
        if parameters:
            text = FunctionWriter(self, entity).declared("" if remembers else name, parameters, body)
            self.texts.append(f"const {name} = remembered({text});" if remembers else text)
        else:
            text = FunctionWriter(self, entity, hoists=False).as_function([], body)
            self.texts.append(f"const {name} = once({text});")

    def constant(self, text):
        if text not in self.constants:
            self.constants[text] = f"c{len(self.constants)}"
        return self.constants[text] + "()"

    def shared(self, constructor):
        return f"k{self.tags.of(constructor.name)}"

    def whole(self):
        lines = [f"const TAG_NAMES = {json.dumps(list(self.tags.numbers), ensure_ascii=False)};"]
        lines += [f"const k{n} = {{tag: {n}}};" for n in self.tags.numbers.values()]
        lines += [f"const {name} = once(() => ({text}));" for text, name in self.constants.items()]
        return "\n".join(lines + self.texts) + "\n"


class Buffer:
    def __init__(self):
        self.lines = []

    def text(self, indent="  "):
        return "\n".join(indent + line for part in self.lines for line in part.split("\n"))


class FunctionWriter:
    """Writes the code of one function. Statements go to a buffer, `expression` gives what stands after them."""

    def __init__(self, program, entity=None, hoists=True):
        self.program = program
        self.entity = entity
        self.hoists = hoists
        self.out = Buffer()
        self.names = {}
        self.waiting = set()  # variables that hold a Later
        self.helpers = {}  # local functions -> number of parameters
        self.loop = None  # how a call of the function itself in the last place goes round again
        self.looped = False
        self.grows = False  # the loop builds a list from its front: `first` and `last` are its cells so far

    # ---- names

    def name(self, variable):
        if variable not in self.names:
            self.names[variable] = f"{mangled(variable.hint)}_{variable.number}"
        return self.names[variable]

    def temporary(self, hint="t"):
        return self.name(core.Variable(hint))

    def inner(self):
        """A writer for a function inside this one."""
        writer = FunctionWriter(self.program, None)
        writer.names, writer.waiting, writer.helpers = self.names, self.waiting, self.helpers
        return writer

    def write(self, line):
        self.out.lines.append(line)

    # ---- functions

    def declared(self, name, parameters, body):
        """A function by name. A call of itself in the last place is a loop."""
        return f"function {name}" + self.signature_and_body(parameters, body, self.entity)

    def as_function(self, parameters, body):
        return "(" + ", ".join(self.name(p) for p in parameters) + ") => " + self.block(body)

    def block(self, body):
        self.statement(body, "return")
        return "{\n" + self.out.text() + "\n}"

    def signature_and_body(self, parameters, body, itself):
        """The parameters of a loop are copied at each round, so that closures keep those of their round."""
        starts = [f"{self.name(p)}i" for p in parameters]
        self.loop = (itself, parameters, starts)
        self.grows = any(self.is_growth(e) for e in last_places(body))
        self.statement(body, "return")
        if not self.looped:
            names = ", ".join(self.name(p) for p in parameters)
            return f"({names}) {{\n{self.out.text()}\n}}"
        copies = ", ".join(f"{self.name(p)} = {s}" for p, s in zip(parameters, starts))
        cells = "  let first = NIL, last = NIL;\n" if self.grows else ""
        return f"({', '.join(starts)}) {{\n{cells}  for (;;) {{\n    const {copies};\n{self.out.text('    ')}\n  }}\n}}"

    # ---- statements. `to` is "return" or a variable that is assigned

    def finish(self, text, to):
        if to != "return":
            self.write(f"{to} = {text};")
        elif self.grows:
            self.write(f"const end = {text};")
            self.write("if (first === NIL) return end;")
            self.write("last.tail = end;")
            self.write("return first;")
        else:
            self.write(f"return {text};")

    def statement(self, e, to):
        match e:
            case core.Let():
                self.let(e)
                self.statement(e.body, to)
            case core.LetFunction():
                self.let_function(e)
                self.statement(e.rest, to)
            case core.Case():
                self.case(e, to)
            case core.Call() if to == "return" and self.is_loop(e):
                self.go_round(e.arguments)
            case core.Construct() if to == "return" and self.is_growth(e):
                self.grow(e.arguments[0])
                self.go_round(e.arguments[1].arguments)
            case _:
                self.finish(self.expression(e), to)

    def is_loop(self, e):
        if self.loop is None:
            return False
        itself, parameters, _ = self.loop
        called = e.function.function if isinstance(e.function, core.Global) else getattr(e.function, "variable", None)
        return called is not None and called is itself and len(e.arguments) == len(parameters)

    def is_growth(self, e):
        """`x ∷ f ys` in the last place of f: the rest of the list is put in its cell when it is known."""
        is_cons = isinstance(e, core.Construct) and e.constructor.family == "list" and len(e.arguments) == 2
        return is_cons and isinstance(e.arguments[1], core.Call) and self.is_loop(e.arguments[1])

    def grow(self, head):
        self.write(f"const cell = new Cons({self.expression(head)}, NIL);")
        self.write("if (first === NIL) first = cell; else last.tail = cell;")
        self.write("last = cell;")

    def go_round(self, arguments):
        self.looped = True
        _, parameters, starts = self.loop
        for start, parameter, argument in zip(starts, parameters, arguments):
            if not (isinstance(argument, core.Var) and argument.variable is parameter):
                self.write(f"{start} = {self.expression(argument)};")
        self.write("continue;")

    def let(self, e):
        if e.waits:
            text = self.inner().as_function([], e.value)
            self.write(f"const {self.name(e.variable)} = new Later({text});")
            self.waiting.add(e.variable)
        else:
            self.write(f"const {self.name(e.variable)} = {self.expression(e.value)};")

    def let_function(self, e):
        self.helpers[e.variable] = len(e.parameters)
        text = self.inner().signature_and_body(e.parameters, e.body, e.variable)
        self.write(f"function {self.name(e.variable)}{text}")

    def nested(self, body, to):
        """The statements of a branch, apart."""
        outer, self.out = self.out, Buffer()
        self.statement(body, to)
        text, self.out = self.out.text(), outer
        return text

    def case(self, e, to):
        family = e.branches[0][0].family
        if family == "bool":
            return self.bool_case(e, to)
        value = self.value_name(e.scrutinee)
        if len(e.branches) == 1 and family == "data":
            self.bind_fields(value, e.branches[0])
            return self.statement(e.branches[0][2], to)
        if family == "data" and len(e.branches) > 2:
            return self.switch(value, e, to)
        return self.two_way(value, e, to)

    def value_name(self, scrutinee):
        if isinstance(scrutinee, core.Var) and scrutinee.variable not in self.waiting:
            return self.expression(scrutinee)
        name = self.temporary("s")
        self.write(f"const {name} = {self.expression(scrutinee)};")
        return name

    def bool_case(self, e, to):
        yes, no = bool_branches(e)
        test = self.expression(e.scrutinee)
        self.write(f"if ({test}) {{\n{self.nested(yes, to)}\n}} else {{\n{self.nested(no, to)}\n}}")

    def two_way(self, value, e, to):
        first, *others = e.branches
        test = self.test(value, first[0])
        parts = [f"if ({test}) {{\n{self.branch(value, first, to)}\n}}"]
        parts += [f"else {{\n{self.branch(value, b, to)}\n}}" for b in others]
        if not others:
            parts.append("else { unmatched(); }")
        self.write(" ".join(parts))

    def switch(self, value, e, to):
        parts = []
        for branch in e.branches:
            tag = self.program.tags.of(branch[0].name)
            stop = "" if to == "return" else "\n  break;"
            parts.append(f"case {tag}: {{\n{self.branch(value, branch, to)}{stop}\n}}")
        parts.append("default: unmatched();")
        self.write(f"switch ({value}.tag) {{\n" + "\n".join(parts) + "\n}")

    def test(self, value, constructor):
        match constructor.family, constructor.name:
            case "nat", "zero":
                return f"{value} === 0"
            case "nat", _:
                return f"{value} !== 0"
            case "list", "[]":
                return f"{value} === NIL"
            case "list", _:
                return f"{value} !== NIL"
            case "string", "[]":
                return f'{value} === ""'
            case "string", _:
                return f'{value} !== ""'
        return f"{value}.tag === {self.program.tags.of(constructor.name)}"

    def branch(self, value, branch, to):
        outer, self.out = self.out, Buffer()
        self.bind_fields(value, branch)
        self.statement(branch[2], to)
        text, self.out = self.out.text(), outer
        return text

    def bind_fields(self, value, branch):
        constructor, binders, body = branch
        used = {e.variable for e in variables(body)}
        for i, binder in enumerate(binders):
            if binder in used:
                self.write(f"const {self.name(binder)} = {field_of(constructor, value, i)};")

    # ---- expressions

    def expression(self, e):
        if self.hoists and is_closed_work(e):
            writer = FunctionWriter(self.program, None, hoists=False)
            text = writer.expression(e)
            if not writer.out.lines:
                return self.program.constant(text)
        match e:
            case core.Var():
                return self.name(e.variable) + (".value()" if e.variable in self.waiting else "")
            case core.Nat():
                return str(e.value) if e.value < 2**53 else f"{e.value}n"
            case core.Text():
                return json.dumps(e.value)
            case core.Nothing():
                return "undefined"
            case core.Global():
                return self.program.function_name(e.function) + ("" if self.program.arity_of(e.function) else "()")
            case core.Prim():
                return e.primitive.name if e.primitive.name not in INLINE else f"{e.primitive.name}_"
            case core.Call():
                return self.call(e)
            case core.Lam():
                return "(" + self.inner().as_function(e.parameters, e.body) + ")"
            case core.Let():
                self.let(e)
                return self.expression(e.body)
            case core.LetFunction():
                self.let_function(e)
                return self.expression(e.rest)
            case core.Construct():
                return self.construct(e)
            case core.Tuple():
                return self.object({f"_{i}": item for i, item in enumerate(e.items)})
            case core.Record():
                return self.object({field_name(n): e.fields[n] for n in sorted(e.fields)})
            case core.Field():
                return f"{self.expression(e.of)}.{field_name(e.name)}"
            case core.Case():
                return self.case_expression(e)
        raise AssertionError(e)

    def object(self, fields):
        return "{" + ", ".join(f"{n}: {self.expression(v)}" for n, v in fields.items()) + "}"

    def arguments(self, arguments):
        return ", ".join(self.expression(a) for a in arguments)

    def call(self, e):
        function, arguments = e.function, e.arguments
        if isinstance(function, core.Prim):
            return self.primitive_call(function.primitive, arguments)
        if isinstance(function, core.Global):
            arity = self.program.arity_of(function.function)
            name = self.program.function_name(function.function)
            direct = f"{name}({self.arguments(arguments[:arity])})"
            return self.applied(direct, arguments[arity:])
        if isinstance(function, core.Var) and function.variable in self.helpers:
            arity = self.helpers[function.variable]
            if len(arguments) >= arity:
                direct = f"{self.name(function.variable)}({self.arguments(arguments[:arity])})"
                return self.applied(direct, arguments[arity:])
        return self.applied(self.expression(function), arguments)

    def applied(self, function, arguments):
        if not arguments:
            return function
        return f"apply{len(arguments)}({function}, {self.arguments(arguments)})"

    def primitive_call(self, primitive, arguments):
        if len(arguments) != primitive.arity:
            return self.applied(self.expression(core.Prim(primitive)), arguments)
        if primitive.name in INLINE:
            left, right = (self.expression(a) for a in arguments)
            return f"({left} {INLINE[primitive.name]} {right})"
        return f"{primitive.name}({self.arguments(arguments)})"

    def construct(self, e):
        constructor = e.constructor
        match constructor.family, constructor.name:
            case "bool", name:
                return name
            case "nat", "zero":
                return "0"
            case "nat", _:
                return f"add({self.expression(e.arguments[0])}, 1)"
            case "list" | "string" as family, "[]":
                return "NIL" if family == "list" else '""'
            case "list", _:
                return f"new Cons({self.arguments(e.arguments)})"
            case "string", _:
                return f"({self.expression(e.arguments[0])} + {self.expression(e.arguments[1])})"
        if not e.arguments:
            self.program.tags.of(constructor.name)
            return self.program.shared(constructor)
        fields = ", ".join(f"f{i}: {self.expression(a)}" for i, a in enumerate(e.arguments))
        return f"{{tag: {self.program.tags.of(constructor.name)}, {fields}}}"

    def case_expression(self, e):
        if e.branches[0][0].family == "bool":
            return self.bool_expression(e)
        name = self.temporary()
        self.write(f"let {name};")
        self.case(e, name)
        return name

    def bool_expression(self, e):
        """`a ? b : c`, where the branches need no statements."""
        yes, no = bool_branches(e)
        test = self.expression(e.scrutinee)
        (yes_lines, yes_text), (no_lines, no_text) = self.apart(yes), self.apart(no)
        if not yes_lines and not no_lines:
            return short_form(test, yes_text, no_text)
        name = self.temporary()
        self.write(f"let {name};")
        parts = []
        for lines, text in ((yes_lines, yes_text), (no_lines, no_text)):
            buffer = Buffer()
            buffer.lines = lines + [f"{name} = {text};"]
            parts.append("{\n" + buffer.text() + "\n}")
        self.write(f"if ({test}) {parts[0]} else {parts[1]}")
        return name

    def apart(self, e):
        outer, self.out = self.out, Buffer()
        text = self.expression(e)
        lines, self.out = self.out.lines, outer
        return lines, text


def short_form(test, yes, no):
    if (yes, no) == ("true", "false"):
        return test
    if (yes, no) == ("false", "true"):
        return f"(!{test})"
    if no == "false":
        return f"({test} && {yes})"
    if yes == "true":
        return f"({test} || {no})"
    return f"({test} ? {yes} : {no})"


def bool_branches(e):
    by_name = {constructor.name: body for constructor, _, body in e.branches}
    never = core.Call(core.Prim(natives.UNMATCHED), [])
    return by_name.get("true", never), by_name.get("false", never)


def field_name(name):
    return f"_{mangled(name)}"


def field_of(constructor, value, i):
    match constructor.family:
        case "nat":
            return f"pred({value})"
        case "list":
            return f"{value}.{('head', 'tail')[i]}"
        case "string":
            return f"{('firstCharacter', 'afterFirst')[i]}({value})"
    return f"{value}.f{i}"


def last_places(e):
    """The terms whose value is that of the whole."""
    match e:
        case core.Let():
            yield from last_places(e.body)
        case core.LetFunction():
            yield from last_places(e.rest)
        case core.Case():
            for _, _, body in e.branches:
                yield from last_places(body)
        case _:
            yield e


def variables(e):
    if isinstance(e, core.Var):
        yield e
    for part in core.children(e):
        yield from variables(part)


def is_closed_work(e):
    """Something to compute in which no variable stands: it is computed once."""
    match e:
        case core.Call():
            return not core.mentions(e, lambda part: isinstance(part, core.Var))
        case core.Construct() | core.Tuple() | core.Record():
            return bool(core.children(e)) and not core.mentions(e, lambda part: isinstance(part, core.Var))
    return False
