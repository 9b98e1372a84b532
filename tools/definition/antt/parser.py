"""From tokens to expressions, with the operators that are in scope where the text stands."""

from . import syntax
from .errors import AnttError
from .lexer import Token

BIND = "◌>>=◌"
THEN = "◌>>◌"
OPENERS = {"(", "{"}
CLOSERS = {")", "}"}

# Names that end an expression, so that they are no atoms.
STOPS = {"[", "]", "|", "=", ":", "→", "←", "↦", "×", "in", "as", "where", "deriving"}
TYPES = {"Type", "𝕀", "𝔽"}
# What is written with these is a proof or a path: nothing that a definition computes.
UNREAD = {"coe", "fcoe", "tcoe", "hcom", "com", "∨", "∧", "∀", "package", "open", "mutual", "module", "data"}


def depth_change(token):
    """How a token changes the depth of brackets."""
    if token.kind == "symbol":
        return (token.text in OPENERS) - (token.text in CLOSERS)
    if token.kind == "name":
        return (token.text == "[") - (token.text == "]")
    return 0


def find_at_depth_0(tokens, start, end, texts):
    """The first of some names outside all brackets, or None."""
    depth = 0
    for i in range(start, end):
        if depth == 0 and tokens[i].kind == "name" and tokens[i].text in texts:
            return i
        depth += depth_change(tokens[i])
    return None


def close_of(tokens, i, end):
    """The bracket that closes the one at i."""
    depth = 0
    for k in range(i, end):
        depth += depth_change(tokens[k])
        if depth == 0:
            return k
    raise AnttError("a bracket is not closed", tokens[i].where)


class Parser:
    """Reads tokens[start:end]."""

    def __init__(self, tokens, start, end, operators):
        self.tokens = tokens
        self.at = start
        self.end = end
        self.operators = operators
        # A token that begins a line at or left of the innermost floor ends what is being read.
        self.floors = [-1]
        self.exempt = -1  # the token that begins a statement stands on the floor itself
        self.brackets = ["file"]
        self.awaited = [None]  # the part of an operator that ends the operand which is being read
        self.actions = []  # for each statement around us, its nested actions so far: (name, expression)
        last = tokens[end - 1] if 0 < end <= len(tokens) else None
        self.end_token = Token("end", "the end", last.file if last else "?", last.line if last else 0, last.column if last else 0)

    # ---- the tokens

    def peek(self):
        if self.at >= self.end:
            return self.end_token
        token = self.tokens[self.at]
        if token.first and token.column <= self.floors[-1] and self.at != self.exempt:
            return self.end_token
        return token

    def next(self):
        token = self.peek()
        if token.kind == "end":
            self.fail("the text ends too early")
        self.at += 1
        return token

    def fail(self, message):
        token = self.tokens[self.at] if self.at < self.end else self.end_token
        raise AnttError(f"{message} (at `{token.text}`)", token.where)

    def takes_name(self, text):
        if self.peek().is_name(text):
            self.at += 1
            return True
        return False

    def takes_symbol(self, text):
        if self.peek().is_symbol(text):
            self.at += 1
            return True
        return False

    def need_name(self, text):
        if not self.takes_name(text):
            self.fail(f"`{text}` was expected")

    def need_symbol(self, text):
        if not self.takes_symbol(text):
            self.fail(f"`{text}` was expected")

    def bracketed(self, kind, read, *given):
        """Reads inside a bracket, where layout does not count and no part of an operator is awaited."""
        self.floors.append(-1)
        self.brackets.append(kind)
        self.awaited.append(None)
        result = read(*given)
        self.awaited.pop()
        self.brackets.pop()
        self.floors.pop()
        return result

    def first_of(self, attempts):
        """The first of some ways to read on that leads somewhere; the error of the one that came furthest if none does."""
        if len(attempts) == 1:
            return attempts[0]()
        stacks = [self.floors, self.brackets, self.awaited, self.actions]
        start, exempt, heights, furthest = self.at, self.exempt, [len(s) for s in stacks], None
        taken = len(self.actions[-1]) if self.actions else 0
        for attempt in attempts:
            try:
                return attempt()
            except AnttError as error:
                furthest = max(furthest or (self.at, error), (self.at, error), key=lambda pair: pair[0])
                self.at, self.exempt = start, exempt
                for stack, height in zip(stacks, heights):
                    del stack[height:]
                if self.actions:
                    del self.actions[-1][taken:]
        raise furthest[1]

    # ---- expressions

    def whole(self):
        result = self.expression()
        if self.at < self.end:
            self.fail("this can't be read")
        return result

    def expression(self):
        where = self.peek().where
        if self.peek().is_symbol("{"):
            return self.type_over_implicits(where)
        items = [self.operated(0)]
        while self.takes_name("×"):
            items.append(self.operated(0))
        result = items[0] if len(items) == 1 else syntax.Product(items, where)
        if self.takes_name("→"):
            return syntax.Arrow(result, self.expression(), where)
        return result

    def type_over_implicits(self, where):
        """`{x : A} → B`, `{x : A} (y : B) → C`"""
        while self.peek().is_symbol("{"):
            self.implicit()
        self.takes_name("→")
        self.expression()
        return syntax.TypeOnly(where)

    # ---- operators

    def operated(self, lowest):
        """Operators that bind at least as tightly as `lowest`, and their operands."""
        left = self.operand()
        while True:
            token = self.peek()
            found = self.infix_here(lowest)
            section = self.section_here(lowest)
            if section:
                self.at += 1
                left = self.section(section, token.where, lambda x, given=left: [given, x])
            elif found:
                left = self.first_of([lambda o=o, given=left: self.rest_of(o, [given], token.where) for o in found])
                self.refuse_repetition(found[0])
            else:
                return left

    def infix_here(self, lowest):
        token = self.peek()
        if token.kind != "name" or token.text in STOPS or token.text == self.awaited[-1]:
            return []
        return [o for o in self.operators.after_operand(token.text) if o.fixity.level >= lowest]

    def section_here(self, lowest):
        token = self.peek()
        found = self.operators.right_section(token.text) if token.kind == "name" else None
        return found if found and found.fixity.level >= lowest else None

    def refuse_repetition(self, operator):
        """Where antt would refuse it, the operator was misread."""
        for following in self.infix_here(operator.fixity.level):
            sides = {o.fixity.side for o in (operator, following) if o.takes_right}
            if following.fixity.level == operator.fixity.level and "infix" in sides:
                self.fail("operators that do not associate stand side by side")

    def rest_of(self, operator, operands, where):
        """From an operator's first part to its end."""
        self.at += 1
        for part in operator.parts[1:]:
            self.awaited.append(part)
            operands.append(self.expression())
            self.awaited.pop()
            self.need_name(part)
        if operator.takes_right:
            level = operator.fixity.right_level if operator.takes_left else operator.fixity.level
            operands.append(self.operated(level))
        return syntax.Apply(syntax.Name(operator.name, where), operands, where)

    def section(self, operator, where, operands):
        argument = syntax.Name("section argument", where)
        call = syntax.Apply(syntax.Name(operator.name, where), operands(argument), where)
        return syntax.Lambda([argument], call, where)

    def operand(self):
        token = self.peek()
        if token.kind == "name" and token.text not in STOPS and token.text != self.awaited[-1]:
            section = self.operators.left_section(token.text)
            if section:
                self.at += 1
                right = self.operated(section.fixity.right_level)
                return self.section(section, token.where, lambda x: [x, right])
            prefix = self.operators.prefix(token.text)
            if prefix:
                return self.first_of([lambda o=o: self.rest_of(o, [], token.where) for o in prefix])
        return self.application()

    def application(self):
        """A head and arguments."""
        where = self.peek().where
        if not self.begins_atom() and not (self.peek().kind == "name" and self.operators.closed(self.peek().text)):
            self.fail("an expression was expected")
        result = self.atom()
        arguments = []
        while True:
            token = self.peek()
            if token.is_symbol("{"):
                arguments.append(self.implicit())
            elif self.begins_atom():
                arguments.append(self.atom())
            else:
                return syntax.Apply(result, arguments, where) if arguments else result

    # ---- atoms

    def begins_atom(self):
        token = self.peek()
        if token.kind in ("number", "text", "path"):
            return True
        if token.kind == "symbol":
            return token.text == "("
        if token.kind != "name" or token.text in STOPS or token.text == self.awaited[-1]:
            return False
        in_operators = self.operators
        return not (in_operators.after_operand(token.text) or in_operators.prefix(token.text) or in_operators.right_section(token.text))

    def atom(self):
        token = self.next()
        where = token.where
        match token.kind:
            case "number":
                return syntax.Number(token.value, where)
            case "text":
                return syntax.Text(token.value, where)
            case "path":
                return syntax.Path(token.parts, where)
            case "symbol" if token.text == "(":
                return self.projected(self.bracketed("(", self.parenthesis, where))
            case "name":
                return self.named_atom(token.text, where)
        self.at -= 1
        return self.fail("an expression was expected")

    def projected(self, result):
        """`(e).f.g`: fields of what stands in parentheses."""
        while self.peek().kind == "projection":
            token = self.next()
            result = syntax.Project(result, token.text, token.where)
        return result

    def named_atom(self, text, where):
        forms = {"λ": self.lambda_, "let": self.let, "do": self.do, "elim": self.elim, "record": self.record, "unfold": self.unfold}
        if text in forms:
            return forms[text](where)
        if text == "_":
            return syntax.Hole(where)
        if text in TYPES:
            return syntax.TypeOnly(where)
        if text in UNREAD or text.startswith("?"):
            self.at -= 1
            self.fail("the translator does not read this form")
        closed = self.operators.closed(text)
        if not closed:
            return syntax.Name(text, where)
        self.at -= 1
        return self.first_of([*(lambda o=o: self.rest_of(o, [], where) for o in closed), lambda: syntax.Name(self.next().text, where)])

    def parenthesis(self, where):
        if self.takes_name("←"):
            return self.action(where)
        if self.begins_binders():
            return self.binders(where)
        items = [self.expression()]
        while self.takes_symbol(","):
            if len(items) > 1 and self.peek().is_symbol(")"):  # a comma may stand after the last component
                break
            items.append(self.expression())
        self.need_symbol(")")
        return items[0] if len(items) == 1 else syntax.Tuple(items, where)

    def action(self, where):
        """`(← e)` in a statement is a name for what e gives, bound just before the statement."""
        if not self.actions:
            self.fail("a nested action stands in no `do` block")
        expression = self.expression()
        self.need_symbol(")")
        name = syntax.Name(f"action at {where}", where)
        self.actions[-1].append((name, expression))
        return name

    def begins_binders(self):
        """Whether `x y : A` stands here: names or bracketed patterns, and then a colon."""
        at = self.at
        while at < self.end:
            token = self.tokens[at]
            if token.is_name(":"):
                return at > self.at
            if token.is_symbol("(") or (token.is_symbol("{") and self.tokens[at - 1].is_name("record")):
                at = close_of(self.tokens, at, self.end) + 1
            elif token.kind == "name" and token.text not in STOPS and token.text not in ("λ", "let", "do", "elim", "unfold"):
                at += 1
            else:
                return False
        return False

    def binders(self, where):
        patterns = []
        while not self.takes_name(":"):
            patterns.append(self.atom())
        while not self.takes_symbol(")"):
            self.at = close_of(self.tokens, self.at, self.end) + 1
        return syntax.Typed(patterns, where)

    def implicit(self):
        """`{x}`, `{x = y}`, `{x : A}` or levels `{0, ℓ}`; as a pattern it binds x, y, x."""
        where, start = self.peek().where, self.at + 1
        end = close_of(self.tokens, self.at, self.end)
        self.at = end + 1
        equals = find_at_depth_0(self.tokens, start, end, {"="})
        colon = find_at_depth_0(self.tokens, start, end, {":"})
        bound = self.tokens[start if equals is None else equals + 1 : end if colon is None else colon]
        return syntax.Implicit([t.text for t in bound if t.kind == "name"], where)

    # ---- forms that begin with a word

    def lambda_(self, where):
        patterns = []
        while not self.takes_symbol("."):
            patterns += self.binder()
        return syntax.Lambda(patterns, self.expression(), where)

    def binder(self):
        if self.peek().is_symbol("{"):
            return [self.implicit()]
        found = self.atom()
        return found.patterns if isinstance(found, syntax.Typed) else [found]

    def binding(self):
        pattern = self.atom()
        if self.takes_name(":"):
            stop = find_at_depth_0(self.tokens, self.at, self.end, {"="})
            self.at = self.end if stop is None else stop
        self.need_name("=")
        return pattern, self.expression()

    def let(self, where):
        pattern, value = self.binding()
        self.need_name("in")
        return syntax.Let(pattern, value, self.expression(), where)

    def unfold(self, where):
        while not self.takes_name("in"):
            self.next()
        return self.expression()

    def record(self, where):
        if not self.peek().is_symbol("{"):
            self.fail("the translator does not read `record r { .. }`")
        self.need_symbol("{")
        return self.bracketed("record", self.record_fields, where)

    def record_fields(self, where):
        fields, is_type = [], False
        while not self.takes_symbol("}"):
            name = self.next()
            if name.kind not in ("name", "number"):
                self.fail("a field's name was expected")
            if self.takes_name(":"):
                is_type = True
            else:
                self.need_name("=")
            fields.append((name.text, self.expression()))
            if not self.peek().is_symbol("}"):
                self.need_symbol(";")
        return syntax.TypeOnly(where) if is_type else syntax.Record(fields, where)

    def elim(self, where):
        scrutinee = None if self.peek().is_name("[") else self.atom()
        if self.takes_name("as"):
            while not self.peek().is_name("["):
                self.atom()  # a motive is not run
        self.need_name("[")
        return syntax.Elim(scrutinee, self.bracketed("[", self.cases), where)

    def cases(self):
        self.takes_name("|")
        cases = []
        while not self.takes_name("]"):
            pattern = self.expression()
            self.need_name("↦")
            cases.append((pattern, self.expression()))
            if not self.peek().is_name("]"):
                self.need_name("|")
        return cases

    # ---- do

    def do(self, where):
        if self.at >= self.end:
            self.fail("a statement was expected")
        column = self.tokens[self.at].column
        # directly in the braces of a record a `;` is the record's
        separates = self.brackets[-1] != "record"
        self.floors.append(column)
        self.brackets.append("do")
        self.awaited.append(self.awaited[-1])
        statements = self.statement()
        while (separates and self.takes_symbol(";")) or self.at_statement(column):
            statements += self.statement()
        self.awaited.pop()
        self.brackets.pop()
        self.floors.pop()
        return self.sequence(statements, where)

    def at_statement(self, column):
        """Whether a line begins here at the statements' column; a bracket, a comma or a bar there belongs to what is around the block."""
        if self.at >= self.end or not self.tokens[self.at].first or self.tokens[self.at].column != column:
            return False
        token = self.tokens[self.at]
        return not (token.is_name("where") or depth_change(token) < 0 or token.is_name("|") or token.is_symbol(","))

    def statement(self):
        """(kind, pattern, expression) of a statement, after its nested actions."""
        self.exempt = self.at
        self.actions.append([])
        statement = self.plain_statement()
        return [("bind", name, action) for name, action in self.actions.pop()] + [statement]

    def plain_statement(self):
        where = self.peek().where
        if self.takes_name("let"):
            pattern, value = self.binding()
            if self.takes_name("in"):
                return ("run", None, syntax.Let(pattern, value, self.expression(), where))
            return ("let", pattern, value)
        first = self.expression()
        if self.takes_name("←"):
            return ("bind", first, self.expression())
        return ("run", None, first)

    def sequence(self, statements, where):
        kind, _, result = statements[-1]
        if kind != "run":
            self.fail("a do block must end in an expression")
        for kind, pattern, expression in reversed(statements[:-1]):
            if kind == "let":
                result = syntax.Let(pattern, expression, result, where)
            elif kind == "bind":
                rest = syntax.Lambda([pattern], result, pattern.where)
                result = syntax.Apply(syntax.Name(BIND, pattern.where), [expression, rest], where)
            else:
                result = syntax.Apply(syntax.Name(THEN, expression.where), [expression, result], where)
        return result
