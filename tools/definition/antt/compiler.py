"""All functions that an entry reaches, as one JavaScript text."""

from . import core
from .javascript import FunctionWriter, JavaScript
from .lower import lower_expression, lower_function
from .lexer import tokens_of
from .parser import Parser
from .simplify import Simplifier


class Compiler:
    """`remember` are functions whose results are kept while one record is answered."""

    def __init__(self, remember=(), shares=True):
        self.remember = set(remember)
        self.lowered = {}
        self.done = set()
        self.simplifier = Simplifier(self.lowered_of, shares)
        self.javascript = JavaScript(lambda entity: self.lowered_of(entity).arity)

    def lowered_of(self, entity):
        if entity not in self.lowered:
            self.lowered[entity] = lower_function(entity)
        return self.lowered[entity]

    def add(self, entity):
        """Adds a function and all that it reaches."""
        pending = [entity]
        while pending:
            function = pending.pop()
            if function in self.done:
                continue
            self.done.add(function)
            lowered = self.lowered_of(function)
            body = self.simplifier.run(lowered.parameters, lowered.body)
            self.javascript.add_function(function, lowered.parameters, body, function in self.remember)
            pending += globals_of(body)

    def add_term(self, term):
        """Adds what a closed term reaches, and gives the term as a JavaScript function without parameters."""
        body = self.simplifier.run([], term)
        text = FunctionWriter(self.javascript, hoists=False).as_function([], body)
        for function in globals_of(body):
            self.add(function)
        return text

    def add_text(self, module, text, file="expression"):
        """The same for a written expression, read where a module's own declarations stand."""
        tokens = tokens_of(text, file)
        expression = Parser(tokens, 0, len(tokens), module.operators(())).whole()
        return self.add_term(lower_expression(module, expression))

    def whole(self):
        return self.javascript.whole()


def globals_of(e):
    if isinstance(e, core.Global):
        return [e.function]
    return [g for part in core.children(e) for g in globals_of(part)]
