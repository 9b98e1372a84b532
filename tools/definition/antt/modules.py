"""Files, what they declare and what their names mean.

Only the heads of declarations are read here. A body is read when something that
is to be run reaches it, so proofs are never read at all.
"""

import json
from pathlib import Path as FilePath

from . import natives
from .entities import Constructor, DataType, Function, Opened, Projection, RecordType, Section
from .errors import AnttError, located
from .lexer import tokens_of
from .operators import Fixity, Operators
from .parser import close_of, depth_change, find_at_depth_0

MARKS = {"pattern", "unfoldable", "abbrev", "pub", "axiom"}
FIXITIES = {"infix", "infixl", "infixr"}
# lines that say nothing of what is computed
SILENT = {"unfolding", "ruleset"}


def fixity_line(tokens, i, j):
    """`infixl 65 ◌+◌ ◌-◌`: the names with their fixity."""
    if j - i < 3 or tokens[i + 1].kind != "number":
        raise AnttError("a fixity line has a level and operators", tokens[i].where)
    fixity = Fixity(tokens[i].text, tokens[i + 1].value)
    return {token.text: fixity for token in tokens[i + 2 : j]}


# ---- modules


class Module:
    def __init__(self, program, name, file):
        self.program = program
        self.name = name
        self.file = file
        self.tokens = tokens_of(FilePath(file).read_text(encoding="utf-8"), str(file))
        self.own = {}
        self.fixities = {None: {}}  # for the file, and for each block: its operators' fixities
        self.imports = {}  # local name -> (module path, name there, where), looked up when needed
        self.globs = []  # modules whose names are all brought in
        self.aliases = {}  # local name -> module path
        self.children = set()  # the modules that `mod` lines name
        self.functions = []  # in the order of the file
        self.operators_of = {}  # sections -> Operators
        self.read_block(0, len(self.tokens), ())

    # -- reading the file's heads

    def logical_lines(self, start, end):
        """The declarations' lines of a block: each begins at the block's column, outside all brackets."""
        if start >= end:
            return []
        column = self.tokens[start].column
        starts, depth = [], 0
        for i in range(start, end):
            token = self.tokens[i]
            if depth == 0 and (i == start or (token.first and token.column == column)):
                starts.append(i)
            depth += depth_change(token)
        return list(zip(starts, starts[1:] + [end]))

    def read_block(self, start, end, sections):
        current = None
        for i, j in self.logical_lines(start, end):
            with located(self.tokens[i].where):
                current = self.read_line(i, j, sections, current)

    def read_line(self, i, j, sections, current):
        """Reads one logical line; gives the function that clauses below it belong to."""
        head = i
        while head < j and self.tokens[head].kind == "name" and self.tokens[head].text in MARKS:
            head += 1
        if head == j:
            raise AnttError("a mark with nothing after it", self.tokens[i].where)
        word = self.tokens[head].text if self.tokens[head].kind == "name" else ""
        if word in SILENT:
            return current
        readers = {"use": self.read_use, "mod": self.read_mod, "data": self.read_data, "record": self.read_record}
        if word in readers:
            return readers[word](head + 1, j)
        if word in FIXITIES:
            return self.fixities.setdefault(sections[-1] if sections else None, {}).update(fixity_line(self.tokens, head, j))
        if word in ("module", "mutual"):
            return self.read_inner_block(word, head, j, sections)
        if word == "open":
            return self.read_open(head + 1, j, sections)
        return self.read_declaration(i, head, j, sections, current)

    def read_declaration(self, i, head, j, sections, current):
        """A signature, or a clause of the function above it."""
        split = find_at_depth_0(self.tokens, head, j, {":", "="})
        if split is not None and self.tokens[split].text == ":":
            marks = frozenset(token.text for token in self.tokens[i:head])
            return self.read_signature(head, split, j, sections, marks)
        if split is None or current is None:
            raise AnttError("the translator does not read this declaration", self.tokens[i].where)
        current.clauses.append((i, j))
        return current

    def read_signature(self, i, colon, j, sections, marks):
        """`name {levels} : type`"""
        token = self.tokens[i]
        levels = colon > i + 1 and self.tokens[i + 1].is_symbol("{") and close_of(self.tokens, i + 1, j) == colon - 1
        if token.kind != "name" or not (colon == i + 1 or levels):
            raise AnttError("the translator does not read this declaration", token.where)
        function = Function(self, token.text, sections, (colon + 1, j), marks, where=token.where)
        return self.declare(function)

    def declare(self, function):
        self.own[function.name] = function
        self.functions.append(function)
        return function

    def read_inner_block(self, word, i, j, sections):
        inner = i + 1
        if word == "module":
            inner = self.after_where(i, j)
            if inner is None or not self.tokens[i + 1].is_name("_"):
                raise AnttError("a block is `module _ (parameters) where`", self.tokens[i].where)
            sections += (Section(*self.parameters(i + 2, inner - 1)),)
        self.read_block(inner, j, sections)

    def after_where(self, i, j):
        at = find_at_depth_0(self.tokens, i, j, {"where"})
        return None if at is None else at + 1

    def parameters(self, i, j):
        """The names bound by the groups `(x y : A)`, those bound by `{x y : A}`, and of these the types and levels."""
        explicit, implicit, types = [], [], []
        while i < j:
            close = close_of(self.tokens, i, j)
            colon = find_at_depth_0(self.tokens, i + 1, close, {":"})
            names = [t.text for t in self.tokens[i + 1 : close if colon is None else colon]]
            if self.tokens[i].is_symbol("(") and colon is not None:
                explicit += names
            elif self.tokens[i].is_symbol("{"):
                (types if colon is None or self.tokens[colon + 1].is_name("Type") else implicit).extend(names)
            else:
                raise AnttError("the translator does not read this parameter", self.tokens[i].where)
            i = close + 1
        return explicit, implicit, types

    def read_open(self, i, j, sections):
        """`open t use {f, g as h}`: each name is a field of t."""
        use = find_at_depth_0(self.tokens, i, j, {"use"})
        if use is None or use + 1 == j or not self.tokens[use + 1].is_symbol("{"):
            raise AnttError("`use {..}` was expected", self.tokens[i].where)
        for item in items_of(self.tokens[use + 2 : close_of(self.tokens, use + 1, j)]):
            opened = Opened(i, use, item[0].text)
            self.declare(Function(self, item[-1].text, sections, (i, i), where=item[-1].where, opened=opened))

    # -- types

    def read_data(self, i, j):
        data = DataType(self.tokens[i].text, {})
        self.own[data.name] = data
        for a, b, colon in self.members(i, j, {}):
            arrows = tuple(self.arguments(colon + 1, b))
            for token in self.tokens[a:colon]:
                family = natives.FAMILIES.get((self.name, data.name), "data")
                constructor = Constructor(token.text, family, len(arrows), arrows)
                data.constructors[token.text] = constructor
                self.own[token.text] = constructor

    def read_record(self, i, j):
        record = RecordType(self.tokens[i].text, [], {})
        self.own[record.name] = record
        for a, _, colon in self.members(i, j, record.fixities):
            record.fields += [t.text for t in self.tokens[a:colon] if not t.is_name("pub")]

    def members(self, i, j, fixities):
        """The lines `name : type` under a type's `where`, as (start, end, colon)."""
        inner = self.after_where(i, j)
        if inner is None:
            raise AnttError("`where` was expected", self.tokens[i].where)
        for a, b in self.logical_lines(inner, j):
            colon = find_at_depth_0(self.tokens, a, b, {":"})
            if self.tokens[a].text in FIXITIES:
                fixities.update(fixity_line(self.tokens, a, b))
            elif colon is not None:
                yield a, b, colon
            elif not self.tokens[a].is_name("deriving"):
                raise AnttError("the translator does not read this line of a type", self.tokens[a].where)

    def arguments(self, i, j):
        """For each explicit argument of a type, how many arguments it takes itself."""
        arrow = find_at_depth_0(self.tokens, i, j, {"→"})
        while arrow is not None:
            yield from self.arguments_of_piece(i, arrow)
            i, arrow = arrow + 1, find_at_depth_0(self.tokens, arrow + 1, j, {"→"})

    def arguments_of_piece(self, i, j):
        """The same for what stands before an arrow: binders `(x y : A) {z : B}`, or one type."""
        found, at = [], i
        while at < j and depth_change(self.tokens[at]) > 0:
            close = close_of(self.tokens, at, j)
            colon = find_at_depth_0(self.tokens, at + 1, close, {":"})
            if self.tokens[at].is_symbol("("):
                count = 1 if colon is None else colon - at - 1
                inner = at + 1 if colon is None else colon + 1
                found += [len(list(self.arguments(inner, close)))] * count
            at = close + 1
        return found if at == j else [0]

    # -- what the header brings

    def read_mod(self, i, j):
        self.children.add(self.tokens[i].text)

    def read_use(self, i, j):
        path = self.tokens[i].parts or [self.tokens[i].text]
        rest = self.tokens[i + 1 : j]
        if path[-1] == "*":
            self.globs.append(path[:-1])
        elif not rest:
            self.aliases[path[-1]] = path
        elif rest[0].is_name("as") and len(rest) == 2:
            self.aliases[rest[1].text] = path
        elif rest[0].is_symbol(".") and rest[1].is_symbol("{") and rest[-1].is_symbol("}"):
            for item in items_of(rest[2:-1]):
                parts = item[0].parts or [item[0].text]
                self.imports[item[-1].text if len(item) == 3 else parts[-1]] = (path + parts[:-1], parts[-1], item[0].where)
        else:
            raise AnttError("the translator does not read this `use` line", self.tokens[i].where)

    # -- what names mean here

    def module_path(self, parts):
        """A path's first name may be a child of this module, or another name of a module."""
        seen = set()
        while parts[0] not in seen:
            seen.add(parts[0])
            if parts[0] == "package":
                return parts[1:]
            if parts[0] in self.children:
                return self.name.split(".") + parts
            if parts[0] in self.aliases:
                parts = self.aliases[parts[0]] + parts[1:]
        return parts

    def lookup(self, name):
        """What a bare name means, or None."""
        if name in self.own:
            return self.program.override(self.name, name) or self.own[name]
        if name in self.imports:
            path, there, where = self.imports[name]
            with located(where):
                return self.program.member(self.module_path(path), there)
        for path in self.globs:
            found = self.program.member(self.module_path(path), name, required=False)
            if found is not None:
                return found
        return natives.PRELUDE.get(name)

    def lookup_path(self, parts):
        """What `a.b.c` means: a constructor or a field behind its type, or a name behind its module; or None."""
        if len(parts) == 2:
            found = member_of_type(self.lookup(parts[0]), parts[1])
            if found is not None:
                return found
        path = self.module_path(parts)
        found = self.program.member(path[:-1], path[-1], required=False)
        if found is None and len(path) > 2:
            found = member_of_type(self.program.member(path[:-2], path[-2], required=False), path[-1])
        return found

    # -- operators

    def operators(self, sections):
        """Those in scope inside some blocks of this file."""
        if sections not in self.operators_of:
            names = set(self.own) | set(self.imports) | set(natives.PRELUDE) | {name for table in self.fixities.values() for name in table}
            for path in self.globs:
                names |= set(self.program.module(self.module_path(path)).own)
            self.operators_of[sections] = Operators(names, lambda name: self.fixity(name, sections))
        return self.operators_of[sections]

    def fixity(self, name, sections=()):
        """The fixity of an operator here, or None."""
        anywhere = self.fixities if name in self.own else ()
        for block in [*reversed(sections), None, *anywhere]:
            if name in self.fixities.get(block, {}):
                return self.fixities[block][name]
        if name in self.imports:
            path, there, _ = self.imports[name]
            return self.program.fixity(self.module_path(path), there)
        if name in self.own:
            return self.field_fixity(self.own[name])
        found = (self.program.fixity(self.module_path(path), name) for path in self.globs)
        return next((fixity for fixity in found if fixity), None)


    def field_fixity(self, found):
        """An operator that `open` brings has the fixity that its record states: here, the records in scope state only one."""
        if not isinstance(found, Function) or not found.opened:
            return None
        field = found.opened.field
        records = [e for e in map(self.lookup, [*self.own, *self.imports]) if isinstance(e, RecordType) and field in e.fixities]
        stated = {record.fixities[field] for record in records}
        return stated.pop() if len(stated) == 1 else None


def member_of_type(found, name):
    if isinstance(found, DataType):
        return found.constructors.get(name)
    if isinstance(found, RecordType) and name in found.fields:
        return Projection(name)
    return None


def items_of(tokens):
    """The items of a list with commas, each as its tokens: `a`, or `a as b`."""
    items, item = [], []
    for token in [*tokens, None]:
        if token is not None and not token.is_symbol(","):
            item.append(token)
        elif item:
            if len(item) != 1 and not (len(item) == 3 and item[1].is_name("as")):
                raise AnttError("`name` or `name as other` was expected", item[0].where)
            items.append(item)
            item = []
    return items


class Program:
    """All modules that were asked for, and where libraries lie."""

    def __init__(self, crates_folders, kit, overrides=True):
        self.overrides = overrides
        self.crates_folders = [FilePath(f) for f in crates_folders]
        self.kit = FilePath(kit) / "rattle"
        self.libraries = self.read_libraries(self.kit / "logic" / "antt-project.json")
        self.modules = {}  # by their files
        self.files = {}  # found so far, by path

    @staticmethod
    def read_libraries(project):
        """Where the files of each library stand: in the folder that its own project names, `src` if it names none."""
        found = {}
        for name, mount in json.loads(project.read_text(encoding="utf-8"))["mounts"].items():
            own = project.parent / mount / "antt-project.json"
            found[name] = (own.parent / json.loads(own.read_text(encoding="utf-8")).get("src", "src")).resolve()
        return found

    def file_of(self, parts):
        """The file of a module, or None."""
        path = tuple(parts)
        if path not in self.files:
            self.files[path] = self.find_file(parts)
            if self.files[path] is None:
                passed_on = self.passed_on(parts)
                self.files[path] = passed_on and self.file_of(passed_on)
        return self.files[path]

    def find_file(self, parts):
        """A crate's module is `Rattle.CRATE.specs.M` or `Rattle.CRATE.proofs.M`, for the crates here and for those of the kit."""
        if parts[0] == "Rattle" and len(parts) > 2:
            folders = [folder.joinpath(*parts[1:]) for folder in [*self.crates_folders, self.kit]]
        elif parts[0] in self.libraries:
            folders = [self.libraries[parts[0]].joinpath(*parts[1:])]
        else:
            return None
        files = [file for f in folders for file in (f.with_name(f.name + ".antt"), f / "Lib.antt")]
        return next((f for f in files if f.is_file()), None)

    def passed_on(self, parts):
        """The path of a module without a file of its own: one above it passes it on by `pub use`. Or None."""
        for cut in range(len(parts) - 1, 0, -1):
            if self.find_file(parts[:cut]):
                aliases = self.module(parts[:cut]).aliases
                return aliases[parts[cut]] + list(parts[cut + 1 :]) if parts[cut] in aliases else None
        return None

    def module(self, parts):
        file = self.file_of(parts)
        if file is None:
            raise AnttError(f"no file for the module {'.'.join(parts)}")
        if file not in self.modules:
            self.modules[file] = Module(self, self.name_of(parts), file)
        return self.modules[file]

    def name_of(self, parts):
        """The name of a module by the path to its own file."""
        return ".".join(parts) if self.find_file(parts) else self.name_of(self.passed_on(parts))

    def override(self, module, name):
        """A function of the runtime in place of a library's own clauses, for speed."""
        return natives.OVERRIDES.get((module, name)) if self.overrides else None

    def member(self, path, name, required=True):
        native = natives.NATIVES.get((".".join(path), name))
        if native is not None:
            return native
        if not path or self.file_of(path) is None:
            if required:
                raise AnttError(f"neither the runtime nor a file has `{'.'.join([*path, name])}`")
            return None
        found = self.module(path).lookup(name)
        if found is None and required:
            raise AnttError(f"the module {'.'.join(path)} has no `{name}`")
        return found

    def fixity(self, path, name):
        native = natives.FIXITIES.get((".".join(path), name))
        if native or self.file_of(path) is None:
            return native
        return self.module(path).fixity(name)
