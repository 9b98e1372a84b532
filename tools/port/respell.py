#!/usr/bin/env python3
"""Spells this repository's own definitions and lemmas as Rattle's guide does: words in snake case, types and modules in upper camel case.

usage: respell.py [--list] FOLDER

FOLDER is the top of the repository. It reads crates/*/specs and the lemma files of crates/*/proofs for what is declared, and rewrites
specs/, proofs/ and the clauses and ghost use lines of src/. A name that would meet another in some file is left, and named in a line 'left:'.
--list prints the table of names and writes nothing.
"""

import os
import re
import sys

NAME = r"[^\s(){}.;,@\"«»\[\]\\]+"
TOKEN = re.compile(r"--[^\n]*|\"(?:[^\"\\]|\\.)*\"|«[^»]*»|" + NAME)
SIGNATURE = re.compile(rf"^( *)((?:abbrev|unfoldable|package|record|data|pub|ruleset) )*({NAME})((?: (?:\{{[^{{}}]*\}}|\([^()]*(?:\([^()]*\)[^()]*)*\)|\[[^\]]*\]))*) : (.*)$")
PLAIN_WORDS = {"module", "where", "use", "let", "in", "elim", "open", "unfolding", "mod"}
# Lemmas that would meet a definition: each gets the ending of a lemma that has its function's name.
MET = {n: n + "_lem" for n in ("as_long", "no_name", "no_steps", "size_word", "value_line")}
# words of the library that lemmas are named after
OF_STD = {"length", "take", "drop", "append", "map", "set", "replicate", "get", "min", "max", "sum", "reverse"}


def read(path):
    with open(path, encoding="utf-8") as f:
        return f.read()


def files(root):
    for folder, dirs, names in os.walk(os.path.join(root, "crates")):
        dirs[:] = sorted(d for d in dirs if d not in ("out", ".git", "must-fail"))
        for n in sorted(names):
            if n.endswith((".antt", ".rt")):
                yield os.path.join(folder, n)


def is_function_folder(path):
    """Whether the file is of one function's proof: below proofs/ in a folder."""
    inside = path.split("/proofs/", 1)
    return len(inside) == 2 and "/" in inside[1]


def snake(name):
    return re.sub(r"(?<=[a-z0-9₀-₉])([A-Z])", lambda m: "_" + m[1].lower(), name)


def declared(root):
    """Returns the names that are types, and those that are not."""
    types, words = {}, {}
    for path in files(root):
        if not path.endswith(".antt") or is_function_folder(path):
            continue
        if "/specs/" not in path and "/proofs/" not in path:
            continue
        lines = read(path).split("\n")
        for k, line in enumerate(lines):
            m = SIGNATURE.match(line)
            if not m or m[3] in PLAIN_WORDS or "◌" in m[3] or line.lstrip().startswith("--"):
                continue
            name, kind = m[3], m[2] or ""
            text = m[5]
            j = k + 1
            indent = len(m[1])
            while j < len(lines) and lines[j].strip() and len(lines[j]) - len(lines[j].lstrip()) > indent:
                text += " " + lines[j].strip()
                j += 1
            last = re.split(r"→", text)[-1].strip()
            is_type = line.lstrip().startswith(("record", "pub record", "data", "pub data")) or re.match(r"Type( \d| ℓ|$)", last)
            (types if is_type else words).setdefault(name, path)
    return types, words


def new_names(root):
    types, words = declared(root)
    both = set(types) & set(words)
    table = {}
    plain = {n for n in words if "-" not in n} | set(types) | OF_STD
    for n in words:
        if n in both or n.startswith("-") or n.endswith("-") or "--" in n or "+" in n:
            continue
        if n[0].isupper():
            continue
        parts = n.split("-")
        out = None
        for k in range(len(parts) - 1, 0, -1):
            a, b = "-".join(parts[:k]), "-".join(parts[k:])
            if a in plain and b in plain:
                out = snake(a) + "-" + snake(b)
                break
        if out is None:
            out = snake("_".join(parts))
        if out != n:
            table[n] = out
    for n in types:
        if n in both:
            print("look: %s is a type and not" % n)
            continue
        out = n
        if n[0].islower():
            out = n[0].upper() + n[1:]
        out = re.sub(r"[-_]([a-z])", lambda m: m[1].upper(), out)
        if out != n:
            table[n] = out
    return table, types, words


CLAUSE = re.compile(r"\b(?:requires|ensures|ghost)\b[^{;]*\{")


def clause_spans(text):
    """The spans of a .rt file that are antt: clauses, ghost members and ghost use lines."""
    for m in re.finditer(r"ghost use [^;]*;", text):
        yield m.span()
    for m in re.finditer(r"\b(?:requires|ensures|ghost|also_owns|also_shares)\b\*?[^{};()]*\{", text):
        if text[m.start():].startswith("ghost use"):
            continue
        deep, k = 0, m.end() - 1
        while k < len(text):
            deep += (text[k] == "{") - (text[k] == "}")
            if not deep:
                break
            k += 1
        yield (m.end(), k)


def rewrite(text, table, steps):
    """Each token by the table. In a chain that begins with c or w the first field but `before` is a step of Rattle's, and stays."""
    out, last = [], 0
    chain = None
    for m in TOKEN.finditer(text):
        word = m[0]
        if word.startswith(("--", '"', "«")):
            chain = None
            continue
        before = text[m.start() - 1] if m.start() else ""
        if before == ".":
            if chain is None:
                pass
            elif chain == "step":
                if word != "before":
                    chain = "past"
                    continue
        else:
            chain = "step" if steps and word in ("c", "w", "tie", "lts") or (steps and word.endswith("-lts")) else "plain"
        to = table.get(word) or (MET.get(word) if before != "." else None)
        if to:
            out.append(text[last:m.start()])
            out.append(to)
            last = m.end()
    out.append(text[last:])
    return "".join(out)


def undotted(text):
    """A name with a middle dot, given by an `as`: the namespace goes in front of a type, and joins another name by `_`."""
    text = re.sub(r"([A-Z]\w*)·meant", r"Meant\1", text)
    text = re.sub(r"([a-z]\w*)·meant", r"meant_\1", text)
    return re.sub(r"([a-z]\w*)·([a-z]\w*)", r"\1_\2", text)


def turned(path, text, table):
    text = undotted(text)
    if path.endswith(".antt"):
        return rewrite(text, table, is_function_folder(path))
    spans = sorted(clause_spans(text))
    out, last = [], 0
    for a, b in spans:
        if a < last:
            continue
        out.append(text[last:a])
        out.append(rewrite(text[a:b], table, False))
        last = b
    out.append(text[last:])
    return "".join(out)


def bare(text):
    """The words that stand behind no dot, and the last word of a path in a use line."""
    found = set()
    for m in TOKEN.finditer(text):
        if not m[0].startswith(("--", '"')) and text[m.start() - 1 : m.start()] != ".":
            found.add(m[0])
    for m in re.finditer(rf"(?m)^ *(?:pub )?(?:ghost )?use [^{{\n;]*\.({NAME})(?: as [^\n;]*)?;?$", text):
        if " as " not in m[0]:
            found.add(m[1])
    return found


def tokens(path, text):
    if path.endswith(".antt"):
        return bare(text)
    found = set()
    for a, b in clause_spans(text):
        found |= bare(text[a:b])
    return found


def main():
    listing = "--list" in sys.argv
    root = [a for a in sys.argv[1:] if not a.startswith("--")][0]
    table, types, words = new_names(root)
    # a lemma that would have its function's name
    by_new = {}
    for a, b in table.items():
        by_new.setdefault(b, []).append(a)
    for b, each in by_new.items():
        each = sorted(each, key=lambda a: ("-" in a, a))
        taken = each[1:] if b not in words and b not in types else each
        for a in taken:
            if "-" in a:
                table[a] = b + "_lem"
    RESERVED = set("abbrev record data deriving module where use mod pub package open as unfoldable axiom unfold unfolding ruleset mutual infix infixl infixr elim let in do Type coe fcoe tcoe hcom com search omega grind simp rw cc ground assumption".split())
    left = set()
    while True:
        bad = set()
        for path in files(root):
            text = read(path)
            found = tokens(path, text)
            after = {}
            for t in found:
                n = table.get(t) or MET.get(t, t)
                if n in after and after[n] != t:
                    for x in (t, after[n]):
                        if x in table:
                            bad.add((x, n, path))
                after.setdefault(n, t)
        for n, o in table.items():
            if o in RESERVED:
                bad.add((n, o, "reserved"))
        if not bad:
            break
        for x, n, path in sorted(bad):
            if x in table:
                print("left: %s would be %s, which is there: %s" % (x, n, os.path.relpath(path, root)))
                del table[x]
    if listing:
        for a, b in sorted(table.items()):
            print(a, b)
        return
    n = 0
    for path in files(root):
        text = read(path)
        new = turned(path, text, table)
        if new != text:
            with open(path, "w", encoding="utf-8") as f:
                f.write(new)
            n += 1
    print("%d names, %d files" % (len(table), n))


main()
