"""From a config file to a JavaScript program, written anew only when something it was made from has changed."""

import hashlib
import json
import os
import tomllib
from pathlib import Path

from .compiler import Compiler
from .deep import deeply
from .errors import AnttError, located
from .modules import Program

TOOL = Path(__file__).resolve().parent.parent
KIT = os.environ.get("RATTLE_KIT", "/opt/rattle")
OUTPUT = TOOL.parent / "target" / "definition"


class Config:
    """`plain` leaves out all that is there for speed alone and can be left out: `check` compares the two."""

    def __init__(self, file=TOOL / "entry.toml", plain=False):
        self.plain = plain
        self.file = Path(file).resolve()
        text = tomllib.loads(self.file.read_text(encoding="utf-8"))
        self.crates = [(self.file.parent / text["crates"]).resolve()]
        self.module = text["module"]
        self.entries = text["entries"]
        self.remember = [] if plain else text.get("remember", [])
        self.confirm = text.get("confirm", {})


def runtime(*names):
    return "\n".join((TOOL / name).read_text(encoding="utf-8") for name in names)


def program(crates, overrides=True):
    return Program(crates, KIT, overrides)


def member(source, name):
    """What a whole name such as `lib.Dec.eqb` means."""
    *path, last = name.split(".")
    return source.member(path, last)


def translate(config):
    """The program's text and the files that it was made from."""
    source = program(config.crates, overrides=not config.plain)
    module = source.module(config.module.split("."))
    with located(f"{config.file} (remember)"):
        compiler = Compiler([member(source, name) for name in config.remember], shares=not config.plain)
    entries = {}
    for name, expression in config.entries.items():
        entries[name] = compiler.add_text(module, expression, f"{config.file} ({name})")
    table = ",\n".join(f"{json.dumps(name)}: ({text})()" for name, text in entries.items())
    text = "\n".join([runtime("runtime.js"), compiler.whole(), f"const ENTRIES = {{\n{table}\n}};", runtime("batch.js")])
    return text, sorted(str(m.file) for m in source.modules.values())


def digest(files):
    hashed = hashlib.sha256()
    for file in files:
        hashed.update(file.encode() + b"\0")
        hashed.update(Path(file).read_bytes() if Path(file).is_file() else b"missing")
    return hashed.hexdigest()


def own_files(config):
    return [str(config.file)] + sorted(str(f) for f in TOOL.glob("antt/*.py")) + sorted(str(f) for f in TOOL.glob("*.js"))


def is_fresh(output, config):
    try:
        head = output.open(encoding="utf-8").readline()
        made_from = json.loads(head.removeprefix("// "))
    except (OSError, ValueError):
        return False
    return made_from["digest"] == digest(own_files(config) + made_from["files"])


def output_name(config):
    """Configs of one name in different folders, or with other contents, do not share a program."""
    return f"{config.file.stem}-{digest([str(config.file)])[:8]}{'-plain' if config.plain else ''}.js"


def built(config, output=None):
    """The program's file, written if it has to be."""
    output = Path(output) if output else OUTPUT / output_name(config)
    if not is_fresh(output, config):
        text, files = deeply(lambda: translate(config))
        head = json.dumps({"digest": digest(own_files(config) + files), "files": files}, ensure_ascii=False)
        output.parent.mkdir(parents=True, exist_ok=True)
        # another run must never see half a program
        partial = output.with_suffix(f".{os.getpid()}.tmp")
        partial.write_text(f"// {head}\n{text}", encoding="utf-8")
        partial.replace(output)
    return output


__all__ = ["TOOL", "AnttError", "Config", "built", "program", "runtime", "translate"]
