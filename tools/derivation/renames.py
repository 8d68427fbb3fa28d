"""Names of the library that are another thing above the marker: the written part brings them in under names of its own."""

import re
from dataclasses import replace
from typing import Set

from . import write
from .formats import USERS
from .model import MARK, Module, Type
from .parse import parsed


def written(module: Module) -> str:
    """The written part, in which `Core` stands before each name of the library that the file has for something else."""
    text = write.written(module)
    taken = taken_names(module)
    if not taken:
        return text
    before = mark(module, taken)
    try:
        text = write.written(replace(module, uses={it: path for it, path in module.uses.items() if it not in taken}))
    finally:
        for thing, attribute, was in before:
            setattr(thing, attribute, was)
    for name in taken:
        text = re.sub(rf"(?<![\w{USERS}]){name}(?!\w)", f"Core{name}", text)
        text = re.sub(rf"(use [^;]*?)(?<!\w)Core{name}(?!\w)", rf"\1{name} as Core{name}", text, count=1)
    return text.replace(USERS, "")


def taken_names(module: Module) -> Set[str]:
    """The names that the written part would bring in and that the file has for something else."""
    uses = parsed(module.path, write.written(replace(module, uses={})).replace(MARK, "", 1)).uses
    of_library = {name: path for name, path in uses.items() if path[0] in ("archive_core", "std")}
    return {name for name, path in of_library.items() if name in module.names or module.uses.get(name, path) != path}


def mark(module: Module, taken: Set[str]):
    """Marks what the user means by these names; returns what was there."""
    before = []

    def put(thing, *attributes: str):
        for it in attributes:
            was = getattr(thing, it)
            before.append((thing, it, was))
            setattr(thing, it, [marked(line, taken) for line in was] if isinstance(was, list) else marked(was, taken))

    def put_type(it: Type):
        put(it, "text", *(["name"] if it.own is not None else []))
        for x in it.args:
            put_type(x)

    for it in module.declarations:
        put(it, "name", "instance_of", "where", "docs")
        for variant in it.variants:
            put(variant, "name", "docs")
        for field in it.all_fields():
            put(field, "docs")
            put_type(field.type)
    return list(reversed(before))


def marked(text: str, taken: Set[str]) -> str:
    for name in taken:
        text = re.sub(rf"(?<![\w{USERS}]){name}(?!\w)", f"{USERS}{name}", text)
    return text
