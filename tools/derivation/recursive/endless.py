"""Recursive types of which each value holds another, with no end. No value of one can be made, and the toolchain doesn't state it."""

from typing import Dict, List, Set

from ..model import Declaration, Refused, Type

# A value of these may hold nothing of what they are around.
MAY_BE_EMPTY = {"BTreeMap", "BoxSlice", "Option", "OwnedArray", "PhantomData", "SharedSlice", "Vec", "WeakShared"}


def ends(it: Type, known: Set[int], given: Dict[str, bool]) -> bool:
    """Whether a type has a value that ends, if the declared types do that are known to, and the parameters as is given."""
    if it.parameter:
        return given.get(it.name, True)
    if it.own is not None:
        arguments = {parameter.name: ends(x, known, given) for parameter, x in zip(it.own.parameters, it.args)}
        return id(it.own) in known and (all(arguments.values()) or has_end(it.own, known - {id(it.own)}, arguments))
    if it.name in MAY_BE_EMPTY or it.name == "array" and it.length == "0":
        return True
    if it.name == "Result":
        return any(ends(x, known, given) for x in it.args)
    return all(ends(x, known, given) for x in it.args)


def has_end(it: Declaration, known: Set[int], given: Dict[str, bool]) -> bool:
    """The same of a declaration: a struct has all its fields, an enum those of one variant."""
    rows = [it.fields] if it.kind == "struct" else [variant.fields for variant in it.variants]
    return any(all(ends(field.type, known, given) for field in fields) for fields in rows)


def check_ends(declarations: List[Declaration]):
    """Refuses recursive types without a value that ends."""
    known: Set[int] = set()
    found = declarations
    while found:
        found = [it for it in declarations if id(it) not in known and has_end(it, known, {})]
        known.update(map(id, found))
    for it in declarations:
        if it.recursive and id(it) not in known:
            around = "add a variant that holds none" if it.kind == "enum" else "write an `Option` or a `Vec` around it"
            raise Refused(it.path, it.line, f"each value of `{it.name}` holds another, with no end; {around}")
