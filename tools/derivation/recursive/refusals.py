"""What isn't written of recursive types, with what to write instead."""

from dataclasses import replace
from typing import List

from ..formats import POINTERS, has_shared, snake
from ..model import Declaration, Refused, Type
from .plain import LEAVES, has_boxed, is_shaped

# What plain parts may be made of, which a recursive type has beside those that lead back to it.
PLAIN = set(LEAVES) | {"String", "BoxStr", "NonZero", "Option", "Result", "Box", "BoxSlice", "Vec", "BTreeMap", "OwnedArray", "array"}
# Those of a type that is recursive alone and shares nothing; and of a struct whose other fields are made of no others.
MOST_FIELDS = 9
MOST_FLAT = 12
# Up to so many fields there are calls by their number, for types that go by a name.
MOST_BY_NAME = 7
# How many variants are proved of an enum that is recursive or holds a recursive type.
MOST_RECURSIVE_VARIANTS = 24
MOST_PLACES = 3
MOST_ITEMS = 8


def check_recursive(it: Declaration, line: int, names: str):
    """Refuses a recursive declaration that has no templates."""
    if it.instance_of:
        raise Refused(it.path, line, f"`{it.name}` is recursive ({names}) and of a type with type parameters; write one without")
    if it.parameters:
        raise Refused(it.path, line, f"`{it.name}` is recursive ({names}) and has type parameters; name its arguments, one type for each")
    check_family(it, names)
    for fields in [it.fields] if it.kind == "struct" else [variant.fields for variant in it.variants]:
        check_parts(it, fields)
        for field in fields:
            check_part(it, field.type, field.line)
    check_rows(it)
    check_beside_rows(it)
    check_kept(it)
    check_cycle(it, names)


def with_rows_named(it: Declaration, type: Type) -> Type:
    """The type with those tuples in it that lead back as types with names, which they are archived as."""
    if type.name == "tuple" and leads_back(it, type):
        return Type(it.name, own=it)
    return replace(type, args=[with_rows_named(it, arg) for arg in type.args])


def check_rows(it: Declaration):
    """A tuple that leads back is the element of a vector of a struct, or of the only such one of an enum, that leads back to no other type. Others aren't proved."""
    held = [field for field in it.all_fields() if rows_in(it, field.type)]
    for i, field in enumerate(held):
        if len(it.family) > 1 or not is_named(field.type, "Vec") or it.kind == "enum" and i > 0:
            said = f"a tuple that leads back to `{it.name}` is written in a `Vec` of a struct, or in one of an enum, if no other type is recursive with it"
            raise Refused(it.path, field.line, f"{said}; write a struct of this file")


def check_beside_rows(it: Declaration):
    """What a tuple that leads back means, or an entry of a map, is told at the head of the file. What other types of the file mean is told there, too: each would bring in
    the other."""
    if not any(rows_in(other, field.type) or is_map(other, field.type) for other in it.family for field in other.all_fields()):
        return
    for field in it.all_fields():
        own = of_this_file(it, field.type)
        if own:
            said = f"`{own}` and the recursive `{it.name}`, in which a tuple or a map leads back, aren't written in one file"
            raise Refused(it.path, field.line, f"{said}; move `{own}` to another one")


def of_this_file(it: Declaration, type: Type) -> str:
    """The name of a type of this file, but of the family, in a type; nothing if there is none."""
    if type.own is not None and not is_member(it, type) and type.own.path == it.path:
        return type.own.name
    return next((found for arg in type.args if (found := of_this_file(it, arg))), "")


def check_kept(it: Declaration):
    """How an enum with a vector of shared pointers is resolved has to be told for each arm, and these aren't known where a variant without fields lets go of memory."""
    fields = it.all_fields()
    array = next((field for field in fields if keeps_memory(field.type)), None)
    has_unit = it.kind == "enum" and any(not variant.fields for variant in it.variants)
    if has_unit and array is not None and any(is_shared_run(it, field.type) for field in fields):
        said = f"an array isn't proved in the recursive `{it.name}`, which has a vector of shared pointers and a variant without fields"
        raise Refused(it.path, array.line, f"{said}; put it into a `Box`, in a struct of another file")


def keeps_memory(type: Type, within=()) -> bool:
    """Whether what is kept of a value between `serialize` and `resolve` has memory: an array's elements are kept in a vector."""
    if type.own is not None:
        return type.own not in within and any(keeps_memory(field.type, (*within, type.own)) for field in type.own.all_fields())
    return type.name in ("array", "OwnedArray") or type.name not in POINTERS and any(keeps_memory(arg, within) for arg in type.args)


def is_shared_run(it: Declaration, type: Type) -> bool:
    """Whether it is a vector of shared or weak pointers to a type of the family, or a box of one."""
    run = type.args[0] if is_named(type, "Box") else type
    if run.name not in ("Vec", "BoxSlice") or run.own is not None:
        return False
    return is_shared(it, run.args[0]) or is_named(run.args[0], "WeakShared")


def check_family(it: Declaration, names: str):
    """Types that hold each other are written together."""
    elsewhere = [other for other in it.family if other.path != it.path]
    if elsewhere:
        raise Refused(it.path, it.line, f"`{it.name}` and `{elsewhere[0].name}` hold each other ({names}) and are written together; move both to one file")
    for variant in it.variants:
        other = next((x for x in it.family if x is not it and any(variant.name == y.name for y in x.variants)), None)
        if other is not None:
            raise Refused(it.path, variant.line, f"`{variant.name}` is a variant of `{it.name}` and of `{other.name}`, which hold each other; give one of them another name")


def check_cycle(it: Declaration, names: str):
    """Of types that hold each other, the toolchain wants one `#[cycle(name)]` above each."""
    cycles = {attribute for other in it.family for attribute in other.attributes if attribute.replace(" ", "").startswith("#[cycle(")}
    if len(it.family) > 1 and (len(cycles) != 1 or not all(cycles & set(other.attributes) for other in it.family)):
        others = " and ".join(f"`{other.name}`" for other in it.family)
        raise Refused(it.path, it.line, f"{others} hold each other ({names}), and the toolchain wants a name for the circle; write `#[cycle({snake(it.name)})]` above each")


def check_parts(it: Declaration, fields):
    """A variant or a record has as many fields as are proved to be written and read back, of types that hold each other or share fewer."""
    is_alone = len(it.family) == 1 and not any(has_shared(field.type, it.family) for field in it.all_fields())
    is_flat = it.kind == "struct" and all(leads_back(it, field.type) or field.type.own is None and not field.type.args for field in fields)
    most = MOST_BY_NAME if not is_alone else MOST_FLAT if is_flat else MOST_FIELDS
    if len(fields) > most:
        raise Refused(it.path, fields[-1].line, f"a variant or a struct of the recursive `{it.name}` has up to {most} fields; put some of them into a struct of another file")


def check_part(it: Declaration, type: Type, line: int):
    if is_member(it, type):
        return
    if any(leads_back(it, x) for x in type.args):
        check_owner(it, type, line)
        return
    held = recursive_in(type)
    if held and is_inner(it, type):
        return
    if held:
        raise Refused(it.path, line, f"`{held}` is recursive or holds a type that is, and isn't written yet in the recursive `{it.name}`; archive the two beside each other")
    check_plain(it, type, line)


def check_plain(it: Declaration, type: Type, line: int, behind: bool = False):
    """What leads to no value of the type. A tuple is behind a vector's pointer: else the check doesn't finish what the type's own impls make of its layout. An array beside
    a shared pointer isn't proved to be read back."""
    if type.own is not None and not type.args:
        if not is_shaped(type, it.path):
            raise Refused(it.path, line, f"`{type.own.name}` has fields that tools/derive doesn't write beside the recursive `{it.name}`; move it to another file")
        return
    if is_named(type, "tuple") and not behind:
        raise Refused(it.path, line, f"a plain tuple in the recursive `{it.name}` is written in a `Vec` alone; write a struct of another file, or its parts as fields")
    is_shared_array = is_named(type, "array") and any(has_shared(field.type, it.family) for field in it.all_fields())
    if type.own is not None or type.name not in PLAIN | {"tuple"} or is_shared_array:
        raise Refused(it.path, line, f"this field of the recursive `{it.name}` is of a type that tools/derive doesn't write there; put it into a struct of another file")
    for arg in type.args:
        check_plain(it, arg, line, behind or type.name == "Vec")


def check_owner(it: Declaration, type: Type, line: int):
    """What leads back is a box or a shared pointer, an option of one, a weak pointer, a vector or a boxed slice of these or of the type itself, a vector of
    tuples, a box of a vector, a shared slice, a sorted map, an array of options of boxes, or a tuple of one and a number."""
    for row in rows_in(it, type):
        check_row(it, row, line)
    if is_map(it, type):
        check_map(it, type, line)
        return
    if is_named(type, "array"):
        check_array(it, type, line)
        return
    if is_nullable(it, type) or is_pointer(it, type) or is_shared(it, type) or is_list(it, type) or is_named(type, "Box") and is_named(type.args[0], "Vec") and is_list(it, type.args[0]):
        return
    refuse_nullable(it, type, line)
    if is_named(type, "SharedSlice"):
        check_slice(it, type, line)
        return
    if is_named(type, "tuple"):
        check_tuple(it, type, line)
        return
    written = (
        f"a `Box<{it.name}>`, a `Shared<{it.name}>`, an `Option` of one, a `Vec` or a `BoxSlice` of `{it.name}`, of `Box<{it.name}>`, `Option<Box<{it.name}>>` or `Shared<{it.name}>`,"
        f" a `Vec` of tuples or of `Option<Shared<{it.name}>>`, a `Box` of a `Vec` of others, a `SharedSlice` or a `BTreeMap` of `{it.name}` is"
    )
    if type.name not in ("Box", "BoxSlice", "Option", "Shared", "Vec") or type.own is not None:
        raise Refused(it.path, line, f"`{type.name}` around `{it.name}` isn't written yet; {written}")
    raise Refused(it.path, line, f"this {'option' if type.name == 'Option' else f'`{type.name}` of pointers'} to `{it.name}` isn't written yet; {written}")


def refuse_nullable(it: Declaration, type: Type, line: int):
    """A weak pointer isn't written everywhere."""
    if is_named(type, "Option") and is_named(type.args[0], "WeakShared"):
        raise Refused(it.path, line, f"an `Option` of a `WeakShared` around `{it.name}` isn't written; write the `WeakShared`, which may be a null itself")
    if any(is_named(part, "WeakShared") for part in (type, *type.args)):
        raise Refused(it.path, line, f"this `WeakShared` around `{it.name}` isn't written; write a `WeakShared<{it.name}>` or a `Vec` of it")


def check_array(it: Declaration, type: Type, line: int):
    """An array that leads back is of options of boxes, in a struct that leads back by no other field and to no other type. Of an enum, a pattern that
    binds the array isn't covered."""
    others = sum(leads_back(it, field.type) for field in it.all_fields()) > 1 or len(it.family) > 1 or len(it.fields) > MOST_BY_NAME
    if it.kind == "enum" or not is_named(type.args[0], "Option") or not is_pointer(it, type.args[0]) or not 0 < int(type.length) <= MOST_ITEMS or others:
        said = f"an array that leads back to `{it.name}` is written in a struct of up to {MOST_BY_NAME} fields, of 1 to {MOST_ITEMS} options of boxes, if no other field leads back and no other type is recursive with it"
        raise Refused(it.path, line, f"{said}; write a `Vec`")


def check_slice(it: Declaration, type: Type, line: int):
    """A shared slice that leads back has elements of the type itself, or of another of its family. Others aren't proved."""
    if not is_member(it, type.args[0]):
        said = f"a `SharedSlice` that leads back to `{it.name}` is written with elements of `{it.name}`"
        raise Refused(it.path, line, f"{said}; write a `Shared` of a struct of this file with a `Vec`")


def check_tuple(it: Declaration, type: Type, line: int):
    """A tuple that leads back outside a vector is a field of a struct, and has options of boxes of the type itself, and numbers. Others aren't proved."""
    shared = any(has_shared(field.type, it.family) for field in it.all_fields())
    parts = all(arg.name == "Option" and is_pointer(it, arg) if leads_back(it, arg) else arg.own is None and arg.name in LEAVES for arg in type.args)
    others = sum(leads_back(it, field.type) for field in it.all_fields()) > 1 or len(it.family) > 1
    if it.kind == "enum" or shared or others or not parts or len(it.fields) > MOST_BY_NAME or len(type.args) != 2:
        said = f"a tuple that leads back to `{it.name}` outside a `Vec` is written in a struct, of an option of a box and a number, if no other field leads back and no other type is recursive with it"
        raise Refused(it.path, line, f"{said}; write a struct of this file")


def check_map(it: Declaration, type: Type, line: int):
    """A sorted map has values of the type itself, which shares nothing and leads back to no other type. Others aren't proved."""
    if len(it.family) > 1 or any(has_shared(field.type, it.family) for field in it.all_fields()):
        said = f"a `BTreeMap` that leads back to `{it.name}` is written if no other type is recursive with it and it shares nothing"
        raise Refused(it.path, line, f"{said}; write a `Vec` of a struct of this file")
    if not is_named(type.args[0], "String"):
        raise Refused(it.path, line, f"a `BTreeMap` that leads back to `{it.name}` is written with keys that are a `String`; write a `Vec` of a struct of this file")


def rows_in(it: Declaration, type: Type) -> List[Type]:
    """The tuples that lead back, in a vector or in a box of one."""
    vec = type.args[0] if is_named(type, "Box") else type
    return [item for item in vec.args if is_named(vec, "Vec") and is_named(item, "tuple") and leads_back(it, item)]


def check_row(it: Declaration, row: Type, line: int):
    """A tuple has plain parts, and types of the family themselves."""
    if len(row.args) > MOST_PLACES:
        raise Refused(it.path, line, f"a tuple that leads back to `{it.name}` has up to {MOST_PLACES} parts; write a struct of this file")
    if any(has_shared(field.type, it.family) for other in it.family for field in other.all_fields()):
        raise Refused(it.path, line, f"`{it.name}` leads to itself behind a shared pointer, and a tuple around it isn't written yet; write a struct of this file")
    for arg in row.args:
        if leads_back(it, arg) and not is_member(it, arg):
            raise Refused(it.path, line, f"`{arg.name}` around `{it.name}` isn't written yet in a tuple; write a struct of this file")
        if has_boxed(arg):
            raise Refused(it.path, line, f"a `BoxStr` or `BoxSlice` in a tuple that leads back to `{it.name}` isn't written yet; write a `String` or a `Vec`")
        if recursive_in(arg) and not leads_back(it, arg):
            raise Refused(it.path, line, f"`{recursive_in(arg)}` isn't written yet in a tuple that leads back to `{it.name}`; write a struct of this file")
        if not leads_back(it, arg):
            check_part(it, arg, line)


def is_named(type: Type, name: str) -> bool:
    return type.name == name and type.own is None


def is_member(it: Declaration, type: Type) -> bool:
    return any(type.own is other for other in it.family)


def is_pointer(it: Declaration, type: Type) -> bool:
    """Whether it is a box of a type of the family, or an option of one."""
    box = type.args[0] if is_named(type, "Option") else type
    return is_named(box, "Box") and is_member(it, box.args[0])


def is_shared(it: Declaration, type: Type) -> bool:
    """Whether it is a shared pointer to a type of the family, or an option of one."""
    pointer = type.args[0] if is_named(type, "Option") else type
    return is_named(pointer, "Shared") and is_member(it, pointer.args[0])


def is_map(it: Declaration, type: Type) -> bool:
    """Whether it is a sorted map of values of a type of the family."""
    return is_named(type, "BTreeMap") and is_member(it, type.args[1])


def is_nullable(it: Declaration, type: Type) -> bool:
    """Whether it is a weak pointer, or a vector of these or of options of shared pointers."""
    item = type.args[0] if is_named(type, "Vec") else type
    if item is not type and is_named(item, "Option"):
        return is_shared(it, item)
    return is_named(item, "WeakShared") and is_member(it, item.args[0])


def is_list(it: Declaration, type: Type) -> bool:
    if not is_named(type, "Vec") and not is_named(type, "BoxSlice"):
        return False
    item = type.args[0]
    return is_member(it, item) or is_pointer(it, item) or is_named(item, "tuple") and is_named(type, "Vec") or is_named(item, "Shared") and is_member(it, item.args[0])


def leads_back(it: Declaration, type: Type) -> bool:
    return any(type.own is other for other in it.family) or any(leads_back(it, x) for x in type.args)


def is_inner(it: Declaration, type: Type) -> bool:
    """Whether what is recursive in a plain part is of other families, and written with what holds it."""
    from .holders import is_part, shares

    return not shares(it) and is_part(it, type)


def recursive_in(type: Type) -> str:
    if type.own is not None and (type.own.recursive or type.own.holds_recursive):
        return type.own.name
    return next((held for held in map(recursive_in, type.args) if held), "")
