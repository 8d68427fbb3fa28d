"""What is refused of declarations that were read."""

from typing import Callable, Dict, List, Optional, Sequence

from . import arrays, evidence
from .arrays import has_parameter
from .formats import POINTERS, snake, substituted
from .loads import MOST as MOST_LOAD
from .loads import MOST_OF_VARIANTS, Loads
from .long import MOST_BY_NUMBER, is_long
from .model import Declaration, Field, Module, Refused, Type
from .recursive import variant_rests
from .recursive.refusals import MOST_BY_NAME, MOST_RECURSIVE_VARIANTS
from . import read

# What a variant comes to at most, in lines of evidence, of an enum that is recursive or holds a recursive type: as much is proved of all variants of one nest.
MOST_EVIDENCE = 860_000

# How far a type is seen, by the words before it; `pub(super)` and `pub(in ..)` are in between.
SEEN = {"": 0, "pub(self)": 0, "pub(crate)": 2, "pub": 3}


def is_same(one: Type, other: Type) -> bool:
    """Whether two types that were looked up are the same."""
    if (one.name, one.length, one.own is None) != (other.name, other.length, other.own is None) or one.own is not other.own:
        return False
    return len(one.args) == len(other.args) and all(map(is_same, one.args, other.args))


def shown(it: Type) -> Type:
    """The type with its text."""
    inner = ", ".join(x.text for x in it.args)
    if it.name == "tuple":
        it.text = f"({inner},)" if len(it.args) == 1 else f"({inner})"
    elif it.name == "array":
        it.text = f"[{inner}; {it.length}]"
    elif it.name == "()":
        it.text = "()"
    else:
        words = "::".join(it.path) or it.name
        inner += f", {it.length}" if it.name == "OwnedArray" else ""
        it.text = f"{words}<{inner}>" if inner else words
    return it


def check_shape(it: Declaration):
    if it.kind == "enum":
        if not it.variants:
            raise Refused(it.path, it.line, f"`{it.name}` has no variant, so no value; give it one")
        if len(it.variants) > read.MOST_VARIANTS:
            line = it.variants[read.MOST_VARIANTS].line
            raise Refused(it.path, line, f"`{it.name}` has {len(it.variants)} variants, and a tag of one byte counts {read.MOST_VARIANTS}; put some into an enum of their own")
        if len(it.variants) > read.MOST_BESIDE_FIELDS and any(v.fields for v in it.variants):
            line = it.variants[read.MOST_BESIDE_FIELDS].line
            said = f"`{it.name}` has {len(it.variants)} variants, and {read.MOST_BESIDE_FIELDS} are the most where one has fields; put some into an enum of their own"
            raise Refused(it.path, line, said)
        check_names(it, it.variants, "variant")
        if len(it.variants) == 1 and is_long(it.variants[0].fields):
            raise Refused(it.path, it.line, f"`{it.name}` has one variant, of more than {MOST_BY_NUMBER} fields; write a struct")
    for of, fields in [(it.name, it.fields)] + [(f"{it.name}::{v.name}", v.fields) for v in it.variants]:
        check_names(it, fields, "field")
        for x in fields:
            if x.name == "now" and it.kind == "struct":
                raise Refused(it.path, x.line, "`now` has a meaning in contracts; choose another name for the field")
        most = read.MOST_FIELDS if it.kind == "struct" else read.MOST_OF_VARIANT
        if len(fields) > most:
            raise Refused(it.path, fields[most].line, f"`{of}` has {len(fields)} fields, and {most} are the most; put some into a struct of their own")
    for p in it.parameters:
        if not any(names_parameter(field.type, p.name) for field in it.all_fields()):
            raise Refused(it.path, it.line, f"`{it.name}` has no field of its parameter `{p.name}`; remove it")
    for name in [it.name] + [p.name for p in it.parameters]:
        check_name(it, name, it.line)
        if name in read.PARAMETERS:
            raise Refused(it.path, it.line, f"the written part has a type parameter `{name}`; choose another name")


def names_parameter(it: Type, name: str) -> bool:
    """Whether a type, as it is written, names a parameter."""
    return it.path == (name,) or any(names_parameter(x, name) for x in it.args)


def check_names(it: Declaration, those: Sequence, what: str):
    seen: Dict[str, str] = {}
    for x in those:
        check_name(it, x.name, x.line)
        if x.name.lower() in seen:
            other = seen[x.name.lower()]
            same = "are two" if other == x.name else f"and `{other}` differ only in case"
            raise Refused(it.path, x.line, f"the {what}s `{x.name}` {same}; give one of them another name")
        seen[x.name.lower()] = x.name


def check_name(it: Declaration, name: str, line: int):
    if not name.isascii():
        raise Refused(it.path, line, f"`{name}` isn't written in ASCII; choose another name")
    if name in read.TAKEN:
        raise Refused(it.path, line, f"the toolchain has a meaning for `{name}`; choose another name")
    if name.startswith("__"):
        raise Refused(it.path, line, f"`{name}` begins with two underscores; choose another name")


def accessor(it: Field) -> str:
    """The call of a view that shows the field: its name, or `field_0` for `0` and `pos_field` for `pos`."""
    if it.name.isdigit():
        return f"field_{it.name}"
    return f"{it.name}_field" if it.name in read.CALLS else it.name


def check_accessors(it: Declaration):
    calls = [(x, call) for x in it.fields for call in (x.accessor, f"{x.accessor}_mut")]
    calls += [(x, f"{snake(v.name)}_{x.name}_mut") for v in it.variants for x in v.fields]
    seen = {}
    for x, call in calls:
        if call.lower() in seen:
            raise Refused(it.path, x.line, f"`{x.name}` and `{seen[call.lower()]}` are both shown by `{call}`; give one of them another name")
        seen[call.lower()] = x.name


def check_loads(module: Module):
    """Refuses what is too much for the toolchain at once."""
    loads = Loads()
    for it in module.declarations:
        if it.as_tuple and len(it.fields) > read.MOST_FEW:
            said = f"`{it.name}` has {len(it.fields)} fields, and {read.MOST_FEW} are the most of a struct that holds a recursive type; put those without it into a struct of their own"
            raise Refused(module.path, it.fields[read.MOST_FEW].line, said)
        if it.part_by_part:
            check_variants(module, loads, it)
            for fields in [it.fields] + [v.fields for v in it.variants]:
                if len(fields) > MOST_BY_NAME:
                    check_load(module, fields, loads.of_lent)
        if it.as_tuple or it.part_by_part:
            continue
        check_load(module, it.fields, lambda types: loads.least_of_fields(types, True))
        for v in it.variants:
            check_long(module, v.fields)
            check_load(module, v.fields, loads.least_of_fields)
        check_variants(module, loads, it)


def check_load(module: Module, fields: List[Field], load: Callable[[List[Type]], int]):
    """Refuses the first field with which there is too much in a struct or in a variant."""
    types = [field.type for field in fields]
    if load(types) <= MOST_LOAD:
        return
    for count, field in enumerate(fields, 1):
        if load(types[:count]) > MOST_LOAD:
            is_alone = count == 1 or load([field.type]) > MOST_LOAD
            what = "; put a part of it" if is_alone else " beside the fields before it; put some of them"
            raise Refused(module.path, field.type.line, f"`{field.type.text}` is too deep for the toolchain{what} into a struct")


def check_long(module: Module, fields: List[Field]):
    """Refuses what isn't proved among many fields of a variant."""
    for field in fields if is_long(fields) else []:
        if found_in(field.type, lambda x: x.name in read.NOT_IN_FOURS and x.own is None or x.own is not None and x.own.as_tuple):
            said = f"`{field.type.text}` is too much for the toolchain beside so many fields; put it into a struct of its own"
            raise Refused(module.path, field.type.line, said)
        if field.type.own is None and field.type.name == "isize":
            raise Refused(module.path, field.type.line, "an `isize` beside so many fields of a variant isn't proved; write an `i32` or an `i64`")


def check_with_fields(module: Module, it: Declaration):
    """Refuses the first variant with fields that is one too many."""
    with_fields = [v for v in it.variants if v.fields]
    if it.part_by_part or len(with_fields) <= read.MOST_WITH_FIELDS:
        return
    said = f"`{it.name}` has {len(with_fields)} variants with fields, and {read.MOST_WITH_FIELDS} are the most; put some into an enum of another file"
    raise Refused(module.path, with_fields[read.MOST_WITH_FIELDS].line, said)


def check_variants(module: Module, loads: Loads, it: Declaration):
    """Refuses the first variant with which there is too much. Variants go in blocks, each of which may be one variant."""
    check_with_fields(module, it)
    if not it.part_by_part:
        return
    if len(it.variants) > MOST_RECURSIVE_VARIANTS:
        said = f"`{it.name}` has {len(it.variants)} variants, and {MOST_RECURSIVE_VARIANTS} are the most of an enum that is recursive or holds a recursive type"
        raise Refused(module.path, it.variants[MOST_RECURSIVE_VARIANTS].line, f"{said}; put some into an enum of another file")
    for v, types in zip(it.variants, variant_rests.types_in_turn(it)):
        if loads.of_variants([types]) > MOST_OF_VARIANTS or evidence.variants([types]) > MOST_EVIDENCE:
            said = f"`{it.name}::{v.name}` has more in its fields than the toolchain follows where a type is recursive"
            raise Refused(module.path, v.line, f"{said}; put some into a struct of another file")


def check_wide(module: Module):
    """Refuses a number of eight bytes in a struct with type parameters beside others. Of its view, a tuple of all its fields, as of `(A, (B, (ArchivedU64, ())))`,
    "the borrow checker does not cover this function yet: .. a generic type that is used at too many types, or at types that keep growing"."""
    for it in module.declarations:
        wide = [field for field in it.fields if found_in(field.type, lambda x: x.own is None and x.name in read.WIDE)]
        if not it.parameters or not wide or len(it.fields) == 1:
            continue
        others = {field.type.name for field in it.fields if field is not wide[0] and not (field.type.own is None and field.type.name in read.NARROW)}
        if wide[0].type.name in read.WIDE and len(wide) == 1 and len(others) < 2 and all(any(name == p.name for p in it.parameters) for name in others):
            continue
        like = f"pub type {it.name}Of.. = {it.name}<{', '.join('..' for _ in it.parameters)}>;"
        said = f"`{wide[0].type.text}` beside these fields of a struct with type parameters isn't proved; name the types that it is used with, each by an alias in this file, as `{like}`"
        raise Refused(module.path, wide[0].type.line, said)


def found_in(it: Type, is_it) -> Optional[Type]:
    """The first type of these in a type, other than in a type that the user declared."""
    if it.parameter or it.own is None and it.name == "PhantomData":
        return None
    if is_it(it):
        return it
    return next((found for x in it.args if (found := found_in(x, is_it))), None)


def check_nests(module: Module):
    """Refuses tuples in tuples. A struct with parameters is a tuple, too, and so is an entry of a map: what a call passes of a nest of them grows beyond what
    the toolchain takes."""
    for it in module.declarations:
        for field in it.all_fields():
            inner = nested(field.type, it.as_tuple)
            if inner:
                what = "a tuple" if inner.name == "tuple" else "a map" if is_map(inner) else f"`{inner.text or inner.name}`"
                where = "a struct with type parameters" if it.parameters else "a struct that holds a recursive type" if it.holds_recursive else "a tuple or a map" if inner.own is None else "a tuple or a struct with type parameters"
                raise Refused(module.path, field.type.line, f"{what} in {where} is too deep for the toolchain; write a struct without parameters in place of the inner one")


# Pointers to a slice or a text, and what may be written in place of each.
TO_SLICES = {"BoxSlice": "Vec<{}>", "BoxStr": "String", "SharedSlice": "Shared<Vec<{}>>", "SharedStr": "Shared<String>"}


def to_slice_in(type: Type, is_held: bool) -> Optional[Type]:
    """The first pointer to a slice or a text in a type, but where it stands alone or behind other pointers to one value. `is_held` says whether another type holds
    this one: a view of that one asks that it be `Portable`."""
    if is_held and type.own is None and type.name in TO_SLICES:
        return type
    types = type.args
    if type.own is not None:
        by = {p.name: x for p, x in zip(type.own.parameters, type.args)}
        types = [substituted(field.type, by) for field in type.own.fields] if type.own.as_tuple else []
    is_held = is_held or type.own is not None or type.name not in ("Box", "Shared", "WeakShared")
    return next((found for x in types if type.name != "PhantomData" and (found := to_slice_in(x, is_held))), None)


def check_slices(module: Module):
    """Refuses a pointer to a slice or a text in another type. What is `Portable` may be pointed to by one impl, and slices and texts by another: of a view whose type has
    both to choose from, "the borrow checker does not cover this function yet"."""
    for it in module.declarations:
        for field in it.all_fields():
            found = to_slice_in(field.type, it.as_tuple)
            if found:
                other = TO_SLICES[found.name].format(*(x.text for x in found.args))
                raise Refused(module.path, field.type.line, f"`{found.text}` in another type isn't covered by the toolchain's borrow checker; write `{other}`, or put it into a struct")


# So many fields of a struct or of a variant have an array behind a pointer: of five the search didn't prove `resolve`.
MOST_WITH_ARRAYS = 3


def pointer_to_array(type: Type) -> Optional[Type]:
    """The pointer in a type behind which an array is."""
    return found_in(type, lambda x: x.own is None and x.name in POINTERS and array_in(x))


def array_in(type: Type) -> Optional[Type]:
    """The first array in a type, other than in a type that the user declared."""
    return found_in(type, lambda x: x.own is None and x.name in ("array", "OwnedArray"))


def check_arrays(module: Module):
    """Refuses arrays that aren't made of what is read back, too many behind pointers, and those in structs that are archived as tuples where they aren't proved."""
    for it in module.declarations:
        for fields in [it.fields] + [v.fields for v in it.variants]:
            held = [field for field in fields if pointer_to_array(field.type)]
            if len(held) > MOST_WITH_ARRAYS:
                said = f"{len(held)} fields have an array behind a pointer, and {MOST_WITH_ARRAYS} are the most; put some into a struct of their own"
                raise Refused(module.path, held[MOST_WITH_ARRAYS].line, said)
        for field in it.all_fields():
            if it.as_tuple and not it.parameters:
                check_array_beside_recursive(module, field)
            why = arrays.unmade(field.type)
            if why:
                raise Refused(module.path, field.type.line, why)
        if it.parameters:
            check_arrays_beside_parameters(module, it)


def check_array_beside_recursive(module: Module, field: Field):
    """Refuses an array in a struct that holds a recursive type and is archived as a tuple."""
    pointer, array = pointer_to_array(field.type), array_in(field.type)
    if pointer:
        said = f"an array behind a pointer in a type with a recursive type isn't proved; put `{array_in(pointer).text}` into a struct of its own"
        raise Refused(module.path, field.type.line, said)
    if array:
        raise Refused(module.path, field.type.line, f"an array in a struct that holds a recursive type isn't proved; write a `Vec` in place of `{array.text}`")


# What the call that serializes a struct with type parameters passes at most, where a field is an array: beyond that its check "ran out of the steps that the
# check of one declaration may take". As much is proved, of `A` beside a `[u32; 3]` and a `[u8; 4]`.
MOST_WITH_PARAMETERS = 2_520


def check_arrays_beside_parameters(module: Module, it: Declaration):
    """Refuses the first field of a struct with type parameters that has an array in it and isn't one of numbers, or with which there is too much beside arrays."""
    if not any(array_in(field.type) for field in it.fields):
        return
    loads = Loads()
    for count, field in enumerate(it.fields, 1):
        is_much = loads.of_pairs([x.type for x in it.fields[:count]]) > MOST_WITH_PARAMETERS
        if is_much or array_in(field.type) and not (arrays.is_array(field.type) and arrays.is_read(field.type.args[0])):
            like = f"pub type {it.name}Of.. = {it.name}<{', '.join('..' for _ in it.parameters)}>;"
            said = f"`{field.type.text}` beside the other fields of a struct with type parameters and an array isn't proved"
            raise Refused(module.path, field.type.line, f"{said}; name the types that it is used with, each by an alias in this file, as `{like}`")


def check_seen(module: Module):
    """Refuses a private type in a struct that is archived as a tuple with names and is seen farther: what it is written and read as names the type, too."""
    for it in module.declarations:
        for field in it.fields if it.as_tuple else []:
            hidden = found_in(field.type, lambda x: x.own is not None and seen(x.own) < seen(it))
            if hidden:
                said = f"`{it.name}` is seen farther than `{hidden.own.declared_name}`, which it is archived with; declare `{hidden.own.declared_name}` as `{it.visibility}`, too"
                raise Refused(module.path, field.type.line, said)


def seen(it: Declaration) -> int:
    """How far a type is seen."""
    return SEEN.get(it.visibility.replace(" ", ""), 1)


def check_marks(module: Module):
    """Refuses a parameter in a `PhantomData`: beside a field that holds it, it would be two types in the archived one, and alone it isn't proved."""
    for it in module.declarations:
        for field in it.all_fields() if it.parameters else []:
            if any(names_parameter(mark, p.name) for mark in found_marks(field.type) for p in it.parameters):
                raise Refused(module.path, field.type.line, f"a type parameter in a `PhantomData` isn't proved; write one struct for each type, without this `{field.type.text}`")


def found_marks(it: Type) -> List[Type]:
    """The `PhantomData` in a type."""
    if it.name == "PhantomData" and it.own is None:
        return [it]
    return [found for x in it.args for found in found_marks(x)]


def is_map(it: Type) -> bool:
    return it.name == "BTreeMap" and it.own is None


def nested(it: Type, inside: bool) -> Optional[Type]:
    """The first tuple, map, or struct with parameters, that is in another one."""
    if it.parameter or it.own is None and it.name == "PhantomData":
        return None
    is_tuple = it.name == "tuple" and it.own is None or is_map(it) or it.own is not None and it.own.as_tuple
    if is_tuple and inside:
        return it
    held = it.args
    if it.own is not None:
        by = {p.name: x for p, x in zip(it.own.parameters, it.args)}
        held = [substituted(field.type, by) for field in it.own.all_fields()] if by else []
    return next((found for x in held if (found := nested(x, inside or is_tuple))), None)


def check_own_names(module: Module):
    """Two types under one name can't be told apart in one file."""
    seen: Dict[str, Declaration] = {it.name: it for it in module.declarations}

    def pass_type(it: Type, line: int):
        if it.own is not None:
            other = seen.setdefault(it.own.name, it.own)
            if other is not it.own:
                raise Refused(module.path, line, f"`{it.own.name}` is also the type of {other.path}:{other.line}; give one of them another name")
        for x in it.args:
            pass_type(x, line)

    for it in module.declarations:
        for field in it.all_fields():
            pass_type(field.type, field.line)
