"""Which functions that write and read a value back are calls, so that a level of a value takes one frame of the machine's stack: in each there is room for a result, of which an
error takes 72 bytes. Where a part is read in line, its room is given to the next part."""

from . import code
from .reads import skips_none

# What reads these is short.
IN_LINE = ("Box", "BoxSlice", "BTreeMap", "Option", "Vec", "array", "tuple")


def of_owner(it, type):
    """How the function of an owner is compiled: in line, unless it is reached from what it owns by functions in line alone."""
    if not it.family.shares and type.name in IN_LINE and not reaches(it, type.args, lambda part: it.word(part) == it.word(type), is_called):
        return code.ALWAYS
    return code.NEVER if skips_none(it, type) else ""


def of_value(it):
    """The same of a value: a struct that isn't an element of a vector is read by a call."""
    return code.ALWAYS if is_element(it) or not (it.is_record or it.is_holder or it.family.shares) else ""


def of_case(it, case):
    """The same of a variant that leads back."""
    return code.NEVER if is_called(it, case) else ""


def is_called(it, case):
    """Whether a variant is read by a call: one that leads back to its own type by no struct that is."""
    return not (it.is_record or it.family.shares) and reaches(it, case.types, lambda part: part.own is it.declaration)


def is_element(it):
    """Whether vectors of it are read back with no call where they have no elements."""
    owners = [(other, type) for other in it.family.members for type in other.owners]
    return any(skips_none(other, type) and type.args[0].own is it.declaration for other, type in owners)


def reaches(it, types, is_sought, ends=lambda it, case: False):
    """Whether a type is among these and those behind them that are read in line: behind enums, except for variants at which this `ends`, and behind structs that are
    elements."""
    seen = []

    def leads(part):
        if not it.terms.leads_back(part):
            return False
        if is_sought(part):
            return True
        if not it.terms.is_member(part):
            return any(map(leads, part.args))
        member = it.family.member(part.own)
        if member in seen or member.is_record and not is_element(member):
            return False
        seen.append(member)
        return any(leads(inner) for case in member.cases if not ends(member, case) for inner in case.types)

    return any(map(leads, types))


# ---- writing ----


def some(it, item):
    """The function that writes what the elements of a vector own, for the vector."""
    return f"serialize_some_{it.word(item)}" if it.is_tree else f"serialize_each_{it.word(item)}"


def some_writing(it, item, run):
    if not it.is_tree:
        return ""
    its = it.formats.rust(item)
    return f"""// The same by a call, in a level of a tree: the room for its result is taken only while it lasts.
#[cycle(serialize_{it.family.n})]
#[inline(always)]
fn {some(it, item)}<{it.writer}>(values: &[{its}], serializer: &mut S) -> Result<Vec<<{its} as Archive>::Resolver, S::Alloc>, Error>
    ensures serialized {{ IfOk result (λ rs. SerializedRun {run}
        (each_flat ⟦<{its} as Archive>⟧.flat values.now rs.items) (S.state serializer.old)
        (S.state serializer.new)) }}
    ensures same_values {{ IfOk result (λ rs. EachBelongs ⟦<{its} as Archive>⟧.belongs values.now rs.items) }}
    ensures goes_on {{ GoesOn (S.state serializer.old) (S.state serializer.new) }}
    ensures refused {{ IfErr result (IsRunRefused {run}
        (S.state serializer.old) (S.state serializer.new)) }}
{{
    serialize_each_{it.word(item)}(values, serializer)
}}

"""
