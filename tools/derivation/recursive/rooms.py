"""Functions that write a value go by calls in which the room for a result, an error's 72 bytes, is taken only while a call of them lasts: so a level of a value takes
less of the machine's stack. They stand in their callers, and each has its call alone. Those that write regions are archive_core's `serialize_inner` and `serialize_run`."""

from . import code


def is_split(it):
    """Whether a vector's region is written by `serialize_run`: where a variant has a vector, or one's elements are more than values of the family. Beside what else a level
    has room for then, this saves some; where it has none, it would take 5 instructions a node."""
    parts = [(other, type) for other in it.family.members for case in other.cases for type in case.types]
    vectors = [(other, type) for other, type in parts if type.name == "Vec" and it.terms.leads_back(type)]
    return any(not other.is_record or not it.terms.is_member(type.args[0]) for other, type in vectors)


def run_of(it):
    return "serialize_run" if is_split(it) else "serialize_inner_slice"


def by_call(it, case):
    """Which part of a struct hands its error on by a call."""
    return None if it.is_holder or it.is_tree or any(map(it.terms.is_row, case.types)) else case.leads_back.index(True)


def level(it):
    """The function that writes what a value owns: one of a type that leads back writes a level."""
    return f"serialize_{it.n}" if it.is_holder or it.is_tree else f"serialize_whole_{it.n}"


def level_call(it, cycle, says):
    """The function that calls it where a value is written. It stands in its callers, and has the room for the result there only while the call lasts."""
    if it.is_holder or it.is_tree:
        return ""
    return f"""
// The same by a call, whose result has its room only while it lasts.
{cycle}{code.ALWAYS}fn serialize_{it.n}<{it.writer}>(value: &{it.name}, serializer: &mut S) -> Result<{it.resolver}, Error>
{says}{{
    {level(it)}(value, serializer)
}}
"""


def is_reserved(it, item):
    """Whether the resolver of an element is known to have its place: where the loop has one arm."""
    return it.terms.is_row(item) or it.terms.is_member(item) or item.name == "Box"
