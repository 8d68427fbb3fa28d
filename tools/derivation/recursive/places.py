"""Which variant of an enum a value is, and where the fields of a variant lie that leads back: functions of the module find it, which are passed the impl of the enum.

The functions that read such variants call each other and are checked together. With that impl, which is made of all variants, in each of their calls the check ran
out of steps.
"""

from ..layout import Generic, statement
from . import by_number, code


def goes(it, case):
    """Whether the fields are found so."""
    return by_number.goes(it) and any(case.leads_back)


def name(case, i):
    return f"part_{i}_of_{case.n}"


def tag(it):
    """The call for the tag of a value."""
    return f"tag_of_{it.n}(part)" if by_number.goes(it) else f"tag_of_choice::<{it.archived}>(part)"


def text(it):
    """The functions of an enum."""
    places = [place(it, case, i) for case in it.cases if goes(it, case) for i in range(case.count)]
    return "\n".join([tagged(it), *places]) if by_number.goes(it) else ""


def tagged(it):
    it.formats.ghost("std.specs.Prelude", "◌<◌")
    it.formats.ghost("Seen", "IsPartOf", "part_tag")
    return f"""// The tag of a value, which names its variant.
#[inline(always)]
fn tag_of_{it.n}(part: RawView<'_>) -> u8
    requires {{ IsPartOf ⟦<{it.archived} as ArchivePointee>⟧ part }}
    ensures tag {{ result ≡ part_tag part.entry }}
    ensures below {{ result < {len(it.cases)} }}
{{
    tag_of_choice::<{it.archived}>(part)
}}
"""


def place(it, case, i):
    inside, offset = code.inside(it, case.types[i]), case.offsets[i]
    it.formats.use("archive_core::recursive", "part_of_variant")
    found = Generic("part_of_variant", [it.archived, inside], ["part", str(case.tag), str(i), str(offset)])
    return f"""// The part of a value that is `{case.name}` with the index {i}.
#[inline(always)]
fn {name(case, i)}<'a>(part: RawView<'a>) -> RawView<'a>
    requires viewed {{ IsPartOf ⟦<{it.archived} as ArchivePointee>⟧ part }}
    requires tag {{ part_tag part ≡ {case.tag} }}
    ensures buffer {{ result.bytes.now ≡ part.entry.bytes.now }}
    ensures position {{ result.pos ≡ part.entry.pos + {offset} }}
    ensures length {{ result.len ≡ 0 }}
    ensures viewed {{ IsPartOf ⟦<{inside} as ArchivePointee>⟧ result }}
{{
{statement(4, "", found, "")}}}
"""
