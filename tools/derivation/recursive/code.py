"""The module of a recursive type: its format, and the functions that write and read it, which call each other.

There is one for each owner of the type and each variant, since with impls of `Box` and `Vec` the impls to pass would not end. A value is resolved with
hollow parts in place of what it holds (`BoxAt`, `OptionAt`, `VecAt`), which are written before, so resolving doesn't recurse; a hollow part means a name
that names two things, so no law says anything of it. Reading terminates since what a pointer leads to ends before the pointer (`before_box`). A variant
with several recursive fields is written where the value is matched: of a call that takes them all, the toolchain sees only that the first becomes
smaller; it measures an option as its box, so these are written together. What a value means is the toolchain's fold of the type; types that contain each
other have one, in which the toolchain puts enums before structs and each in the order of their names.
"""

import re

from .. import records, variants, variant_views
from . import by_number, lent, weak
from . import arrays
from . import chains
from . import expressions
from . import places
from . import slices
from . import tuples
from . import variant_rests
from ..model import Type
from .expressions import EXPR
from .hollow import boxed_slices, hollow_source, shared_pointers
from .term_words import stem
from ..layout import pair, statement
from ..long import nest
from . import readers
from . import writers
from . import resolvers

SERIALIZED = """    ensures serialized {{ IfOk result (λ r. Serialized {D} {X} (⟦<{T} as Archive>⟧.keys {v}.now)
        (⟦<{T} as Archive>⟧.meaning {v}.now) ({flat})
        (S.state serializer.old) (S.state serializer.new)) }}
    ensures same_value {{ IfOk result (λ r. {belongs}) }}
    ensures goes_on {{ GoesOn (S.state serializer.old) (S.state serializer.new) }}
    ensures refused {{ IfErr result (IsRefused {D} {X} (⟦<{T} as Archive>⟧.keys {v}.now)
        (⟦<{T} as Archive>⟧.meaning {v}.now) (S.state serializer.old) (S.state serializer.new)) }}
"""
READ = """    requires {{ IsPartOf ⟦<{X} as ArchivePointee>⟧ part }}
    ensures read {{ IfOk result (Read ⟦<{X} as ArchivePointee>⟧ part D.Entries deserializer ⟦<{T} as Archive>⟧) }}
    ensures refused {{ IfErr result (RefusesPart ⟦<{X} as ArchivePointee>⟧ part D.Entries deserializer) }}
"""
READ_ROWS = """    requires {{ IsPartOf ⟦<{X} as ArchivePointee>⟧ part }}
    ensures read {{ IfOk result (λ t. ReadsPart ⟦<{X} as ArchivePointee>⟧ part D.Entries deserializer {meaning}
        {keys}) }}
    ensures refused {{ IfErr result (RefusesPart ⟦<{X} as ArchivePointee>⟧ part D.Entries deserializer) }}
"""


def text(it):
    bring(it)
    pieces = [types(it), pointee(it), "\n".join(row_format(it, type) for type in it.rows), "" if it.is_holder else stands_for(it), portable(it)]
    pieces += ["" if it.is_record else variant_rests.text(it), view_of(it), resolvers.resolver(it)]
    pieces += [boxed_slices(it), weak.calls(it), shared_pointers(it), lent.text(it), by_number.text(it)]
    pieces += [slices.hollow_slices(it), tuples.hollow_tuples(it, resolvers.kept, resolvers.hollow), arrays.calls(it), arrays.hollow_arrays(it, resolvers.kept, hollow_source), resolvers.archive(it)]
    if it.is_chain:
        chains.refuse_derived_drop(it.declaration)
        chains.refuse_long(it)
        chains.bring(it)
        pieces += [chains.check(it), chains.own_check(it), chains.drop(it), chains.writing(it), writers.region(it), chains.reading(it), readers.deserialize(it)]
    else:
        pieces += [writers.writing(it), writers.serialize(it), writers.region(it), places.text(it), readers.reading(it), readers.deserialize(it)]
    pieces += [accessors(it, records.views, variant_views.views), accessors(it, records.seals, variant_views.seals)]
    return "\n".join(piece for piece in pieces if piece)


def bring(it):
    f = it.formats
    f.use("archive_core::error", "Error")
    f.use("archive_core::place", "Place")
    f.use("archive_core::self_check", "BySchema")
    f.use("archive_core::shape", "Defs")
    f.use("archive_core::ser", "ResolverAlloc", "Writer", "serialize_one")
    f.use("archive_core::boxed", "ArchivedBox", "BoxResolver", "BoxSlice")
    f.use("archive_core::rc", "ArchivedRc", "RcFlavor", "RcResolver")
    f.use("archive_core::vec", "VecResolver")
    f.use("archive_core::recursive", "BoxAt", "OptionAt", "VecAt", "before_box", "before_vec", "part_of_record", "part_of_variant", "read_part")
    f.use("archive_core::recursive", "begin_reading", "begin_shared", "finish_reading", "finish_shared", "part_behind")
    f.use("archive_core::recursive", "handed_on", "serialize_inner", "serialize_inner_slice", "serialize_part", "serialize_run", "tag_of_choice")
    f.use("archive_core::traits", "PortableParts", "PortableVariants", "expr_of_choice", "expr_of_record")
    f.use("archive_core::traits", "Archive", "ArchivePointee", "ArchiveUnsized", "Choice", "Deserialize", "Entries", "Keys", "Portable", "Record", "Serialize", "SerializeUnsized")
    f.use("archive_core::view", "RawView", "Ref")
    f.use("std::alloc", "AllocError", "Global")
    f.ghost("std.specs.Prelude", "◌≡◌", "◌++◌", "◌+◌", "◌≤◌", "[]", "refl", "length", "Some", "IfOk", "IfErr", "OnOk", "⊤", "codes")
    f.ghost("std.proofs.Common", "lit≤")
    f.ghost("SelfCheck.Laws", "by_schema")
    f.ghost("Expressions", "table_of")
    f.ghost("Definitions", "Extended", "ExplainsConflict", "defines")
    f.ghost("Shape", "one", "boxed", "vec", "shared")
    f.ghost("SharedSources", "rc_flavor", "rc_flat")
    f.ghost("Options", "option_flat")
    f.ghost("Choices", "option_shape")
    f.ghost("Hollow", "option_at")
    f.ghost("Value", "case", "product", "value", "no_value")
    f.ghost("Error.TheVariants", "OutOfMemory")
    f.ghost("Seen", "IsPartOf", "RefusesPart", "ReadsPart", "part_tag")
    f.ghost("ReadBack", "Read", "ReadsAs")
    f.ghost("CallOutcomes", "ResolvesAs")
    f.ghost("Causes", "IsRefused")
    f.ghost("Plans", "Serialized")
    f.ghost("Runs", "EachBelongs", "IsRunRefused", "SerializedRun", "each_flat", "each_keys", "each_meaning")
    f.ghost("Writing", "ZeroedPlace")
    f.ghost("PlannedOwners", "one_planned")
    f.ghost("Written", "GoesOn")
    n = it.n
    names = [f"{n}_{w}" for w in ("name", "shape", "stands_for", "definitions", "layout", "is_align", "has_layout", "no_others")]
    names += [f"{n}_has_parts", f"{n}_parts"] if it.is_record else [f"{n}_has_variants", f"{n}_variants"] + [f"{case.n}_{w}" for case in it.cases for w in ("parts", "definitions")]
    names += [f"{other.n}_{w}" for other in it.family.members for w in ("shape", "definitions")]
    for type in it.family.rows:
        f.ghost("Value", "list")
        names += [f"{it.word(type)}_{w}" for w in ("shape", "parts", "definitions", "layout", "is_align", "has_layout", "no_others", "has_parts")]
        said = {f"{it.word(type)}_{w}" for w in ("meaning", "keys")}
        f.ghosts.setdefault(f"{it.declaration.crate}.specs.{it.family.name}Meaning", set()).update(said)
    names += [f"{it.word(type)}_shape" for type in it.maps]
    f.ghosts.setdefault(f"{it.declaration.crate}.specs.{it.family.name}Shape", set()).update(names)


# ---- the format ----


def types(it):
    lines = []
    for case in it.cases:
        if case.count:
            lines.append(statement(0, f"type {word(it, case)}Parts = ", nest([inside(it, type) for type in case.types], case.is_long), ";"))
    if not it.is_record:
        lines.append(statement(0, f"type {it.name}Variants = ", it.units.nest(), ";"))
    return f"""/// An archived `{it.name}`: {it.size} bytes at a multiple of {it.align}. It {'validates itself' if it.is_chain else 'is validated by its schema'}.
pub struct {it.archived};

{chr(10).join(lines)}"""


def row_format(it, type):
    """A tuple that leads back, as all but its views know it: with the type of the library, each view of it would bring all that is known of its parts."""
    row, w, R = it.row(type), it.word(type), it.row_name(type)
    size, align = it.formats.layout(type)
    its = pair([inside(it, arg) for arg in row.types])
    return f"""/// `{row.whole}` by a name, for the functions below.
pub struct {R};

{statement(0, f"type {R}Parts = ", its, ";")}
impl ArchivePointee for {R} {{
    type ArchivedMetadata = ();

    ghost pointee = {{ one {w}_shape }};

    ghost definitions = {{ {w}_definitions }};

    ghost metadata_length = {{ λ _. 0 }};

    fn pointer_metadata(_metadata: &()) -> usize {{
        0
    }}
}}

impl Portable for {R} {{
    ghost shape = {{ {w}_shape }};

    ghost layout = {{ {w}_layout }};

    type Check = BySchema;

    ghost is_one = {{ refl }};

    ghost is_align = {{ {w}_is_align }};

    ghost has_layout = {{ {w}_has_layout }};

    ghost no_others = {{ {w}_no_others }};

    ghost checks = {{ λ direct. by_schema direct }};

    fn size() -> usize {{
        {size}
    }}

    fn align() -> usize {{
        {align}
    }}

    fn expr(alloc: Global) -> Result<{EXPR}, Error> {{
        expr_of_record::<{R}Parts>(alloc)
    }}

    fn define(alloc: Global, defs: &mut Defs) -> Result<(), Error> {{
        <{R}Parts as PortableParts>::define(alloc, defs)
    }}
}}

impl Record for {R} {{
    type Parts = {R}Parts;

    ghost has_parts = {{ {w}_has_parts }};

    ghost holds = {{ lit≤ tt }};
}}
"""


def inside(it, type):
    """The archived type of a part, as all but its views know it."""
    if it.terms.is_row(type):
        return it.row_name(type)
    if type.name == "Vec" and it.terms.is_row(type.args[0]):
        return f"ArchivedVec<{inside(it, type.args[0])}>"
    if type.name == "Box" and it.terms.leads_back(type):
        return f"ArchivedBox<{inside(it, type.args[0])}>"
    return it.formats.archived(type)


def word(it, case):
    return it.name if it.is_record else f"{it.name}{case.name}"


def pointee(it):
    return f"""impl ArchivePointee for {it.archived} {{
    type ArchivedMetadata = ();

    ghost pointee = {{ one {it.n}_shape }};

    ghost definitions = {{ {it.n}_definitions }};

    ghost metadata_length = {{ λ _. 0 }};

    fn pointer_metadata(_metadata: &()) -> usize {{
        0
    }}
}}
"""


def stands_for(it):
    """What the name stands for, as an expression, and what adds its definition."""
    out = expressions.text(it)
    if it.is_simple:
        return "\n".join(out)
    out += [defining_inner(it, own) for own in it.inner if it is it.family.members[-1]]
    return "\n".join(out + [defining(it)] + ([defining_all(it.family)] if it is it.family.members[-1] else []))


def defining(it):
    """What adds the definition of one name of a family."""
    definition = f"(defines {it.n}_name {it.n}_stands_for)"
    return f"""// Adds what the name stands for.
{added(f"define_{it.n}", definition)}{{
    {expressions.defining(it)}
}}
"""


def defining_all(family):
    calls = [f"    define_{it.n}(alloc, defs)" for it in family.members] + [f"    define_{stem(own.name)}_within_{family.n}(alloc, defs)" for own in family.first.inner]
    return f"""// Adds what the names stand for.
{added(f"define_{family.n}_family", f"{family.n}_definitions")}{{
{"?;".join(f"{call_}{chr(10)}" if i == len(calls) - 1 else call_ for i, call_ in enumerate(calls)).replace("?;    ", f"?;{chr(10)}    ")}}}
"""


def defining_inner(it, own):
    """What adds what a type of another family defines."""
    n, archived = stem(own.name), it.formats.archived(Type(own.name, own=own))
    return f"""// Adds what `{own.archived}` brings.
{added(f"define_{n}_within_{it.family.n}", f"⟦<{archived} as ArchivePointee>⟧.definitions")}{{
    <{archived} as Portable>::define(alloc, defs)
}}
"""


def added(name, definitions):
    return f"""fn {name}(alloc: Global, defs: &mut Defs) -> Result<(), Error>
    ensures added {{ OnOk result (Extended (table_of defs.old) {definitions} (table_of defs.new)) }}
    ensures refused {{ IfErr result (ExplainsConflict (table_of defs.old) {definitions}) }}
"""


def portable(it):
    n, allocs, named = it.n, "_alloc", f'Ok({EXPR}::Named("{it.archived}"))'
    if it.is_holder:
        allocs, parts = "alloc", f"{it.name}{'Parts' if it.is_record else 'Variants'}"
        named = f"expr_of_record::<{parts}>(alloc)" if it.is_record else f'expr_of_choice::<{parts}>(alloc, "{it.archived}")'
        define = f"\n        <{parts} as Portable{'Parts' if it.is_record else 'Variants'}>::define(alloc, defs)\n"
    elif it.is_simple:
        define = f"\n        {expressions.defining(it)}\n"
    else:
        define = f"\n        define_{it.family.n}_family(alloc, defs)\n"
    check, checks = ("Self", f"λ _. {n}_checked") if it.is_chain else ("BySchema", "λ direct. by_schema direct")
    return f"""impl Portable for {it.archived} {{
    ghost shape = {{ {n}_shape }};

    ghost layout = {{ {n}_layout }};

    type Check = {check};

    ghost is_one = {{ refl }};

    ghost is_align = {{ {n}_is_align }};

    ghost has_layout = {{ {n}_has_layout }};

    ghost no_others = {{ {n}_no_others }};

    ghost checks = {{ {checks} }};

    fn size() -> usize {{
        {it.size}
    }}

    fn align() -> usize {{
        {it.align}
    }}

    fn expr({allocs}: Global) -> Result<{EXPR}, Error> {{
        {named}
    }}

    fn define(alloc: Global, defs: &mut Defs) -> Result<(), Error> {{{define}    }}
}}
"""


def view_of(it):
    """Its parts or variants."""
    n = it.n
    if it.is_record:
        return f"""impl Record for {it.archived} {{
    type Parts = {it.name}Parts;

    ghost has_parts = {{ {n}_has_parts }};

    ghost holds = {{ lit≤ tt }};
}}
"""
    return f"""impl Choice for {it.archived} {{
    type Variants = {it.name}Variants;

    ghost name = {{ {n}_name }};

    ghost has_variants = {{ {n}_has_variants }};

    ghost holds = {{ lit≤ tt }};
}}
"""


# ---- the value ----


# ---- writing ----


# ---- reading back ----


ALWAYS = "#[inline(always)]\n"
NEVER = "#[inline(never)]\n"


# ---- views and seals ----

CALLS = {
    "part_in_case": "view_of_payload",
    "part_in_record": "view_of_field",
    "sealed_part_in_case": "seal_of_payload",
    "sealed_part_in_record": "seal_of_field",
    "tag_in(self)": "tag_of_view(self)",
}


def accessors(it, of_record, of_choice):
    """The accessors of other types, by the calls that know of names."""
    f = it.formats
    f.use("archive_core::recursive", "seal_of_field", "seal_of_payload", "tag_of_view", "view_of_field", "view_of_payload")
    whole = records.Record(f, it.declaration) if it.is_record else variants.Choice(f, it.declaration)
    text_ = of_record(whole) if it.is_record else of_choice(whole)
    for name, other in CALLS.items():
        text_ = re.sub(rf"(?<!\w){re.escape(name)}", other, text_)
    return re.sub(r"\b(IsSealOf|SealsPart) no_definition", rf"\1 {it.n}_definitions", text_)
