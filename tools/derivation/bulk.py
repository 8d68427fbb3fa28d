"""Structs whose slices are written in bulk: each value has the same bytes wherever it is archived, with no padding among them.

`archive_core::fields::copy_4` and its kin copy the fields one behind another; two short proofs are written beside the module.
"""

from .common import chain, infix
from .layout import call, statement
from .made import WRITTEN

# The library copies values of up to so many bytes, and of 1 to so many fields.
MOST_BYTES = 1024
MOST_FIELDS = 16
# How such a value is resolved: its bytes are the same everywhere.
RESOLVED = """        let Place { bytes, .. } = place;
        self.copy_one(bytes);
        Ok(())
"""
COPIED = {"bool", "char", "()", "NonZero", "PhantomData", "integer"}


def is_copied(formats, type):
    """Whether slices of the type are written in bulk."""
    kind = formats.kind(type)
    return is_in_bulk(formats, type.own) if kind == "own" else kind in COPIED


def is_in_bulk(formats, declaration):
    """Whether those of a declared type are."""
    if declaration.kind != "struct" or declaration.as_tuple or declaration.part_by_part:
        return False
    types = [field.type for field in declaration.fields]
    if not 0 < len(types) <= MOST_FIELDS or not all(is_copied(formats, type) for type in types):
        return False
    size = formats.layout_of_declaration(declaration)[0]
    return size <= MOST_BYTES and size == sum(formats.layout(type)[0] for type in types)


def bytes_of(record):
    """The bytes of a value `v`."""
    copied = [f"⟦<{rust} as Copied>⟧" for rust in record.rust]
    return infix("++", [f"{q}.copied_bytes {v}" for q, v in zip(copied, record.values)], "[]")


def told(record):
    """Two texts of its impl of `Archive`, as those of `common.in_turn`."""
    f = record.formats
    f.use("archive_core::error", "Error")
    f.use("archive_core::ser", "Writer")
    f.use("archive_core::slice", "copy_groups")
    f.use("archive_core::traits", "Copied", "CopiedSource", "CopyOptimization", "Keys")
    f.ghost("std.specs.Prelude", "Some")
    return (
        f"    ghost in_bulk = {{ Some (λ v. {bytes_of(record)}) }};\n",
        """    #[inline(always)]
    fn copy_optimization() -> CopyOptimization<Self> {
        CopyOptimization::enable()
    }

    #[inline(always)]
    fn serialize_copied<S: Writer + Keys>(
        values: &[Self],
        together: usize,
        serializer: &mut S,
    ) -> Result<Option<usize>, Error> {
        copy_groups(values, together, serializer)
    }
""",
    )


def impls(record):
    """What is copied, and that it is what `Archive` says."""
    record.formats.use("archive_core::fields", f"copy_{record.count}")
    sources = [record.formats.source(type) for type in record.types]
    meanings = chain("value", [f"({q}.meaning {v})" for q, v in zip(sources, record.values)], "no_value")
    fields = [f"&self.{field.name}" for field in record.fields]
    return f"""/// Slices of it are written in bulk.
impl Copied for {record.name} {{
    type CopiedAs = {record.archived};

    ghost copied_keys = {{ λ _. [] }};

    ghost copied_meaning = {{ λ v. product {meanings} }};

    ghost copied_bytes = {{ λ v. {bytes_of(record)} }};

    #[inline(always)]
    fn copied_size() -> usize {{
        {record.size}
    }}

    #[inline(always)]
    fn copy_one(&self, bytes: &mut [u8]) {{
{statement(8, "", call(f"copy_{record.count}", fields + ["bytes"]), ";")}    }}
}}

impl CopiedSource for {record.name} {{
    ghost same_keys = {{ refl }};

    ghost same_meaning = {{ refl }};
}}
"""


def proofs(record):
    """The proofs beside the module: that a value owns nothing, and that its bytes read as it."""
    declaration = record.declaration
    module = "/".join(declaration.module)
    goals = f"Rattle.{'.'.join((declaration.crate, 'proofs') + tuple(declaration.module))}.{record.name}Copied"
    lemmas = "use Rattle.archive_core.proofs.fields.CloseFields"
    close = "tt"
    for _ in record.types:
        close = f"(refl, {close})"
    plain = plain_of(record.formats, record.types)
    used = sorted({word for word in plain.replace("(", " ").replace(")", " ").split()})
    return {
        f"proofs/{module}/{record.name}Copied/copied_size/Answers.antt": f"""-- {WRITTEN}
{lemmas}.{{plain_owns_nothing, {', '.join(used)}}}
use {goals}.copied_size.Goals as goal

pub returns-clause-owns_nothing : goal.returns-clause-owns_nothing
returns-clause-owns_nothing c v = plain_owns_nothing {plain}
""",
        f"proofs/{module}/{record.name}Copied/copy_one/Answers.antt": f"""-- {WRITTEN}
use Rattle.std.proofs.Common.{{refl}}
{lemmas}.{{copied_record}}
use {goals}.copy_one.Goals as goal

pub returns-clause-read : goal.returns-clause-read
returns-clause-read c = copied_record _ (record {{ solved = λ s k. refl }}) refl {close} refl c.copy_{record.count}.ensures.read
""",
    }


def plain_of(formats, types):
    """A proof that values one behind another are made of numbers alone."""
    return f"(plain_parts {chain('plain_part', [plain(formats, type) for type in types], 'plain_none')})"


def plain(formats, type):
    kind = formats.kind(type)
    if kind == "own":
        return plain_of(formats, [field.type for field in type.own.fields])
    return plain_of(formats, []) if kind == "PhantomData" else "plain_leaf"
