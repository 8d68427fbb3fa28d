"""The impls of a struct without type parameters."""

from . import blocks, bulk, compared
from .common import (
    Source,
    archive_pointee,
    chain,
    deserialize,
    doc_lines,
    in_turn,
    infix,
    kept_of,
    ok_arm,
    own_check,
    portable,
    region,
    resolve_head,
    sealed_clauses,
    taken_apart,
    view_clauses,
)
from .formats import layout_of, snake
from .layout import Generic, Group, flat, implementation, literal, pair, signature, statement
from .loads import Loads
from .long import as_parts, fields_of, is_long, nest, pattern
from .made import WRITTEN, Made, are_made
from .pieces import Pieces
from .recursive.refusals import keeps_memory


# Up to so many fields a value is made where it is read.
SHORT_RECORD = 6


class Record(Source):
    """What a struct's impls say."""

    def __init__(self, formats, declaration):
        super().__init__(formats, declaration)
        self.fields = declaration.fields
        self.types = [field.type for field in self.fields]
        self.count = len(self.types)
        loads = Loads()
        self.by_fours = loads.go_by_fours(self.types)
        self.blocks = loads.blocks(self.types)
        self.by_nest = is_long(self.types) or bool(self.blocks)
        self.pieces = () if self.blocks or loads.are_read_at_once(self.types) else loads.pieces(self.types)
        self.formats_of = [formats.archived(type) for type in self.types]
        self.rust = [formats.rust(type) for type in self.types]
        self.parts_of = as_parts(self.rust)
        self.read = [formats.read_as(type) for type in self.types]
        self.size, self.align, self.offsets, self.end = layout_of([formats.layout(type) for type in self.types])
        self.span = self.end
        self.parts = chain("part", [formats.shape(type) for type in self.types], "no_part")
        self.shape = f"parts {self.parts}"
        self.defined = chain("both", [formats.definitions(type) for type in self.types], "no_definition")
        self.in_bulk = bulk.is_in_bulk(formats, declaration)
        self.names = [f"a{i}" for i in range(self.count)]
        self.values = [f"v.{field.name}" for field in self.fields]

    def built(self):
        values = [self.formats.arrays.value(type, name) for type, name in zip(self.types, self.names)]
        name = self.declaration.declared_name
        if self.declaration.form == "unit":
            return name
        if self.declaration.form == "tuple":
            return Group(f"{name}(", values, ")")
        return literal(name, [f"{field.name}: {value}" for field, value in zip(self.fields, values)])


def text(formats, declaration):
    record = Record(formats, declaration)
    if record.by_nest:
        formats.use("archive_core::record", "resolve_record", "serialize_record")
    else:
        formats.use("archive_core::fields", f"serialize_record_{record.count}")
        if not record.in_bulk:
            formats.use("archive_core::fields", f"resolve_record_{record.count}")
    pieces = [
        struct(record),
        archive_pointee(record),
        portable(record, f"expr_of_record::<{record.name}Parts>(alloc)"),
        check_of(record),
        is_record(record),
        resolver(record),
        archive(record),
        bulk.impls(record) if record.in_bulk else "",
        serialize(record),
        region(record),
        read(record),
        views(record),
        seals(record),
        compared.record(record),
    ]
    return "\n".join(piece for piece in pieces if piece)


def pieces_of(record):
    return Pieces(record, record, snake(record.name), record.name)


def struct(record):
    archived = record.archived
    parts, those, behind = nest(record.formats_of, record.by_fours), None, ""
    if record.blocks:
        parts, those, behind = blocks.nested(record, record.formats_of, 0), blocks.nested(record, record.parts_of, 0), blocks.text(record)
    parts = statement(0, f"type {record.name}Parts = ", parts, ";")
    if record.by_fours or record.blocks:
        record.formats.use("archive_core::traits", "FourParts")
    owned = "" if record.pieces else statement(0, f"type {record.name}Owned = ", blocks.owned(record, 0) if record.blocks else nest(record.read, record.by_fours), ";")
    fields = ""
    if record.by_nest:
        fields = fields_of(record.formats, f"{record.name}Fields", record.name, record.rust, [field.name for field in record.fields], those)
    head = f"/// An archived `{record.name}`: {record.size} bytes at a multiple of {record.align}.\n{record.visibility}struct {archived};\n"
    return "\n".join(it for it in (head, parts, owned, fields, behind) if it)


def check_of(record):
    if record.shares:
        return ""
    record.formats.use("archive_core::self_check", "RecordCheck")
    return own_check(record, f"RecordCheck::<{record.name}Parts>::check_at(bytes, at, refusal, context)")


def is_record(record):
    record.formats.ghost("Plain", "plain_record")
    record.formats.ghost("std.proofs.Common", "lit≤")
    record.formats.use("archive_core::traits", "Record")
    return f"""impl Record for {record.archived} {{
    type Parts = {record.name}Parts;

    ghost has_parts = {{ plain_record {record.parts} {record.defined} refl }};

    ghost holds = {{ lit≤ tt }};
}}
"""


def resolver(record):
    if not record.count:
        return ""
    kept = blocks.resolvers(record, 0) if record.blocks else pair([f"<{rust} as Archive>::Resolver" for rust in record.rust])
    return f"""/// What is kept of `{record.name}` between `serialize` and `resolve`.
#[derive(Drop)]
{record.declared}struct {record.resolver} {{
{statement(4, "kept: ", kept, ",")}}}
"""


def archive(record):
    f, values, types = record.formats, record.values, record.types
    f.ghost("Value", "product", "value", "no_value")
    f.ghost("Keyed", "record_keyed", "part_keyed", "nothing_keyed")
    f.ghost("PartsPlanned", "part_planned", "no_part_planned")
    f.ghost("Plain", "plain_record_planned")
    sources = [f.source(type) for type in types]
    meanings = chain("value", [f"({q}.meaning {v})" for q, v in zip(sources, values)], "no_value")
    resolvers = [f"r.kept{blocks.kept_at(record, i) if record.blocks else '.1' * i + '.0'}" for i in range(record.count)]
    flats = chain("value", [f"({q}.flat {v} {r})" for q, v, r in zip(sources, values, resolvers)], "no_value")
    keys = infix("++", [f"{q}.keys {v}" for q, v in zip(sources, values)], "[]")
    belongs = infix("×", [f"{q}.belongs {v} {r}" for q, v, r in zip(sources, values, resolvers)], "Unit {0}")
    keyed = chain("part_keyed", [f.keyed(type, v) for type, v in zip(types, values)], "nothing_keyed")
    planned = "no_part_planned"
    for type, q, v in reversed(list(zip(types, sources, values))):
        planned = f"(part_planned {f.definitions(type)} {f.shape(type)} ({q}.keys {v}) ({q}.meaning {v}) {f.planned(type, v)} {planned})"
    kept, apart = blocks.handed(record, 0) if record.blocks else (kept_of(f, types) if record.count else "resolver", taken_apart(f, types, 8))
    taken = f"        let {record.resolver} {{ kept }} = resolver;\n{apart}" if record.count else ""
    arguments = [f"&self.{field.name}" for field in record.fields] + [kept, "Place::new(pos, bytes)"]
    call = Generic(f"resolve_record_{record.count}", record.rust + [record.archived], arguments)
    if record.by_nest:
        call = Generic("resolve_record", ["Self", f"{record.name}Fields", record.archived], ["self", kept, "Place::new(pos, bytes)"])
    told, calls = bulk.told(record) if record.in_bulk else in_turn(f)
    resolved = f"""        let Place {{ bytes, pos, .. }} = place;
{taken}{statement(8, "", call, "")}"""
    if record.in_bulk:
        resolved = bulk.RESOLVED
    return f"""impl Archive for {record.name} {{
{f.law_lines()}    type Archived = {record.archived};

    type Resolver = {record.resolver if record.count else "()"};

    ghost meaning = {{ λ v. product {meanings} }};

    ghost flat = {{ λ v r. product {flats} }};

    ghost keys = {{ λ v. {keys} }};

    ghost belongs = {{ λ v r. {belongs} }};

{told}
    ghost keyed = {{ λ v. record_keyed {keyed} }};

    ghost planned = {{ λ v. plain_record_planned {record.defined} {record.parts} _ _ {planned} refl }};

{resolve_head(record)}    {{
{resolved}    }}

{calls}}}
"""


def serialize(record):
    bound = record.formats.writer_bound(record.types)
    arguments = [f"&self.{field.name}" for field in record.fields] + ["serializer"]
    call = Generic(f"serialize_record_{record.count}", record.rust + [record.archived, "S"], arguments)
    if record.by_nest:
        call = Generic("serialize_record", ["Self", f"{record.name}Fields", record.archived, "S"], ["self", "serializer"])
    if record.count:
        body = f"""{statement(8, "match ", call, " {")}            Ok(kept) => Ok({record.resolver} {{ kept }}),
            Err(error) => Err(error),
        }}
"""
    else:
        body = statement(8, "", call, "")
    return f"""{implementation([f"S: {bound}"], "Serialize", ["S"], record.name)}
    #[inline(always)]
    fn serialize(&self, serializer: &mut S) -> Result<Self::Resolver, Error> {{
{body}    }}
}}
"""


def is_made_apart(record):
    """Whether a value is made of those of its fields by a function of its own, whose proof is written beside the module: of many fields, or of an array, which
    the check doesn't see to mean what was read back."""
    return record.count > SHORT_RECORD or bool(record.pieces) or are_made(record.types)


def read(record):
    record.formats.use("archive_core::record", "deserialize_record")
    call = Generic("deserialize_record", ["Self", f"{record.name}Owned", "D"], ["alloc", "part", "deserializer"])
    pieces = ""
    if record.pieces:
        call, pieces = pieces_of(record).call(), f"{pieces_of(record).text()}\n"
    if is_made_apart(record):
        ok = f"            Ok(values) => Ok({snake(record.name)}_of(values)),\n"
    else:
        ok = ok_arm(flat(pattern(record.names, record.by_fours)), record.built(), 12)
    impl = deserialize(record, f"""{statement(8, "match ", call, " {")}{ok}            Err(error) => Err(error),
        }}
""")
    return f"{pieces}{made_of(record).text(record.names, record.built())}\n{impl}" if is_made_apart(record) else impl


def made_of(record):
    """The function that makes the record of the values of its fields."""
    name = f"{snake(record.name)}_of"
    return Made(record.formats, record.types, record.by_fours, name, record.name, f"{record.name}Owned", "product", record.name, record.pieces, record if record.blocks else None)


def proofs(formats, declaration):
    """The proofs that are written beside the module, by their paths in the crate."""
    record = Record(formats, declaration)
    out = bulk.proofs(record) if record.in_bulk else {}
    module = "/".join(declaration.module)
    dotted = ".".join((declaration.crate, "proofs") + tuple(declaration.module))
    if not record.in_bulk and (record.by_nest or sum(type.own is not None and keeps_memory(type) for type in record.types) > 1):
        out[f"proofs/{module}/{record.name}Archive/resolve/Answers.antt"] = resolve_answers(record, dotted)
    if not is_made_apart(record):
        return out
    made = made_of(record)
    impl = f"{record.archived}Deserialize{record.name}"
    if record.pieces:
        out.update(pieces_of(record).proofs(module, dotted))
    answers = made.answers(dotted)
    if answers:
        out[f"proofs/{module}/{made.name}/Answers.antt"] = answers
    out[f"proofs/{module}/{impl}/deserialize_part/Answers.antt"] = f"""-- {WRITTEN}
use Rattle.std.proofs.Common.{{rules}}
use Rattle.{dotted}.{impl}.deserialize_part.Goals as goal

pub returns-in-Ok : goal.returns-in-Ok
returns-in-Ok g c = record {{
  read = rw (c.{made.name}.ensures.meaning, c.{made.name}.ensures.keys) c.in-Ok.ensures.read;
  refused = search rules;
}}
"""
    return out


def resolve_answers(record, dotted):
    """The proof that the record is resolved as its fields are: what the call says is named, since the search doesn't find it among many fields, nor where several
    keep memory."""
    call = "resolve_record" if record.by_nest else f"resolve_record_{record.count}"
    return f"""-- {WRITTEN}
use Rattle.std.proofs.Common.{{rules}}
use Rattle.{dotted}.{record.name}Archive.resolve.Goals as goal

pub returns : goal.returns
returns g =
    let there = rw (g.new.ensures.position) at g.{call}.ensures in
    record {{ resolved = search (rules, there.resolved); refused = there.refused; same_length = search rules }}
"""


def views(record):
    if not record.count:
        return ""
    f = record.formats
    f.use("archive_core::view", "Ref")
    f.use("archive_core::fields", "part_in_record")
    f.ghost("Fields", "field_in")
    f.ghost("Seen", "ShowsValueOf")
    heads, bodies = [], []
    for i, (field, format, offset) in enumerate(zip(record.fields, record.formats_of, record.offsets)):
        head = signature(f"fn {field.accessor}", [], ["self"], f"Ref<'a, {format}>", 4)
        heads.append(f"{doc_lines(field.docs, f'The field `{field.name}`.', 4)}{head};\n")
        body = statement(8, "", Generic("part_in_record", [record.archived, format], ["self", str(i), str(offset)]), "")
        bodies.append(f"{head}\n{view_clauses('self.entry', 'result', offset, f'field_in {i}')}    {{\n{body}    }}\n")
    lines = "\n".join(bodies)
    return f"""/// The fields of an archived `{record.name}`, as views.
{record.visibility}trait {record.name}View<'a> {{
{chr(10).join(heads)}}}

{implementation(["'a"], f"{record.name}View", ["'a"], f"Ref<'a, {record.archived}>")}
{lines}}}
"""


def seals(record):
    if not record.count:
        return ""
    f = record.formats
    f.use("archive_core::seal", "Seal", "sealed_part_in_record")
    f.ghost("SealOutcomes", "IsSealOf", "SealsPart")
    pointee = f"(one ⟦<{record.archived} as Portable>⟧.shape)"
    heads, bodies = [], []
    for i, (field, format, offset) in enumerate(zip(record.fields, record.formats_of, record.offsets)):
        call = Generic("sealed_part_in_record", [record.archived, format], ["self", str(i), str(offset)])
        definitions = f.definitions(field.type)
        head = signature(f"fn {field.accessor}_mut", [], ["self"], f"Seal<'a, {format}>", 4)
        heads.append(f"{doc_lines(field.docs, f'The field `{field.name}`.', 4)}{head}\n        requires {{ sealed self }};\n")
        bodies.append(f"{head}\n{sealed_clauses(pointee, format, offset, definitions)}    {{\n{statement(8, '', call, '')}    }}\n")
    return f"""/// The fields of an archived `{record.name}`, as seals.
{record.visibility}trait {record.name}Seal<'a> {{
    // The seal shows a part of a buffer that was checked.
    ghost sealed: {{ Self → Type 0 }};

{chr(10).join(heads)}}}

{implementation(["'a"], f"{record.name}Seal", ["'a"], f"Seal<'a, {record.archived}>")}
    ghost sealed = {{ λ s. IsSealOf no_definition {pointee} s }};

{chr(10).join(bodies)}}}
"""
