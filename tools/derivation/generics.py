"""The impls of a struct with type parameters, or that holds a recursive type: a tuple whose fields have names."""

from .common import doc_lines, in_turn, resolve_head
from .layout import Generic, Group, flat, implementation, literal, pair, signature, statement


def camel(name):
    return "".join(word[:1].upper() + word[1:] for word in name.split("_"))


class Tuple:
    """Such a struct, and the names of what is written for it."""

    def __init__(self, formats, declaration):
        self.formats = formats
        self.declaration = declaration
        self.name = declaration.name
        self.archived = declaration.archived
        self.fields = declaration.fields
        self.types = [field.type for field in self.fields]
        self.count = len(self.types)
        self.parameters = [parameter.name for parameter in declaration.parameters]
        self.bounds = {parameter.name: parameter.bounds for parameter in declaration.parameters}
        self.of = f"{self.name}{self.brackets()}"
        self.rust = [formats.rust(type) for type in self.types]
        self.read = [formats.read_as(type) for type in self.types]
        self.formats_of = [formats.archived(type) for type in self.types]
        self.formats_bare = [formats.archived(type, bare=True) for type in self.types]
        self.parts = f"{self.name}Fields{self.brackets()}"
        self.visibility = "pub "  # also of a private type: an accessor of a public one may show it
        self.where = f"\nwhere\n    {declaration.where.rstrip(',')}," if declaration.where else ""
        self.names = [f"a{i}" for i in range(self.count)]
        self.size = "⟦<Self::Archived as Portable>⟧.layout.size"

    def brackets(self):
        """Its parameters as arguments, if it has any."""
        return f"<{', '.join(self.parameters)}>" if self.parameters else ""

    def bound(self, *more, before=(), after=()):
        """The parameters of an impl, each with its bounds and these."""
        out = list(before)
        for name in self.parameters:
            bounds = [b for b in (self.bounds[name], *more) if b]
            out.append(f"{name}: {' + '.join(bounds)}" if bounds else name)
        return out + list(after)

    def bound_of_views(self):
        """The parameters of an impl for views, which are archived types."""
        return ["'a"] + [f"{name}: Portable" for name in self.parameters]

    def built(self):
        values = [self.formats.arrays.value(type, name) for type, name in zip(self.types, self.names)]
        if self.declaration.form == "tuple":
            return Group(f"{self.name}(", values, ")")
        return literal(self.name, [f"{field.name}: {value}" for field, value in zip(self.fields, values)])


def text(formats, declaration):
    made = Tuple(formats, declaration)
    formats.use("archive_core::error", "Error")
    formats.use("archive_core::core_impls", "ArchivedTuple")
    formats.use("archive_core::own", "Field", "FromParts", "HasField")
    formats.use("archive_core::parts", "SourceParts")
    formats.use("archive_core::place", "Place")
    formats.use("archive_core::record", "resolve_record", "serialize_record")
    formats.use("archive_core::traits", "Archive", "Portable", "PortableParts", "Serialize")
    formats.use("archive_core::view", "Ref")
    formats.ghost("std.specs.Prelude", "◌≡◌", "◌+◌", "length", "refl", "OnOk", "IfErr")
    formats.ghost("Value", "product")
    formats.ghost("CallOutcomes", "ResolvesAs")
    formats.ghost("Writing", "ZeroedPlace")
    return "\n".join([format_of(made), fields(made), archive(made), serialize(made), region(made), read(made), views(made), seals(made)])


def head(made, generics, trait, arguments):
    """The head of an impl for the struct, with what it asks of its parameters."""
    text = implementation(generics, trait, arguments, made.of)
    return f"{text[:-2]}{made.where}\n{{" if made.where else text


def format_of(made):
    parts = statement(
        0,
        f"pub type {made.archived}{made.brackets()} = ".replace("pub ", made.visibility, 1),
        Group("ArchivedTuple<", [pair(made.formats_bare)], ">"),
        ";",
    )
    return f"/// An archived `{made.name}`: its fields one after another, as a tuple has them.\n{parts}"


def fields(made):
    out = []
    for i, (field, rust) in enumerate(zip(made.fields, made.rust)):
        out.append(f"""{head(made, made.bound(), "HasField", [str(i), rust])}
    ghost field = {{ λ v. v.{field.name} }};

    fn field(&self) -> &{rust} {{
        &self.{field.name}
    }}
}}
""")
    those = pair([f"Field<{i}, {rust}>" for i, rust in enumerate(made.rust)])
    out.append(f"// Its fields as sources.\n{statement(0, f'type {made.parts} = ', those, ';')}")
    return "\n".join(out)


def archive(made):
    f = made.formats
    values = [f"v.{field.name}" for field in made.fields]
    parts = f"⟦<{made.parts} as SourceParts<Self>>⟧"
    archived = statement(4, "type Archived = ", Group("ArchivedTuple<", [pair(made.formats_of)], ">"), ";")
    call = Generic("resolve_record", ["Self", made.parts, "Self::Archived"], ["self", "resolver", "Place::new(pos, bytes)"])
    laws = (f.product_keyed(made.types, values)[1:-1], f.product_planned(made.types, values)[1:-1])
    told, calls = in_turn(f)
    return f"""{head(made, made.bound("Archive"), "Archive", [])}
{f.law_lines()}{archived}
    type Resolver = <{made.parts} as SourceParts<Self>>::Resolvers;

    ghost meaning = {{ λ v. product ({parts}.meanings v) }};

    ghost flat = {{ λ v r. product ({parts}.flats v r) }};

    ghost keys = {{ λ v. {parts}.keys v }};

    ghost belongs = {{ λ v r. {parts}.belongs v r }};

{told}
    ghost keyed = {{ λ v. {laws[0]} }};

    ghost planned = {{ λ v. {laws[1]} }};

{resolve_head(made)}    {{
        let Place {{ bytes, pos, .. }} = place;
{statement(8, "", call, "")}    }}

{calls}}}
"""


def serialize(made):
    bound = made.formats.writer_bound(made.types)
    call = Generic("serialize_record", ["Self", made.parts, "Self::Archived", "S"], ["self", "serializer"])
    return f"""{head(made, made.bound("Serialize<S>", after=[f"S: {bound}"]), "Serialize", ["S"])}
    #[inline(always)]
    fn serialize(&self, serializer: &mut S) -> Result<Self::Resolver, Error> {{
{statement(8, "", call, "")}    }}
}}
"""


def region(made):
    f = made.formats
    f.use("archive_core::ser", "serialize_one")
    f.use("archive_core::traits", "ArchiveUnsized", "SerializeUnsized")
    f.ghost("PlannedOwners", "one_planned")
    values = [f"v.{field.name}" for field in made.fields]
    archived = statement(4, "type Archived = ", Group("ArchivedTuple<", [pair(made.formats_of)], ">"), ";")
    bound = f.writer_bound(made.types)
    laws = (f.product_keyed(made.types, values)[1:-1], f.product_planned(made.types, values))
    return f"""/// As a region of its own: the value itself.
{head(made, made.bound("Archive"), "ArchiveUnsized", [])}
{f.law_lines()}{archived}
    ghost source_length = {{ λ _. 0 }};

    ghost meaning = {{ ⟦<{made.of} as Archive>⟧.meaning }};

    ghost keys = {{ ⟦<{made.of} as Archive>⟧.keys }};

    ghost keyed = {{ λ v. {laws[0]} }};

    ghost one_length = {{ λ _ _. refl }};

    ghost planned = {{ λ v. one_planned _ _ _ _ {laws[1]} }};

    #[inline(always)]
    fn archived_metadata(&self) -> Result<(), Error> {{
        Ok(())
    }}
}}

{head(made, made.bound("Serialize<S>", after=[f"S: {bound}"]), "SerializeUnsized", ["S"])}
    #[inline(always)]
    fn serialize_unsized(&self, serializer: &mut S) -> Result<usize, Error> {{
        serialize_one(self, serializer)
    }}
}}
"""


def read(made):
    owned = statement(4, "type Owned = ", pair(made.read), ";")
    from_parts = f"    fn from_parts({flat(pair(made.names))}: Self::Owned) -> Self {{\n"
    return f"""{head(made, made.bound("Archive"), "FromParts", [])}
{owned}
{from_parts}{statement(8, "", made.built(), "")}    }}
}}
"""


def views(made):
    f = made.formats
    f.ghost("Fields", "field_in")
    f.ghost("Seen", "ShowsValueOf")
    docs = "\n".join(f"    /// The view of `{field.name}`.\n    type {camel(field.accessor)};\n" for field in made.fields)
    heads = "\n".join(
        f"{doc_lines(field.docs, f'The field `{field.name}`.', 4)}    fn {field.accessor}(self) -> Self::{camel(field.accessor)};\n"
        for field in made.fields
    )
    types = "\n".join(
        f"    type {camel(field.accessor)} = Ref<'a, {format}>;\n" for field, format in zip(made.fields, made.formats_bare)
    )
    parts = f"⟦<{flat(pair(made.formats_bare))} as PortableParts>⟧"
    bodies = "\n".join(
        f"""{signature(f"fn {field.accessor}", [], ["self"], f"Ref<'a, {format}>", 4)}
        ensures buffer {{ result.bytes.now ≡ self.entry.bytes.now }}
        ensures position {{ result.pos ≡ self.entry.pos + {parts}.begin 0 {i} }}
        ensures length {{ result.len ≡ 0 }}
        ensures shows {{ ShowsValueOf result self.entry (field_in {i}) }}
    {{
        self.field({i})
    }}
"""
        for i, (field, format) in enumerate(zip(made.fields, made.formats_bare))
    )
    of = f"Ref<'a, {made.archived}{made.brackets()}>"
    return f"""/// The fields of an archived `{made.name}`, as views.
{made.visibility}trait {made.name}View {{
{docs}
{heads}}}

{implementation(made.bound_of_views(), f"{made.name}View", [], of)}
{types}
{bodies}}}
"""


def seals(made):
    f = made.formats
    f.use("archive_core::seal", "Seal")
    f.ghost("SealOutcomes", "IsSealOf", "SealsPart")
    format_of_all = f"{made.archived}{made.brackets()}"
    whole = f"⟦<{format_of_all} as ArchivePointee>⟧"
    f.use("archive_core::traits", "ArchivePointee")
    docs = "\n".join(f"    /// The seal of `{field.name}`.\n    type {camel(field.accessor)};\n" for field in made.fields)
    heads = "\n".join(
        f"{doc_lines(field.docs, f'The field `{field.name}`.', 4)}    fn {field.accessor}_mut(self) -> Self::{camel(field.accessor)}\n        requires {{ sealed self }};\n"
        for field in made.fields
    )
    types = "\n".join(
        f"    type {camel(field.accessor)} = Seal<'a, {format}>;\n" for field, format in zip(made.fields, made.formats_bare)
    )
    parts = f"⟦<{flat(pair(made.formats_bare))} as PortableParts>⟧"
    sealed = f"IsSealOf {whole}.definitions {whole}.pointee {{0}}"
    bodies = "\n".join(
        f"""{signature(f"fn {field.accessor}_mut", [], ["self"], f"Seal<'a, {format}>", 4)}
        requires come_to {{ {sealed.format("self")} }}
        ensures {{ SealsPart {whole}.definitions {whole}.pointee ⟦<{format} as ArchivePointee>⟧.definitions ⟦<{format} as ArchivePointee>⟧.pointee (self.entry.pos + {parts}.begin 0 {i}) 0 self.entry result }}
    {{
        self.field({i})
    }}
"""
        for i, (field, format) in enumerate(zip(made.fields, made.formats_bare))
    )
    return f"""/// The fields of an archived `{made.name}`, as seals.
{made.visibility}trait {made.name}Seal {{
    // The seal shows a part of a buffer that was checked.
    ghost sealed: {{ Self → Type 0 }};

{docs}
{heads}}}

{implementation(made.bound_of_views(), f"{made.name}Seal", [], f"Seal<'a, {format_of_all}>")}
    ghost sealed = {{ λ s. {sealed.format("s")} }};

{types}
{bodies}}}
"""
