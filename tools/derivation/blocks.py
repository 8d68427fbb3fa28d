"""Structs of more fields, or of deeper ones, than the toolchain takes at once: their fields go in blocks.

Behind the fields of a block there is a type without values. It stands for the next block with all that is behind it, so a call passes the impls of one block
and one more. Its members are those of the nest that it stands for: offsets, meanings and contracts are those of the fields one after another. What is read
back of the fields of a block has a type of its own, too, with the values behind them in it.

What is kept of the fields of a block is a type of its own, too: of a struct that holds a nest of seventeen pairs, `the_within` "stopped at the step limit
(50000000 steps a task, the default)".
"""

from . import part_laws
from .common import MADE_OF, chain
from .formats import ALIGNS
from .layout import call, implementation, pair, statement
from .loads import LEAST_IN_FOURS
from .long import inside, names_of, nest, places
from .part_laws import bare


def rest_of(record, number):
    """The type that stands for the fields from this block on."""
    return f"{record.name}Rest{number}"


def kept_from(record, number):
    """What is kept of the fields from this block on."""
    return f"{record.name}Kept{number}"


def owned_from(record, number):
    """The values of the fields from this block on."""
    return f"{record.name}Owned{number}"


def owned(record, number):
    """The values of the fields of a block, with the type of those behind it."""
    begin, end = record.blocks[number]
    behind = owned_from(record, number + 1) if number + 1 < len(record.blocks) else "()"
    return nest(record.read[begin:end], go_by_fours(record, number), behind)


def go_by_fours(record, number):
    """Whether the nest of a block has four fields at once."""
    begin, end = record.blocks[number]
    return end - begin >= LEAST_IN_FOURS


def owned_places(record):
    """Where the value of each field is in those that were read."""
    found, behind = [], ""
    for number, (begin, end) in enumerate(record.blocks):
        by_fours = go_by_fours(record, number)
        found += [f"{behind}{place}" for place in places(end - begin, by_fours)]
        behind += f"{inside(end - begin, by_fours)}.values"
    return found


def opened(record, names):
    """The lines that name each of `values`."""
    lines = ""
    for number, (begin, end) in enumerate(record.blocks):
        by_fours = go_by_fours(record, number)
        if number + 1 == len(record.blocks):
            return lines + names_of(names[begin:end], 4, by_fours)
        behind = "rest" if by_fours and (end - begin) % 4 == 0 else "behind"
        lines += names_of(names[begin:end], 4, by_fours, behind)
        lines += f"    let {owned_from(record, number + 1)} {{ values }} = {behind};\n"


def resolvers(record, number):
    """What is kept of the fields of a block, with the type of what is kept behind it."""
    begin, end = record.blocks[number]
    behind = kept_from(record, number + 1) if number + 1 < len(record.blocks) else "()"
    return pair([f"<{rust} as Archive>::Resolver" for rust in record.rust[begin:end]], behind)


def kept_at(record, index):
    """Where the resolver of the field with this index is in what is kept of them all."""
    number = next(number for number, (_, end) in enumerate(record.blocks) if index < end)
    behind = "".join(f"{'.1' * (end - begin)}.kept" for begin, end in record.blocks[:number])
    return f"{behind}{'.1' * (index - record.blocks[number][0])}.0"


def handed(record, number):
    """What a call is handed of what is kept of the fields of a block, and the line that takes it apart where that is needed, as in common.py."""
    begin, end = record.blocks[number]
    holds = record.formats.holds
    if not any(holds(type, MADE_OF, i >= end) for i, type in enumerate(record.types) if i >= begin):
        return "kept", ""
    apart = pair([f"r{i}" for i in range(begin, end)], "behind" if end < record.count else "()")
    return apart, statement(8, "let ", apart, " = kept;")


def nested(record, words, number):
    """These words for the fields of a block, with the type of what is behind it."""
    begin, end = record.blocks[number]
    behind = rest_of(record, number + 1) if number + 1 < len(record.blocks) else "()"
    return nest(words[begin:end], go_by_fours(record, number), behind)


def text(record):
    """The types that stand for the fields behind the first block, and their impls."""
    return "\n".join(Rest(record, number).text() for number in range(1, len(record.blocks)))


class Rest:
    """The fields from a block on."""

    def __init__(self, record, number):
        self.record = record
        self.formats = record.formats
        self.number = number
        self.begin, self.end = record.blocks[number]
        self.is_last = number + 1 == len(record.blocks)
        self.name = rest_of(record, number)
        self.kept = kept_from(record, number)
        self.behind = "()" if self.is_last else rest_of(record, number + 1)
        self.archived = f"{record.name}Block{number}"
        self.sources = f"{record.name}Fields{number}"
        self.parts_here = part_laws.parts_of(self.formats, record.types[self.begin : self.end])
        self.all_types = record.types[self.begin :]

    def text(self):
        f = self.formats
        f.use("archive_core::parts", "DeserializeParts", "OwnedParts", "SerializeParts", "SourceParts")
        f.use("archive_core::self_check", "CheckedParts")
        f.use("archive_core::traits", "PortableParts")
        f.use("archive_core::validation", "ArchiveContext")
        first = self.record.fields[self.begin].name
        return f"""/// The fields of `{self.record.name}` from `{first}` on, as one type: it has no values.
{self.record.visibility}struct {self.name};

/// What is kept of them between `serialize` and `resolve`.
#[derive(Drop)]
{self.record.visibility}struct {self.kept} {{
{statement(4, "kept: ", resolvers(self.record, self.number), ",")}}}

{statement(0, f"type {self.archived} = ", nested(self.record, self.record.formats_of, self.number), ";")}
{statement(0, f"type {self.sources} = ", nested(self.record, self.record.parts_of, self.number), ";")}
{self.checked()}
{self.portable()}
{self.source()}
{self.serialize()}
{self.deserialize()}"""

    # ---- what the laws are made of ----

    def law(self, trait, which, end):
        """A law of what is behind the block."""
        if self.is_last:
            return end
        name = f"{which}_behind"
        return self.formats.impl_law(self.record.declaration, f"{self.behind}{trait}", which, name)

    def behind_of(self, trait, which, end):
        """A member of what is behind the block."""
        return end if self.is_last else f"⟦<{self.behind} as {trait}>⟧.{which}"

    def members(self, trait, of, names):
        return "".join(f"    ghost {it} = {{ ⟦<{of} as {trait}>⟧.{it} }};\n\n" for it in names)

    # ---- the archived fields ----

    def checked(self):
        """As fields that are checked."""
        f, inner = self.formats, self.archived
        part_laws.bring(f)
        rises = part_laws.rises(self.parts_here, self.law("CheckedParts", "rises", "no_lower"))
        order = "record { has = tt; only = tt; once = tt; root = refl; closed = tt; placed = tt }"
        ordered = f"λ _. record {{ plain = λ _. {order}; ordered = λ _. ([], {order}) }}"
        if any(f.shares(type) for type in self.all_types):
            f.ghost("SelfCheck.Laws", "by_schema")
            ordered = "λ direct. by_schema direct"
        told = "\n".join(
            f"""    fn {it}() -> bool {{
        <{inner} as CheckedParts>::{it}()
    }}
"""
            for it in ("are_direct", "are_nameless", "are_lone")
        )
        checked = call(f"<{inner} as CheckedParts>::check_parts", ["bytes", "base", "start", "refusal", "context"])
        return f"""impl CheckedParts for {self.name} {{
{f.law_lines()}{self.members("CheckedParts", inner, ("parts", "definitions", "end", "direct", "nameless", "lone"))}    ghost rises = {{ {bare(rises)} }};

    ghost ordered = {{ {ordered} }};

{told}
    #[inline(always)]
    fn check_parts<C: ArchiveContext>(
        bytes: &[u8],
        base: usize,
        start: usize,
        refusal: &mut Error,
        context: &mut C,
    ) -> Option<()> {{
{statement(8, "", checked, "")}    }}
}}
"""

    def portable(self):
        """As fields that are laid out."""
        f, inner = self.formats, self.archived
        part_laws.bring(f)
        f.ghost("PartsLayout", "begins_at", "begins_over")
        align = max([1] + [f.layout(type)[1] for type in self.all_types])
        laws = {
            "is_align": ALIGNS[align],
            "laid_out": bare(part_laws.laid_out(self.parts_here, self.law("PortableParts", "laid_out", "no_part_laid_out"))),
            "sized": bare(self.sized()),
            "no_others": f"no_definition_reached (parts {self.shapes()})",
            "begins": bare(self.begins()),
            "within": bare(self.within()),
        }
        told = "".join(f"    ghost {name} = {{ {term} }};\n\n" for name, term in laws.items())
        return f"""impl PortableParts for {self.name} {{
{f.law_lines()}{self.members("PortableParts", inner, ("greatest", "begin", "size_at"))}{told}    fn align() -> usize {{
        <{inner} as PortableParts>::align()
    }}

    #[inline(always)]
    fn end_from(start: usize) -> usize {{
        <{inner} as PortableParts>::end_from(start)
    }}

    #[inline(always)]
    fn offset_from(start: usize, i: usize) -> usize {{
        <{inner} as PortableParts>::offset_from(start, i)
    }}

    fn push_exprs(
        alloc: Global,
        list: &mut Vec<archive_core::shape::Expr>,
    ) -> Result<(), Error> {{
        <{inner} as PortableParts>::push_exprs(alloc, list)
    }}

    fn define(alloc: Global, defs: &mut Defs) -> Result<(), Error> {{
        <{inner} as PortableParts>::define(alloc, defs)
    }}
}}
"""

    def shapes(self):
        """The parts of the block, with those behind it."""
        return chain("part", [shape for _, shape, *_ in self.parts_here], self.behind_of("CheckedParts", "parts", "no_part"))

    def sized(self):
        defined, shapes = (self.behind_of("CheckedParts", which, end) for which, end in (("definitions", "no_definition"), ("parts", "no_part")))
        end = self.law("PortableParts", "sized", "no_part_sized")
        return part_laws.sized(self.parts_here, end, defined, shapes, self.behind_of("PortableParts", "size_at", "(λ i. 0)"))

    def begins(self):
        out = self.law("PortableParts", "begins", "begins_at")
        for _, _, size, align, _ in reversed(self.parts_here):
            out = f"(λ n. begins_over n {align} {size} ({ALIGNS[align]}) _ {out})"
        return out

    def within(self):
        rises = self.law("CheckedParts", "rises", "no_lower")
        return part_laws.within(self.parts_here, self.law("PortableParts", "within", "within_at"), rises)

    # ---- the fields of a value ----

    def source(self):
        """As fields that are resolved."""
        f, record = self.formats, self.record
        its = f"{self.sources} as SourceParts<{record.name}>"
        types, values = self.all_types, record.values[self.begin :]
        keyed = chain("part_keyed", [f.keyed(type, v) for type, v in zip(types, values)], "nothing_keyed")
        planned = "no_part_planned"
        for type, v in reversed(list(zip(types, values))):
            q = f.source(type)
            planned = f"(part_planned {f.definitions(type)} {f.shape(type)} ({q}.keys {v}) ({q}.meaning {v}) {f.planned(type, v)} {planned})"
        told = {
            "meanings": f"⟦<{its}>⟧.meanings",
            "flats": f"λ v r. ⟦<{its}>⟧.flats v r.kept",
            "keys": f"⟦<{its}>⟧.keys",
            "belongs": f"λ v r. ⟦<{its}>⟧.belongs v r.kept",
        }
        members = "".join(f"    ghost {name} = {{ {term} }};\n\n" for name, term in told.items())
        kept, apart = handed(record, self.number)
        resolve = call(f"<{its}>::resolve_parts", ["whole", kept, "pos", "start", "bytes"])
        return f"""{implementation([], "SourceParts", [record.name], self.name)}
{f.law_lines()}    type Archived = {self.name};

    type Resolvers = {self.kept};

{members}    ghost keyed = {{ record {{ each = λ v. {bare(keyed)} }} }};

    ghost planned = {{ record {{ each = λ v. {bare(planned)} }} }};

    #[inline(always)]
    fn resolve_parts(
        whole: &{record.name},
        resolvers: {self.kept},
        pos: usize,
        start: usize,
        bytes: &mut [u8],
    ) -> Result<(), Error> {{
        let {self.kept} {{ kept }} = resolvers;
{apart}{statement(8, "", resolve, "")}    }}
}}
"""

    def serialize(self):
        """As fields that are serialized."""
        record = self.record
        bound = self.formats.writer_bound(record.types)
        serialize = call(f"<{self.sources} as SerializeParts<{record.name}, S>>::serialize_parts", ["whole", "serializer"])
        return f"""{implementation([f"S: {bound}"], "SerializeParts", [record.name, "S"], self.name)}
    #[inline(always)]
    fn serialize_parts(whole: &{record.name}, serializer: &mut S) -> Result<{self.kept}, Error> {{
{statement(8, "match ", serialize, " {")}            Ok(kept) => Ok({self.kept} {{ kept }}),
            Err(error) => Err(error),
        }}
    }}
}}
"""

    # ---- the values that are read back ----

    def deserialize(self):
        """As fields that are read back."""
        record = self.record
        name, values = owned_from(record, self.number), f"{record.name}Values{self.number}"
        its = f"⟦<{values} as OwnedParts>⟧"
        bound = self.formats.reader_bound(record.types)
        read = call(f"<{self.archived} as DeserializeParts<{values}, D>>::deserialize_parts", ["alloc", "bytes", "pos", "start", "deserializer"])
        return f"""{statement(0, f"type {values} = ", owned(record, self.number), ";")}
/// Their values, as they are read back.
{record.visibility}struct {name} {{
    values: {values},
}}

impl OwnedParts for {name} {{
    ghost meanings = {{ λ v. {its}.meanings v.values }};

    ghost keys = {{ λ v. {its}.keys v.values }};
}}

{implementation([f"D: {bound}"], "DeserializeParts", [name, "D"], self.name)}
    #[inline(always)]
    fn deserialize_parts(
        alloc: Global,
        bytes: &[u8],
        pos: usize,
        start: usize,
        deserializer: &mut D,
    ) -> Result<{name}, Error> {{
{statement(8, "match ", read, " {")}            Ok(values) => Ok({name} {{ values }}),
            Err(error) => Err(error),
        }}
    }}
}}
"""
