"""The module of a recursive enum whose boxes of itself come last, as a list: it is checked, written, read back and dropped by loops."""

from . import readers, writers, resolvers
from ..common import chain, infix
from ..layout import Generic, Group, flat, pair, signature, statement
from ..model import Refused
from .refusals import MOST_BY_NAME


def is_chain(declaration, leads_back):
    """Whether an enum goes by loops: what leads back in it are boxes of itself, each the last part of a variant."""
    if declaration.kind != "enum" or len(declaration.family) > 1:
        return False
    for variant in declaration.variants:
        types = [field.type for field in variant.fields]
        if any(leads_back(type) for type in types[:-1]):
            return False
        if types and leads_back(types[-1]) and not (types[-1].name == "Box" and types[-1].own is None and types[-1].args[0].own is declaration):
            return False
    return True


def refuse_derived_drop(declaration):
    """A derived `drop` would call itself once for each box."""
    if "Drop" in declaration.derives:
        text = f"`{declaration.name}` is a list, which is dropped by a loop that tools/derive writes; leave `Drop` out of its derive"
        raise Refused(declaration.path, declaration.line, text)


def refuse_long(it):
    """Its check goes over the parts of a variant as a nest of pairs, which many are too much for."""
    for case in it.cases:
        if case.is_long:
            said = f"`{it.name}` is a list, a variant of which has up to {MOST_BY_NAME} fields; put some of them into a struct of another file"
            raise Refused(it.declaration.path, case.fields[MOST_BY_NAME].line, said)


def opens(case):
    """Whether a variant has a box of its type."""
    return any(case.leads_back)


def bring(it):
    f = it.formats
    f.use("archive_core::boxed", "ArchivedBox", "BoxResolver")
    f.use("archive_core::recursive", "Chain", "ChainBack", "ChainCheck", "ChainSource", "ReadHead", "Rest", "WrittenHead", "read_chain", "serialize_chain")
    f.ghost("Chains", "HeadIsRead", "IsWrittenUpTo")
    meaning = f"{it.declaration.crate}.specs.{it.family.name}Meaning"
    f.ghosts.setdefault(meaning, set()).update([f"{it.n}_around", f"{it.n}_keys_around"])
    shape = f"{it.declaration.crate}.specs.{it.family.name}Shape"
    f.ghosts.setdefault(shape, set()).update([f"{it.n}_chain_known", f"{it.n}_checked"])


# ---- the check ----


def check(it):
    """What the check goes by: a type of its own, since the check of the archived type can't need that type."""
    n = it.n
    parts = [flat(pair(case.archived[:-1], "Rest") if opens(case) else pair(case.archived)) for case in it.cases]
    return f"""/// The check of an archived `{it.name}`.
pub struct {it.name}Chain;

impl Chain for {it.name}Chain {{
    ghost name = {{ {n}_name }};

    ghost layout = {{ {n}_layout }};

{statement(4, "type Variants = ", pair(parts), ";")}
    ghost is_align = {{ {n}_is_align }};

    ghost laid_out = {{ {n}_has_layout }};

    ghost known = {{ {n}_chain_known }};

    ghost holds = {{ lit≤ tt }};

    ghost some = {{ lit≤ tt }};

    fn name() -> &'static str {{
        "{it.archived}"
    }}

    fn size() -> usize {{
        {it.size}
    }}

    fn align() -> usize {{
        {it.align}
    }}
}}
"""


def own_check(it):
    """The check of the archived type: by a name of its own, so that whoever is passed the impl of the type is passed nothing of how it is checked."""
    f, by = it.formats, f"ChainCheck<{it.name}Chain>"
    f.use("archive_core::self_check", "SelfCheck")
    f.use("archive_core::validation", "ArchiveContext")
    f.ghost("std.specs.Prelude", "false")
    return f"""impl SelfCheck for {it.archived} {{
    ghost shape = {{ {it.n}_shape }};

    ghost definitions = {{ {it.n}_definitions }};

    ghost span = {{ {it.size} }};

    ghost direct = {{ ⟦<{by} as SelfCheck>⟧.direct }};

    ghost nameless = {{ false }};

    fn is_direct() -> bool {{
        <{by} as SelfCheck>::is_direct()
    }}

    fn is_nameless() -> bool {{
        false
    }}

    #[inline(always)]
    fn check_at<C: ArchiveContext>(
        bytes: &[u8],
        at: usize,
        refusal: &mut Error,
        context: &mut C,
    ) -> Option<()> {{
        <{by} as SelfCheck>::check_at(bytes, at, refusal, context)
    }}
}}
"""


# ---- dropping ----


def drop(it):
    arms = ""
    for case in it.cases:
        names = ["_" for _ in case.names[:-1]] + ["rest"] if opens(case) else ["_" for _ in case.names]
        body = "self = Box::into_inner(rest)" if opens(case) else "return"
        arms += f"                {flat(resolvers.pattern(it, case, names))} => {body},\n"
    return f"""/// By a loop, so that a long list takes no machine stack.
impl Drop for {it.name} {{
    fn drop(mut self) {{
        loop {{
            match self {{
{arms}            }}
        }}
    }}
}}
"""


# ---- writing ----


def kept_of(it, case):
    """What is kept of the parts before a box."""
    return pair([resolvers.kept(it, type) for type in case.types[:-1]])


def variants_of(it, said, of):
    """An enum with a variant for each box."""
    lines = ""
    for case in it.cases:
        if opens(case):
            lines += f"    /// Of `{case.name}`.\n"
            lines += statement(4, "", Group(f"{case.name}(", of(case), ")"), ",") if of(case) else f"    {case.name},\n"
    return f"/// {said}\n#[derive(Drop)]\n{it.seen}enum {{0}} {{{{\n{lines}}}}}\n"


def kept(it):
    said = f"What is kept of a `{it.name}` until what its box holds is written."
    return variants_of(it, said, lambda case: [kept_of(it, case)] if case.count > 1 else []).format(f"{it.name}Kept")


def writing(it):
    out = [kept(it)]
    for case in it.cases:
        if case.count > 1 and opens(case):
            out.append(head_writing(it, case))
        elif case.count and not opens(case):
            out.append(writers.case_writing(it, case))
    return "\n".join(out + [source(it), serialize(it)])


def head_writing(it, case):
    """What writes the parts before a box."""
    sources = [f"⟦<{rust} as Archive>⟧" for rust in case.rust]
    its = f"⟦<{it.name} as Archive>⟧"
    names, last = case.names, case.names[-1]
    keys = infix("++", [f"{q}.keys {a}.now" for q, a in zip(sources, names)], "[]")
    meanings = chain("value", [f"({q}.meaning {a}.now)" for q, a in zip(sources, names)], "no_value")
    kepts = [f"r{'.1' * i}.0" for i in range(case.count - 1)] + ["t"]
    flats = chain("value", [f"({q}.flat {a}.now {r})" for q, a, r in zip(sources, names, kepts)], "no_value")
    belongs = infix("×", [f"{q}.belongs {a}.now {r}" for q, a, r in zip(sources, names, kepts)], "Unit {0}")
    D, X, states = f"{it.n}_definitions", f"{it.n}_shape", "(S.state serializer.old) (S.state serializer.new)"
    arguments = [f"{name}: &{rust}" for name, rust in zip(names, case.rust)] + ["serializer: &mut S"]
    head = signature(f"fn serialize_{case.n}", [it.writer], arguments, Group("Result<", [kept_of(it, case), "Error"], ">"))
    body = writers.parts_written(it, front(case), names[:-1])
    return f"""// Writes what the parts of `{case.name}` before its box own, in order.
#[inline(always)]
{head}
    ensures written {{ IfOk result (λ r. IsWrittenUpTo {D} {X} ({keys}) (case {case.tag} {meanings}) (λ t. case {case.tag} {flats}) (λ t. {belongs})
        ({its}.keys {last}.now.value) ({its}.meaning {last}.now.value) {states}) }}
    ensures goes_on {{ GoesOn {states} }}
    ensures refused {{ IfErr result (IsRefused {D} {X} ({keys}) (case {case.tag} {meanings}) {states}) }}
{{
    let _rest = {last};
{body}    Ok({flat(pair(names[:-1]))})
}}
"""


class Front:
    """The parts before a box, as a case."""

    def __init__(self, case):
        self.is_record, self.is_row, self.is_long = case.is_record, case.is_row, case.is_long
        self.names, self.types, self.leads_back, self.rust, self.read, self.archived, self.offsets = (
            part[:-1] for part in (case.names, case.types, case.leads_back, case.rust, case.read, case.archived, case.offsets)
        )
        self.tag, self.count = case.tag, case.count - 1


def front(case):
    return Front(case)


def source(it):
    n = it.n
    rests, heads, closes = "", "", ""
    for case in it.cases:
        resolver = f"{it.resolver}::{case.name}"
        if not opens(case):
            rests += f"            {flat(resolvers.pattern(it, case, ['_' + name for name in case.names]))} => None,\n"
            heads += whole_head(it, case, resolver)
            continue
        names = [f"_{name}" for name in case.names[:-1]] + [case.names[-1]]
        rests += f"            {flat(resolvers.pattern(it, case, names))} => Some(&**{case.names[-1]}),\n"
        heads += open_head(it, case)
        closes += close(it, case, resolver)
    return f"""impl<{it.writer}> ChainSource<S> for {it.name} {{
    ghost use Rattle.{it.declaration.crate}.specs.{it.family.name}Meaning.{{{n}_rest, {n}_closed}};

    type Kept = {it.name}Kept;

    ghost rest = {{ {n}_rest }};

    ghost closed = {{ {n}_closed }};

    #[inline(always)]
    fn rest(&self) -> Option<&Self> {{
        match self {{
{rests}        }}
    }}

    #[inline(always)]
    fn serialize_head(
        &self,
        serializer: &mut S,
    ) -> Result<WrittenHead<Self::Resolver, Self::Kept>, Error> {{
        match self {{
{heads}        }}
    }}

    #[inline(always)]
    fn close(kept: Self::Kept, at: BoxResolver) -> Self::Resolver {{
        match kept {{
{closes}        }}
    }}
}}
"""


def whole_head(it, case, resolver):
    """The arm of a variant that has no box."""
    pattern = flat(resolvers.pattern(it, case, case.names))
    if not case.count:
        return f"            {pattern} => Ok(WrittenHead::Whole({resolver})),\n"
    return f"""            {pattern} => match serialize_{case.n}({', '.join(case.names)}, serializer) {{
                Ok(kept) => Ok(WrittenHead::Whole({resolver}(kept))),
                Err(error) => Err(error),
            }},
"""


def open_head(it, case):
    """The arm of a variant with a box."""
    if case.count == 1:
        return f"            {flat(resolvers.pattern(it, case, ['_' + name for name in case.names]))} => Ok(WrittenHead::Open({it.name}Kept::{case.name})),\n"
    return f"""            {flat(resolvers.pattern(it, case, case.names))} => match serialize_{case.n}({', '.join(case.names)}, serializer) {{
                Ok(kept) => Ok(WrittenHead::Open({it.name}Kept::{case.name}(kept))),
                Err(error) => Err(error),
            }},
"""


def close(it, case, resolver):
    """The arm that puts the box's position behind what was kept."""
    names = [f"r{i}" for i in range(case.count - 1)]
    kept_ = f"({flat(pair(names))})" if names else ""
    return f"            {it.name}Kept::{case.name}{kept_} => {resolver}({flat(pair(names + ['at']))}),\n"


def serialize(it):
    return f"""impl<{it.writer}> Serialize<S> for {it.name} {{
    #[inline(always)]
    fn serialize(&self, serializer: &mut S) -> Result<Self::Resolver, Error> {{
        serialize_chain(self, serializer)
    }}
}}
"""


# ---- reading back ----


def fronts(it):
    said = f"What comes before the box of a `{it.name}`."
    return variants_of(it, said, lambda case: case.rust[:-1]).format(f"{it.name}Front")


def reading(it):
    out = [fronts(it), readers.made_reading(it)]
    for case in it.cases:
        out.append(head_reading(it, case) if opens(case) else readers.case_reading(it, case))
    return "\n".join(piece for piece in out + [back(it)] if piece)


def head_contract(it):
    said = f"HeadIsRead ⟦<{it.archived} as Portable>⟧ part D.Entries deserializer ⟦<{it.name} as Archive>⟧ {it.n}_around {it.n}_keys_around"
    return f"""    ensures read {{ IfOk result ({said}) }}
    ensures refused {{ IfErr result (RefusesPart ⟦<{it.archived} as ArchivePointee>⟧ part D.Entries deserializer) }}
"""


def head_reading(it, case):
    """What reads the parts before a box."""
    viewed = f"    requires viewed {{ IsPartOf ⟦<{it.archived} as ArchivePointee>⟧ part }}\n    requires tag {{ part_tag part ≡ {case.tag} }}\n"
    i, X = case.count - 1, case.archived[-1]
    where = Generic("part_of_variant", [it.archived, X], ["part", str(case.tag), str(i), str(case.offsets[i])])
    values = f"({', '.join(readers.made_values(it, front(case)))})" if case.count > 1 else ""
    body = readers.parts_read(it, front(case)) + statement(4, f"let p{i} = ", where, ";")
    body += f"    Ok(ReadHead::Open({it.name}Front::{case.name}{values}, p{i}.pos))\n"
    T = f"ReadHead<{it.name}, {it.name}Front>"
    text = readers.reader(it, case.n, T, viewed + head_contract(it), body, f"Reads the parts of `{case.name}` before its box back.", False)
    return text if case.count > 1 else text.replace("(alloc: Global", "(_alloc: Global").replace("deserializer", "_deserializer")


def back(it):
    n = it.n
    heads, around = "", ""
    for case in it.cases:
        tag = "_" if case is it.cases[-1] else str(case.tag)
        if opens(case):
            heads += f"            {tag} => read_{case.n}(alloc, part, deserializer),\n"
            values = f"({', '.join(case.names[:-1])})" if case.count > 1 else ""
            around += f"            {it.name}Front::{case.name}{values} => {flat(resolvers.pattern(it, case, case.names[:-1] + ['rest']))},\n"
            continue
        heads += f"""            {tag} => match read_{case.n}(alloc, part, deserializer) {{
                Ok(value) => Ok(ReadHead::Whole(value)),
                Err(error) => Err(error),
            }},
"""
    return f"""impl<D: Entries> ChainBack<{it.archived}, D> for {it.name} {{
    type Front = {it.name}Front;

    ghost around = {{ {n}_around }};

    ghost keys_around = {{ {n}_keys_around }};

    #[inline(always)]
    fn read_head(
        alloc: Global,
        part: RawView<'_>,
        deserializer: &mut D,
    ) -> Result<ReadHead<Self, Self::Front>, Error>
        requires {{ IsPartOf ⟦<{it.archived} as ArchivePointee>⟧ part }}
{head_contract(it).replace("    ensures", "        ensures")}    {{
        match tag_of_choice::<{it.archived}>(part) {{
{heads}        }}
    }}

    #[inline(always)]
    fn around(front: Self::Front, rest: Box<Self>) -> Self
        ensures meaning {{ ⟦<Self as Archive>⟧.meaning result ≡ {n}_around front (⟦<Self as Archive>⟧.meaning rest.value) }}
        ensures keys {{ ⟦<Self as Archive>⟧.keys result ≡ {n}_keys_around front (⟦<Self as Archive>⟧.keys rest.value) }}
    {{
        match front {{
{around}        }}
    }}
}}
"""
