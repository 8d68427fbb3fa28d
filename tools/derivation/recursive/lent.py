"""How recursive types, and those that hold them, are resolved whose records or variants have more fields than the library has calls for by their number.

The fields are lent, in a struct of references to them and to the hollow parts that stand for what was written before; `resolve_record` goes over their nest. Of a
variant a function of the module does, which is passed no impl of the enum: with all its variants that came to too much.
"""

from ..layout import Generic, literal, statement
from ..long import lent
from .term_words import brought

RESOLVED = "resolve_lent"
# What the answers speak of.
CITED = [
    ("std.proofs.Common", "◌≡◌ ◌+◌ ◌-◌ ◌<◌ ◌∷◌ length drop slice_set arith"),
    ("std.proofs.lemmas.List", "length-take length-drop length-set"),
    ("std.specs.Prelude", "Result Ok Err OnOk"),
    ("archive_core.proofs.Causes", "err_from"),
    ("archive_core.proofs.OwnChoices", "resolves_variant variant_hindered tagged_whole"),
]


def long_cases(it):
    return [case for case in it.cases if case.is_long]


def word(it, case):
    return it.name if it.is_record else f"{it.name}{case.name}"


def function(it):
    return f"{RESOLVED}_{it.n}"


def text(it):
    """The structs of references, with the function that resolves a variant of an enum."""
    from .resolvers import hollows

    f, out = it.formats, []
    for case in long_cases(it):
        f.use("archive_core::traits", "FourParts")
        path = it.name if it.is_record else f"{it.name}::{case.name}"
        out.append(lent(f, word(it, case), path, hollows(it, case)[0]))
    if out and not it.is_record:
        out.append(resolving(it))
    return "\n".join(out)


def resolving(it):
    n, f = it.n, it.formats
    f.use("archive_core::parts", "SourceParts")
    f.ghost("Shape", "variant_at")
    f.ghost("OwnChoices", "variant_definitions")
    f.ghost("Writing", "Resolves")
    f.ghost("Causes", "HindersAt")
    f.ghosts.setdefault(f"{it.declaration.crate}.specs.{it.family.name}Shape", set()).update((f"{n}_variants", f"{n}_variant_definitions"))
    return f"""// Writes a variant of many fields over zeros, its tag and behind it the fields, which `whole` lends.
#[inline(always)]
fn {function(it)}<T, P: SourceParts<T>>(
    tag: u8,
    whole: &T,
    resolvers: P::Resolvers,
    place: Place<'_, {it.archived}>,
) -> Result<(), Error>
    requires variant {{ variant_at {n}_variants tag ≡ Some P.Archived.parts }}
    requires definitions {{ variant_definitions {n}_variant_definitions tag ≡ P.Archived.definitions }}
    requires inside {{ P.Archived.end 1 ≤ {it.size} }}
    requires zeroed {{ ZeroedPlace {it.size} place.pos place.bytes.now }}
    requires same_values {{ P.belongs whole.now resolvers }}
    ensures resolved {{ OnOk result (Resolves {n}_definitions place.entry.pos place.exit.0.now {n}_shape
        (case tag (P.flats whole.now resolvers))) }}
    ensures same_length {{ length place.exit.0.now ≡ length place.entry.bytes.now }}
    ensures refused {{ IfErr result (HindersAt {n}_definitions {n}_shape
        (case tag (P.flats whole.now resolvers)) place.entry.pos) }}
{{
    let Place {{ bytes, pos, .. }} = place;
    bytes[0] = tag;
    P::resolve_parts(whole, resolvers, pos, 1, &mut bytes[1..])
}}
"""


def call(it, case, values, kept, indent):
    """The lines that lend the fields and resolve them."""
    name = word(it, case)
    fields = [value if value == at else f"{at}: {value}" for at, value in zip(case.names, values)]
    lines = statement(indent, "let lent = ", literal(f"{name}Lent", fields), ";")
    types, rest = [f"{name}Lent<'_>", f"{name}Fields"], ["&lent", kept, "Place::new(pos, bytes)"]
    if it.is_record:
        it.formats.use("archive_core::record", "resolve_record")
        return lines + statement(indent, "", Generic("resolve_record", types + [it.archived], rest), "")
    return lines + statement(indent, "", Generic(function(it), types, [str(case.tag)] + rest), "")


def files(it):
    """The answers on the function of the module."""
    if it.is_record or not long_cases(it):
        return {}
    module = tuple(it.family.module)
    dotted = ".".join((it.family.crate, "proofs") + module)
    return {f"proofs/{'/'.join(module)}/{function(it)}/Answers.antt": answers(it, dotted)}


def whole_answers(it, call, some, args="g c"):
    """The answers on a variant whose tag and fields are written, these by the call of this name: `some` says why there is a byte."""
    n, its = it.n, f"c.{call}"
    whole = f"{n}_has_variants c.args.tag _ c.requires.variant _ c.requires.definitions _ c.args.place.pos"
    return f"""pub returns-clause-resolved : goal.returns-clause-resolved
returns-clause-resolved {args} =
    let old = c.args.place.bytes.now in
    let tagged = slice_set old 0 c.args.tag in
    let new = {its}.new.bytes in
{some}
    let few : length new + 1 ≡ length old = omega (arith, some, {its}.ensures.same_length, length-take (length tagged - 1) (drop 1 tagged), length-drop 1 tagged, length-set old 0 c.args.tag) in
    let sized : length (c.args.tag ∷ new) ≡ {it.size} = omega (arith, few, c.requires.zeroed.sized) in
    on_ok {its}.result
    (λ h. rw (tagged_whole c.args.tag (length tagged - 1) old new some (omega (arith, length-set old 0 c.args.tag)))
    (resolves_variant _ _ _ _ _ {whole} {n}_layout {n}_has_layout new sized h))
    {its}.ensures.resolved

pub returns-clause-refused : goal.returns-clause-refused
returns-clause-refused {args} = err_from {its}.result {its}.ensures.refused (λ e h. variant_hindered _ _ _ _ _ {whole} e h)
"""


def answers(it, dotted):
    from .proofs import ON_OK

    some = """    let rises = g.met.P.Archived.CheckedParts.rises 1 in
    let some : 0 < length old = omega (arith, rises, c.requires.inside, c.requires.zeroed.sized) in"""
    body = f"{ON_OK}\n{whole_answers(it, 'resolve_parts', some)}"
    return f"-- {it.written}\n{brought(body, CITED + [shapes(it)])}use Rattle.{dotted}.{function(it)}.Goals as goal\n\n{body}"


def shapes(it):
    """What the answers speak of the module's own shapes."""
    return f"{it.family.crate}.specs.{it.family.name}Shape", f"{it.n}_has_variants {it.n}_layout {it.n}_has_layout"
