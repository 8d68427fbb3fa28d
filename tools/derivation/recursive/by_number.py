"""How the variants of recursive enums are resolved: each by a function of the module for its number of fields, which is passed no impl of the enum.

An impl that a call is passed is written out by the check with all that it is made of. That of an enum is made of all its variants, and each variant's call would be
passed it: of six variants with up to three fields these came to gigabytes.
"""

from ..layout import call, flat, pair, signature, statement
from . import lent
from .term_words import brought

LETTERS = "ABCDEFGH"
# What the answers speak of beside what those on lent fields do.
CITED = [
    ("std.proofs.Common", "refl"),
    ("archive_core.proofs.fields.Ties", "zeroed_case"),
    ("archive_core.specs.Layout", "up"),
    ("archive_core.specs.SelfCheck.Regions", "no_lower rises_over"),
]


def goes(it):
    """Whether the variants are resolved so."""
    return not (it.is_record or it.is_holder)


def name(it, count):
    return f"resolve_{it.n}_{count}"


def counts(it):
    return sorted({case.count for case in it.cases if not case.is_long})


def nested(words, end, head=""):
    """`(head first (head second .. end))`."""
    out = end
    for word in reversed(words):
        out = f"({head}{word} {out})"
    return out


def end_of(letters, start, layout):
    """Where fields end that begin behind `start`."""
    out = start
    for X in letters:
        out = f"(up {out} {layout(X)}.align + {layout(X)}.size)"
    return out


def text(it):
    """The functions, one for each number of fields."""
    return "\n".join(resolving(it, count) for count in counts(it)) if goes(it) else ""


def resolving(it, count):
    n, f, letters = it.n, it.formats, LETTERS[:count]
    f.use("archive_core::fields", f"resolve_{count}")
    f.ghost("Shape", "variant_at", "part", "no_part")
    f.ghost("Layout", "up")
    f.ghost("Definitions", "both", "no_definition")
    f.ghost("OwnChoices", "variant_definitions")
    f.ghost("Value", "case", "value", "no_value")
    f.ghost("Writing", "Resolves", "ZeroedPlace")
    f.ghost("Causes", "HindersAt")
    f.ghosts.setdefault(f"{it.declaration.crate}.specs.{it.family.name}Shape", set()).update((f"{n}_variants", f"{n}_variant_definitions", f"{n}_definitions", f"{n}_shape"))
    kept = [f"resolvers{'.1' * i}.0" for i in range(count)]
    same = nested([f"{X}.belongs {X.lower()}.now {r} ×" for X, r in zip(letters, kept)], "Unit {0}")
    values = nested([f"({X}.flat {X.lower()}.now {r})" for X, r in zip(letters, kept)], "no_value", "value ")
    parts = nested([f"{X}.Archived.shape" for X in letters], "no_part", "part ")
    defined = nested([f"{X}.Archived.definitions" for X in letters], "no_definition", "both ")
    end = end_of(letters, "1", lambda X: f"{X}.Archived.layout")
    fields = [X.lower() for X in letters]
    head = signature(
        f"fn {name(it, count)}",
        [f"{X}: Archive" for X in letters],
        ["tag: u8", *(f"{X.lower()}: &{X}" for X in letters), "resolvers: " + flat(pair([f"{X}::Resolver" for X in letters])), f"place: Place<'_, {it.archived}>"],
        "Result<(), Error>",
    )
    many = "no field" if count == 0 else "a field" if count == 1 else f"{count} fields"
    return f"""// Writes a variant of {many} over zeros: its tag, and behind it the fields.
#[inline(always)]
{head}
    requires variant {{ variant_at {n}_variants tag ≡ Some {parts} }}
    requires definitions {{ variant_definitions {n}_variant_definitions tag ≡ {defined} }}
    requires inside {{ Unit {{0}} → {end} ≤ {it.size} }}
    requires zeroed {{ ZeroedPlace {it.size} place.pos place.bytes.now }}
    requires same_values {{ {same} }}
    ensures resolved {{ OnOk result (Resolves {n}_definitions place.entry.pos place.exit.0.now {n}_shape (case tag {values})) }}
    ensures same_length {{ length place.exit.0.now ≡ length place.entry.bytes.now }}
    ensures refused {{ IfErr result (HindersAt {n}_definitions {n}_shape (case tag {values}) place.entry.pos) }}
{{
    let Place {{ bytes, pos, .. }} = place;
    bytes[0] = tag;
{statement(4, "", call(f"resolve_{count}", [*fields, "resolvers", "pos", "1", "&mut bytes[1..]"]), "")}}}
"""


def files(it):
    """The answers on these functions, by their paths."""
    if not goes(it):
        return {}
    module = tuple(it.family.module)
    dotted, folder = ".".join((it.family.crate, "proofs") + module), f"proofs/{'/'.join(module)}"
    return {f"{folder}/{name(it, count)}/Answers.antt": answers(it, count, dotted) for count in counts(it)}


def rises(letters):
    """That fields end behind the tag."""
    layout = lambda X: f"g.{X}.Archived.Portable.layout"
    out = "no_lower"
    for i, X in reversed(list(enumerate(letters))):
        behind = f"(λ n. {end_of(letters[i + 1:], 'n', layout)})"
        lower = out if i == len(letters) - 1 else f"(λ m. {out})"
        out = f"(rises_over {'m' if i else '1'} {layout(X)}.align {layout(X)}.size g.met.{X}.Archived.Portable.is_align {behind} {lower})"
    return out


def answers(it, count, dotted):
    from .proofs import ON_OK

    zeroed = f"""
pub resolve_{count}-requires-clause-zeroed : goal.resolve_{count}-requires-clause-zeroed
resolve_{count}-requires-clause-zeroed g c = zeroed_case _ _ _ c.args.tag _ (c.requires.inside tt) {rises(LETTERS[:count])} c.requires.zeroed _ refl
"""
    some = "    let some : 0 < length old = omega (arith, c.requires.zeroed.sized) in"
    args = "g c" if count else "c"  # the first is of the impls that it is passed
    body = f"{ON_OK}{zeroed if count else ''}\n{lent.whole_answers(it, f'resolve_{count}', some, args)}"
    return f"-- {it.written}\n{brought(body, lent.CITED + CITED + [lent.shapes(it)])}use Rattle.{dotted}.{name(it, count)}.Goals as goal\n\n{body}"
