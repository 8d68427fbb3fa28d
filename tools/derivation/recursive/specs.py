"""The definitions that stand beside the modules of recursive types: what they look like, and what their values mean. A family has one file of each."""

from . import arrays
from . import chain_specs as chains
from . import holders
from . import slices
from ..formats import ALIGNS
from ..model import Type
from .plain import items_of, product
from .term_words import around, brought, brought_owns, places, something
from .weak import SPOKEN as SPOKEN_OF_WEAK
from .weak import held_in, option_of, vectors
from . import reached
from . import mapped_lists


def of_each(family, piece):
    return [line for it in family.members for line in piece(it)]


# ---- what archived types look like ----

# What a proof names that each definition of a family is reached.
REACHED = [
    ("archive_core.specs.Defined", "Involves involves involves_through mentions_held mentions_first mentions_later mentions_parts mentions_variant mentions_other"),
    ("archive_core.specs.Defined", "mentions_choice mentions_boxed mentions_one mentions_run mentions_vec mentions_shared mentions_weak mentions_array holds_name"),
    ("archive_core.specs.Definitions", "listed"),
    ("std.proofs.Common", "zero suc arith"),
]


# What a proof names that those of types of other families are.
INNER = [
    ("archive_core.specs.PartsLayout", "knows_left knows_right"),
    ("archive_core.specs.Shape", "Table"),
    ("std.proofs.Common", "⊎_elim Contains"),
    ("std.proofs.lemmas.List.Elements", "Contains-append_left Contains-append_right Contains-append_cases"),
]


# What plain parts and lists speak of beside the rest.
SPOKEN = [("std.specs.Prelude", "false ◌∷◌ ◌<◌ ◌^◌ Bool Result")]


def shape(family):
    """What the archived types look like: their names, and what the names stand for."""
    if family.first.is_holder:
        lines = holders.shape(family.first)
    else:
        lines = of_each(family, named) + of_each(family, rows) + of_each(family, stood_for)
        nested = family.is_nested
        lines += of_each(family, reached.brings) if nested else []
        lines += of_each(family, reached.inner_laws) if family.first.inner else []
        lines += [line for it in family.inner_first for line in reached.defined(it)]
        lines += of_each(family, lambda it: ([] if nested else reached.brings(it)) + rows_laid(it) + stands(it))
    if family.first.is_chain:
        lines += chains.shape(family.first, reached.knows_parts)
    body = "\n".join(lines)
    more = SPOKEN + ([] if family.first.is_simple else REACHED) + (INNER if family.first.inner else [])
    return f"-- What an archived {' and an archived '.join(it.name for it in family.members)} looks like. {family.first.written}\n{brought(body, more)}{owns(family, body)}\n{body}"


def owns(family, body):
    return "".join(sorted({line + "\n" for it in family.members for line in brought_owns(it.terms, body).splitlines()}))


def named(it):
    n = it.n
    return [f"abbrev pub {n}_name : Name\n{n}_name = codes \"{it.archived}\"\n", f"abbrev pub {n}_shape : Shape\n{n}_shape = named {n}_name\n"]


def rows(it):
    """The tuples in vectors that lead back, and the maps: what they look like."""
    lines = []
    for type in it.rows:
        w = it.word(type)
        lines.append(f"abbrev pub {w}_parts : Parts\n{w}_parts = {it.terms.parts(type.args)}\n")
        lines.append(f"abbrev pub {w}_shape : Shape\n{w}_shape = parts {w}_parts\n")
    for type in it.maps:
        lines.append(f"abbrev pub {it.word(type)}_shape : Shape\n{it.word(type)}_shape = {reached.unwrapped(it.terms.shape(type))}\n")
    return lines


def rows_laid(it):
    """And where their parts lie."""
    lines = []
    for type in it.rows:
        w = it.word(type)
        size, align = it.formats.layout(type)
        lines.append(f"abbrev pub {w}_layout : Layout\n{w}_layout = record {{ size = {size}; align = {align} }}\n")
        parts = holders.PartsOf(it, type.args)
        its = f"record_has_layout {w}_definitions {w}_parts _ _ _ {parts.laid()}"
        lines.append(f"pub {w}_is_align : IsAlign {align}\n{w}_is_align = {ALIGNS[align]}\n")
        lines.append(f"pub {w}_has_layout : HasLayout {w}_definitions {w}_shape {w}_layout\n{w}_has_layout = {its}\n")
        lines.append(f"pub {w}_no_others : NoOthers {w}_definitions {w}_shape\n{w}_no_others = {parts.reached()}\n")
        lines.append(f"pub {w}_has_parts : IsRecord {w}_definitions {w}_shape {w}_definitions {w}_parts\n{w}_has_parts = is_record {w}_definitions {w}_parts\n")
    return lines


def stood_for(it):
    n, t, lines = it.n, it.terms, []
    if it.is_record:
        lines.append(f"abbrev pub {n}_parts : Parts\n{n}_parts = {t.parts(it.types)}\n")
        return lines + [f"abbrev pub {n}_stands_for : Shape\n{n}_stands_for = parts {n}_parts\n"]
    for case in it.cases:
        lines.append(f"abbrev pub {case.n}_parts : Parts\n{case.n}_parts = {t.parts(case.types)}\n")
    chain = "no_variant"
    for case in reversed(it.cases):
        chain = f"(variant {case.n}_parts {chain})"
    lines.append(f"abbrev pub {n}_variants : Variants\n{n}_variants = {chain}\n")
    return lines + [f"abbrev pub {n}_stands_for : Shape\n{n}_stands_for = choice {n}_name {n}_variants\n"]


MORE = """{n}_more : {{old new : Table}} {{m : Name}} {{X : Shape}} → ((o : Name) (Y : Shape) → Contains old (o, Y) → Contains new (o, Y)) → Involves old m X → Involves new m X
{n}_more more (involves m) = involves m
{n}_more more (involves_through m c i) = involves_through m (more _ _ c) ({n}_more more i)
"""


def laid_out(it):
    """That what it stands for has its layout: by those of its parts, where a type of its family is one."""
    if not it.nest and not any(holders.has_described(type) for case in it.cases for type in case.types):
        return "refl"
    if it.is_record:
        return f"(record_has_layout {it.n}_part_definitions {it.n}_parts _ _ _ {holders.PartsOf(it, it.types).laid()}).solved s {reached.known_parts(it)}"
    return f"(let its = {holders.variants_laid(it)} in let known = {reached.known_parts(it)} in rw (its.aligned s known, its.ends s known) refl)"


def stands(it):
    """That it stands for its parts."""
    n = it.n
    if it.is_record:
        return [
            f"pub {n}_has_parts : IsRecord {n}_definitions {n}_shape {n}_part_definitions {n}_parts\n"
            f"{n}_has_parts = record {{ stands = λ s k. by_name {reached.has(it)}; known = λ s k. {reached.knows_parts(it, it.types)} }}\n",
        ]
    known = reached.known_parts(it)
    said = f"pub {n}_has_variants : IsChoice {n}_definitions {n}_shape {n}_name {n}_variant_definitions {n}_variants\n{n}_has_variants ="
    if it.is_simple:
        return [f"{said} is_recursive_choice {n}_name {n}_variant_definitions {n}_variants (λ s k. {known})\n"]
    return [f"{said} record {{ stands = λ s k. by_name {reached.has(it)}; known = λ s k. {known} }}\n"]


# ---- what values mean ----

SAID = [("meaning", "Value", "means"), ("keys", "(List Naming)", "has_keys")]
LETTERS = "ABCDEFGHIJKLMNOPQRSTUVWXYZ"


def meaning(family):
    """What values mean, layer by layer, and the laws of it."""
    if family.first.is_holder:
        return meaning_of_holder(family.first)
    has_arrays = any(map(arrays.arrays_of, family.members))
    lines = vectors(family) + slices.laws(family) + of_each(family, mapped_lists.together) + (pairs(family) if family.shares else [])
    lines += [arrays.LAWS] if has_arrays else []
    for which, type, word in SAID:
        if not family.shares:
            lines += [mapped_lists.layer(it, which, type) for it in family.members]
        for it in family.members:
            its = f" t = ({it.n}_both t){PLACES[which]}" if family.shares else f" = {mapped_lists.fold(it, which, type, 'fold')}"
            lines.append(f"pub {it.n}_{which} : {it.source} → {type}\n{it.n}_{which}{its}\n")
        for it in family.members:
            lines.append(mapped_lists.rolled(it, which, type, word))
            lines.append(mapped_lists.opened(it, which, word))
    lines += [line for it in family.inner_first for line in flats(it)]
    lines += of_each(family, rows_meaning)
    if family.first.is_chain:
        lines += chains.meaning(family.first)
    lines += laws(family)
    body = "\n".join(lines)
    more = SPOKEN + SPOKEN_OF_WEAK + slices.SPOKEN + [(family.declared(family.ordered[0].name, "TheFolds"), " ".join(f"map-{it.name}" for it in family.members)), ("std.proofs.Common", PRELUDE_COMMON)]
    more += arrays.SPOKEN if has_arrays else []
    aliases = ""
    for it in family.members:
        N = it.name
        more.append((family.declared(N), f"{N}-F out-{N} roll-{N} fold-{N} fold-roll-{N} ind-{N} roll-out-{N} out-roll-{N}"))
        more.append((family.declared(it.resolver), it.resolver))
        aliases += f"use Rattle.{family.declared(N)}.{{{N} as {it.source}}}\n" + it.plain_types(body)
        if not it.is_record:
            paths = [(family.declared(family.ordered[0].name, "TheOpen"), it.layer), (family.declared(N, "TheVariants"), it.its), (family.declared(it.resolver, "TheVariants"), it.kept)]
            aliases += "".join(line for path, alias in paths if (line := f"use Rattle.{path} as {alias}\n") not in aliases)
    if family.first.is_chain:
        aliases += chains.aliases(family.first)
    names = [w for it in family.members for w in it.shape_names() if w in body]
    shape_ = f"use Rattle.{family.crate}.specs.{family.name}Shape.{{{', '.join(names)}}}\n"
    return f"-- What {' and '.join(it.name for it in family.members)} mean{'s' if len(family.members) == 1 else ''}. {family.first.written}\n{brought(body, more)}{shape_}{aliases}{owns(family, body)}\n{body}"


def meaning_of_holder(it):
    """The same of a type that isn't recursive."""
    body = "\n".join(holders.meaning(it))
    family = it.family
    more = SPOKEN + [("std.proofs.Common", PRELUDE_COMMON), (family.declared(it.resolver), it.resolver)]
    aliases = f"use Rattle.{family.declared(it.name)}.{{{it.name} as {it.source}}}\n" + it.plain_types(body)
    if not it.is_record:
        aliases += "".join(f"use Rattle.{family.declared(of, 'TheVariants')} as {alias}\n" for of, alias in ((it.name, it.its), (it.resolver, it.kept)))
    names = ", ".join(w for w in it.shape_names() if w in body)
    shape_ = f"use Rattle.{family.crate}.specs.{family.name}Shape.{{{names}}}\n"
    return f"-- What {it.name} means. {it.written}\n{brought(body, more)}{shape_}{aliases}{owns(family, body)}\n{body}"


# What is said of a value whose keys have what it means, too; the places of both in a pair.
BOTH = "(Value × (List Naming))"
PLACES = {"meaning": ".0", "keys": ".1"}


def rows_meaning(it):
    """What the tuples in vectors mean that lead back."""
    lines = []
    for type in it.rows:
        for which, its, _ in SAID:
            body = getattr(it.terms, which)(type, "t", it.terms.own(which))
            lines.append(f"abbrev pub {it.word(type)}_{which} : {it.antt(type)} → {its}\n{it.word(type)}_{which} t = {body}\n")
    return lines


def pairs(family):
    """What values mean and their keys, by one fold."""
    lines = [mapped_lists.layer(it, which, type) for which, type, _ in SAID for it in family.members]
    letters = LETTERS[:len(family.members)]
    names = ["p"] if len(letters) == 1 else [f"p{i}" for i in range(len(letters))]
    firsts, seconds = ("".join(f" (λ v. ({name} v){place})" for name in names) for place in PLACES.values())
    for it in family.members:
        takes = "".join(f"({letter} → {BOTH}) → " for letter in letters)
        out = f"abbrev pub {it.n}_both_layer : {{{' '.join(letters)} : Type 0}} → {takes}{it.name}-F {' '.join(letters)} → {BOTH}\n"
        lines.append(f"{out}{it.n}_both_layer {' '.join(names)} t = ({it.n}_meaning_layer{firsts} t, {it.n}_keys_layer{firsts}{seconds} t)\n")
    for it in family.members:
        lines.append(f"pub {it.n}_both : {it.source} → {BOTH}\n{it.n}_both = {mapped_lists.fold(it, 'both', BOTH, 'fold')}\n")
    return lines


PRELUDE_COMMON = "ap subst sym ◌∙◌ inl inr ℤ Box Global String Vec BTreeMap"


def flats(it):
    """What is read in a value's place, and which resolvers are its own."""
    n, N, t = it.n, it.name, it.terms
    if it.is_record:
        values = [f"(out-{N} t).{field.name}" for field in it.fields]
        return [
            f"-- what is read in its place\nabbrev pub {n}_flat : {it.source} → {it.resolver} → Value\n{n}_flat t r = product {t.parts_flat(it.types, values, 'r.kept')}\n",
            f"abbrev pub {n}_belongs : {it.source} → {it.resolver} → Type 0\n{n}_belongs t r = {t.parts_belong(it.types, values, 'r.kept')}\n",
        ]
    flat, belongs, opens = "", "", []
    other = " | _ ↦ {}" if len(it.cases) > 1 else ""
    for pattern, case in mapped_lists.layers(it):
        kept = f"{it.kept}.{case.name} s" if case.binders else f"{it.kept}.{case.name}"
        its = f"case {case.tag} {t.parts_flat(case.types, case.binders, 's')}"
        mine = t.parts_belong(case.types, case.binders, "s")
        flat += f"{n}_flat_layer {pattern} r = " + (f"elim r [ {kept} ↦ {its}{other.format(f'case {case.tag} no_value')} ]\n" if case.binders else f"{its}\n")
        belongs += f"{n}_belongs_layer {pattern} r = elim r [ {kept} ↦ {mine}{other.format('⊥')} ]\n"
        arguments = mapped_lists.arguments_of(it, case)
        names = "".join(f" {b}" for b in case.binders)
        arrow = f"{arguments} → " if arguments else " "
        opens.append(f"pub {case.n}_opens :{arrow}out-{N} {mapped_lists.made(it, case)} ≡ {pattern}\n{case.n}_opens{names} = ap out-{N} (sym {mapped_lists.rolls(it, case)}) ∙ out-roll-{N} {pattern}\n")
    return [
        f"-- what is read in its place, by the resolver of the same variant\nabbrev pub {n}_flat_layer : {N}-F {mapped_lists.sources(it)} → {it.resolver} → Value\n{flat}",
        f"abbrev pub {n}_flat : {it.source} → {it.resolver} → Value\n{n}_flat v r = {n}_flat_layer (out-{N} v) r\n",
        f"abbrev pub {n}_belongs_layer : {N}-F {mapped_lists.sources(it)} → {it.resolver} → Type 0\n{belongs}",
        f"abbrev pub {n}_belongs : {it.source} → {it.resolver} → Type 0\n{n}_belongs v r = {n}_belongs_layer (out-{N} v) r\n",
    ] + opens


def laws(family):
    """The laws, by induction: each layer has them where what it holds has them."""
    out = []
    for law, text in (("keyed", "IsKeyed ({n}_keys {x}) ({n}_meaning {x})"), ("planned", "HasPlan {n}_definitions {n}_shape ({n}_keys {x}) ({n}_meaning {x})")):
        for it in family.members:
            out += law_of_layer(it, law, text)
        claims = mapped_lists.each_type(family, lambda it: f"(λ t. {text.format(n=it.n, x='t')})")
        steps = mapped_lists.each_type(family, lambda it: f"(λ x y is. subst (λ z. {text.format(n=it.n, x=f'(roll-{it.name} z)')}) is ({it.n}_{law}_layer y))")
        for it in family.members:
            out.append(f"pub {it.n}_{law} : (t : {it.source}) → {text.format(n=it.n, x='t')}\n{it.n}_{law} = ind-{it.name} {claims} {steps}\n")
    return out


def law_of_layer(it, law, text):
    """A law of a layer, in which each value has the law beside it."""
    n, N = it.n, it.name
    held = {other.name: f"((t : {other.source}) × {text.format(n=other.n, x='t')})" for other in it.family.ordered}
    mapped = f"(roll-{N} (map-{N} {' '.join(held.values())} {mapped_lists.sources(it)} {mapped_lists.each_type(it.family, lambda _: '(λ e. e.0)')} {{0}}))"
    claim = text.format(n=n, x=mapped)
    said = f"{n}_{law}_layer : (y : {N}-F {' '.join(held.values())}) → {claim.format('y')}\n"
    proof = keyed if law == "keyed" else planned
    steps = lambda case: [(values, proof(it, case, values)) for values in mapped_lists.splits(it, case)]
    at = [mapped_lists.proved_at(it, case, law, claim, "", steps(case), held)[:-1] for case in ([it] if it.is_record else it.cases) if mapped_lists.is_by_options(it, case)]
    if it.is_record and at:
        return at + [f"{said}{n}_{law}_layer y = {n}_{law}_at {mapped_lists.arguments_at(it, it, 'y')}\n"]
    if it.is_record:
        return [f"{said}{n}_{law}_layer y = {proof(it, it, [f'y.{field.name}' for field in it.fields])}\n"]
    lines = ""
    for case in it.cases:
        if mapped_lists.is_by_options(it, case):
            lines += f"{n}_{law}_layer {mapped_lists.layer_of(it, case, case.binders)} = {case.n}_{law}_at {mapped_lists.arguments_at(it, case)}\n"
        else:
            lines += "".join(f"{n}_{law}_layer {mapped_lists.layer_of(it, case, values)} = {its}\n" for values, its in steps(case))
    return at + [said + lines]


def keyed(it, case, values):
    its = it.terms.parts_keyed(case.types, values)
    its = f"record_keyed {its}" if it.is_record else f"case_keyed _ {case.tag} _ {its}"
    return f"keyed_as ({it.n}_has_keys_roll _) ({it.n}_means_roll _) ({its})"


def planned(it, case, values):
    n = it.n
    its = held_plan(it, case, values)
    if it.is_record:
        its = f"record_planned {n}_definitions {n}_shape {n}_part_definitions {n}_parts _ _ {n}_has_parts {its}"
    else:
        whole = f"{n}_definitions {n}_shape {n}_name {n}_variant_definitions {n}_variants {n}_has_variants"
        its = f"variant_planned {whole} {case.tag} {case.n}_parts refl {case.n}_definitions refl _ _ {its}"
    return f"planned_as ({n}_has_keys_roll _) ({n}_means_roll _) ({its})"


def held_plan(it, case, values):
    """The plan of parts of which each value of the family has its plan beside it: without the terms that the goal has."""
    out = "no_part_planned"
    for type, x in reversed(list(zip(case.types, values))):
        t = it.terms
        its = f"(product_planned _ _ _ _ {held_plan(it, it.row(type), places(type, x))})" if t.is_row(type) else t.planned(type, x, True)
        out = f"(part_planned {t.definitions(type)} {t.shape(type)} {held_keys(it, type, x)} {held_meaning(it, type, x)} {its} {out})"
    return out


def held_keys(it, type, x):
    t = it.terms
    if t.is_member(type):
        return f"({t.n_of(type)}_keys {x}.0)"
    if t.is_row(type):
        out = "[]"
        for arg, y in reversed(list(zip(type.args, places(type, x)))):
            out = f"({held_keys(it, arg, y)} ++ {out})"
        return out
    if t.leads_back(type) and type.name == "Box":
        return held_keys(it, type.args[0], f"{x}.value")
    if t.is_option(type):
        return "[]" if x == "None" else held_keys(it, type.args[0], something(x))
    if t.is_weak(type):
        return held_keys(it, Type("Shared", type.args), held_in(x)) if held_in(x) else "[]"
    if t.is_shared(type):
        item, y = type.args[0], f"{x}.value.value"
        return f"(rc_keys {x}.key (one {t.shape(item)}) 0 {held_meaning(it, item, y)} {held_keys(it, item, y)})"
    if t.is_shared_slice(type):
        n, xs = t.n_of(type.args[0]), f"(map (λ e. e.0) {items_of(type, x)})"
        return t.slice_keys(type, x, xs, f"(each_meaning {n}_meaning {xs})", f"(each_keys {n}_keys {xs})")
    if t.leads_back(type) and not t.is_member(type.args[0]):
        return "_"
    if t.leads_back(type):
        return f"(each_keys {t.n_of(type.args[0])}_keys (map (λ e. e.0) {items_of(type, x)}))"
    return t.keys(type, x, "")


def held_meaning(it, type, x):
    t = it.terms
    if t.is_member(type):
        return f"({t.n_of(type)}_meaning {x}.0)"
    if t.is_row(type):
        return f"(product {product([held_meaning(it, arg, y) for arg, y in zip(type.args, places(type, x))])})"
    if t.leads_back(type) and type.name == "Box":
        return f"(box {held_meaning(it, type.args[0], f'{x}.value')})"
    if t.is_option(type):
        return "(case 0 no_value)" if x == "None" else f"(case_of 1 {held_meaning(it, type.args[0], something(x))})"
    if t.is_weak(type):
        return held_meaning(it, Type("Shared", type.args), held_in(x)) if held_in(x) else "null"
    if t.is_shared(type) or t.is_shared_slice(type):
        return f"(shared_value {x}.key)"
    if t.leads_back(type) and not t.is_member(type.args[0]):
        return "_"
    if t.leads_back(type):
        return around(type, f"(list (each_meaning {t.n_of(type.args[0])}_meaning (map (λ e. e.0) {items_of(type, x)})))")
    return t.meaning(type, x, "")
