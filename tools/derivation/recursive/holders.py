"""Types that hold a recursive type and aren't recursive themselves: which are written part by part, and what these look like and mean.

Such a type has no name in a schema: it is its parts or its variants, with the definitions that these bring. Functions of its own write and read it part by
part, as they do a recursive type, but none of them calls itself.
"""

from typing import List

from ..formats import ALIGNS, has_shared
from ..model import Declaration, Field, Refused, Type
from .plain import ARRAYS, is_shaped
from .refusals import MOST_BY_NAME, MOST_FLAT, PLAIN, recursive_in


# That what the argument of a type mentions is mentioned in the type.
AROUND = {
    ("BTreeMap", 1): "mentions_map ({})",
    ("Box", 0): "mentions_boxed (mentions_one ({}))",
    ("BoxSlice", 0): "mentions_boxed (mentions_run ({}))",
    ("Option", 0): "mentions_choice (mentions_other (mentions_variant (mentions_first ({}))))",
    ("OwnedArray", 0): "mentions_array ({})",
    ("Result", 0): "mentions_choice (mentions_variant (mentions_first ({})))",
    ("Result", 1): "mentions_choice (mentions_other (mentions_variant (mentions_first ({}))))",
    ("Shared", 0): "mentions_shared (mentions_one ({}))",
    ("SharedSlice", 0): "mentions_shared (mentions_run ({}))",
    ("Vec", 0): "mentions_vec ({})",
    ("WeakShared", 0): "mentions_weak (mentions_one ({}))",
    ("array", 0): "mentions_array ({})",
}


def tell(it: Declaration):
    """Tells whether a declaration is written so. A struct that isn't is archived as a tuple."""
    if it.holds_recursive and not it.parameters and not it.instance_of and not it.holder and all(fits(it, fields) for fields in groups(it)):
        it.holder, it.family = True, [it]


def groups(it: Declaration) -> List[List[Field]]:
    return [it.fields] if it.kind == "struct" else [variant.fields for variant in it.variants]


def fits(it: Declaration, fields: List[Field]) -> bool:
    most = MOST_FLAT if it.kind == "struct" and all(is_flat(field.type) for field in fields) else MOST_BY_NAME
    return len(fields) <= most and all(is_part(it, field.type) for field in fields)


def is_flat(type: Type) -> bool:
    """Whether a part is a number, a text or a recursive type itself."""
    return not type.args and (type.own is None or type.own.recursive)


def is_part(it: Declaration, type: Type) -> bool:
    """Whether the type is one of those that a part may have."""
    if type.own is None:
        return type.name in PLAIN and all(is_part(it, arg) for arg in type.args)
    if type.args:
        return False
    if type.own.recursive:
        return not shares(type.own)
    if type.own.holds_recursive:
        tell(type.own)
        return type.own.holder
    return is_shaped(type, it.path)


def shares(it: Declaration) -> bool:
    """Whether a recursive type leads to itself behind a shared pointer."""
    return any(has_shared(field.type, it.family) for other in it.family for field in other.all_fields())


def check(it: Declaration):
    """Refuses what holds a recursive type and can't be written."""
    for field in it.all_fields():
        check_slices(it, field.type, field.line)
    if not it.holds_recursive or it.holder or it.kind == "struct":
        return
    if it.instance_of:
        raise Refused(it.path, it.line, f"`{it.name}` holds a recursive type and is of an enum with type parameters; write one without")
    for field in it.all_fields():
        check_part(it, field.type, field.line)


def check_slices(it: Declaration, type: Type, line: int):
    """A shared slice of recursive values stands in no other type: its views aren't proved."""
    if type.own is None and type.name == "SharedSlice" and recursive_in(type):
        raise Refused(it.path, line, f"a `SharedSlice` of the recursive `{recursive_in(type)}` isn't written in another type; write a `Vec` of `Shared`s")
    for arg in type.args:
        check_slices(it, arg, line)


def check_part(it: Declaration, type: Type, line: int):
    if is_part(it, type):
        return
    if type.own is None and type.name in PLAIN:
        for arg in type.args:
            check_part(it, arg, line)
    if type.own is not None and not type.args and not type.own.holds_recursive and not type.own.recursive:
        raise Refused(it.path, line, f"`{type.own.name}` has fields that tools/derive doesn't write beside `{it.name}`, which holds a recursive type; move it to another file")
    if type.own is not None and type.own.recursive:
        raise Refused(it.path, line, f"`{type.own.name}` leads to itself behind a shared pointer, and an enum around it isn't written yet; put it into a struct")
    what = f"`{type.own.name}`" if type.own is not None else f"this field of `{it.name}`"
    raise Refused(it.path, line, f"{what} isn't written yet in an enum that holds a recursive type; put it into a struct of another file")


# ---- what archived types look like ----


def shape(it):
    """What the archived type looks like: its parts or variants, the definitions that they bring, and the laws of these."""
    return record_shape(it) if it.is_record else choice_shape(it)


def record_shape(it):
    n, parts = it.n, PartsOf(it, it.types)
    return [
        f"abbrev pub {n}_parts : Parts\n{n}_parts = {parts.shape}\n",
        f"abbrev pub {n}_definitions : Definitions\n{n}_definitions = {parts.definitions}\n",
        f"abbrev pub {n}_part_definitions : Definitions\n{n}_part_definitions = {n}_definitions\n",
        f"abbrev pub {n}_shape : Shape\n{n}_shape = parts {n}_parts\n",
        *laid_out(it, f"record_has_layout {n}_definitions {n}_parts _ _ _ {parts.laid()}"),
        f"pub {n}_no_others : NoOthers {n}_definitions {n}_shape\n{n}_no_others = {parts.reached()}\n",
        f"pub {n}_has_parts : IsRecord {n}_definitions {n}_shape {n}_part_definitions {n}_parts\n{n}_has_parts = is_record {n}_definitions {n}_parts\n",
    ]


def choice_shape(it):
    n, lines = it.n, [f"abbrev pub {it.n}_name : Name\n{it.n}_name = codes \"{it.archived}\"\n"]
    for case in it.cases:
        parts = PartsOf(it, case.types)
        lines.append(f"abbrev pub {case.n}_parts : Parts\n{case.n}_parts = {parts.shape}\n")
        lines.append(f"abbrev pub {case.n}_definitions : Definitions\n{case.n}_definitions = {parts.definitions}\n")
    variants, definitions, reached = "no_variant", "no_definition", "no_variants_reached"
    for case in reversed(it.cases):
        parts = PartsOf(it, case.types)
        reached = f"(variant_reached {case.n}_definitions {definitions} {case.n}_parts {variants} {parts.reached()} {reached})"
        variants, definitions = f"(variant {case.n}_parts {variants})", f"(both {case.n}_definitions {definitions})"
    claim = f"IsChoice {n}_definitions {n}_shape {n}_name {n}_variant_definitions {n}_variants"
    its = f"(let its = {variants_laid(it)} in record {{ solved = λ s k. rw (its.aligned s k, its.ends s k) refl }})"
    return lines + [
        f"abbrev pub {n}_variants : Variants\n{n}_variants = {variants}\n",
        f"abbrev pub {n}_definitions : Definitions\n{n}_definitions = {definitions}\n",
        f"abbrev pub {n}_variant_definitions : Definitions\n{n}_variant_definitions = {n}_definitions\n",
        f"abbrev pub {n}_shape : Shape\n{n}_shape = choice {n}_name {n}_variants\n",
        *laid_out(it, its),
        f"pub {n}_no_others : NoOthers {n}_definitions {n}_shape\n{n}_no_others = {reached} {n}_name\n",
        f"pub {n}_has_variants : {claim}\n{n}_has_variants = record {{ stands = λ s k. for_itself; known = λ s k. k }}\n",
    ]


def variants_laid(it):
    """Where the parts of each variant lie."""
    variants, definitions, laid_ = "no_variant", "no_definition", "no_variant_laid_out"
    for case in reversed(it.cases):
        laid_ = f"(variant_laid_out {case.n}_definitions {definitions} {case.n}_parts _ _ _ {PartsOf(it, case.types).laid()} {variants} _ _ _ {laid_})"
        variants, definitions = f"(variant {case.n}_parts {variants})", f"(both {case.n}_definitions {definitions})"
    return laid_


def laid_out(it, proof):
    n = it.n
    return [
        f"abbrev pub {n}_layout : Layout\n{n}_layout = record {{ size = {it.size}; align = {it.align} }}\n",
        f"pub {n}_is_align : IsAlign {it.align}\n{n}_is_align = {ALIGNS[it.align]}\n",
        f"pub {n}_has_layout : HasLayout {n}_definitions {n}_shape {n}_layout\n{n}_has_layout = {proof}\n",
    ]


class PartsOf:
    """Parts one after another: their shape, the definitions that they bring, and the laws of these."""

    def __init__(self, it, types):
        self.it, self.types = it, types
        self.shape, self.definitions = it.terms.parts(types), it.terms.parts_definitions(types)

    def first(self):
        """The first part and those behind it: definitions, shapes."""
        t, type = self.it.terms, self.types[0]
        return t.definitions(type), t.shape(type), PartsOf(self.it, self.types[1:])

    def laid(self):
        """Where they lie."""
        if not self.types:
            return "no_part_laid_out"
        D, X, rest = self.first()
        type = self.types[0]
        return f"(part_laid_out {D} {rest.definitions} {X} {layout(self.it, type)} {laid(self.it, type)} {rest.shape} _ _ _ {rest.laid()})"

    def reached(self):
        """That they bring no definition but those of names which they reach."""
        if not self.types:
            return "no_parts_reached"
        D, X, rest = self.first()
        return f"(part_reached {D} {rest.definitions} {X} {rest.shape} {reached(self.it, self.types[0])} {rest.reached()})"


def is_described(type):
    """Whether definitions beside its module say what it looks like."""
    return type.own is not None and type.own.part_by_part


def leads_to_described(type):
    return is_described(type) or any(map(leads_to_described, type.args))


def has_described(type):
    """Whether such a type is in it behind no pointer."""
    return is_described(type) or type.own is None and type.name in ("Option", "Result", *ARRAYS) and any(map(has_described, type.args))


def layout(it, type):
    size, align = it.formats.layout(type)
    return f"(record {{ size = {size}; align = {align} }})"


def laid(it, type):
    """That a part has its layout: it computes but for what is behind a name."""
    if it.terms.is_member(type):
        return f"{it.terms.n_of(type)}_has_layout"
    if is_described(type):
        return it.terms.plain.described("has_layout", type)
    if it.terms.is_row(type):
        return f"{it.word(type)}_has_layout"
    if not has_described(type):
        return "(record { solved = λ s k. refl })"
    args = type.args[:1] if type.name in ARRAYS else type.args
    D, X = ([getattr(it.terms, which)(arg) for arg in args] for which in ("definitions", "shape"))
    L, laws = [layout(it, arg) for arg in args], [laid(it, arg) for arg in args]
    if type.name in ARRAYS:
        return f"(array_has_layout {type.length} {D[0]} {X[0]} {L[0]} {laws[0]})"
    aligns = [f"({ALIGNS[it.formats.layout(arg)[1]]})" for arg in args]
    return f"({type.name.lower()}_has_layout {' '.join(D + X + L + aligns + laws)})"


def reached(it, type):
    """That a part brings no definition but those of names which it reaches."""
    t = it.terms
    if t.is_member(type):
        return f"{t.n_of(type)}_no_others"
    if is_described(type):
        return t.plain.described("no_others", type)
    X = t.shape(type)
    if t.is_row(type):
        return f"{it.word(type)}_no_others"
    if not leads_to_described(type):
        return f"(no_definition_reached {X})"
    D, Y, laws = [t.definitions(arg) for arg in type.args], [t.shape(arg) for arg in type.args], [reached(it, arg) for arg in type.args]
    if type.name == "BTreeMap":
        value = f"(around_reached {D[1]} {Y[1]} {X} (λ n m. mentions_map m) {laws[1]})"
        value = f"(both_reached {D[1]} no_definition {X} {value} (no_definition_reached {X}))"
        return f"(both_reached {D[0]} (both {D[1]} no_definition) {X} (no_definition_reached {X}) {value})"
    if type.name == "Result":
        return f"(result_reached {' '.join(D + Y + laws)})"
    if type.name in ARRAYS:
        return f"(array_reaches {type.length} {D[0]} {Y[0]} {layout(it, type.args[0])} {laws[0]})"
    its = f"{D[0]} {Y[0]} {laws[0]}"
    if type.name in ("Shared", "SharedSlice", "WeakShared"):
        return f"(around_reached {D[0]} {Y[0]} {X} (λ n m. {AROUND[type.name, 0].format('m').replace('(m)', 'm')}) {laws[0]})"
    return {"Box": f"(one_reaches {its} (one {Y[0]}) refl)", "Vec": f"(vec_reaches {its})", "BoxSlice": f"(run_reaches {its})", "Option": f"(option_reached {its})"}[type.name]


# ---- what values mean ----


def meaning(it):
    """What values mean, and the laws of it."""
    n, t = it.n, it.terms
    out = []
    for which, type in (("meaning", "Value"), ("keys", "(List Naming)")):
        out.append(f"abbrev pub {n}_{which} : {it.source} → {type}\n" + "".join(f"{n}_{which} {x} = {said_of(it, case, which)}\n" for x, case in values_of(it)))
    flat, belongs = "", ""
    for x, case in values_of(it):
        its, mine = (f(case.types, case.binders, "r.kept" if it.is_record else "s") for f in (t.parts_flat, t.parts_belong))
        flat += f"{n}_flat {x} r = {f'product {its}' if it.is_record else of_variant(it, case, f'case {case.tag} {its}', f'case {case.tag} no_value')}\n"
        belongs += f"{n}_belongs {x} r = {mine if it.is_record else of_variant(it, case, mine, '⊥', True)}\n"
    out.append(f"-- what is read in its place{'' if it.is_record else ', by the resolver of the same variant'}\nabbrev pub {n}_flat : {it.source} → {it.resolver} → Value\n{flat}")
    out.append(f"abbrev pub {n}_belongs : {it.source} → {it.resolver} → Type 0\n{belongs}")
    for law, text, proof in (("keyed", "IsKeyed", keyed), ("planned", f"HasPlan {n}_definitions {n}_shape", planned)):
        lines = "".join(f"{n}_{law} {x} = {proof(it, case)}\n" for x, case in values_of(it))
        out.append(f"pub {n}_{law} : (t : {it.source}) → {text} ({n}_keys t) ({n}_meaning t)\n{lines}")
    return out


def values_of(it):
    """The patterns of a value, each with its parts."""
    if it.is_record:
        return [("t", it)]
    return [(f"({it.its}.{case.name}{''.join(' ' + b for b in case.binders)})" if case.count else f"{it.its}.{case.name}", case) for case in it.cases]


def said_of(it, case, which):
    if which == "keys":
        return it.terms.parts_keys(case.types, case.binders, "")
    its = it.terms.parts_meaning(case.types, case.binders, "")
    return f"product {its}" if it.is_record else f"case {case.tag} {its}"


def of_variant(it, case, its, other, always=False):
    """What is said of a variant by its resolver."""
    if not case.count and not always:
        return its
    kept = f"{it.kept}.{case.name} s" if case.count else f"{it.kept}.{case.name}"
    rest = f" | _ ↦ {other}" if len(it.cases) > 1 else ""
    return f"elim r [ {kept} ↦ {its}{rest} ]"


def keyed(it, case):
    its = it.terms.parts_keyed(case.types, case.binders)
    return f"record_keyed {its}" if it.is_record else f"case_keyed _ {case.tag} _ {its}"


def planned(it, case):
    n = it.n
    its = it.terms.parts_planned(case.types, case.binders, case.binders, False)
    if it.is_record:
        return f"record_planned {n}_definitions {n}_shape {n}_part_definitions {n}_parts _ _ {n}_has_parts {its}"
    whole = f"{n}_definitions {n}_shape {n}_name {n}_variant_definitions {n}_variants {n}_has_variants"
    return f"variant_planned {whole} {case.tag} {case.n}_parts refl {case.n}_definitions refl _ _ {its}"
