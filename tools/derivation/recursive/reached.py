"""Which definitions a recursive type reaches, and that all are there."""

from ..formats import ALIGNS
from ..model import Type
from .plain import product
from .term_words import is_map, stem
from . import holders, specs


def definitions_of(it):
    ones = [f"(defines {other.n}_name {other.n}_stands_for)" for other in it.family.members]
    ones += [it.terms.inner_definitions()] if it.inner else []
    return f"abbrev pub {it.n}_definitions : Definitions\n{it.n}_definitions = {unwrapped(product(ones[:-1], ones[-1], 'both'))}\n"


def unwrapped(term):
    """A term in parentheses, without them."""
    return term[1:-1]


def defined(it):
    """Its definitions, which are those of its family, with its layout."""
    n = it.n
    lines = [] if it.family.is_nested else [definitions_of(it)]
    lines.append(f"abbrev pub {n}_layout : Layout\n{n}_layout = record {{ size = {it.size}; align = {it.align} }}\n")
    lines.append(f"pub {n}_is_align : IsAlign {it.align}\n{n}_is_align = {ALIGNS[it.align]}\n")
    said = f"pub {n}_has_layout : HasLayout {n}_definitions {n}_shape {n}_layout\n{n}_has_layout ="
    reached = f"pub {n}_no_others : NoOthers {n}_definitions {n}_shape\n"
    if it.is_simple:
        lines.append(f"{said} name_has_layout {n}_name {n}_stands_for {n}_layout (λ s k. refl)\n")
        return lines + [f"{reached}{n}_no_others = name_reached {n}_name {n}_stands_for\n"]
    lines.append(f"{said} member_has_layout {n}_definitions {n}_name {n}_stands_for {n}_layout (λ s k. {has(it)}) (λ s k. {specs.laid_out(it)})\n")
    index, cases = "zero", ""
    for other in it.family.members:
        cases += (
            f"{n}_no_others m Y ({index}, l, e) = subst (λ q. Involves (listed {n}_definitions) q {n}_shape) (ap (λ (p : Name × Shape). p.0) e) {way(it, other, it, 'mentions_held holds_name')}\n"
        )
        index = f"suc {index}" if index == "zero" else f"suc ({index})"
    rest = inner_reached(it, "(i, omega (arith, l), e)") if it.inner else "absurd (omega (arith, l))"
    return lines + [f"{reached}{cases}{n}_no_others m Y ({index.replace('zero', 'i')}, l, e) = {rest}\n"]


def inner_laws(it):
    """That a type reaches what the types of other families in its own parts define."""
    n, t = it.n, it.terms
    lines = [specs.MORE.format(n=n)] if it is it.family.first else []
    for own in it.inner:
        if it is inner_member(it, own):
            D, X, law = (t.plain.described(which, Type(own.name, own=own)) for which in ("definitions", "shape", "no_others"))
            name, way_ = f"{n}_reaches_{stem(own.name)}", inner_mention(it, own)
            lines.append(f"{name} : NoOthers {D} {n}_stands_for\n{name} = around_reached {D} {X} {n}_stands_for (λ _ m. {way_}) {law}\n")
    return lines


def inner_member(it, own):
    """The first type of the family that holds this one of another."""
    return next(other for other in it.family.members if inner_mention(other, own))


def inner_mention(it, own):
    """That what this type of another family mentions is mentioned in what holds it: in the first part that does; nothing if none does."""
    for i, case in enumerate(it.cases):
        for j, type in enumerate(case.types):
            inner = "" if it.terms.leads_back(type) else mention_of(type, own)
            if inner:
                return within(it, i, j, inner)
    return ""


def mention_of(type, own):
    """The same of a part."""
    if type.own is not None:
        return "m" if type.own is own else ""
    for at, arg in enumerate(type.args):
        inner = mention_of(arg, own)
        if inner:
            return holders.AROUND[type.name, at if type.name in ("BTreeMap", "Result") else 0].format(inner).replace("(m)", "m")
    return ""


def within(it, i, j, inner):
    """That what a part mentions is mentioned in the whole."""
    inner = f"mentions_first ({inner})" if inner != "m" else "mentions_first m"
    for _ in range(j):
        inner = f"mentions_later ({inner})"
    if it.is_record:
        return f"mentions_parts ({inner})"
    inner = f"mentions_variant ({inner})"
    for _ in range(i):
        inner = f"mentions_other ({inner})"
    return f"mentions_choice ({inner})"


def inner_reached(it, found, at=0):
    """That a name among the definitions of the types of other families is reached: by the way to a type of its own that holds one."""
    own, n = it.inner[at], it.n
    if at < len(it.inner) - 1:
        one, rest = (it.terms.inner_definitions(x) for x in (it.inner[at : at + 1], it.inner[at + 1 :]))
        cases = f"(λ c{at}. {inner_way(it, own, f'c{at}')}) (λ d{at}. {inner_reached(it, f'd{at}', at + 1)})"
        return f"⊎_elim {cases} (Contains-append_cases (listed {one}) (listed {rest}) (m, Y) {found})"
    return inner_way(it, own, found)


def inner_way(it, own, found):
    """The way to a name that a type of another family defines."""
    holder = inner_member(it, own)
    more, rest = "i", it.terms.inner_definitions()
    lists = []
    for other in reversed(it.family.members):
        lists.append(("right", f"(defines {other.n}_name {other.n}_stands_for)", rest))
        rest = f"(both (defines {other.n}_name {other.n}_stands_for) {rest})"
    inside, at = [], it.inner.index(own)
    for k in range(at + 1):
        if k < len(it.inner) - 1:
            side = "left" if k == at else "right"
            inside.append((side, it.terms.inner_definitions(it.inner[k : k + 1]), it.terms.inner_definitions(it.inner[k + 1 :])))
    for side, one, others in list(reversed(inside)) + lists:
        more = f"(Contains-append_{side} (listed {one}) (listed {others}) (o, Z) {more})"
    number = it.family.members.index(holder)
    index = "zero" if not number else "suc (" * (number - 1) + "suc zero" + ")" * (number - 1)
    last = f"({it.family.n}_more (λ o Z i. {more}) ({holder.n}_reaches_{stem(own.name)} m Y {found}))"
    return way(it, holder, it, "mentions_held holds_name", end=f"({index}, omega arith, refl) {last}")


def has(it):
    """That a schema which knows the family knows the definition of this name."""
    members = it.family.members
    at = members.index(it)
    return "k.has" + ".1" * at + (".0" if at < len(members) - 1 or it.inner else "")


def way(it, to, at, mentions, seen=(), end=""):
    """That the name of a type is involved where that of another of its family is mentioned: through the definitions on the way."""
    if at is to:
        return f"(involves_through ({mentions}) {end})" if end else f"(involves ({mentions}))"
    nexts = [other for other in it.family.members if other not in seen + (at,) and mention(at, other)]
    ways = [(other, way(it, to, other, mention(at, other), seen + (at,), end)) for other in nexts]
    rest = min((text for _, text in ways if text), key=len, default="")
    if not rest:
        return ""
    number = it.family.members.index(at)
    index = "zero" if not number else "suc (" * (number - 1) + "suc zero" + ")" * (number - 1)
    return f"(involves_through ({mentions}) ({index}, omega arith, refl) {rest})"


def mention(it, other):
    """That what a name stands for mentions the name of another type; nothing where it doesn't."""
    for i, case in enumerate(it.cases):
        for j, type in enumerate(case.types):
            inner = mention_in(it, type, other)
            if inner:
                return within(it, i, j, inner)
    return ""


def mention_in(it, type, other):
    if type.own is other.declaration:
        return "mentions_held holds_name"
    if not it.terms.leads_back(type) or it.terms.is_member(type):
        return ""
    if it.terms.is_row(type):
        its = [(i, inner) for i, arg in enumerate(type.args) if (inner := mention_in(it, arg, other))]
        return f"mentions_parts ({'mentions_later (' * its[0][0]}mentions_first ({its[0][1]}){')' * its[0][0]})" if its else ""
    at = 1 if is_map(type) else 0
    inner = mention_in(it, type.args[at], other)
    return holders.AROUND[type.name, at].format(inner) if inner else ""


def knows(it, known):
    """A proof that definitions one after another are known where the type's own are, by those of each."""
    out = "(knows_none s k.laid_out)"
    for one in reversed(known):
        out = f"(knows_both s _ _ {one} {out})"
    return out


def knows_parts(it, types):
    return knows(it, [it.terms.known(type) for type in types])


def brings(it):
    """The definitions that its parts bring."""
    n, t, lines, chain = it.n, it.terms, [definitions_of(it)] if it.family.is_nested else [], "no_definition"
    for type in it.rows:
        w = it.word(type)
        lines.append(f"abbrev pub {w}_definitions : Definitions\n{w}_definitions = {t.parts_definitions(type.args)}\n")
    if it.is_record:
        return lines + [f"abbrev pub {n}_part_definitions : Definitions\n{n}_part_definitions = {t.parts_definitions(it.types)}\n"]
    for case in reversed(it.cases):
        chain = f"(both {case.n}_definitions {chain})"
    for case in it.cases:
        lines.append(f"abbrev pub {case.n}_definitions : Definitions\n{case.n}_definitions = {t.parts_definitions(case.types)}\n")
    return lines + [f"abbrev pub {n}_variant_definitions : Definitions\n{n}_variant_definitions = {chain}\n"]


def known_parts(it):
    return knows_parts(it, it.types) if it.is_record else knows(it, [knows_parts(it, case.types) for case in it.cases])
