"""Lists of a recursive type's values, mapped in the fold of the type."""

from . import arrays
from . import slices
from ..model import Type
from .plain import has_boxed, items_of
from .terms import Placed
from .term_words import element, places
from .weak import option_of, written_out
from . import specs


def each_type(family, text):
    """A text for each type of the family, as the toolchain has them one after another."""
    return " ".join(text(it) for it in family.ordered)


def fold(it, which, type, word):
    """The fold, or its equation."""
    steps = each_type(it.family, lambda other: f"({other.n}_{which}_layer {each_type(it.family, lambda _: '(λ v. v)')})")
    return f"{word}-{it.name} {each_type(it.family, lambda _: type)} {steps}"


def layer(it, which, type):
    """What a layer means, by what is said of the values in it."""
    n, family = it.n, it.family
    letters = dict(zip((other.name for other in family.ordered), specs.LETTERS))
    both = family.shares and which == "keys"
    names = {name: "m" if len(letters) == 1 else f"m{i}" for i, name in enumerate(letters)}
    takes = "".join(f"({letter} → {type}) → " for letter in letters.values())
    taken = " ".join(names.values())
    if both:
        names = {name: f"k{m[1:]}" for name, m in names.items()}
        takes = "".join(f"({letter} → Value) → " for letter in letters.values()) + takes
        taken += " " + " ".join(names.values())
    out = f"abbrev pub {n}_{which}_layer : {{{' '.join(letters.values())} : Type 0}} → {takes}{it.name}-F {' '.join(letters.values())} → {type}\n"
    return out + "".join(f"{n}_{which}_layer {taken} {p} = {said_of(it, c, which, names)}\n" for p, c in layers(it))


def layers(it):
    """The patterns of one layer, each with its case."""
    return [("t", it)] if it.is_record else [(layer_of(it, case, case.binders), case) for case in it.cases]


def said_of(it, case, which, m, terms=None, values=None):
    """What a layer means, or its keys; `terms` are of some parts by their index, in place of what is said of them."""
    values = values or case.binders
    if which == "keys":
        return it.terms.parts_keys(case.types, values, m, terms)
    its = it.terms.parts_meaning(case.types, values, m, terms)
    return f"product {its}" if it.is_record else f"case {case.tag} {its}"


def splits(it, case):
    """The values of the parts, each option as nothing and as something: a layer that is mapped computes at these alone."""
    out = [[]]
    for type, name in zip(case.types, case.names):
        each = ["None", f"(Some {name})"] if is_split(it, type) else [name]
        each = list(map(written_out, each)) if it.terms.is_weak(type) else each
        if is_split(it, type) and it.terms.is_row(type):
            each = [Placed(values) for values in splits(it, it.row(type, name))]
        out = [values + [one] for values in out for one in each]
    return out


def is_split(it, type):
    """Whether it computes at nothing and at something alone: an option, a weak pointer, which holds one, or a tuple of one."""
    return it.terms.is_option(type) or it.terms.is_weak(type) or it.terms.is_row(type) and any(is_split(it, arg) for arg in type.args)


def is_by_options(it, case):
    """Whether what is said of a layer rests on what is said of the options in it: antt matches on no record, as a struct or a weak pointer is."""
    return any(is_split(it, type) if it.is_record else it.terms.is_weak(type) for type in case.types)


def wholes(it, case):
    """The parts by their names: of a weak pointer the name is that of its option."""
    return [written_out(name) if it.terms.is_weak(type) else name for type, name in zip(case.types, case.names)]


def arguments_at(it, case, place=""):
    """The same parts, of a record in a place."""
    parts = [f"{place}.{field.name}" for field in case.fields] if place else case.names
    return " ".join(f"{part}{'.value' if it.terms.is_weak(type) else ''}" for part, type in zip(parts, case.types))


def layer_of(it, case, values):
    """The layer of these parts."""
    if it.is_record:
        return "(record { " + "; ".join(f"{field.name} = {value}" for field, value in zip(case.fields, values)) + " })"
    return f"({it.layer}.{case.name}{''.join(' ' + value for value in values)})" if values else f"{it.layer}.{case.name}"


def arguments_of(it, case, held=None, by_options=False):
    """The parts as arguments, weak pointers also as options. A type that the crate can't name antt finds by what is made of the parts, as a boxed slice's."""
    unnamed = lambda type: has_boxed(type) or type.name == "BoxSlice" and it.terms.leads_back(type)
    option = lambda type: Type("Option", [Type("Shared", type.args)]) if by_options and it.terms.is_weak(type) else type
    return "".join(f" ({name} : {'_' if unnamed(type) else it.antt(option(type), held)})" for name, type in zip(case.names, case.types))


def said_by(family, which):
    """What a layer takes of the values in it: for keys also what they mean, where a family shares."""
    before = each_type(family, lambda other: f"{other.n}_meaning") + " " if family.shares and which == "keys" else ""
    return before + each_type(family, lambda other: f"{other.n}_{which}")


def sources(it):
    return each_type(it.family, lambda other: other.source)


def mapped_list(it, type, which, items):
    """That what is said of a vector, or of an array, whose elements were mapped is what is said of the elements."""
    item = element(type)
    if slices.is_shared_slice(type):
        own = [it.terms.own(one)[item.own.name] for one in ("meaning", "keys")]
        (m, k), (n, l) = ((f"(λ (y : {specs.BOTH}). y{place})" for place in specs.PLACES.values()), own)
        return f"slice_alike _ {m} {n} {k} {l} (λ x. refl) (λ x. refl) {items}.key (run {it.terms.shape(item)}) {items_of(type, items)}"
    each = mapped(it, item, which, items)
    if not arrays.is_array(type):
        return each
    inner = item.args[0] if it.terms.is_option(item) else item
    return arrays.mapped(type, items, which, said_of_mapped(it, inner, which), said_with_type(it, inner, which, it.terms.own(which), None), each)


def still_mapped(it, type, which, items):
    """What is said of a vector, or of an array, whose elements were mapped. How a tuple was mapped antt doesn't find where some of it has no keys."""
    item = element(type)
    if slices.is_shared_slice(type):
        xs = f"(map {it.terms.own('both')[item.name]} {items_of(type, items)})"
        return it.terms.slice_keys(type, items, xs, *(f"(each_{one} (λ (y : {specs.BOTH}). y{place}) {xs})" for one, place in specs.PLACES.items()))
    if arrays.is_array(type):
        inner = item.args[0] if it.terms.is_option(item) else item
        return f"(array_{which} {type.length} {arrays.of_element(item, which, said_of_mapped(it, inner, which))} (map _ {items}))"
    if it.terms.is_row(item):
        own = it.terms.own(which)
        places = ", ".join(f"{own[arg.own.name]} y.{i}" if it.terms.is_member(arg) else f"y.{i}" for i, arg in enumerate(item.args))
        return f"(each_{which} {said_of_mapped(it, item, which)} (map (λ (y : {it.antt(item)}). ({places})) {items}))"
    its = specs.PLACES[which] if it.family.shares else "(λ v. v)"
    if it.terms.is_member(item):
        return f"(each_{which} {it.terms.function(which, item, its)} (map {it.terms.own('both' if it.family.shares else which)[item.name]} {items}))"
    return f"(each_{which} {said_of_mapped(it, item, which)} (map _ {items}))"


def mapped(it, item, which, items):
    """That it is what is said of the elements. What is said of an element has its type: antt finds no other."""
    keys, own = "" if which == "meaning" else "_keys", it.terms.own(which)
    if it.terms.is_member(item) and it.family.shares:
        return f"each_alike{keys} _ (λ (y : {specs.BOTH}). y{specs.PLACES[which]}) {own[item.name]} (λ x. refl) {items}"
    if it.terms.is_member(item):
        return f"each_mapped{keys} {own[item.name]} {items}"
    lemma, nothing, inner = "each_alike", "", item
    if it.terms.is_option(item):
        lemma, nothing, inner = "options_alike", "refl ", item.args[0]
    elif it.terms.is_weak(item):
        lemma, nothing, inner = "weaks_alike", "refl ", Type("Shared", item.args)
    return f"{lemma}{keys} _ {said_of_mapped(it, inner, which)} {said_with_type(it, inner, which, own, None)} {nothing}(λ x. refl) {items}"


def said_of_mapped(it, item, which):
    """What is said of a mapped element, as a function of it with its type."""
    type = specs.BOTH if it.family.shares else {"meaning": "Value", "keys": "(List Naming)"}[which]
    return said_with_type(it, item, which, specs.PLACES[which] if it.family.shares else "", {other.name: type for other in it.family.ordered})


def said_with_type(it, item, which, m, held):
    return f"(λ (y : {it.antt(item, held)}). {getattr(it.terms, which)(item, 'y', m)})".replace("( ", "(")


def rolled(it, which, type, word):
    """What is said of a value that is made of a layer."""
    n, N, own = it.n, it.name, it.terms.own(which)

    def step(case, pattern, values):
        lists = {i: found for i, type_ in enumerate(case.types) if (found := it.terms.list_in(type_, values[i], which))}
        out = f"{fold(it, which, type, 'fold-roll')} {pattern}"
        if it.family.shares:
            out = f"ap (λ (p : {specs.BOTH}). p{specs.PLACES[which]}) ({fold(it, 'both', specs.BOTH, 'fold-roll')} {pattern})"
        if is_together(it, lists):
            named = {i: f"vs{i}" for i in lists}
            whole = with_types(it, case, which, own, said_of(it, case, which, own, named, values))
            equal = " ".join(f"({mapped_list(it, vector, which, items)})" for vector, items in lists.values())
            return f"{out} ∙ alike_{len(lists)} (λ {' '.join(named.values())}. {whole}) {'_ _ ' * len(lists)}{equal}"
        for j, (vector, items) in lists.items():
            # those before it are the value's own already, those behind it are still mapped
            terms = {i: "vs" if i == j else still_mapped(it, other, which, its) for i, (other, its) in lists.items() if i >= j}
            whole = with_types(it, case, which, own, said_of(it, case, which, own, terms, values))
            out += f" ∙ ap (λ vs. {whole}) ({mapped_list(it, vector, which, items)})"
        return out

    claim = f"{n}_{which} (roll-{N} {{0}}) ≡ {n}_{which}_layer {said_by(it.family, which)} {{0}}"
    said = f"pub {n}_{word}_roll : (x : {N}-F {sources(it)}) → {claim.format('x')}\n"
    unfolded = ["both", "meaning"] + ["keys"] * (which == "keys") if it.family.shares else [which]
    opened_ = f"unfolding {' '.join(f'{other.n}_{one}' for one in unfolded for other in it.family.members)}\n"
    steps = lambda case: [(values, step(case, layer_of(it, case, values), values)) for values in splits(it, case)]
    at = "".join(proved_at(it, case, word, claim, opened_, steps(case)) for case in (it.cases if not it.is_record else [it]) if is_by_options(it, case))
    if not it.is_record:
        lines = ""
        for case in it.cases:
            if is_by_options(it, case):
                lines += f"{n}_{word}_roll {layer_of(it, case, case.binders)} = {case.n}_{word}_at {arguments_at(it, case)}\n"
            else:
                lines += "".join(f"{n}_{word}_roll {layer_of(it, case, values)} = {proof}\n" for values, proof in steps(case))
        return at + said + opened_ + lines
    if not at:
        return f"{said}{opened_}{n}_{word}_roll t = {step(it, 't', it.binders)}\n"
    return f"{at}{said}{n}_{word}_roll x = {n}_{word}_at {arguments_at(it, it, 'x')}\n"


def proved_at(it, case, word, claim, opened_, steps, held=None):
    """A lemma on the layer of these parts by the options in it, of which each has a proof; `claim` is a text with braces for the layer."""
    name = f"{case.n}_{word}_at"
    lines = "".join(f"{name} {' '.join(map(option_of, values))} = {proof}\n" for values, proof in steps)
    return f"{name} :{arguments_of(it, case, held, True)} → {claim.format(layer_of(it, case, wholes(it, case)))}\n{opened_}{lines}\n"


def with_types(it, case, which, own, whole):
    """The same, with a type for what is said of what an option holds: in a function of vectors antt finds none."""
    for type in filter(it.terms.is_option, case.types):
        item = type.args[0]
        untyped, typed = it.terms.function(which, item, own), said_with_type(it, item, which, own, None)
        whole = whole.replace(f"(option_{which} {untyped} ", f"(option_{which} {typed} ")
    return whole


def is_together(it, lists):
    """Whether vectors of a layer are said to be mapped all at once: antt doesn't find how one of boxes, options or weak pointers was mapped that is behind another."""
    return any(element(vector).name == "Box" or is_split(it, element(vector)) for vector, _ in list(lists.values())[1:])


def together(it):
    """The lemma on several that are, for each number of them; a family's first type that needs it has it."""
    counts = [counts_of(other) for other in it.family.members]
    at = it.family.members.index(it)
    return [alike(n) for n in sorted(set(counts[at]) - {n for before in counts[:at] for n in before})]


def counts_of(it):
    """How many vectors are mapped at once, of each case where several are."""
    lists = [{i: found for i, type in enumerate(case.types) if (found := it.terms.list_in(type, "x", which))} for case in it.cases for which, _, _ in specs.SAID]
    return [len(those) for those in lists if is_together(it, those)]


def alike(n):
    """What is made of equal terms is equal."""
    places = range(n)
    types = " ".join(f"A{i}" for i in places)
    takes = " → ".join([f"A{i}" for i in places] + ["R"])
    terms = " ".join(f"(a{i} b{i} : A{i})" for i in places)
    equal = " → ".join([f"a{i} ≡ b{i}" for i in places])
    said, names, proofs = (" ".join(f"{letter}{i}" for i in places) for letter in ("a", "b", "p"))
    steps = []
    for i in places:
        others = " ".join([f"b{j}" for j in range(i)] + ["x"] + [f"a{j}" for j in range(i + 1, n)])
        steps.append(f"ap (λ x. f {others}) p{i}")
    taken = " ".join(f"a{i} b{i}" for i in places)
    return f"alike_{n} : {{{types} R : Type 0}} (f : {takes}) {terms} → {equal} → f {said} ≡ f {names}\nalike_{n} f {taken} {proofs} = {' ∙ '.join(steps)}\n"


def opened(it, which, word):
    """The same of a value that is opened: of a record, and of each variant."""
    n, N = it.n, it.name
    of_layer = f"{n}_{which}_layer {said_by(it.family, which)}"
    if it.is_record:
        return f"pub {n}_{word} : (t : {it.source}) → {n}_{which} t ≡ {of_layer} (out-{N} t)\n{n}_{word} t = ap {n}_{which} (sym (roll-out-{N} t)) ∙ {n}_{word}_roll (out-{N} t)\n"
    out = []
    for pattern, case in layers(it):
        names = "".join(f" {b}" for b in case.binders)
        arguments = arguments_of(it, case)
        arrow = f"{arguments} → " if arguments else " "
        out.append(
            f"pub {case.n}_{word} :{arrow}{n}_{which} {made(it, case)} ≡ {of_layer} {pattern}\n"
            f"{case.n}_{word}{names} = ap {n}_{which} (sym {rolls(it, case)}) ∙ {n}_{word}_roll {pattern}\n"
        )
    return "\n".join(out)


def made(it, case):
    """A variant of these parts."""
    return f"({it.its}.{case.name}{''.join(' ' + b for b in case.binders)})" if case.binders else f"{it.its}.{case.name}"


def rolls(it, case):
    return f"({it.its}.rolls-{case.name}{''.join(' ' + b for b in case.binders)})" if case.binders else f"{it.its}.rolls-{case.name}"
