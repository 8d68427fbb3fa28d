"""The definitions of an enum that goes by loops: what its check knows, and what its values are up to their boxes."""

from .chains import opens


def shape(it, knows_parts):
    """What the check knows of the names in it, and that it is a check of the type."""
    n, chain = it.n, "no_definition"
    for case in reversed(it.cases):
        types = case.types[:-1] if opens(case) else case.types
        chain = f"(both {it.terms.parts_definitions(types)} {chain})"
    known = "(knows_none s k.laid_out)"
    for case in reversed(it.cases):
        known = f"(knows_both s _ _ {knows_parts(it, case.types[:-1] if opens(case) else case.types)} {known})"
    D = f"{n}_definitions"
    order = "record { has = (refl, tt); only = (refl, tt); once = (refl, tt); root = refl; closed = (refl, tt); placed = (refl, tt) }"
    return [
        f"-- who knows the name knows what is brought before boxes\npub {n}_chain_known : (s : SchemaTable) → Knows s {D} → Knows s {chain}\n{n}_chain_known s k = {known}\n",
        f"-- the loop is a check of the type\npub {n}_checked : IsCheckOf {D} {n}_shape {it.size} {D} {n}_shape {it.size} false\n"
        f"{n}_checked = own_check {D} {n}_shape {it.size} (({n}_name, {n}_stands_for) ∷ []) false refl ({order}) (λ says. by_schema says)\n",
    ]


def meaning(it):
    """What a value's box holds, and what comes of it with the rest."""
    n, N, t = it.n, it.name, it.terms
    rest, closed, around, keys = "", "", "", ""
    for case in it.cases:
        layer = f"({it.layer}.{case.name}{''.join(' ' + name for name in case.names)})" if case.names else f"{it.layer}.{case.name}"
        if not opens(case):
            rest += f"{n}_rest_layer {layer} = None\n"
            continue
        rest += f"{n}_rest_layer {layer} = Some {case.names[-1]}.value\n"
        count = case.count - 1
        kept = "(t, tt)"
        for i in reversed(range(count)):
            kept = f"(s{'.1' * i}.0, {kept})"
        closed += f"{n}_closed {f'(Open.{case.name} s)' if count else f'Open.{case.name}'} t = {it.kept}.{case.name} {kept}\n"
        front = f"(Front.{case.name}{''.join(' ' + name for name in case.names[:-1])})" if count else f"Front.{case.name}"
        types, values = case.types[:-1], case.names[:-1]
        said = "(value (box m) no_value)"
        its = "(k ++ [])"
        for type, x in reversed(list(zip(types, values))):
            said = f"(value {t.meaning(type, x, '')} {said})"
            its = f"({t.keys(type, x, '')} ++ {its})"
        around += f"{n}_around {front} m = case {case.tag} {said}\n"
        keys += f"{n}_keys_around {front} k = {its[1:-1]}\n"
    return [
        f"-- what its box holds\nabbrev pub {n}_rest_layer : {N}-F {it.source} → Option {it.source}\n{rest}",
        f"abbrev pub {n}_rest : {it.source} → Option {it.source}\n{n}_rest v = {n}_rest_layer (out-{N} v)\n",
        f"-- the resolver, by what is kept and where the box's value stands\nabbrev pub {n}_closed : {N}Kept → ℕ → {it.resolver}\n{closed}",
        f"-- what a value means, by what stands before its box and what the box holds; and its keys\nabbrev pub {n}_around : {N}Front → Value → Value\n{around}",
        f"abbrev pub {n}_keys_around : {N}Front → List Naming → List Naming\n{keys}",
    ] + only(it)


def only(it):
    """What is kept, and what stands before a box, where one variant alone has a box: it is of that one. Where several have, a match says of which."""
    cases = [case for case in it.cases if opens(case)]
    if len(cases) > 1:
        return []
    n, N, case = it.n, it.name, cases[0]
    out = []
    for word, alias, names in (("Kept", "Open", ["s"][: case.count - 1]), ("Front", "Front", case.names[:-1])):
        made = f"{alias}.{case.name}{''.join(' ' + name for name in names)}"
        parts = "".join(f" (elim x [ {made} ↦ {name} ])" for name in names)
        out.append(f"pub {n}_{word.lower()}_is : (x : {N}{word}) → x ≡ {alias}.{case.name}{parts}\n{n}_{word.lower()}_is {f'({made})' if names else made} = refl\n")
    return [f"-- it is of the one variant that has a box\n{out[0]}", out[1]]


def aliases(it):
    family, N = it.family, it.name
    return "".join(
        f"use Rattle.{family.declared(f'{N}{word}')}.{{{N}{word}}}\nuse Rattle.{family.declared(f'{N}{word}', 'TheVariants')} as {alias}\n"
        for word, alias in (("Kept", "Open"), ("Front", "Front"))
    )
