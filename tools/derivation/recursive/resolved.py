"""What `resolve` comes to. The call that resolves a struct, or each variant, leaves what `resolve` is to leave; for a variant, once the value and what was kept of it
are written as its own.

What that call says is named, since the search takes minutes to find it where several fields lead back. Nor does it find what the flavor of a shared pointer is where
the arms of a match have met: there it is written out in the one, and named in the other.
"""

from ..common import numbered
from .plain import items_of
from .slices import is_shared_slice
from .term_words import is_map, is_run
from . import arrays, by_number, resolvers, write_proofs

# What finds the rest.
FOUND = "search rules"


def is_told(it):
    """Whether it is known by which calls it is resolved: not where a map or a tuple leads back."""
    return not any(back and (is_map(type) or it.terms.is_row(type)) for case in it.cases for type, back in zip(case.types, case.leads_back))


def calls_in(it, case):
    """The calls by which a struct or a variant is resolved, in order, each by its name and the part that it is of, if of one."""
    out = []
    for i, (type, back) in enumerate(zip(case.types, case.leads_back)):
        if not back or it.terms.is_member(type) or it.terms.is_pointer(type) or arrays.is_array(type):
            continue
        if is_run(type) or is_shared_slice(type):
            out.append(("len", i))
        if not is_shared_slice(type):
            out.append((f"of-h{i}" if is_run(type) else f"new-h{i}", i))
    return out + [("new", None), (f"resolve_named_record_{case.count}" if case.is_record else by_number.name(it, case.count), None)]


def known(case, values, named, at):
    """How many elements there are of each part that has some, and the rewriting of what the call says; `named` are the calls with the names that the proof has for
    them, in `at`."""
    lets, same = "", []
    for i, type in enumerate(case.types):
        its = {word.split("-")[0]: name for word, of, name in named if of == i}
        if "len" not in its:
            continue
        made = f"{at}.{its['of']}.result.len" if "of" in its else f"{at}.{its['len']}.result"
        said = ", ".join(f"{at}.{name}.ensures" for name in reversed(its.values()))
        lets += f"let same{i} : {made} ≡ length {items_of(type, values[i])} = grind (arith, {said}) in "
        same.append(f"same{i}")
    new, resolved = (f"{at}.{name}" for _, of, name in named if of is None)
    return lets, f"let there = rw ({', '.join(same + [f'{new}.ensures.position'])}) at {resolved}.ensures in ", resolved


def arm(it, case, named):
    """What an arm comes to."""
    values = [f"w.in-{case.name}.{name}" for name in resolvers.bound(it, case)]
    lets, there, resolved = known(case, values, named, "w")
    kept = [f"w.in-{case.name}-resolver.is"] if case.count else []
    is_ = ", ".join([f"w.in-{case.name}.is", *kept, " ".join([f"{case.n}_opens", *values])])
    said = f"record {{ resolved = there.resolved; refused = there.refused; same_length = {FOUND} }}"
    return f"{lets}let after : g.match-self.bytes ≡ {resolved}.new.place.0 = {FOUND} in {there}rw ({is_}, after, w.result-is) ({said})"


def record(it):
    """What it comes to for a struct."""
    case = it.cases[0]
    calls = calls_in(it, case)
    named = [(word, of, name) for (word, of), name in zip(calls, numbered([word for word, _ in calls]))]
    lets, there, _ = known(case, [f"(out-{it.name} g.args.self.now).{field.name}" for field in case.fields], named, "g")
    return f"{lets}{there}record {{ resolved = search (rules, there.resolved); refused = there.refused; same_length = {FOUND} }}"


def arms(it):
    """What each variant's arm comes to."""
    made = [(case, word, of) for case in it.cases for word, of in calls_in(it, case)]
    names = write_proofs.in_arms([(case.name, word) for case, word, _ in made])
    each = [[(word, of, name) for (other, word, of), name in zip(made, names) if other is case] for case in it.cases]
    return [arm(it, case, named) for case, named in zip(it.cases, each)]
