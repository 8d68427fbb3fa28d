"""The proofs of the functions that write and read a recursive type: answers to the goals that the check leaves, which are named after the code."""


from . import arrays
from . import chain_proofs as chains
from . import by_number, expressions, hollow, lent, resolve_proofs, slices, weak
from .specs import owns
from .term_words import brought, places, stem
from . import write_proofs
from . import read_proofs

# Lemmas and definitions that answers cite, by their modules.
CITED = {
    "std.proofs.Common": "◌≡◌ ◌<◌ ◌≤◌ ◌+◌ ◌*◌ ◌++◌ ◌∷◌ [] ℕ List get_or length drop subst inl inr refl sym ◌∙◌ arith rules pos string_bytes slice_index",
    "std.proofs.lemmas.Int": "to_z-of_z",
    "std.proofs.Math.ListN": "drop_of_length-le",
    "std.proofs.lemmas.Grind": "common_steps",
    "std.specs.Vec": "vec_len vec_capacity",
    "std.specs.Prelude": "Result Ok Err OnOk",
    "archive_core.specs.Causes": "no_memory",
    "archive_core.specs.Error.TheVariants": "OutOfMemory",
    "archive_core.specs.Chains": "written_up_to_as",
    "archive_core.specs.Held": "keyed_as planned_as written_as refused_as read_as",
    "archive_core.specs.PlannedOwners": "each_planned",
    "archive_core.specs.PartsReading": "part_read_back no_part_read_back",
    "archive_core.specs.Readable": "target_from",
    "archive_core.specs.Reads": "u32_at",
    "archive_core.proofs.AddedDefinitions": "extended_both first_conflicts later_conflicts",
    "archive_core.proofs.Causes": "err_by err_from goes_both goes_nowhere",
    "archive_core.proofs.fields.Ties": "if_ok",
    "archive_core.proofs.recursive.KeysBegun": "region_refused",
    "archive_core.proofs.recursive.MapsHeld": "taken_written taken_refused",
    "archive_core.proofs.recursive.PositionsBegun": "unread_since",
    "archive_core.proofs.OwnChoices": "serialized_variant variant_refused",
    "archive_core.proofs.Owners": "box_refused vec_refused",
    "archive_core.proofs.OwnersRead": "box_read box_unread vec_read vec_unread",
    "archive_core.proofs.Planned": "one_owned",
    "archive_core.proofs.PlannedParts": "serialized_no_part serialized_part serialized_record record_refused first_refused later_refused",
    "archive_core.proofs.ReadChoices": "variant_read_back variant_refuses",
    "archive_core.proofs.ReadElements": "FirstElements all_have elements_none elements_more elements_all element_refused array_read",
    "archive_core.proofs.ReadRecords": "record_read_back record_refuses first_refuses later_refuses",
    "archive_core.proofs.Runs": "Continues continues_start continues_step continues_broken continues_end belongs_end",
    "archive_core.proofs.ReadVariants": "case_read_back case_refuses empty_case_read_back",
    "archive_core.proofs.MapsRead": "pairs_unread",
    "archive_core.proofs.PlannedMaps": "long_map_refused map_refused",
    "archive_core.proofs.RunRegions": "run_owned long_run_refused",
    "archive_core.proofs.WrittenVariants": "serialized_case serialized_empty_case case_refused",
}


class Answers:
    """The answers to the goals of functions that call each other, or of one."""

    def __init__(self, family, folder):
        self.family = family
        self.folder = folder
        self.items = []
        self.invariants = []
        self.more = []  # names that the answers bring in beside the rest, with their modules

    def answer(self, function, goal, body, args="g c"):
        name = f"{function}-{goal}" if function else goal
        args = args if not function or args != "g c" else "g t c"
        self.items.append(f"pub {name} : goal.{name}\n{name} {args} = {body}\n")

    def invariant(self, function, goal, body, args="g l"):
        self.invariants.append(f"abbrev pub {goal} : goal.{goal}\n{goal} {args} = {body}\n")

    def files(self):
        family = self.family
        module = "/".join(family.module)
        dotted = ".".join(("Rattle", family.crate, "proofs") + tuple(family.module))
        out = {}
        for name, goals, items in (("Answers", "Goals", self.items), ("Invariants", "Given", self.invariants)):
            if items:
                body = "\n".join(items)
                path = ".".join([dotted] + self.folder.split("/"))
                out[f"proofs/{module}/{self.folder}/{name}.antt"] = f"-- {family.first.written}\n{head(family, body, self.more)}use {path}.{goals} as goal\n\n{body}"
        return out


def head(family, body, brings):
    """What a file of answers brings in."""
    crate = family.crate
    meaning, shape, more = [], [], list(CITED.items())
    for it in family.members:
        meaning += [f"{it.n}_{w}" for w in ("meaning", "keys", "flat", "belongs", "keyed", "planned", "means", "means_roll", "has_keys", "has_keys_roll", "kept_is", "front_is")]
        meaning += [f"{case.n}_{w}" for case in it.cases for w in ("means", "has_keys", "opens")]
        meaning += [f"{it.word(type)}_{w}" for type in it.rows for w in ("meaning", "keys")]
        shape += [f"{n}_{w}" for n in [it.n, *map(it.word, it.rows)] for w in ("layout", "has_layout")] + it.shape_names()
        more.append((family.declared(it.name), f"out-{it.name}"))
    more.append((f"{crate}.specs.{family.name}Shape", " ".join(shape)))
    more.append((f"{crate}.specs.{family.name}Meaning", " ".join(dict.fromkeys(meaning))))
    named = {"SFits": "mir.Val.{SFits}", "at_most": "denote.Param.Weighed.{at_most, most}"}
    return brought(body, more + brings) + owns(family, body) + "".join(f"use {path}\n" for name, path in named.items() if name in body)


# ---- parts ----


class Parts:
    """The terms of the parts of a case at values: from the part with an index on."""

    def __init__(self, it, case, values):
        self.it, self.case, self.values = it, case, values

    def rest(self, i):
        t, m, k = self.it.terms, self.it.terms.own("meaning"), self.it.terms.own("keys")
        types, values = self.case.types[i:], self.values[i:]
        return t.parts_definitions(types), t.parts(types), t.parts_keys(types, values, k), t.parts_meaning(types, values, m)

    def first(self, i):
        t = self.it.terms
        type, x = self.case.types[i], self.values[i]
        return t.definitions(type), t.shape(type), t.keys(type, x, t.own("keys")), t.meaning(type, x, t.own("meaning"))

    def both(self, i):
        """The arguments of a lemma on one part and those behind it: definitions, shapes, keys and meanings of each."""
        D, X, K, V = self.first(i)
        E, P, L, W = self.rest(i + 1)
        return f"{D} {E} {X} {P} {K} {L} {V} {W}"

    def plan(self, i):
        types, values = self.case.types[i:], self.values[i:]
        return self.it.terms.parts_planned(types, values, values, False)

    def refused(self, i, written, goes, refusal, at=0):
        """That the parts are refused, as the one with this index is."""
        if at == i:
            return f"(first_refused {self.both(at)} _ _ _ {self.plan(at + 1)} {refusal})"
        later = goes[at + 1]
        for go in goes[at + 2:i + 1]:
            later = f"(goes_both _ _ _ {later} {go})"
        return f"(later_refused {self.both(at)} _ _ _ _ _ {written[at]} {goes[at]} {later} {self.refused(i, written, goes, refusal, at + 1)})"

    def written(self, written, at=0):
        if at == len(self.values):
            return "(serialized_no_part no_definition _)"
        return f"(serialized_part {self.both(at)} _ _ _ _ _ {written[at]} {self.written(written, at + 1)})"


def in_loop(words, loop="loop-value"):
    """Names of calls in the loop over a vector's elements, or over a map's entries."""
    return write_proofs.in_arms([(loop, word) for word in words])


def error_by(names, i, body):
    r = write_proofs.residual(names, i)
    return f"err_by c.{r}.result c.in_err-{names[i]}.field-0.0 _ c.{r}.ensures.1 {body}"


# ---- writing ----


def all_goes(goes):
    out = goes[0]
    for go in goes[1:]:
        out = f"(goes_both _ _ _ {out} {go})"
    return out


def words_of(it, case):
    """The calls that write the parts of a case: of an array its elements, of a tuple its parts."""
    out = []
    for type, back in zip(case.types, case.leads_back):
        if it.terms.is_row(type):
            out += words_of(it, it.row(type))
        elif back and arrays.is_array(type):
            out.append(f"serialize_each_{it.word(type.args[0])}")
        else:
            out.append(f"serialize_{it.word(type)}" if back else "serialize_part")
    return out


class Taken:
    """What is known of calls that write parts one after another, taken by part: of a tuple several."""

    def __init__(self, it, case, values, names, written, refused, goes):
        self.it, self.case, self.values = it, case, values
        self.groups, at = [], 0
        for type, x, name in zip(case.types, values, names):
            count = len(words_of(it, it.row(type))) if it.terms.is_row(type) else 1
            self.groups.append((type, x, name, slice(at, at + count)))
            at += count
        self.all_written, self.all_refused, self.all_goes = written, refused, goes
        self.written, self.goes = [], []
        for type, x, name, these in self.groups:
            self.goes.append(all_goes(goes[these]))
            self.written.append(self.tuple(type, x, name, these).as_record() if it.terms.is_row(type) else written[these][0])

    def tuple(self, type, x, name, these):
        row = self.it.row(type, name)
        return Taken(self.it, row, places(type, x), row.names, self.all_written[these], self.all_refused[these], self.all_goes[these])

    def as_record(self):
        """That the parts are written, as a tuple of them."""
        return f"(serialized_record {write_proofs.whole_of(self.it, self.case)} _ _ _ _ _ {Parts(self.it, self.case, self.values).written(self.written)})"

    def refused(self, k):
        """That the parts are refused, as what the call with this number writes is."""
        i = next(i for i, (_, _, _, these) in enumerate(self.groups) if these.start <= k < these.stop)
        type, x, name, these = self.groups[i]
        why, goes = self.all_refused[k], self.goes
        if self.it.terms.is_row(type):
            row = self.tuple(type, x, name, these)
            why = f"(record_refused {write_proofs.whole_of(self.it, row.case)} _ _ _ _ _ {row.refused(k - these.start)})"
            goes = goes[:i] + [all_goes(self.all_goes[these.start:k + 1])] + goes[i + 1:]
        return Parts(self.it, self.case, self.values).refused(i, self.written, goes, why)


def wholes_of(case):
    """The parts that are arrays, by their indices: of each a call says how many elements it has."""
    return [i for i, (type, back) in enumerate(zip(case.types, case.leads_back)) if back and arrays.is_array(type)]


def same_parts(it, case, oks):
    """That each resolver is its own part's, of parts some of which are tuples; takes the calls that wrote them off the list."""
    each = [same_parts(it, it.row(type), oks) if it.terms.is_row(type) else f"c.{oks.pop(0)}.ensures.same_value" for type in case.types]
    same = "tt"
    for its in reversed(each):
        same = f"({its}, {same})"
    return same


def as_elements(it, case, i, said):
    """What is said of a part: of a shared slice it is of the elements that the call was passed."""
    is_slice = i < case.count and case.leads_back[i] and slices.is_shared_slice(case.types[i])
    return f"(rw c.as_slice-{slices.items_named(it, case, i)}.ensures.value at {said})" if is_slice else said


# A tactic of the function can't cite it.
DEEPER = """no_deeper : {X : Type 0} (depth : X → ℕ) (n k t : ℕ) (xs : List X) (i : ℕ) (x : X) → n * most depth xs + k ≡ t → i < length xs → x ≡ get_or xs i x → depth x ≤ most depth xs
no_deeper depth n k t xs i x measure below is = subst (λ y. depth y ≤ most depth xs) (sym is) (at_most depth xs i x below)
"""


SIMPLE = {f"{sign}{bits}" for sign in "ui" for bits in (8, 16, 32, 64, 128)} | {"char", "String"}


# ---- reading back ----


ARGS = "c.args.part.bytes.now c.args.part.pos c.args.part.len"
TOLD = "(g.D.Entries.entry_of c.args.deserializer.now)"


def defining(it):
    """The answers on the definition of the name."""
    answers = Answers(it.family, f"{it.archived}Portable/define" if it.is_simple else f"define_{it.n}")
    added = f"c.define_{'record' if it.is_record else 'choice'}.ensures"
    for clause in ("added", "refused"):
        answers.answer("", f"returns-clause-{clause}", f"{added}.{clause} _ c.{it.n}_expressions.ensures", "c")
    return answers.files() | expressions.files(it, Answers)


ON_OK = """on_ok : {A B P Q : Type 0} (r : Result A B) → (P → Q) → OnOk r P → OnOk r Q
on_ok (Ok x) f h = f h
on_ok (Err e) f h = tt
"""


def defining_all(family):
    """The answers on the definitions of a family, added one after another. A tactic of the function can't cite these lemmas."""
    answers = Answers(family, f"define_{family.n}_family")
    answers.items.append(ON_OK)
    calls = [f"define_{it.n}" for it in family.members] + [f"define_{stem(own.name)}_within_{family.n}" for own in family.first.inner]
    *before, last = calls
    added = [f"c.in_ok-{call}.ensures.added" for call in before]

    def around(lemma, names, inner):
        for name in reversed(names):
            inner = f"({lemma} {name} {inner})"
        return inner

    joined = around("extended_both _ _ _ _ _", added, "k")
    answers.answer("", "returns-clause-added", f"on_ok c.{last}.result (λ k. {joined}) c.{last}.ensures.added", "c")
    later = "h"
    for name in reversed(added):
        later = f"(later_conflicts _ _ _ _ {name} e {later})"
    answers.answer("", "returns-clause-refused", f"err_from c.{last}.result c.{last}.ensures.refused (λ e h. {later})", "c")
    for i, call in enumerate(before):
        error = f"c.in_err-{call}.field-0.0"
        refused = f"(first_conflicts _ _ _ _ c.in_err-{call}.ensures.refused)"
        for name in reversed(added[:i]):
            refused = f"(later_conflicts _ _ _ _ {name} {error} {refused})"
        behind = f"c.{write_proofs.residual(before, i)}"
        answers.answer("", f"returns-in_err-{call}-clause-refused", f"err_by {behind}.result {error} _ {behind}.ensures.1 {refused}", "c")
    return answers.files()


def files(family):
    out = {} if family.first.is_simple else defining_all(family)
    for it in family.members:
        out.update(lent.files(it))
        out.update(by_number.files(it))
        if not it.is_holder:
            out.update(defining(it))
            out.update(hollow.files(it))
            out.update(weak.files(it))
            out.update(resolve_proofs.files(it))
    if family.first.is_chain:
        out.update(chains.files(family.first))
        return out
    out.update(write_proofs.writing(family))
    out.update(read_proofs.reading(family))
    return out
