"""Proofs that the elements of recursive lists, and what keys name, are written as they say."""

import re

from . import slices, weak, writers
from . import write_proofs
from . import proofs


def option_kept(it, item, answers, each, steps, kept, at):
    """The answers on an option whose resolver is kept, in each arm; and where the arms have met, by the arm that was taken."""
    answers.answer(each, "returns-in_err-resolvers-clause-goes_on", "goes_nowhere _")
    answers.answer(each, "returns-in_err-map_err-in-None-clause-refused", write_proofs.not_pushed("in_err-map_err-in-None"))
    answers.answer(each, "returns-in_err-map_err-in-Some-clause-goes_on", f"goes_both _ _ _ {kept}.goes {steps.goes}")
    answers.answer(each, "returns-in_err-map_err-in-Some-clause-refused", write_proofs.not_pushed("in_err-map_err-in-Some"))
    D = it.terms.definitions(item)
    met = "rw (w.serializer-is, w.resolvers-is)"

    def head(resolver, arm):
        behind = "" if arm == "None" else f"-in-{arm}"
        calls = f"w.push{behind}.ensures.items, w.map_err{behind}.ensures.variant, w.branch-map_err{behind}.ensures, w.in_ok-map_err-in-{arm}.is"
        return f"continues_step {at} _ _ _ {resolver} c.loop-value-test.true c.value-item.is (grind (arith, common_steps, {calls})) {kept}"

    empty, belongs = f"serialized_empty_case {D} _ _ 0 refl _", "(rw w.in-{}.is tt)"
    if it.terms.is_weak(item):
        empty, belongs = f"null_serialized {D} (one {it.terms.shape(item.args[0])}) _", "tt"
    nothing = f"{head('None', 'None')} (rw w.in-None.is ({empty})) {belongs.format('None')} (goes_nowhere _)"
    # in this arm the steps are those of `w`
    serialized, goes = (re.sub(r"c\.(in-Some|deref-inner|serialize_|in-Ok)", r"w.\1", text) for text in (steps.serialized, steps.goes))
    ok = "in-Ok" if it.terms.is_nullable(item) else "in-Ok-serialize_inner"
    some = f"{head(f'(Some w.{ok}.resolver)', 'Some')} {serialized} {belongs.format('Some')} {goes}"
    arms = [("in-None+in_ok-map_err-in-None", nothing), (f"in-Some+in-Ok{'' if ok == 'in-Ok' else f'+{ok}'}+in_ok-map_err-in-Some", some)]
    cases = " | ".join(f"{each}-{arm} w ↦ {met} ({step})" for arm, step in arms)
    answers.answer(each, "loop-value-preserved", f"record {{ continues = elim c.match-value.branch [ {cases} ] }}")
    answers.more.append((f"{it.family.first.declaration.home('proofs')}.+serialize_{it.family.n}.Goals", " ".join(f"{each}-{arm}" for arm, _ in arms)))


def shared_kept(it, item, answers, each, steps, kept, at):
    """The answers on a shared pointer whose resolver is kept, in each arm; and where the arms have met, by the arm that was taken."""
    inner = f"serialize_{it.word(item.args[0])}"
    answers.answer(each, "returns-in_err-resolvers-clause-goes_on", "goes_nowhere _")
    for arm, goes in (("Some", steps.first), ("None", steps.goes)):
        answers.answer(each, f"returns-in_err-map_err-in-{arm}-clause-goes_on", f"goes_both _ _ _ {kept}.goes {goes}")
        answers.answer(each, f"returns-in_err-map_err-in-{arm}-clause-refused", write_proofs.not_pushed(f"in_err-map_err-in-{arm}"))
    met = "rw (w.serializer-is, w.resolvers-is)"

    def step(resolver, arm, serialized, goes):
        behind = "" if arm == "Some" else f"-in-{arm}"
        calls = f"w.push{behind}.ensures.items, w.map_err{behind}.ensures.variant, w.branch-map_err{behind}.ensures, w.in_ok-map_err-in-{arm}.is"
        head = f"continues_step {at} _ _ _ {resolver} c.loop-value-test.true c.value-item.is (grind (arith, common_steps, {calls})) {kept}"
        # in this arm the steps are those of `w`
        return re.sub(r"c\.(in-|deref-inner|serialize_|finish_|begin_)", r"w.\1", f"{head} {serialized} tt {goes}").replace("w.begin_", "c.begin_").replace("w.in-Ok.", "c.in-Ok.").replace("w.deref-inner", "c.deref-inner")

    arms = [
        ("in-Some+in_ok-map_err-in-Some", step("w.in-Some.resolver", "Some", steps.known, steps.first)),
        (f"in-None+in-Ok-{inner}+in-Ok-finish_shared+in_ok-map_err-in-None", step("w.in-Ok-finish_shared.resolver", "None", steps.serialized, steps.goes)),
    ]
    cases = " | ".join(f"{each}-{arm} w ↦ {met} ({body})" for arm, body in arms)
    answers.answer(each, "loop-value-preserved", f"record {{ continues = elim c.match-known.branch [ {cases} ] }}")
    answers.more.append((f"{it.family.first.declaration.home('proofs')}.+serialize_{it.family.n}.Goals", " ".join(f"{each}-{arm}" for arm, _ in arms)))


class Element:
    """What is known of the calls that write an element of a vector: those that fail, and that none does; and the resolver that it leaves."""

    by_call = "in-Err"  # whose error comes by a call

    def __init__(self, it, item):
        if it.terms.is_shared(item):
            self.shared(it, item)
            return
        if it.terms.is_row(item):
            row = it.row(item)
            self.row(it, row, [f"c.value-item.result.{i}" for i in range(row.count)])
            return
        if it.terms.is_nullable(item):
            self.nullable(it, item)
            return
        box = item.args[0] if it.terms.is_option(item) else item
        D, X = it.terms.definitions(item), it.terms.shape(box if it.terms.is_member(box) else box.args[0])
        inner = f"serialize_{it.word(box if it.terms.is_member(box) else box.args[0])}"
        first = f"c.{inner}.ensures.goes_on"
        self.goes, self.serialized, self.belongs, self.resolver = first, "c.in-Ok.ensures.serialized", "c.in-Ok.ensures.same_value", "_"
        if not all(type.name in proofs.SIMPLE or type.own for case in it.cases for type in case.types if not it.terms.leads_back(type)):
            # antt doesn't find it where a part keeps a resolver of its own
            self.resolver = "c.in-Ok.resolver"
        self.refusals = [("in-Err", first, "c.in-Err.ensures.refused")]
        if not it.terms.is_member(box):
            self.goes, self.belongs = f"(goes_both _ _ _ {first} c.serialize_inner.ensures.goes_on)", "tt"
            # antt doesn't find it by what is read in the box's place
            self.resolver = f"c.in-Ok-serialize_inner.resolver"
            whole, is_, around = "c.value-item.result", "", "{}"
            if it.terms.is_option(item):
                case = f"{D} {D} (λ s k. k) _ _ 1 {it.terms.shape(box)} refl _ _"
                whole, is_, around = "c.in-Some.whole", "c.in-Some.is, ", f"(case_refused {case} _ _ _ {{}})"
            same = f"let same : c.deref-inner.result.now ≡ {whole}.value = grind (arith, common_steps) in rw ({is_}← same)"
            since = f"since _ {first} {self.serialized}"
            owned = f"(box_refused {D} (one {X}) 0 _ _ _ _ _ (one_owned {D} {X} _ _ _ _ _ c.in-Err.ensures.refused))"
            inner_refused = f"(c.in-Err-serialize_inner.ensures.refused.{since})"
            self.refusals = [("in-Err", first, f"({same} {around.format(owned)})"), ("in-Err-serialize_inner", self.goes, f"({same} {around.format(inner_refused)})")]
            written = f"(c.in-Ok-serialize_inner.ensures.boxed.{since})"
            if it.terms.is_option(item):
                written = f"(serialized_case {case} _ _ _ {written})"
            self.serialized = f"({same} {written})"


    def row(self, it, row, values, loop="loop-value"):
        """Those of a tuple: its parts are written one after another."""
        words = proofs.words_of(it, row)
        calls, oks, errs = proofs.in_loop(words, loop), write_proofs.matched("in-Ok", words), write_proofs.matched("in-Err", words)
        written, goes = [f"c.{ok}.ensures.serialized" for ok in oks], [f"c.{call}.ensures.goes_on" for call in calls]
        parts, whole = proofs.Parts(it, row, values), f"{write_proofs.whole_of(it, row)} _ _ _ _ _"
        self.by_call, self.goes = errs[row.first_back], proofs.all_goes(goes)
        self.serialized = f"(serialized_record {whole} {parts.written(written)})"
        self.belongs = self.resolver = "tt"
        for ok, name in reversed(list(zip(oks, row.names))):
            self.belongs, self.resolver = f"(c.{ok}.ensures.same_value, {self.belongs})", f"(c.{ok}.{name}, {self.resolver})"
        refused = [parts.refused(i, written, goes, f"c.{err}.ensures.refused") for i, err in enumerate(errs)]
        self.refusals = [(err, proofs.all_goes(goes[:i + 1]), f"(record_refused {whole} {refused[i]})") for i, err in enumerate(errs)]

    def nullable(self, it, item):
        """Those of a weak pointer, or of an option of a shared one: what it leads to is written by a call."""
        self.by_call = ""
        member = writers.member_behind(it, item)
        D, X = it.terms.definitions(item), it.terms.shape(member)
        same = "let same : c.deref-inner.result.now ≡ c.in-Some.whole.value.value = grind (arith, common_steps) in rw (c.in-Some.is, ← same)"
        written, unwritten = (f"{lemma} {D} (one {X}) _ _ {more}_ _" for lemma, more in (("weak_serialized", "_ "), ("weak_refused", "_ ")))
        if item.name == "Option":
            written, unwritten = (f"{lemma} {D} {D} (λ s k. k) _ _ 1 {it.terms.shape(item.args[0])} refl _ _ _ _ _" for lemma in ("serialized_case", "case_refused"))
        self.goes = f"c.{writers.keyed(it, member)}.ensures.goes_on"
        self.serialized = f"({same} ({written} c.in-Ok.ensures.serialized))"
        self.refusals = [("in-Err", self.goes, f"({same} ({unwritten} c.in-Err.ensures.refused))")]

    def shared(self, it, item):
        """Those of a shared pointer: its key is started, and then its value is written, if that wasn't known."""
        its = BehindShared(it, item.args[0], "c.value-item.result", "c.in-Some", "c.in-None")
        self.by_call = ""
        self.known, self.first, self.goes, self.serialized = its.known, its.first, its.goes, its.serialized
        self.refusals = [(f"in-Err{behind}", goes, refused) for behind, goes, refused in its.refusals]


class Entry(Element):
    """The same of an entry of a map: of the tuple that it is."""

    def __init__(self, it, row, values, loop):
        self.row(it, row, values, loop)


class BehindShared:
    """What is known of the calls that write what is behind a shared pointer: those that fail, and that none does. `some` and `none` are the arms of what is known of its key.
    Where there is no pointer, it is the key and the value that a function is passed."""

    finish = "finish_shared"

    def __init__(self, it, value, pointer, some, none):
        t, inner, key, y = it.terms, f"serialize_{it.word(value)}", f"{pointer}.key", f"{pointer}.value.value"
        if not pointer:
            key, y = "c.args.key", "c.args.value.now"
        D, X = t.definitions(value), t.shape(value)
        keys, meaning = (f"({t.own(which)[value.own.name]} {y})" for which in ("keys", "meaning"))
        said = f"said {D} rc_flavor (one {X}) 0 {keys} {meaning}"
        begun, first, written = f"(rw {none}.is at c.in-Ok.ensures.begun)", "c.begin_shared.ensures.goes_on", f"c.{inner}.ensures.goes_on"
        same = f"let same : c.deref-inner.result.now ≡ {y} = grind (arith, common_steps) in rw (← same) " if pointer else ""
        ok = f"c.in-Ok-{inner}.ensures.serialized"
        owned = f"(region_refused {D} (one {X}) 0 {key} _ _ rc_flavor _ _ _ _ {begun} {written} (one_owned {D} {X} _ _ _ _ _ c.in-Err-{inner}.ensures.refused))"
        since = f"since rc_flavor _ _ {begun} {written} {ok}"
        self.first = first
        self.known = f"((rw {some}.is at c.in-Ok.ensures.known).{said})"
        self.goes = f"(c.finish_shared.ensures.goes_on.since _ _ {begun} {written})"
        self.serialized = f"({same}(c.in-Ok-finish_shared.ensures.shared.{since}))"
        self.refusals = [
            ("", first, f"(c.in-Err.ensures.refused.{said})"),
            (f"-{inner}", f"(goes_both _ _ _ {first} {written})", f"({same}{owned})"),
            ("-finish_shared", self.goes, f"({same}(c.in-Err-finish_shared.ensures.refused.{since}))"),
        ]


def keyed_written(it, member, answers):
    """The answers on a value that is written under a key."""
    function = writers.keyed(it, member)
    write_proofs.answered(answers, function, BehindShared(it, member, "", "c.in-Some", "c.in-None"), "in-Some")


def slice_written(it, type, answers):
    """The answers on a shared slice, and on what each of its elements owns where no other before it has these elements."""
    if it.is_first_run(type):
        write_proofs.each_written(it, type.args[0], answers)
    write_proofs.answered(answers, f"serialize_{it.word(type)}", slices.BehindSlice(it, type), "in-Some")


def pointer_written(it, type, answers):
    """The answers on a shared pointer, or on an option of one, which is written in a variant of its own."""
    item, function, D = type.args[0], f"serialize_{it.word(type)}", it.terms.definitions(type)
    pointer, some, none, as_written, as_refused = "c.args.value.now", "in-Some", "in-None", "{}", "{}"
    if type.name == "Option":
        case = f"{D} {D} (λ s k. k) _ _ 1 {it.terms.shape(item)} refl _ _"
        item, pointer, some, none = item.args[0], "c.in-Some.whole", "in-Some-known", "in-None-known"
        as_written, as_refused = (f"rw c.in-Some.is ({lemma} {case} _ _ _ {{}})" for lemma in ("serialized_case", "case_refused"))
        answers.answer(function, "returns-in-None-clause-serialized", f"rw c.in-None.is (serialized_empty_case {D} _ _ 0 refl _)")
    write_proofs.answered(answers, function, BehindShared(it, item, pointer, f"c.{some}", f"c.{none}"), some, as_written, as_refused)


def weak_written(it, type, answers):
    weak.written(it, type, answers, BehindShared)
