"""The answers on the functions that write and read back the sorted maps of recursive types."""

from .maps import entries
from .term_words import element

LOOP = "loop-key"


def written(it, type, answers, steps):
    """The answers on what a map owns; `steps` says what is known of the calls that write an entry, by the terms of its parts."""
    entries_written(it, type, answers, steps)
    owner_written(it, type, answers)


def entries_written(it, type, answers, steps_of):
    from .write_proofs import functions_of, not_pushed

    item, t = element(type), it.terms
    function = f"serialize_{entries(it, type)}"
    D, X = t.definitions(item), t.shape(item)
    flat, belongs = (functions_of(it, which, item) for which in ("flat", "belongs"))
    steps = steps_of(it, it.row(item), ["c.in-Some.key.now", "c.in-Some.value.now"], LOOP)
    whole = f"{D} {X} {t.said(item)} {flat} {belongs}"
    answers.invariant(
        function, f"invariant-{function}-{LOOP}",
        f"record {{ continues : Continues {whole} (g.S.Keys.state l.initial.serializer) (g.S.Keys.state l.serializer) l.values.entries l.key-iterator l.resolvers.items }}",
    )
    kept = f"c.{LOOP}.invariant.continues"
    head = "_ _ _ _ _ _ _ _"
    answers.answer(function, "returns-in_err-resolvers-clause-goes_on", "goes_nowhere _")
    answers.answer(function, "returns-in_err-resolvers-clause-refused", "err_by c.from_residual.result OutOfMemory _ c.from_residual.ensures.1 no_memory")
    gives = "let gives : c.into_iter-key-iterator.result ≡ c.args.values.now.entries = grind (arith, common_steps, c.into_iter-key-iterator.ensures) in"
    none = "let none : c.in_ok-resolvers.resolvers.items ≡ [] = grind (arith, common_steps) in"
    answers.answer(function, f"{LOOP}-init", f"({gives} {none} record {{ continues = rw (gives, none) (continues_start {head}) }})")
    taken = "let taken = c.in-Some.ensures.steps in"
    for err, goes, refused in steps.refusals:
        answers.answer(function, f"returns-{err}-clause-goes_on", f"goes_both _ _ _ {kept}.goes {goes}")
        broken = f"({taken} taken_refused {head} _ _ _ _ _ _ {t.plan(item)} (rw taken at {kept}) {goes} {refused})"
        # the errors of the levels below come by a call
        answers.answer(function, f"returns-{err}-clause-refused", f"rw c.handed_on.ensures {broken}" if err == steps.by_call else broken)
    answers.answer(function, "returns-in_err-map_err-clause-goes_on", f"goes_both _ _ _ {kept}.goes {steps.goes}")
    answers.answer(function, "returns-in_err-map_err-clause-refused", not_pushed("in_err-map_err"))
    step = f"taken_written {head} _ _ _ _ _ {steps.resolver} (rw taken at {kept}) {steps.serialized} {steps.belongs} {steps.goes}"
    pushed = f"let pushed : c.push.new.self.items ≡ c.{LOOP}.resolvers.items ++ {steps.resolver} ∷ [] = grind (arith, common_steps) in"
    answers.answer(function, f"{LOOP}-preserved", f"({taken} {pushed} record {{ continues = rw pushed ({step}) }})")
    end = f"{head} _ _ _ c.in-None.ensures.steps.0 {kept}"
    answers.answer(function, "returns-clause-serialized", f"continues_end {end}")
    answers.answer(function, "returns-clause-same_values", f"belongs_end {end}")


def owner_written(it, type, answers):
    item, t = element(type), it.terms
    each, function = f"serialize_{entries(it, type)}", f"serialize_{it.word(type)}"
    D, X, key, V = t.definitions(item), t.shape(item), t.plain.key(type), t.shape(type.args[1])
    k, m = (t.function(which, item, t.own(which)) for which in ("keys", "meaning"))
    items = "c.args.value.now.entries"
    plans = f"(each_planned {D} {X} {k} {m} {t.plan(item)} {items})"
    whole = f"(length {items}) (each_keys {k} {items}) (each_meaning {m} {items})"
    goes = f"(goes_both _ _ _ c.{each}.ensures.goes_on c.serialize_inner_map.ensures.goes_on)"
    long = f"(let whole : length {items} ≡ c.len.result = grind (arith, common_steps, c.len.ensures) in omega (arith, c.if-len.true, whole))"
    answers.answer(function, "returns-then-len-clause-refused", f"(let long : 4294967295 < length {items} = {long} in long_map_refused {D} {key} {V} {X} refl {whole} _ _ {plans} long)")
    answers.answer(function, "returns-in-Err-clause-refused", f"map_refused {D} {key} {V} {X} refl {whole} _ _ _ (run_owned {D} {X} {whole} _ _ _ c.in-Err.ensures.refused)")
    mapped, unmapped = (
        f"c.in-{arm}-serialize_inner_map.ensures.{clause}.since _ c.{each}.ensures.goes_on c.in-Ok.ensures.serialized" for arm, clause in (("Ok", "mapped"), ("Err", "refused"))
    )
    answers.answer(function, "returns-in-Ok-serialize_inner_map-clause-serialized", mapped)
    answers.answer(function, "returns-in-Ok-serialize_inner_map-clause-goes_on", goes)
    answers.answer(function, "returns-in-Err-serialize_inner_map-clause-goes_on", goes)
    answers.answer(function, "returns-in-Err-serialize_inner_map-clause-refused", unmapped)


def read(it, type, answers):
    """The answers on a map, whose entries are read back as those of a vector are."""
    from .proofs import ARGS, TOLD

    item, t = element(type), it.terms
    w, function = it.word(item), f"read_{it.word(type)}"
    D, X, L, laid = t.definitions(item), t.shape(item), f"{w}_layout", f"{w}_has_layout"
    said = f"{w}_meaning {w}_keys"
    answers.invariant(
        "", f"invariant-{function}-loop-index",
        "(length l.items.items ≡ l.index) × (vec_len l.items ≡ l.index) × (l.list.len ≤ vec_capacity l.items)"
        f" × FirstElements g.D.Entries.keeps {D} {X} {L} l.list.bytes.now l.list.pos (run {X}) l.list.len {said} (g.D.Entries.entry_of l.initial.deserializer) (g.D.Entries.entry_of l.deserializer) l.items.items",
    )
    before = "before_map-list"
    lets = f"let kept = c.loop-index.invariant in let b = c.{before}.result.bytes.now in let q = c.{before}.result.pos in let n = c.{before}.result.len in"
    below = "let below : c.loop-index.index < n = omega (arith, c.loop-index-test.true, c.loop-index.auto.index-end, c.len-index-end.ensures) in"
    steps = ", ".join(f"c.{call}.ensures.{clause}" for call in ("part", "index") for clause in ("buffer", "position", "length"))
    here = f"{D} {X} {L} {laid} b q (run {X}) n n (all_have {D} {X} {L} {laid} b q n (run {X}) n (inl (refl, refl))) {said} {TOLD}"
    now = "(g.D.Entries.entry_of c.loop-index.deserializer)"
    listed = ", ".join(f"c.{before}.ensures.{clause}" for clause in ("buffer", "position", "length"))
    refused = f"element_refused {here} {now} c.loop-index.items.items c.loop-index.index (one {X}) c.in-Err.error refl below (kept.3) h"
    map_ = f"{t.plain.shape(type.args[0])} {t.shape(type.args[1])} {t.plain.key(type)} refl"
    answers.answer(
        function, "returns-in-Err-clause-refused",
        f"({lets} {below} let h = rw ({steps}) at c.in-Err.ensures.refused in let r = {refused} in "
        + f"pairs_unread {D} {map_} {ARGS} c.requires {TOLD} c.in-Err.error (rw ({listed}) at r))",
    )
    pushed = "let pushed : c.push_reserved.new.self.items ≡ c.loop-index.items.items ++ c.in-Ok.item ∷ [] = grind (arith, common_steps) in"
    more = "let more : length (c.loop-index.items.items ++ c.in-Ok.item ∷ []) ≡ c.loop-index.index + 1 = grind (arith, common_steps, kept.0) in"
    step = f"elements_more {here} {now} (g.D.Entries.entry_of c.read_{w}.new.deserializer) c.loop-index.items.items c.in-Ok.item c.loop-index.index (one {X}) refl kept.0 below (kept.3) h"
    answers.answer(
        function, "loop-index-preserved",
        f"({lets} {below} {pushed} {more} let h = rw ({steps}) at c.in-Ok.ensures.read in"
        f" rw pushed (more, grind (arith, common_steps, kept.1), grind (arith, common_steps, kept.2), {step}))",
    )
    whole = "let whole : length c.loop-index.items.items ≡ n = omega (arith, kept.0, c.loop-index-test.false, c.loop-index.auto.index-end, c.len-index-end.ensures) in"
    answers.answer(
        function, "returns-clause-read",
        f"({lets} {whole} let r = elements_all {here} {now} c.loop-index.items.items whole (kept.3) in"
        f" if_ok c.collect_map.result (λ m h. h.since _ _ _ (rw ({listed}) at r)) c.collect_map.ensures.read)",
    )
