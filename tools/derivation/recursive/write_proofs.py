"""Proofs that recursive types are written as they say."""

from . import arrays, frames
from . import map_proofs, rooms, weak, writers
from ..common import numbered
from . import proofs, element_proofs


def whole_of(it, case):
    """The arguments of a lemma on the whole: of a record, or of a variant."""
    n = it.n
    if case.is_row:
        return f"{case.n}_definitions {case.n}_shape {case.n}_definitions {case.n}_parts {case.n}_has_parts"
    if it.is_record:
        return f"{n}_definitions {n}_shape {n}_part_definitions {n}_parts {n}_has_parts"
    return f"{n}_definitions {n}_shape {n}_name {n}_variant_definitions {n}_variants {n}_has_variants {case.tag} {case.n}_parts refl {case.n}_definitions refl"


def in_arms(made):
    """Names of calls in the arms of a match, each with its arm: where the name is there already the arm is behind it, and then a number."""
    out = []
    for arm, word in made:
        name = word if word not in out else f"{word}-in-{arm}"
        number = 2
        while name in out:
            name = f"{word}-in-{arm}-{number}"
            number += 1
        out.append(name)
    return out


def residual(names, i):
    return "from_residual" if i == 0 else f"from_residual-in_err-{names[i]}"


def parts_written(it, case, answers, function, values, as_):
    """The answers on parts that are written one after another. `as_` makes of what is said of the layer what is said of the value."""
    words = proofs.words_of(it, case)
    calls, oks, errs = numbered(words), matched("in-Ok", words), matched("in-Err", words)
    counts = numbered(["is_whole"] * len(proofs.wholes_of(case)))
    those_written(it, case, answers, function, values, as_, calls, oks, errs, counts, "returns")
    if counts or any(map(it.terms.is_row, case.types)):
        answers.answer(function, "returns-clause-same_value", same_values(it, case, values, oks, counts))


def same_values(it, case, values, oks, counts):
    """That each resolver is its own part's; of an array, that there are as many as elements."""
    if any(map(it.terms.is_row, case.types)):
        return proofs.same_parts(it, case, list(oks))
    same, counts = "tt", dict(zip(proofs.wholes_of(case), counts))
    for i, ok in reversed(list(enumerate(oks))):
        its = proofs.as_elements(it, case, i, f"c.{ok}.ensures.same_value")
        if i in counts:
            belongs = functions_of(it, "belongs", case.types[i].args[0])
            its = f"as_many_kept {belongs} {case.types[i].length} {values[i]} c.{ok}.{case.names[i]}.items c.{counts[i]}.ensures c.{ok}.ensures.same_values"
        same = f"({its}, {same})"
    return same


def of_arrays(it, case, answers, values, oks, errs, counts):
    """What is known of the calls that write parts, where arrays are among them: that each is written, and why it isn't."""
    written = [proofs.as_elements(it, case, i, f"c.{ok}.ensures.serialized") for i, ok in enumerate(oks)]
    refused = [proofs.as_elements(it, case, i, f"c.{err}.ensures.refused") for i, err in enumerate(errs)]
    for i, count in zip(proofs.wholes_of(case), counts):
        if arrays.WRITTEN not in answers.items:
            answers.items.append(arrays.WRITTEN)
            answers.more += arrays.CITED
        type, x = case.types[i], values[i]
        item, t = type.args[0], it.terms
        if t.is_option(item) and arrays.OPTION_WRITTEN not in answers.items:
            answers.items.append(arrays.OPTION_WRITTEN)
        flat, belongs = (functions_of(it, which, item) for which in ("flat", "belongs"))
        same = f"(option_kept (one {t.shape(item.args[0].args[0])}))" if t.is_option(item) else "(λ x r b. refl)"
        head = f"{t.definitions(item)} {t.shape(item)} {type.length} {t.said(item)} {flat} {t.kept(item)} {belongs} {same} {x} c.{count}.ensures _ _"
        written[i] = f"(array_written {head} c.{oks[i]}.{case.names[i]}.items c.{oks[i]}.ensures.same_values {written[i]})"
        refused[i] = f"(array_unwritten {head} _ {refused[i]})"
    return written, refused


def those_written(it, case, answers, function, values, as_, calls, oks, errs, counts, end):
    """The answers on these calls one after another, of which the last is followed by the return `end`; `counts` are those that say how long arrays are."""
    written, refusals = of_arrays(it, case, answers, values, oks, errs, counts)
    goes = [f"c.{call}.ensures.goes_on" for call in calls]
    parts = proofs.Taken(it, case, values, case.names, written, refusals, goes)
    lemma = "record_refused" if case.is_record else "variant_refused"
    for i, err in enumerate(errs):
        # both lemmas take the keys, the meaning, the states and the error
        refused = f"({lemma} {whole_of(it, case)} _ _ _ _ _ {parts.refused(i)})"
        told = as_("refused_as", refused)
        answers.answer(function, f"returns-{err}-clause-refused", f"rw c.handed_on.ensures {told}" if case.is_record and i == rooms.by_call(it, case) else told)
        if i:
            answers.answer(function, f"returns-{err}-clause-goes_on", proofs.all_goes(goes[:i + 1]))
    lemma = "serialized_record" if case.is_record else "serialized_variant"
    answers.answer(function, f"{end}-clause-serialized", as_("written_as", f"({lemma} {whole_of(it, case)} _ _ _ _ _ {proofs.Parts(it, case, values).written(parts.written)})"))
    if len(calls) > 1:
        answers.answer(function, f"{end}-clause-goes_on", proofs.all_goes(goes))


def matched(arm, words):
    """Names of the arms of matches on calls one after another: the first has no more, others are named after the call."""
    return [arm] + [f"{arm}-{word}" for word in numbered(words[1:])]


def folder_of(family, does):
    """Where the answers of functions are that call each other, or of one that doesn't call itself."""
    return f"{'' if family.first.is_holder else '+'}{does}_{family.n}"


def writing(family):
    out = {}
    answers = proofs.Answers(family, folder_of(family, "serialize"))
    for it in family.members:
        for type in it.owners:
            if it.is_written(type):
                {"Box": box_written, "BoxSlice": run_written, "Option": option_written, "Shared": element_proofs.pointer_written, "SharedSlice": element_proofs.slice_written, "Vec": run_written, "BTreeMap": map_written, "WeakShared": element_proofs.weak_written, "array": run_written}[type.name](it, type, answers)
        if it.is_record:
            record_written(it, answers)
            continue
        for case in it.cases:
            if not case.count or writers.is_inline(case):
                continue
            values = [f"c.args.{name}.now" for name in case.names]
            here = answers if any(case.leads_back) else proofs.Answers(family, f"serialize_{case.n}")
            parts_written(it, case, here, f"serialize_{case.n}" if here is answers else "", values, lambda lemma, proof: proof)
            if here is not answers:
                out.update(here.files())
        choice_written(it, answers)
    out.update(answers.files())
    return out


def record_written(it, answers):
    case = it.cases[0]
    values = [f"{'c.args.value.now' if it.is_holder else f'(out-{it.name} c.args.value.now)'}.{field.name}" for field in case.fields]

    def as_(lemma, proof):
        if it.is_holder:
            return proof
        more = " refl" if lemma == "written_as" else ""
        return f"({lemma} ({it.n}_has_keys c.args.value.now) ({it.n}_means c.args.value.now){more} {proof})"

    parts_written(it, case, answers, "" if it.is_holder else rooms.level(it), values, as_)


def box_written(it, type, answers):
    item = type.args[0]
    function, inner = f"serialize_{it.word(type)}", f"serialize_{it.word(item)}"
    D, X = it.terms.definitions(item), it.terms.shape(item)
    same = "let same : c.deref-inner.result.now ≡ c.args.value.now.value = grind (arith, common_steps) in rw (← same)"
    goes = f"(goes_both _ _ _ c.{inner}.ensures.goes_on c.serialize_inner.ensures.goes_on)"
    answers.answer(
        function, "returns-in-Err-clause-refused", f"rw c.handed_on.ensures ({same} (box_refused {D} (one {X}) 0 _ _ _ _ _ (one_owned {D} {X} _ _ _ _ _ c.in-Err.ensures.refused)))"
    )
    answers.answer(function, "returns-in-Ok-serialize_inner-clause-serialized", f"({same} (c.in-Ok-serialize_inner.ensures.boxed.since _ c.{inner}.ensures.goes_on c.in-Ok.ensures.serialized))")
    answers.answer(function, "returns-in-Ok-serialize_inner-clause-goes_on", goes)
    answers.answer(function, "returns-in-Err-serialize_inner-clause-goes_on", goes)
    answers.answer(function, "returns-in-Err-serialize_inner-clause-refused", f"({same} (c.in-Err-serialize_inner.ensures.refused.since _ c.{inner}.ensures.goes_on c.in-Ok.ensures.serialized))")


def option_written(it, type, answers):
    """An option is written as its box is, in a variant of its own."""
    if it.terms.is_shared(type.args[0]):
        element_proofs.pointer_written(it, type, answers)
        return
    item = type.args[0].args[0]
    function, inner = f"serialize_{it.word(type)}", f"serialize_{it.word(item)}"
    D, X, Y = it.terms.definitions(type), it.terms.shape(item), it.terms.shape(type.args[0])
    case = f"{D} {D} (λ s k. k) _ _ 1 {Y} refl _ _"
    same = "let same : c.deref-inner.result.now ≡ c.in-Some.whole.value = grind (arith, common_steps) in rw (c.in-Some.is, ← same)"
    goes = f"(goes_both _ _ _ c.{inner}.ensures.goes_on c.serialize_inner.ensures.goes_on)"
    since = f"ensures.{{}}.since _ c.{inner}.ensures.goes_on c.in-Ok.ensures.serialized"
    owned = f"(box_refused {D} (one {X}) 0 _ _ _ _ _ (one_owned {D} {X} _ _ _ _ _ c.in-Err.ensures.refused))"
    answers.answer(function, "returns-in-None-clause-serialized", f"rw c.in-None.is (serialized_empty_case {D} _ _ 0 refl _)")
    answers.answer(function, "returns-in-Err-clause-refused", f"rw c.handed_on.ensures ({same} (case_refused {case} _ _ _ {owned}))")
    answers.answer(function, "returns-in-Ok-serialize_inner-clause-serialized", f"({same} (serialized_case {case} _ _ _ (c.in-Ok-serialize_inner.{since.format('boxed')})))")
    answers.answer(function, "returns-in-Ok-serialize_inner-clause-goes_on", goes)
    answers.answer(function, "returns-in-Err-serialize_inner-clause-goes_on", goes)
    answers.answer(function, "returns-in-Err-serialize_inner-clause-refused", f"({same} (case_refused {case} _ _ _ (c.in-Err-serialize_inner.{since.format('refused')})))")


def run_written(it, type, answers):
    """The answers on a vector or a boxed slice, and on what each of its elements, or of an array's, owns where no other before it has these elements."""
    if it.is_first_run(type):
        each_written(it, type.args[0], answers)
    if not arrays.is_array(type):
        run_owner_written(it, type, answers)


def each_written(it, item, answers):
    w = it.word(item)
    each = f"serialize_each_{w}"
    D, X, t = it.terms.definitions(item), it.terms.shape(item), it.terms
    flat, belongs = (functions_of(it, which, item) for which in ("flat", "belongs"))
    steps = element_proofs.Element(it, item)
    if t.is_weak(item):
        weak.bring(answers)
    state = "(g.S.Keys.state l.initial.serializer) (g.S.Keys.state l.serializer)"
    reserved = "; reserved : (vec_len l.resolvers ≡ l.value-index) × (length l.values ≤ vec_capacity l.resolvers)" if rooms.is_reserved(it, item) else ""
    answers.invariant(
        each, f"invariant-{each}-loop-value",
        f"record {{ continues : Continues {D} {X} {t.said(item)} {flat} {belongs} {state} l.values (drop l.value-index l.values) l.resolvers.items{reserved} }}",
    )
    kept = "c.loop-value.invariant.continues"
    answers.answer(each, "returns-in_err-resolvers-clause-refused", "err_by c.from_residual.result OutOfMemory _ c.from_residual.ensures.1 no_memory")
    at = "_ _ _ _ _ _ _ _ _ _ c.loop-value.value-index"
    for err, goes, refused in steps.refusals:
        answers.answer(each, f"returns-{err}-clause-goes_on", f"goes_both _ _ _ {kept}.goes {goes}")
        broken = f"continues_broken {at} _ _ _ c.loop-value-test.true c.value-item.is {t.plan(item)} {kept} {goes} {refused}"
        # the errors of the levels below come by a call
        answers.answer(each, f"returns-{err}-clause-refused", f"rw c.handed_on.ensures ({broken})" if err == steps.by_call else broken)
    if t.is_row(item):
        row_deeper(it, it.row(item), answers, each)
    if it.is_first_keyed(item):
        element_proofs.keyed_written(it, writers.member_behind(it, item), answers)
    if t.is_option(item) or t.is_weak(item):
        element_proofs.option_kept(it, item, answers, each, steps, kept, at)
    elif t.is_shared(item):
        element_proofs.shared_kept(it, item, answers, each, steps, kept, at)
    else:
        if it.family.shares:
            answers.answer(each, "returns-in_err-resolvers-clause-goes_on", "goes_nowhere _")
        if not reserved:
            answers.answer(each, "returns-in_err-map_err-clause-goes_on", f"goes_both _ _ _ {kept}.goes {steps.goes}")
            answers.answer(each, "returns-in_err-map_err-clause-refused", not_pushed("in_err-map_err"))
        step = f"continues_step {at} _ _ _ {steps.resolver} c.loop-value-test.true c.value-item.is (grind (arith, common_steps)) {kept} {steps.serialized} {steps.belongs} {steps.goes}"
        places = [f"grind (arith, common_steps, c.loop-value.invariant.reserved.{i})" for i in (0, 1)]
        step += f"; reserved = ({', '.join(places)})" if reserved else ""
        answers.answer(each, "loop-value-preserved", f"record {{ continues = {step} }}")
    end = f"_ _ _ _ _ _ _ _ _ _ _ (drop_of_length-le _ c.loop-value-test.false) {kept}"
    answers.answer(each, "returns-clause-serialized", f"continues_end {end}")
    answers.answer(each, "returns-clause-same_values", f"belongs_end {end}")


def row_deeper(it, row, answers, each):
    """That the recursion ends: what is in a tuple isn't deeper than the deepest of the tuples. The toolchain's own search doesn't finish."""
    if proofs.DEEPER not in answers.items:
        answers.items.append(proofs.DEEPER)
    answers.answer(each, "returns-in_err-resolvers-clause-goes_on", "goes_nowhere _")
    known = "no_deeper _ _ _ _ c.args.values.now c.loop-value.value-index c.value-item.result c.decreases c.loop-value-test.true c.value-item.is"
    for call in proofs.in_loop([f"{word}-requires" for word, back in zip(proofs.words_of(it, row), row.leads_back) if back]):
        answers.answer(each, call, f"(omega (arith, c.decreases, {known}), within)", "g t c κs within")


def not_pushed(err):
    """That the memory for one more resolver was refused."""
    return f"err_by c.from_residual-{err}.result OutOfMemory _ c.from_residual-{err}.ensures.1 no_memory"


def functions_of(it, which, item):
    """What is read in the place of an element of a vector, or which resolvers are its own, as a function."""
    if it.terms.is_option(item):
        inner = functions_of(it, which, item.args[0])
        return f"(λ y r. ({'option_flat' if which == 'flat' else 'OptionBelongs'} {inner} y r))"
    return f"{it.terms.n_of(item)}_{which}" if it.terms.is_member(item) else f"(λ y r. {getattr(it.terms, which)(item, 'y', 'r')})"


def map_written(it, type, answers):
    map_proofs.written(it, type, answers, element_proofs.Entry)


def answered(answers, function, its, some, as_written="{}", as_refused="{}"):
    """These answers; `some` is the arm in which the key is known."""
    for behind, goes, refused in its.refusals:
        if behind:
            answers.answer(function, f"returns-in-Err{behind}-clause-goes_on", goes)
        answers.answer(function, f"returns-in-Err{behind}-clause-refused", as_refused.format(refused))
    answers.answer(function, f"returns-{some}-clause-serialized", as_written.format(its.known))
    answers.answer(function, f"returns-in-Ok-{its.finish}-clause-serialized", as_written.format(its.serialized))
    answers.answer(function, f"returns-in-Ok-{its.finish}-clause-goes_on", its.goes)


def run_owner_written(it, type, answers):
    item = type.args[0]
    each, function = frames.some(it, item), f"serialize_{it.word(type)}"
    D, X, t = it.terms.definitions(item), it.terms.shape(item), it.terms
    k, m = (t.own(which)[item.own.name] if t.is_member(item) else t.function(which, item, t.own(which)) for which in ("keys", "meaning"))
    items = "c.args.value.now.items"
    plans = f"(each_planned {D} {X} {k} {m} {t.plan(item)} {items})"
    whole = f"{D} {X} (length {items}) (each_keys {k} {items})"
    meaning = f"(list (each_meaning {m} {items}))"
    inner, ok, since, owned = rooms.run_of(it), "listed", ".since", f"vec_refused {whole}"
    if type.name == "BoxSlice":
        inner, ok, since, owned = "serialize_inner_box_slice", "boxed", "", f"box_refused {D} (run {X}) (length {items}) (each_keys {k} {items})"
    # where an empty vector is written in line, what is behind it is known under longer names
    again, by_each = ("-2", f"-{each}") if it.is_tree else ("", "")
    goes = f"(goes_both _ _ _ c.{each}.ensures.goes_on c.{inner}{again}.ensures.goes_on)"
    as_items = "rw c.as_slice-items.ensures.value at"
    long = f"(let whole : length {items} ≡ c.len.result = grind (arith, common_steps, c.len.ensures) in omega (arith, c.if-len.true, whole))"
    answers.answer(
        function, "returns-then-len-clause-refused",
        f"(let long : 4294967295 < length {items} = {long} in {owned} {meaning} _ _ _ (long_run_refused {whole} (each_meaning {m} {items}) _ _ {plans} long))",
    )
    if it.is_tree:
        empty_run_written(it, item, answers, function, f"{D} {X} {t.said(item)}")
    answers.answer(function, f"returns-in-Err{by_each}-clause-refused", f"{owned} {meaning} _ _ _ (run_owned {whole} (each_meaning {m} {items}) _ _ _ ({as_items} c.in-Err{by_each}.ensures.refused))")
    listed, unlisted = (f"({as_items} c.in-{arm}-{inner}.ensures.{clause}){since} _ c.{each}.ensures.goes_on ({as_items} c.in-Ok{by_each}.ensures.serialized)" for arm, clause in (("Ok", ok), ("Err", "refused")))
    answers.answer(function, f"returns-in-Ok-{inner}-clause-serialized", listed)
    answers.answer(function, f"returns-in-Ok-{inner}-clause-goes_on", goes)
    answers.answer(function, f"returns-in-Err-{inner}-clause-goes_on", goes)
    answers.answer(function, f"returns-in-Err-{inner}-clause-refused", unlisted)


def empty_run_written(it, item, answers, function, said):
    """The answers on a vector without elements, which is written in line."""
    items = "c.args.value.now.items"
    run = f"{said} {functions_of(it, 'flat', item)} {functions_of(it, 'belongs', item)} _ {items}"
    empty = f"(let none : length {items} ≡ 0 = grind (arith, common_steps, c.is_empty.ensures, c.if-is_empty.true, c.as_slice-items.ensures.value) in drop_of_length-le {items} {{i = 0}} (omega (arith, none)))"
    whole = f"(continues_end {run} _ {items} [] {empty} (continues_start {run}))"
    for arm, clause, its in (("Ok", "listed", "serialized"), ("Err", "refused", "refused")):
        answers.answer(function, f"returns-in-{arm}-clause-{its}", f"(rw (c.as_slice-items.ensures.value, c.new-none.ensures.items) at c.in-{arm}.ensures.{clause}).since _ (goes_nowhere _) {whole}")


def choice_written(it, answers):
    """The answers of the function that goes by the variant."""
    function = "" if it.is_holder else rooms.level(it)
    inline = {case.name: writers.is_inline(case) for case in it.cases}
    made = [(case.name, word) for case in it.cases for word in (proofs.words_of(it, case) if inline[case.name] else [f"serialize_{case.n}"] if case.count else [])]
    words = [word for _, word in made]
    calls, oks, errs = in_arms(made), matched("in-Ok", words), matched("in-Err", words)
    at = 0
    for case in it.cases:
        if not case.count:
            empty_written(it, case, answers, function)
            continue
        values = [f"c.in-{case.name}.{name}" for name in case.names]
        opened = "".join(f" {value}" for value in values)
        is_ = f"c.in-{case.name}.is"

        def as_(lemma, proof):
            if it.is_holder:
                return f"rw {is_} {proof}"
            more = f" (rw ({case.n}_opens{opened}) refl)" if lemma == "written_as" else ""
            return f"rw {is_} ({lemma} ({case.n}_has_keys{opened}) ({case.n}_means{opened}){more} {proof})"

        until = at + (case.count if inline[case.name] else 1)
        ok, err = oks[until - 1], errs[until - 1]
        belongs = f"rw {is_}" if it.is_holder else f"rw ({is_}, {case.n}_opens{opened})"
        if inline[case.name]:
            those_written(it, case, answers, function, values, as_, calls[at:until], oks[at:until], errs[at:until], [], f"returns-{ok}")
            same = same_values(it, case, values, oks[at:until], [])
            answers.answer(function, f"returns-{ok}-clause-same_value", f"{belongs} {same}")
        else:
            answers.answer(function, f"returns-{ok}-clause-serialized", as_("written_as", f"c.{ok}.ensures.serialized"))
            answers.answer(function, f"returns-{ok}-clause-same_value", f"{belongs} c.{ok}.ensures.same_values")
            answers.answer(function, f"returns-{err}-clause-refused", as_("refused_as", f"c.{err}.ensures.refused"))
        at = until


def empty_written(it, case, answers, function):
    nothing = f"(serialized_variant {whole_of(it, case)} _ _ _ _ _ (serialized_no_part no_definition _))"
    its = nothing if it.is_holder else f"(written_as {case.n}_has_keys {case.n}_means (rw {case.n}_opens refl) {nothing})"
    answers.answer(function, f"returns-in-{case.name}-clause-serialized", f"rw c.in-{case.name}.is {its}")
    answers.answer(function, f"returns-in-{case.name}-clause-goes_on", "goes_nowhere _")
