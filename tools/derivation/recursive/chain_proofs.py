"""The proofs of an enum that goes by loops: what is written and read up to its boxes."""

from . import proofs, write_proofs, read_proofs
from ..common import numbered
from .chains import opens
from .reads import Reads

BUFFERS = ("buffer", "position", "length")


def files(it):
    out = {}
    for case in it.cases:
        if opens(case) and case.count > 1:
            out.update(front_written(it, case))
        elif case.count and not opens(case):
            out.update(whole_written(it, case))
        out.update(front_read(it, case) if opens(case) else whole_read(it, case))
    for answers in (rests(it), heads_written(it), closed(it), heads_read(it), around(it)):
        out.update(answers.files())
    return out


def answers_of(it, trait, method):
    return proofs.Answers(it.family, f"{it.name}{trait}/{method}")


# ---- writing ----


def whole_written(it, case):
    """A variant that has no box."""
    answers = proofs.Answers(it.family, f"serialize_{case.n}")
    values = [f"c.args.{name}.now" for name in case.names]
    write_proofs.parts_written(it, case, answers, "", values, lambda lemma, proof: proof)
    return answers.files()


def up_to_box(it, case, values, written, goes, same):
    """What is written up to the box: its four fields, each of its arguments."""
    parts = proofs.Parts(it, case, values)
    whole = write_proofs.whole_of(it, case)
    last = case.count - 1
    belongs = "(tt, tt)"
    for one in reversed(same):
        belongs = f"({one}, {belongs})"
    return (
        f"serialized_variant {whole} _ _ _ _ _ {parts.written(written + ['h'])}",
        belongs,
        f"variant_refused {whole} _ _ _ _ _ {parts.refused(last, written, goes + ['go'], 'r')}",
        "omega arith",
    )


def told(name):
    """These four where a call told them."""
    return f"{name}.written t new go h", f"{name}.same_value t", f"{name}.unwritten new e go r", f"{name}.lighter"


def fields(written, same, unwritten, lighter):
    """The record of these four."""
    return f"record {{ written = λ t new go h. {written}; same_value = λ t. {same}; unwritten = λ new e go r. {unwritten}; lighter = {lighter} }}"


def front_written(it, case):
    """What writes the parts of a variant before its box."""
    answers = proofs.Answers(it.family, f"serialize_{case.n}")
    values = [f"c.args.{name}.now" for name in case.names]
    words = ["serialize_part"] * (case.count - 1)
    calls, oks, errs = numbered(words), write_proofs.matched("in-Ok", words), write_proofs.matched("in-Err", words)
    written = [f"c.{ok}.ensures.serialized" for ok in oks]
    goes = [f"c.{call}.ensures.goes_on" for call in calls]
    parts = proofs.Parts(it, case, values)
    for i, err in enumerate(errs):
        refused = parts.refused(i, written, goes, f"c.{err}.ensures.refused")
        answers.answer("", f"returns-{err}-clause-refused", f"variant_refused {write_proofs.whole_of(it, case)} _ _ _ _ _ {refused}")
        if i:
            answers.answer("", f"returns-{err}-clause-goes_on", proofs.all_goes(goes[:i + 1]))
    joined = [proofs.all_goes(goes)] if goes else []
    same = [f"c.{ok}.ensures.same_value" for ok in oks]
    answers.answer("", "returns-clause-written", fields(*up_to_box(it, case, values, written, goes, same)))
    if len(goes) > 1:
        answers.answer("", "returns-clause-goes_on", joined[0])
    return answers.files()


def bound(case):
    """The parts of a variant that a match names, each as the match has it."""
    return [f"c.in-{case.name}.{name}" for name in case.names]


def rests(it):
    """What a value's box holds."""
    answers = answers_of(it, "ChainSource", "rest")
    behind = iter(numbered(["deref"] * sum(map(opens, it.cases))))
    for case in it.cases:
        names = [f"_{name}" for name in case.names[:-1]] + [case.names[-1] if opens(case) else f"_{case.names[-1]}"] if case.count else []
        values = "".join(f" c.in-{case.name}.{name}" for name in names)
        opened = f"({case.n}_opens{values})" if values else f"{case.n}_opens"
        held = f", c.{next(behind)}.ensures" if opens(case) else ""
        answers.answer("", f"returns-in-{case.name}", f"rw (c.in-{case.name}.is, {opened}{held}) refl")
    return answers


def heads_written(it):
    """What is written up to the box, by the variant."""
    answers = answers_of(it, "ChainSource", "serialize_head")
    words = [f"serialize_{case.n}" for case in it.cases if calls(case)]
    oks, errs = iter(write_proofs.matched("in-Ok", words)), iter(write_proofs.matched("in-Err", words))
    for case in it.cases:
        values = bound(case) if calls(case) else [f"c.in-{case.name}._{name}" for name in case.names]
        opened = "".join(f" {value}" for value in values)
        is_ = f"c.in-{case.name}.is"
        laws = f"({case.n}_has_keys{opened}) ({case.n}_means{opened})"
        opening = f"({case.n}_opens{opened})" if opened else f"{case.n}_opens"
        if not case.count:
            nothing = f"(serialized_variant {write_proofs.whole_of(it, case)} _ _ _ _ _ (serialized_no_part no_definition _))"
            answers.answer("", f"returns-in-{case.name}-clause-serialized", f"rw {is_} (written_as {case.n}_has_keys {case.n}_means (rw {opening} refl) {nothing}, rw {opening} tt)")
            continue
        if not calls(case):
            head = up_to_box(it, case, values, [], [], [])
            answers.answer("", f"returns-in-{case.name}-clause-serialized", open_written(case, values, is_, opening, head))
            continue
        ok, err = next(oks), next(errs)
        if opens(case):
            answers.answer("", f"returns-{ok}-clause-serialized", open_written(case, values, is_, opening, told(f"c.{ok}.ensures.written")))
        else:
            its = f"written_as {laws} (rw {opening} refl) c.{ok}.ensures.serialized"
            answers.answer("", f"returns-{ok}-clause-serialized", f"rw {is_} ({its}, rw {opening} c.{ok}.ensures.same_values)")
        answers.answer("", f"returns-{err}-clause-refused", f"rw {is_} (refused_as {laws} c.{err}.ensures.refused)")
    return answers


def calls(case):
    """Whether a function writes what comes before a box, or all of a variant."""
    return case.count > (1 if opens(case) else 0)


def open_written(case, values, is_, opening, head):
    """The same of the value itself, by what it means, its keys and its layer."""
    arguments = "".join(f" {value}" for value in values)
    keys, means = f"{case.n}_has_keys{arguments}", f"{case.n}_means{arguments}"
    written, same, unwritten, lighter = head
    its = fields(f"rw ({keys}, {means}, {opening}) ({written})", f"rw {opening} ({same})", f"rw ({keys}, {means}) ({unwritten})", f"rw ({means}) ({lighter})")
    return f"rw {is_} ({values[-1]}.value, rw {opening} refl, {its})"


def matched_goals(it, word):
    """Each variant with a box: the goal of its arm, and that the argument is of it. A match with one arm has no goal of its own."""
    cases = [case for case in it.cases if opens(case)]
    if len(cases) == 1:
        return [(cases[0], "returns", f"({it.n}_{word}_is c.args.{word})", ["_"] * (cases[0].count - 1))]
    return [(case, f"returns-in-{case.name}", f"c.in-{case.name}.is", [f"c.in-{case.name}.{name}" for name in case.names[:-1]]) for case in cases]


def closed(it):
    """The resolver of a value with a box."""
    answers = answers_of(it, "ChainSource", "close")
    for _, goal, is_, _ in matched_goals(it, "kept"):
        answers.answer("", goal, f"rw {is_} refl")
    return answers


# ---- reading back ----


def whole_read(it, case):
    answers = proofs.Answers(it.family, f"read_{case.n}")
    read_proofs.parts_read(it, case, answers, "")
    return answers.files()


def front_read(it, case):
    """What reads the parts of a variant before its box."""
    answers = proofs.Answers(it.family, f"read_{case.n}")
    reads = Reads(it, case.names[:-1], case.types[:-1])
    for i, err in enumerate(reads.errs):
        refused = parts_refused(it, case, reads, i, f"c.{err}.ensures.refused")
        answers.answer("", f"returns-{err}-clause-refused", f"({refused})")
    last = case.count - 1
    at = f"c.part_of_variant-p{last}" if last else "c.part_of_variant-p0"
    D, X = it.terms.definitions(case.types[last]), it.terms.shape(case.types[last].args[0])
    told = f"rw ({', '.join(f'{at}.ensures.{clause}' for clause in BUFFERS)}) at"
    here = f"{D} c.args.part.bytes.now (c.args.part.pos + {case.offsets[last]}) 0"
    viewed = f"({told} {at}.ensures.viewed)"
    box = f"(box_read {here} (one {X}) _ _ _ _ {viewed} h)"
    unread = f"(box_unread {here} (one {X}) _ e {viewed} r)"
    lets = read_proofs.signed_values(zip(case.types, case.names, reads.values))
    body = (
        f"rw {at}.ensures.position (record {{ viewed = {viewed}; inside = omega arith;"
        f" done = λ new m ks h. variant_read_back {write_proofs.whole_of(it, case)} _ _ _ c.requires.tag _ _ _ _ {parts_read(it, case, reads, box)};"
        f" broken = λ e r. {parts_refused(it, case, reads, last, unread)} }})"
    )
    made = read_proofs.made_of(it, case.types[:-1], case.leads_back[:-1])
    lets += f"rw ({made}) " if made else ""
    answers.answer("", "returns-clause-read", f"({lets}({body}))" if lets else body)
    return answers.files()


def laid(it, case, at):
    """The layout of a part, and where it may begin."""
    size, align = it.formats.layout(case.types[at])
    start = 1 if not at else case.offsets[at - 1] + it.formats.layout(case.types[at - 1])[0]
    return f"(record {{ size = {size}; align = {align} }})", "(record { solved = λ s k. refl })", start


def told_of(at):
    return f"rw ({', '.join(f'c.part_of_variant-p{at}.ensures.{clause}' for clause in BUFFERS)}) at "


def parts_refused(it, case, reads, i, refusal):
    """That the whole is refused, as the part with this index is."""
    t = it.terms
    types = case.types

    def go(at):
        layout, solved, start = laid(it, case, at)
        rest = types[at + 1:]
        head = f"{t.definitions(types[at])} {t.parts_definitions(rest)} {t.shape(types[at])} {layout} {solved} {t.parts(rest)} _ _ {start} _ _"
        if at < i:
            return f"(later_refuses {head} _ c.{reads.oks[at]}.ensures.read.kept {go(at + 1)})"
        its = refusal if i == case.count - 1 else f"({told_of(at)}{refusal})"
        return f"(first_refuses {head} {its})"

    return f"variant_refuses {write_proofs.whole_of(it, case)} _ _ _ c.requires.tag _ _ {go(0)}"


def parts_read(it, case, reads, box):
    """That the parts are read back, the box among them."""
    t, values = it.terms, reads.values

    def go(at):
        layout, solved, _ = laid(it, case, at)
        if at == case.count - 1:
            return f"(part_read_back {{L = {layout}}} {{ks = ks}} {{ls = []}} {solved} {box} no_part_read_back)"
        k = t.keys(case.types[at], values[at], t.own("keys"))
        later = "(ks ++ [])"
        for type, x in reversed(list(zip(case.types[at + 1:-1], values[at + 1:]))):
            later = f"({t.keys(type, x, t.own('keys'))} ++ {later})"
        return f"(part_read_back {{L = {layout}}} {{ks = {k}}} {{ls = {later}}} {solved} ({told_of(at)}c.{reads.oks[at]}.ensures.read) {go(at + 1)})"

    return go(0)


def heads_read(it):
    answers = answers_of(it, f"ChainBack{it.archived}", "read_head")
    return answers


def around(it):
    """What a value means that is made of what was read."""
    answers = answers_of(it, f"ChainBack{it.archived}", "around")
    for case, goal, is_, values in matched_goals(it, "front"):
        for clause, law in (("meaning", "means"), ("keys", "has_keys")):
            answers.answer("", f"{goal}-clause-{clause}", f"rw {is_} ({case.n}_{law}{''.join(' ' + value for value in values)} c.args.rest)")
    return answers
