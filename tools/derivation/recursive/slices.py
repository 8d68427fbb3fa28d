"""What a module has beside the library for shared slices that lead back to a recursive type.

Their elements are written once for their key, as those of a vector are, and read back once for their position. A function that writes them is passed the key
and the elements: of the shared slice the toolchain doesn't see that they are less. A value is resolved with a hollow part in a shared slice's place.
"""

from .hollow import HOLLOW, hollow_source
from .refusals import leads_back


def is_shared_slice(type):
    """Whether it is a shared slice; of those that a recursive type's owners have each leads back."""
    return type.name == "SharedSlice" and type.own is None


def slices_of(it):
    """The shared slices of a type that lead back, each once."""
    return [type for type in it.owners if is_shared_slice(type)]


def items_named(it, case, i):
    """The variable by which the elements of a shared slice are known where its value is written."""
    before = [(other, j) for other in it.cases for j, type in enumerate(other.types) if is_shared_slice(type) and leads_back(it.declaration, type)]
    number = before.index((case, i)) + 1
    return "items" if number == 1 else f"items{number}"


# ---- the keys of a layer ----

LAWS = """-- The keys of a shared slice in a layer, whose elements were mapped before.
slice_alike : {A B : Type 0} (g : A → B) (m : B → Value) (n : A → Value) (k : B → List Naming) (l : A → List Naming) → ((x : A) → m (g x) ≡ n x) → ((x : A) → k (g x) ≡ l x) → (key : ℕ) (P : Pointee) (xs : List A)
    → rc_keys key P (length (map g xs)) (list (each_meaning m (map g xs))) (each_keys k (map g xs)) ≡ rc_keys key P (length xs) (list (each_meaning n xs)) (each_keys l xs)
slice_alike g m n k l same alike key P xs =
    ap (λ c. rc_keys key P c (list (each_meaning m (map g xs))) (each_keys k (map g xs))) (length-map xs g)
    ∙ ap (λ vs. rc_keys key P (length xs) (list vs) (each_keys k (map g xs))) (each_alike g m n same xs)
    ∙ ap (λ ks. rc_keys key P (length xs) (list (each_meaning n xs)) ks) (each_alike_keys g k l alike xs)
"""
# What these name, with its modules.
SPOKEN = [("archive_core.specs.Shape", "Pointee"), ("std.proofs.lemmas.List", "length-map")]


def laws(family):
    """This lemma, where a type of the family has a shared slice."""
    return [LAWS] if any(map(slices_of, family.members)) else []


# ---- the module ----


def slice_at(type):
    """The hollow part of a shared slice."""
    return f"SharedSlice{type.args[0].own.name}At"


def hollow_slices(it):
    """The hollow parts that a type's shared slices need."""
    out, f = [], it.formats
    for type in slices_of(it):
        name, X, shape = slice_at(type), f.archived(type.args[0]), it.terms.shape(type.args[0])
        f.use("archive_core::primitive", "ArchivedUsize")
        f.use("archive_core::rc", "ArchivedRc", "RcFlavor", "RcResolver")
        f.use("archive_core::slice", "ArchivedSlice")
        f.ghost("Arrays", "named_twice", "twice_keyed", "no_two")
        f.ghost("PlannedOwners", "is_long")
        f.ghost("Shape", "run")
        f.ghost("SharedSources", "rc_flat")
        f.ghost("Value", "shared_value")
        source = "".join(f"    ghost {member} = {{ {its} }};\n\n" for member, its in HOLLOW)
        body = f"        ArchivedRc::<ArchivedSlice<{X}>, RcFlavor>::resolve_from_ref(self, resolver, Place::new(pos, bytes))\n"
        out.append(f"""// A shared slice whose elements were written before. It can be resolved, and nothing else: it means nothing.
#[derive(Drop)]
struct {name} {{
    // The number of elements.
    len: usize,
}}

impl ArchiveUnsized for {name} {{
    type Archived = ArchivedSlice<{X}>;

    ghost source_length = {{ λ b. b.len }};

{source}    ghost one_length = {{ λ _ e. is_long e }};

    #[inline(always)]
    fn archived_metadata(&self) -> Result<ArchivedUsize, Error> {{
        let Ok(len) = u32::try_from(self.len) else {{
            return Err(Error::LengthTooLarge);
        }};
        Ok(ArchivedUsize::from_native(len))
    }}
}}

{hollow_source(name, f.archived(type), "RcResolver", f"λ b r. rc_flat r (run {shape}) b.len", 8, body, "{b}.len ≤ 4294967295")}""")
    return "\n".join(out)


def writing(it, type):
    """The function that writes the elements of a shared slice, if their key is unknown."""
    its, D, X = f"⟦<{it.formats.rust(type.args[0])} as Archive>⟧", it.terms.definitions(type), it.terms.shape(type.args[0])
    f = it.formats
    f.use("archive_core::recursive", "begin_shared_slice", "finish_shared_slice")
    f.ghost("SharedSources", "rc_flat", "rc_flavor", "rc_keys")
    f.ghost("Shape", "run", "shared")
    f.ghost("Value", "list", "shared_value")
    states = "(S.state serializer.old) (S.state serializer.new)"
    said = (
        f"{D} (shared rc_flavor (run {X})) (rc_keys key (run {X}) (length values.now)\n"
        f"        (list (each_meaning {its}.meaning values.now)) (each_keys {its}.keys values.now)) (shared_value key)"
    )
    return f"""// Writes the elements of a shared slice, if their key is unknown.
#[cycle(serialize_{it.family.n})]
fn serialize_{it.word(type)}<{it.writer}>(key: u64, values: &[{f.rust(type.args[0])}], serializer: &mut S) -> Result<RcResolver, Error>
    ensures serialized {{ IfOk result (λ r. Serialized {said}
        (rc_flat r (run {X}) (length values.now)) {states}) }}
    ensures same_value {{ IfOk result (λ r. length values.now ≤ 4294967295) }}
    ensures goes_on {{ GoesOn {states} }}
    ensures refused {{ IfErr result (IsRefused {said} {states}) }}
{{
    let known = match begin_shared_slice(key, values.len(), serializer) {{
        Ok(known) => known,
        Err(error) => return Err(error),
    }};
    match known {{
        Some(resolver) => Ok(resolver),
        None => {{
            let kept = match serialize_each_{it.word(type.args[0])}(values, serializer) {{
                Ok(kept) => kept,
                Err(error) => return Err(error),
            }};
            match finish_shared_slice(key, values, kept, serializer) {{
                Ok(resolver) => Ok(resolver),
                Err(error) => Err(error),
            }}
        }}
    }}
}}
"""


def items_word(it, type):
    """The function that reads the elements of a shared slice back, by what stands behind `read_`."""
    return f"items_{it.word(type.args[0])}"


def read_contract(it, type):
    """What this function promises: what elements one after another mean, and their keys."""
    item = type.args[0]
    X, its = f"ArchivedSlice<{it.formats.archived(item)}>", f"⟦<{it.formats.rust(item)} as Archive>⟧"
    it.formats.ghost("Seen", "ReadsPart")
    return f"""    requires {{ IsPartOf ⟦<{X} as ArchivePointee>⟧ part }}
    ensures read {{ IfOk result (λ t. ReadsPart ⟦<{X} as ArchivePointee>⟧ part D.Entries deserializer
        (list (each_meaning {its}.meaning t.items)) (each_keys {its}.keys t.items)) }}
    ensures refused {{ IfErr result (RefusesPart ⟦<{X} as ArchivePointee>⟧ part D.Entries deserializer) }}
"""


def reading_items(it, type):
    """The body of the function that reads the elements of a shared slice."""
    item = type.args[0]
    return f"""    let list: Ref<'_, ArchivedSlice<{it.formats.archived(item)}>> = Ref::at(part);
    let mut items = Vec::with_capacity(alloc, list.len())?;
    for index in 0..list.len() {{
        let item = match read_{it.word(item)}(alloc, list.index(index).part(), levels, deserializer) {{
            Ok(item) => item,
            Err(error) => return Err(error),
        }};
        items.push_reserved(item);
    }}
    Ok(items)
"""


def reading(it, type):
    """The body of the function that reads a shared slice back."""
    T = it.formats.rust(type)
    return f"""    let view: Ref<'_, {it.formats.archived(type)}> = Ref::at(part);
    let behind = view.get().part();
    let pos = behind.pos;
    match begin_target::<{T}, D>(pos, deserializer)? {{
        Some(value) => Ok(value),
        None => {{
            let value = read_{items_word(it, type)}(alloc, behind, levels, deserializer)?;
            finish_target::<{T}, D>(alloc, pos, value, deserializer)
        }}
    }}
"""


# ---- answers ----


class BehindSlice:
    """What is known of the calls that write the elements of a shared slice: those that fail, and that none does."""

    finish = "finish_shared_slice"

    def __init__(self, it, type):
        t, item, values = it.terms, type.args[0], "c.args.values.now"
        D, X, each = t.definitions(type), t.shape(item), f"serialize_each_{it.word(item)}"
        k, m = (t.own(which)[item.own.name] for which in ("keys", "meaning"))
        keys, meanings = f"(each_keys {k} {values})", f"(each_meaning {m} {values})"
        begun, first, written = "(rw c.in-None.is at c.in-Ok.ensures.begun)", "c.begin_shared_slice.ensures.goes_on", f"c.{each}.ensures.goes_on"
        plans = f"(each_planned {D} {X} {k} {m} {t.plan(item)} {values})"
        owned = f"(run_owned {D} {X} (length {values}) {keys} {meanings} _ _ _ c.in-Err-{each}.ensures.refused)"
        since = f"since rc_flavor _ _ {begun} {written} c.in-Ok-{each}.ensures.serialized"
        self.known = f"((rw c.in-Some.is at c.in-Ok.ensures.known).said {D} rc_flavor (run {X}) (length {values}) {keys} (list {meanings}))"
        self.goes = f"(c.finish_shared_slice.ensures.goes_on.since _ _ {begun} {written})"
        self.serialized = f"(c.in-Ok-finish_shared_slice.ensures.shared.{since})"
        self.refusals = [
            ("", first, f"(c.in-Err.ensures.refused.said {D} rc_flavor {X} {keys} {meanings} {plans})"),
            (f"-{each}", f"(goes_both _ _ _ {first} {written})", f"(region_refused {D} (run {X}) (length {values}) c.args.key {keys} (list {meanings}) rc_flavor _ _ _ _ {begun} {written} {owned})"),
            ("-finish_shared_slice", self.goes, f"(c.in-Err-finish_shared_slice.ensures.refused.{since})"),
        ]


def items_read(it, type, answers):
    """The answers on the elements, which are read as those of a vector are: where they lie."""
    item, t = type.args[0], it.terms
    function, D, X, n = f"read_{items_word(it, type)}", t.definitions(item), t.shape(item), t.n_of(item)
    L, laid, said, P = f"{n}_layout", f"{n}_has_layout", f"{n}_meaning {n}_keys", f"(run {X})"
    told = "(g.D.Entries.entry_of c.args.deserializer.now)"
    answers.invariant(
        "", f"invariant-{function}-loop-index",
        "(length l.items.items ≡ l.index) × (vec_len l.items ≡ l.index) × (l.list.len ≤ vec_capacity l.items)"
        f" × FirstElements g.D.Entries.keeps {D} {X} {L} l.list.bytes.now l.list.pos {P} l.list.len {said} (g.D.Entries.entry_of l.initial.deserializer) (g.D.Entries.entry_of l.deserializer) l.items.items",
    )
    lets = "let kept = c.loop-index.invariant in let b = c.at-list.result.bytes.now in let q = c.at-list.result.pos in let n = c.at-list.result.len in"
    below = "let below : c.loop-index.index < n = omega (arith, c.loop-index-test.true, c.loop-index.auto.index-end, c.len-index-end.ensures) in"
    steps = ", ".join(f"c.{call}.ensures.{clause}" for call in ("part", "index") for clause in ("buffer", "position", "length"))
    here = f"{D} {X} {L} {laid} b q {P} n n (all_have {D} {X} {L} {laid} b q n {P} n (inl (refl, refl))) {said} {told}"
    now = "(g.D.Entries.entry_of c.loop-index.deserializer)"
    listed = ", ".join(f"c.at-list.ensures.{clause}" for clause in ("buffer", "position", "length"))
    refused = f"element_refused {here} {now} c.loop-index.items.items c.loop-index.index (one {X}) c.in-Err.error refl below (kept.3) h"
    answers.answer(function, "returns-in-Err-clause-refused", f"({lets} {below} let h = rw ({steps}) at c.in-Err.ensures.refused in let r = {refused} in rw ({listed}) at r)")
    pushed = "let pushed : c.push_reserved.new.self.items ≡ c.loop-index.items.items ++ c.in-Ok.item ∷ [] = grind (arith, common_steps) in"
    more = "let more : length (c.loop-index.items.items ++ c.in-Ok.item ∷ []) ≡ c.loop-index.index + 1 = grind (arith, common_steps, kept.0) in"
    step = f"elements_more {here} {now} (g.D.Entries.entry_of c.read_{it.word(item)}.new.deserializer) c.loop-index.items.items c.in-Ok.item c.loop-index.index (one {X}) refl kept.0 below (kept.3) h"
    answers.answer(
        function, "loop-index-preserved",
        f"({lets} {below} {pushed} {more} let h = rw ({steps}) at c.in-Ok.ensures.read in"
        f" rw pushed (more, grind (arith, common_steps, kept.1), grind (arith, common_steps, kept.2), {step}))",
    )
    whole = "let whole : length c.loop-index.items.items ≡ n = omega (arith, kept.0, c.loop-index-test.false, c.loop-index.auto.index-end, c.len-index-end.ensures) in"
    answers.answer(function, "returns-clause-read", f"({lets} {whole} let r = elements_all {here} {now} c.loop-index.items.items whole (kept.3) in rw ({listed}) at r)")


def read(it, type, answers):
    """The answers on a shared slice that is read back, and on its elements."""
    items_read(it, type, answers)
    function, D, X = f"read_{it.word(type)}", it.terms.definitions(type), it.terms.shape(type.args[0])
    answers.more += [("archive_core.proofs.PooledPointers", "shared_back shared_unread"), ("archive_core.proofs.PooledReading", "kept_refused")]
    here = f"{D} c.args.part.bytes.now c.args.part.pos c.args.part.len rc_flavor (run {X})"
    there = ", ".join([f"c.{call}.ensures.{clause}" for call in ("part-behind", "get") for clause in ("buffer", "position", "length")] + ["c.at-view.ensures.buffer", "c.at-view.ensures.position"])
    bytes_, pos, length = (f"c.part-behind.result.{field}" for field in ("bytes.now", "pos", "len"))
    begun, back = "(rw c.in-None.is at c.in_ok-value.ensures.begun)", "c.in_ok-value-in-None.ensures.read"

    def at_pointer(lemma, blanks, proof):
        """What is said of what it leads to, as of the pointer."""
        return f"{lemma} {here} {blanks} c.requires (rw ({there}) at ({proof}))"

    def failed(name, behind, body):
        answers.answer(function, f"returns-{name}-clause-refused", f"err_by c.from_residual{behind}.result c.{name}.field-0.0 _ c.from_residual{behind}.ensures.1 ({body})")

    failed("in_err-value", "", at_pointer("shared_unread", "_ _", f"c.in_err-value.ensures.refused {bytes_} {length}"))
    known = f"(rw c.in-Some.is at c.in_ok-value.ensures.known) {bytes_} {length}"
    answers.answer(function, "returns-in-Some-clause-read", at_pointer("shared_back", "_ _ _", known))
    refused = f"let a = {begun} in kept_refused {D} {bytes_} {pos} (run {X}) {length} g.D.Entries.keeps _ _ _ a.nothing a.begun a.started a.unknown c.in_err-value-in-None.ensures.refused"
    failed("in_err-value-in-None", "-in_err-value-in-None", at_pointer("shared_unread", "_ _", refused))
    read_ = at_pointer("shared_back", "_ _ _", f"h _ _ {bytes_} {length} {begun} c.part-behind.ensures.viewed {back}")
    answers.answer(function, "returns-in_ok-value-in-None-clause-read", f"if_ok c.finish_target.result (λ s h. {read_}) c.finish_target.ensures.read")
    answers.answer(function, "returns-in_ok-value-in-None-clause-refused", f"err_from c.finish_target.result c.finish_target.ensures.refused (λ e h. inl (h _ _ {bytes_} {length} {begun} {back}))")
