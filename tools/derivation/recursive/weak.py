"""What a module has beside the library for weak pointers that lead back to a recursive type.

A weak pointer is written as the shared one that it holds, and read back by the position that it leads to, by calls of the module: the library's read what a
shared pointer leads to. It is a record of an option, at which a layer that is mapped computes where the option is nothing or something.
"""

from .refusals import leads_back


def has_target(declaration, type):
    """Whether it leads back by a position that is read by itself: by a weak pointer, or by a shared slice."""
    is_target = type.name in ("SharedSlice", "WeakShared") and type.own is None and leads_back(declaration, type)
    return is_target or any(has_target(declaration, arg) for arg in type.args)


def is_first(it):
    """Whether this is the first type of the module with a field that leads back so."""
    all_of = it.formats.module.declarations
    first = next((its for its in all_of if its.recursive and any(has_target(its, field.type) for field in its.all_fields())), None)
    return first is it.declaration


# ---- terms ----

WRITTEN_OUT = "(record { value = "


def written_out(option):
    """A weak pointer of this option."""
    return f"{WRITTEN_OUT}{option} }})"


def is_written_out(x):
    return x.startswith(WRITTEN_OUT)


def option_of(x):
    """The option of a weak pointer, at which a layer computes where it is written out."""
    return x[len(WRITTEN_OUT):-len(" })")] if is_written_out(x) else x


def held_in(x):
    """The shared pointer in a weak one that is written out; nothing in a null."""
    option = option_of(x)
    return None if option == "None" else option[len("(Some "):-1]


# ---- vectors of weak pointers ----

# What a layer says of such a vector, as of one of options (`HeldLists`).
VECTORS = """-- A vector of weak pointers in a layer: what it means where these were mapped before, and its laws from those of each.
module _ {A B : Type 0} (g : WeakShared A → WeakShared B) where
  weak_alike : (f : Shared B → Value) (h : Shared A → Value) → weak_value f (g (record { value = None })).value ≡ null → ((x : Shared A) → weak_value f (g (record { value = Some x })).value ≡ h x)
      → (o : Option (Shared A)) → weak_value f (g (record { value = o })).value ≡ weak_value h o
  weak_alike f h none some None = none
  weak_alike f h none some (Some x) = some x

  weaks_alike : (f : Shared B → Value) (h : Shared A → Value) → weak_value f (g (record { value = None })).value ≡ null → ((x : Shared A) → weak_value f (g (record { value = Some x })).value ≡ h x)
      → (ws : List (WeakShared A)) → each_meaning (λ (w : WeakShared B). weak_value f w.value) (map g ws) ≡ each_meaning (λ (w : WeakShared A). weak_value h w.value) ws
  weaks_alike f h none some ws = each_alike g (λ (w : WeakShared B). weak_value f w.value) (λ (w : WeakShared A). weak_value h w.value) (λ w. weak_alike f h none some w.value) ws

  weak_alike_keys : (f : Shared B → List Naming) (h : Shared A → List Naming) → option_keys f (g (record { value = None })).value ≡ [] → ((x : Shared A) → option_keys f (g (record { value = Some x })).value ≡ h x)
      → (o : Option (Shared A)) → option_keys f (g (record { value = o })).value ≡ option_keys h o
  weak_alike_keys f h none some None = none
  weak_alike_keys f h none some (Some x) = some x

  weaks_alike_keys : (f : Shared B → List Naming) (h : Shared A → List Naming) → option_keys f (g (record { value = None })).value ≡ [] → ((x : Shared A) → option_keys f (g (record { value = Some x })).value ≡ h x)
      → (ws : List (WeakShared A)) → each_keys (λ (w : WeakShared B). option_keys f w.value) (map g ws) ≡ each_keys (λ (w : WeakShared A). option_keys h w.value) ws
  weaks_alike_keys f h none some ws = each_alike_keys g (λ (w : WeakShared B). option_keys f w.value) (λ (w : WeakShared A). option_keys h w.value) (λ w. weak_alike_keys f h none some w.value) ws

  module _ (k : Shared B → List Naming) (m : Shared B → Value) where
    weak_held_keyed : (g (record { value = None })).value ≡ None → ((e : Shared A) → IsKeyed (option_keys k (g (record { value = Some e })).value) (weak_value m (g (record { value = Some e })).value))
        → (o : Option (Shared A)) → IsKeyed (option_keys k (g (record { value = o })).value) (weak_value m (g (record { value = o })).value)
    weak_held_keyed none h None = rw none (weak_keyed {A = ⊥} (λ u. []) (λ u. null) (λ u. absurd u) None)
    weak_held_keyed none h (Some e) = h e

    held_weaks_keyed : (g (record { value = None })).value ≡ None → ((e : Shared A) → IsKeyed (option_keys k (g (record { value = Some e })).value) (weak_value m (g (record { value = Some e })).value))
        → (ws : List (WeakShared A)) → IsKeyed (each_keys (λ (w : WeakShared B). option_keys k w.value) (map g ws)) (list (each_meaning (λ (w : WeakShared B). weak_value m w.value) (map g ws)))
    held_weaks_keyed none h ws = held_each_keyed g (λ (w : WeakShared B). option_keys k w.value) (λ (w : WeakShared B). weak_value m w.value) (λ w. weak_held_keyed none h w.value) ws

    module _ (D : Definitions) (P : Pointee) where
      weak_held_planned : (g (record { value = None })).value ≡ None → ((e : Shared A) → HasPlan D (weak rc_flavor P) (option_keys k (g (record { value = Some e })).value) (weak_value m (g (record { value = Some e })).value))
          → (o : Option (Shared A)) → HasPlan D (weak rc_flavor P) (option_keys k (g (record { value = o })).value) (weak_value m (g (record { value = o })).value)
      weak_held_planned none h None = rw none (weak_planned {A = ⊥} D rc_flavor P (λ u. []) (λ u. null) (λ u. absurd u) None)
      weak_held_planned none h (Some e) = h e

      held_weaks_planned : (g (record { value = None })).value ≡ None → ((e : Shared A) → HasPlan D (weak rc_flavor P) (option_keys k (g (record { value = Some e })).value) (weak_value m (g (record { value = Some e })).value))
          → (ws : List (WeakShared A)) → HasRunPlan D (weak rc_flavor P) (length (map g ws)) (each_keys (λ (w : WeakShared B). option_keys k w.value) (map g ws)) (each_meaning (λ (w : WeakShared B). weak_value m w.value) (map g ws))
      held_weaks_planned none h ws = held_each_planned g (λ (w : WeakShared B). option_keys k w.value) (λ (w : WeakShared B). weak_value m w.value) D (weak rc_flavor P) (λ w. weak_held_planned none h w.value) ws
"""
# What these name, with its module.
SPOKEN = [("archive_core.specs.Shape", "Pointee")]


def vectors(family):
    """These, where a type of the family has such a vector."""
    return [VECTORS] if any(owner.args[0].name == "WeakShared" for it in family.members for owner in it.owners) else []


# ---- the module ----

CALLS = """// The shared value at a position, if the pool has it; none if the position was unknown: then the caller reads it back, and calls `finish_target`.
fn begin_target<T: Pooled, D: Pooling<T>>(
    pos: usize,
    deserializer: &mut D,
) -> Result<Option<T>, Error>
    ensures known { IfOk result (λ r. IfSome r (λ s. (bytes : List ℕ) (n : ℕ)
        → ReadsShared D.keeps T.Archived.definitions bytes pos T.Archived.pointee n
        (D.entry_of deserializer.old) (D.entry_of deserializer.new) (T.kept s))) }
    ensures begun { IfOk result (λ r. IfNone r (Awaits D.keeps pos (D.entry_of deserializer.old)
        (D.entry_of deserializer.new))) }
    ensures refused { IfErr result (λ e. (bytes : List ℕ) (n : ℕ)
        → RefusesShared T.Archived.definitions bytes pos T.Archived.pointee n
        (D.entry_of deserializer.old) e) }
{
    match deserializer.start_pooling(pos)? {
        PoolingState::Pending => Err(Error::CyclicDeserialize),
        PoolingState::Finished(value) => Ok(Some(value)),
        PoolingState::Started => Ok(None),
    }
}

// The shared value of what was read back at a position since it was started: the pool has it from now on.
fn finish_target<T: Pooled, D: Pooling<T>>(
    alloc: Global,
    pos: usize,
    value: T::Value,
    deserializer: &mut D,
) -> Result<T, Error>
    ensures read { IfOk result (λ s. (old started : Entries) (bytes : List ℕ) (n : ℕ)
        → Awaits D.keeps pos old started
        → Viewed T.Archived.definitions bytes pos T.Archived.pointee n
        → ReadsBack D.keeps T.Archived.definitions bytes pos T.Archived.pointee n started
        (D.entry_of deserializer.old) (T.Value.meaning value) (T.Value.keys value)
        → ReadsShared D.keeps T.Archived.definitions bytes pos T.Archived.pointee n old
        (D.entry_of deserializer.new) (T.kept s)) }
    ensures refused { IfErr result (λ e. (old started : Entries) (bytes : List ℕ) (n : ℕ)
        → Awaits D.keeps pos old started
        → ReadsBack D.keeps T.Archived.definitions bytes pos T.Archived.pointee n started
        (D.entry_of deserializer.old) (T.Value.meaning value) (T.Value.keys value)
        → e ≡ OutOfMemory) }
{
    let shared = T::from_value(alloc, pos, value)?;
    let kept = shared.clone()?;
    deserializer.finish_pooling(pos, kept)?;
    Ok(shared)
}
"""


def calls(it):
    """The text that a module has for weak pointers and shared slices, with the first type that needs it."""
    if not is_first(it):
        return ""
    f = it.formats
    f.use("archive_core::pooling", "Pooled", "Pooling", "PoolingState")
    f.use("archive_core::rc", "ArchivedRcWeak", "RcFlavor", "RcWeakResolver", "Shared", "WeakShared")
    f.ghost("Entries", "ReadsBack")
    f.ghost("Expressions", "shape_of")
    f.ghost("Pooled", "Entries as Known")
    f.ghost("PooledParts", "Awaits")
    f.ghost("Pooling", "ReadsShared", "RefusesShared")
    f.ghost("Shape", "weak")
    f.ghost("SharedLaws", "weak_flat")
    f.ghost("Viewed", "Viewed")
    f.ghost("std.specs.Prelude", "IfSome", "IfNone", "List", "ℕ")
    return CALLS.replace(" : Entries)", " : Known)")


def weak_at(type):
    """The hollow part of a weak pointer."""
    return f"Weak{type.args[0].own.name}At"


def hollow(it, type, source, hollow_source):
    """The hollow part of a weak pointer to a value that was written before, if there is one: what is kept of it says so."""
    name, X, shape = weak_at(type), it.formats.archived(type.args[0]), it.terms.shape(type.args[0])
    it.formats.ghost("SharedLaws", "weak_flat")
    body = f"""        let none: Option<&{name}> = None;
        ArchivedRcWeak::<{X}, RcFlavor>::resolve_from_ref(none, resolver, Place::new(pos, bytes))
"""
    return f"""// A weak pointer to a value that was written before, if there is one: what is kept of it says so. It means nothing.
#[derive(Drop)]
struct {name};

{source(it.formats, name, X)}
{hollow_source(name, it.formats.archived(type), "RcWeakResolver", f"λ _ r. weak_flat rc_flavor (one {shape}) 0 r", 4, body)}"""


def reading(it, type):
    """The body of the function that reads one back."""
    item = it.formats.archived(type.args[0])
    shared = f"Shared<{it.formats.rust(type.args[0])}>"
    return f"""    let view: Ref<'_, ArchivedRcWeak<{item}, RcFlavor>> = Ref::at(part);
    let Some(target) = view.upgrade() else {{
        return Ok(WeakShared {{ value: None }});
    }};
    let behind = target.part();
    let pos = behind.pos;
    let known = match begin_target::<{shared}, D>(pos, deserializer) {{
        Ok(known) => known,
        Err(error) => return Err(error),
    }};
    match known {{
        Some(value) => Ok(WeakShared {{ value: Some(value) }}),
        None => {{
            let value = match read_{it.word(type.args[0])}(alloc, behind, levels, deserializer) {{
                Ok(value) => value,
                Err(error) => return Err(error),
            }};
            match finish_target::<{shared}, D>(alloc, pos, value, deserializer) {{
                Ok(shared) => Ok(WeakShared {{
                    value: Some(shared),
                }}),
                Err(error) => Err(error),
            }}
        }}
    }}
"""


# ---- answers ----

BEGUN = """use Rattle.std.proofs.Common.{inl}
use Rattle.archive_core.proofs.Causes.{err_by}
use Rattle.archive_core.proofs.PooledReading.{kept_again, kept_pending}
use Rattle.HERE.begin_target.Goals as goal

pub returns-in_err-start_pooling-clause-refused : goal.returns-in_err-start_pooling-clause-refused
returns-in_err-start_pooling-clause-refused g c = err_by c.from_residual.result c.in_err-start_pooling.field-0.0 _ c.from_residual.ensures.1 (λ bytes n. inl c.in_err-start_pooling.ensures.refused)

pub returns-in-Pending-clause-refused : goal.returns-in-Pending-clause-refused
returns-in-Pending-clause-refused g c =
    let pending = rw c.in-Pending.is at c.in_ok-start_pooling.ensures.answer in
    λ bytes n. kept_pending _ bytes _ _ n g.D.Entries.keeps _ pending

pub returns-in-Finished-clause-known : goal.returns-in-Finished-clause-known
returns-in-Finished-clause-known g c =
    let known = rw c.in-Finished.is at c.in_ok-start_pooling.ensures.answer in
    λ bytes n. kept_again _ bytes _ _ n g.D.Entries.keeps _ _ _ (g.D.Entries.keeps_nothing _) c.in_ok-start_pooling.ensures.after known

pub returns-in-Started-clause-begun : goal.returns-in-Started-clause-begun
returns-in-Started-clause-begun g c = record {
  unknown = rw c.in-Started.is at c.in_ok-start_pooling.ensures.answer;
  nothing = g.D.Entries.keeps_nothing _;
  begun = g.D.Entries.keeps_nothing _;
  started = c.in_ok-start_pooling.ensures.after;
}
"""
FINISHED = """use Rattle.std.proofs.Common.{refl}
use Rattle.archive_core.proofs.PooledReading.{kept_new}
use Rattle.archive_core.proofs.recursive.PositionsBegun.{finish_refused}
use Rattle.archive_core.specs.Error.TheVariants.{OutOfMemory}
use Rattle.archive_core.proofs.Causes.{err_by}
use Rattle.HERE.finish_target.Goals as goal

pub returns-in_err-shared-clause-refused : goal.returns-in_err-shared-clause-refused
returns-in_err-shared-clause-refused g c = err_by c.from_residual.result c.in_err-shared.field-0.0 _ c.from_residual.ensures.1 (λ old started bytes n a h. c.in_err-shared.ensures.refused)

pub returns-in_err-kept-clause-refused : goal.returns-in_err-kept-clause-refused
returns-in_err-kept-clause-refused g c = err_by c.from_residual-in_err-kept.result OutOfMemory _ c.from_residual-in_err-kept.ensures.1 (λ old started bytes n a h. refl)

pub returns-in_err-finish_pooling-clause-refused : goal.returns-in_err-finish_pooling-clause-refused
returns-in_err-finish_pooling-clause-refused g c =
    err_by c.from_residual-in_err-finish_pooling.result c.in_err-finish_pooling.field-0.0 _ c.from_residual-in_err-finish_pooling.ensures.1
    (λ old started bytes n a h. finish_refused _ bytes _ n _ _ _ g.D.Entries.keeps old started _ c.finish_pooling.result _ a h c.finish_pooling.ensures.answer c.in_err-finish_pooling.ensures.refused
    c.in_err-finish_pooling.was)

pub returns-clause-read : goal.returns-clause-read
returns-clause-read g c =
    let cloned = g.met.T.Pooled.clone_law c.in_ok-shared.shared c.in_ok-kept.kept c.in_ok-kept.ensures.cases in
    λ old started bytes n a viewed h. kept_new _ bytes _ _ n g.D.Entries.keeps old started _ _ _ _ (g.T.Pooled.count c.args.value) _ _ (a.nothing) (a.begun)
    (g.D.Entries.keeps_nothing _) (g.D.Entries.keeps_nothing _) (a.unknown) (a.started) h c.in_ok-shared.ensures.kept cloned c.in_ok-finish_pooling.ensures.after
    (g.met.T.Pooled.spans c.args.value) viewed
"""

# Lemmas of the library that a crate which names `archive_core` alone can't cite. A tactic of the function can't cite them.
WRITTEN = [
    """weak_serialized : (D : Definitions) (P : Pointee) (ks : List Naming) (v flat : Value) (old new : WriterState) → Serialized D (shared rc_flavor P) ks v flat old new → Serialized D (weak rc_flavor P) ks v flat old new
weak_serialized D P ks v flat old new (serialized writes planned) = serialized writes (λ below s names k m. (
    let q = planned below s names k m in
    record { flat = q.flat; steps = q.steps; stop = q.stop; plans = as_weak q.plans; such = q.such }))
""",
    """null_serialized : (D : Definitions) (P : Pointee) (w : WriterState) → Serialized D (weak rc_flavor P) [] null null w w
null_serialized D P w = as_null (serialized_empty_case D (codes "") (variant no_part no_variant) 0 refl w)
  where
    as_null : Serialized D (choice (codes "") (variant no_part no_variant)) [] (case 0 no_value) (case 0 no_value) w w → Serialized D (weak rc_flavor P) [] null null w w
    as_null (serialized writes planned) = serialized
        (record { added = writes.added; grown = writes.grown; states = writes.states; finished = λ k n. elim n [ ]; appends = writes.appends; fills = λ x c. fills_null })
        (λ below s names k n. record { flat = null; steps = []; stop = cursor w; plans = plans_null; such = (refl, record { position = refl; keys = λ key. refl }) })
""",
    """weak_part : {s : SchemaTable} {P : Pointee} {v : Value} {o : ℕ} {Y : Shape} {w : Value} {e : Error} → ValuePart s (shared rc_flavor P) v o Y w → HindersPart Y w e
    → (Z : Shape) × ValuePart s (weak rc_flavor P) v o Z w × HindersPart Z w e
weak_part {P = P} part_itself (stands_too_far owner_shared there far) = (weak rc_flavor P, part_itself, stands_too_far owner_weak there far)
weak_part {P = P} part_itself (shared_too_long shared_owner long) = (weak rc_flavor P, part_itself, shared_too_long weak_owner long)
""",
    """weak_refused : (D : Definitions) (P : Pointee) (ks : List Naming) (v : Value) (old new : WriterState) (e : Error) → IsRefused D (shared rc_flavor P) ks v old new e → IsRefused D (weak rc_flavor P) ks v old new e
weak_refused D P ks v old new e h = explains_sooner _ _ _ _ old new e
    (λ x. record {
      named = x.named;
      cause = λ below s names k m. (
          let q = x.cause below s names k m in
          record {
            flat = q.flat;
            steps = q.steps;
            stop = q.stop;
            plans = as_weak q.plans;
            such = ⊎_elim inl (λ y. (let z = weak_part y.3 y.4 in inr (y.0, z.0, y.2, z.1, z.2))) q.such;
          });
    })
    (λ m x below s names k l. (let q = x below s names k l in record { flat = q.flat; steps = q.steps; stop = q.stop; plans = as_weak q.plans; such = q.such })) h
""",
]
# What these name, with its modules.
NAMED = [
    ("archive_core.proofs.Causes", "explains_sooner"),
    ("archive_core.specs.Causes", "ValuePart part_itself HindersPart stands_too_far owner_shared owner_weak shared_too_long shared_owner weak_owner IsRefused"),
    ("archive_core.specs.Denotes", "Naming fills_null"),
    ("archive_core.specs.Error", "Error"),
    ("archive_core.specs.Plans", "Serialized serialized cursor plans_null"),
    ("archive_core.specs.Reads", "SchemaTable"),
    ("archive_core.specs.SharedLaws", "as_weak"),
    ("archive_core.specs.Shape", "Pointee choice"),
    ("archive_core.specs.WriterState", "WriterState"),
    ("std.proofs.Common", "⊎_elim"),
    ("std.specs.Prelude", "codes"),
]


def bring(answers):
    """Brings in these lemmas."""
    if WRITTEN[0] not in answers.items:
        answers.items += WRITTEN
        answers.more += NAMED


def written(it, type, answers, behind):
    """The answers on a weak pointer that is written; `behind` has what is known of the calls that write what it leads to."""
    function, D, X = f"serialize_{it.word(type)}", it.terms.definitions(type), it.terms.shape(type.args[0])
    bring(answers)
    its = behind(it, type.args[0], "c.in-Some.whole", "c.in-Some-known", "c.in-None-known")
    as_written, as_refused = (f"rw c.in-Some.is ({lemma} {D} (one {X}) _ _ {more}_ _ {{}})" for lemma, more in (("weak_serialized", "_ "), ("weak_refused", "_ ")))
    answers.answer(function, "returns-in-None-clause-serialized", f"rw c.in-None.is (null_serialized {D} (one {X}) _)")
    for err, goes, refused in its.refusals:
        if err:
            answers.answer(function, f"returns-in-Err{err}-clause-goes_on", goes)
        answers.answer(function, f"returns-in-Err{err}-clause-refused", as_refused.format(refused))
    answers.answer(function, "returns-in-Some-known-clause-serialized", as_written.format(its.known))
    answers.answer(function, "returns-in-Ok-finish_shared-clause-serialized", as_written.format(its.serialized))
    answers.answer(function, "returns-in-Ok-finish_shared-clause-goes_on", its.goes)


def read(it, type, answers):
    """The answers on one that is read back."""
    function, D, X = f"read_{it.word(type)}", it.terms.definitions(type), it.terms.shape(type.args[0])
    answers.more += [
        ("archive_core.proofs.PooledPointers", "weak_back weak_unread null_back"),
        ("archive_core.proofs.PooledReading", "kept_refused"),
    ]
    here = f"{D} c.args.part.bytes.now c.args.part.pos c.args.part.len rc_flavor (one {X})"
    view = "c.at-view.ensures.buffer, c.at-view.ensures.position"
    null = f"let says = rw ({view}, c.at-view.ensures.length) at c.in_default.ensures.none in let is = rw ({view}) at c.in_default.ensures.is_null in"
    answers.answer(function, "returns-in_default-clause-read", f"({null} null_back {here} _ is says)")
    some = f"let some = c.in-Some.ensures.some in let far = rw ({view}) at c.in-Some.ensures.offset in"
    there = f"c.part-behind.ensures.buffer, c.part-behind.ensures.position, c.part-behind.ensures.length, some.0, some.1, some.2, {view}"
    bytes_, pos, length = (f"c.part-behind.result.{field}" for field in ("bytes.now", "pos", "len"))
    begun, inner = "(rw c.in-None.is at c.in-Ok.ensures.begun)", f"read_{it.word(type.args[0])}"

    def at_pointer(proof):
        """What is said of what it leads to, as of the pointer."""
        return f"{here} _ _ {{}}far c.requires (rw ({there}) at ({proof}))"

    def answer(arm, clause, body):
        answers.answer(function, f"returns-{arm}-clause-{clause}", f"({some} {body})")

    answer("in-Err", "refused", f"weak_unread {at_pointer(f'c.in-Err.ensures.refused {bytes_} {length}').format('')}")
    known = f"(rw c.in-Some-known.is at c.in-Ok.ensures.known) {bytes_} {length}"
    answer("in-Some-known", "read", f"weak_back {at_pointer(known).format('_ ')}")
    refused = f"let a = {begun} in kept_refused {D} {bytes_} {pos} (one {X}) {length} g.D.Entries.keeps _ _ _ a.nothing a.begun a.started a.unknown c.in-Err-{inner}.ensures.refused"
    answer(f"in-Err-{inner}", "refused", f"weak_unread {at_pointer(refused).format('')}")
    back = f"c.in-Ok-{inner}.ensures.read"
    read_ = f"c.in-Ok-finish_target.ensures.read _ _ {bytes_} {length} {begun} c.part-behind.ensures.viewed {back}"
    answer("in-Ok-finish_target", "read", f"weak_back {at_pointer(read_).format('_ ')}")
    answer("in-Err-finish_target", "refused", f"inl (c.in-Err-finish_target.ensures.refused _ _ {bytes_} {length} {begun} {back})")


# What a struct of a family is resolved to: the search of the check alone doesn't look at its fields. An enum's goals are those of its variants.
RESOLVED = """use Rattle.std.proofs.Common.{rules}
use Rattle.DECLARED.{out-NAME}
use Rattle.HERE.NAMEArchive.resolve.Goals as goal

pub returns : goal.returns
unfolding out-NAME
returns c = record {
  resolved = search rules;
  refused = search rules;
  same_length = search rules;
}
"""


def is_resolved(it):
    """Whether there is an answer here on how it is resolved: for structs of families."""
    return it.is_record and len(it.family.members) > 1 and any(it.terms.is_weak(field.type) for field in it.declaration.all_fields())


def files(it):
    """The answers on these calls, by their paths."""
    crate, module = it.declaration.crate, it.declaration.module
    here, folder = ".".join((crate, "proofs") + tuple(module)), "/".join(("proofs",) + tuple(module))
    each = {"begin_target": BEGUN, "finish_target": FINISHED} if is_first(it) else {}
    if is_resolved(it):
        each[f"{it.name}Archive/resolve"] = RESOLVED.replace("DECLARED", it.family.declared(it.name)).replace("NAME", it.name)
    return {f"{folder}/{name}/Answers.antt": f"-- {it.written}\n{text.replace('HERE', here)}" for name, text in each.items()}
