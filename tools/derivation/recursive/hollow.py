"""What a module has beside the library for boxed slices and shared pointers that lead back to a recursive type.

A value is resolved with a hollow part in place of a boxed slice, whose elements were written before. Their region is written by a call of its own, since that
takes memory of the machine's stack for a block of bytes. They end before the boxed slice, by which reading terminates. The hollow part of a shared pointer is
of one type, since what it leads to has no length that any could be asked for.
"""

from . import weak
from .refusals import leads_back
from .weak import weak_at


def has_boxed_slice(declaration, type):
    """Whether the type leads back to a declaration's family by a boxed slice."""
    return leads_back(declaration, type) and (type.name == "BoxSlice" and type.own is None or any(has_boxed_slice(declaration, arg) for arg in type.args))


def is_first(it):
    """Whether this is the first type of the module with a field that leads back by a boxed slice."""
    all_of = it.formats.module.declarations
    first = next((its for its in all_of if its.recursive and any(has_boxed_slice(its, field.type) for field in its.all_fields())), None)
    return first is it.declaration


BOXED_SLICES = """// A boxed slice whose elements, of the format `X`, were written before. It can be resolved, and nothing else: it means nothing.
#[derive(Drop)]
struct BoxSliceAt<X> {
    // The number of elements.
    len: usize,
    of: PhantomData<X>,
}

impl<X> BoxSliceAt<X> {
    // A boxed slice of `len` elements that were written.
    #[inline(always)]
    fn of(len: usize) -> BoxSliceAt<X>
        ensures { result.len ≡ len }
    {
        BoxSliceAt { len, of: PhantomData }
    }
}

impl<X: Portable> Archive for BoxSliceAt<X> {
    type Archived = ArchivedBox<ArchivedSlice<X>>;

    type Resolver = BoxResolver;

    ghost meaning = { λ _. shared_value 0 };

    ghost flat = { λ b r. box (hole (to_pointee r (run X.shape) b.len)) };

    ghost keys = { λ _. named_twice };

    ghost belongs = { λ b _. b.len ≤ 4294967295 };

    ghost in_bulk = { None };

    ghost keyed = { λ _. twice_keyed };

    ghost planned = { λ _ a s names known named. absurd (no_two names named) };

    #[inline(always)]
    fn resolve(
        &self,
        resolver: BoxResolver,
        place: Place<'_, ArchivedBox<ArchivedSlice<X>>>,
    ) -> Result<(), Error>
        requires zeroed { ZeroedPlace 8 place.pos place.bytes.now }
        requires same_value { self.now.len ≤ 4294967295 }
        ensures { ResolvesAs ⟦<Self::Archived as Portable>⟧ place
            (⟦<Self as Archive>⟧.flat self.now resolver) result }
    {
        let Place { bytes, pos, .. } = place;
        ArchivedBox::<ArchivedSlice<X>>::resolve_from_raw_parts(
            resolver,
            self.len as u32,
            Place::new(pos, bytes),
        )
    }

    #[inline(always)]
    fn copy_optimization() -> CopyOptimization<Self> {
        CopyOptimization::disable()
    }

    #[inline(always)]
    fn serialize_copied<S: Writer + Keys>(
        _values: &[Self],
        _together: usize,
        _serializer: &mut S,
    ) -> Result<Option<usize>, Error> {
        Ok(None)
    }
}

// Writes the region of values that were serialized, and returns the resolver of a boxed slice of them: from wherever they were, that is serialized now.
#[inline(never)]
fn serialize_inner_box_slice<S: Writer + ResolverAlloc, T: Archive, B: Allocator + Drop>(
    values: &[T],
    resolvers: Vec<T::Resolver, B>,
    serializer: &mut S,
) -> Result<BoxResolver, Error>
    requires same_values { EachBelongs T.belongs values.now resolvers.items }
    ensures boxed { IfOk result (λ t. (old : WriterState) → GoesOn old (S.state serializer.old)
        → SerializedRun T.Archived.definitions T.Archived.shape (length values.now)
        (each_keys T.keys values.now) (each_meaning T.meaning values.now)
        (each_flat T.flat values.now resolvers.items) old (S.state serializer.old)
        → Serialized T.Archived.definitions (boxed (run T.Archived.shape))
        (each_keys T.keys values.now) (box (list (each_meaning T.meaning values.now)))
        (box (hole (to_pointee t (run T.Archived.shape) (length values.now)))) old
        (S.state serializer.new)) }
    ensures goes_on { GoesOn (S.state serializer.old) (S.state serializer.new) }
    ensures refused { IfErr result (λ e. (old : WriterState) → GoesOn old (S.state serializer.old)
        → SerializedRun T.Archived.definitions T.Archived.shape (length values.now)
        (each_keys T.keys values.now) (each_meaning T.meaning values.now)
        (each_flat T.flat values.now resolvers.items) old (S.state serializer.old)
        → IsRefused T.Archived.definitions (boxed (run T.Archived.shape))
        (each_keys T.keys values.now) (box (list (each_meaning T.meaning values.now))) old
        (S.state serializer.new) e) }
{
    let alloc = serializer.resolver_alloc();
    WriterExt::align_for::<T::Archived>(serializer)?;
    let pos = ResolveExt::resolve_slice_aligned(serializer, alloc, values, resolvers)?;
    if pos > 4294967295 {
        return Err(Error::PositionTooLarge);
    }
    Ok(BoxResolver::from_pos(pos))
}

// The view of a boxed slice's elements, which end before it.
#[inline(always)]
fn before_box_slice<X: Portable>(part: RawView<'_>) -> Ref<'_, ArchivedSlice<X>>
    requires { IsPartOf ⟦<ArchivedBox<ArchivedSlice<X>> as ArchivePointee>⟧ part }
    ensures buffer { result.bytes.now ≡ part.entry.bytes.now }
    ensures position { result.pos ≡ target_from part.entry.bytes.now part.entry.pos part.entry.pos }
    ensures length { result.len ≡ u32_at part.entry.bytes.now (part.entry.pos + 4) }
    ensures ends { result.pos + result.len * X.layout.size ≤ part.entry.pos }
{
    parts_reached();
    pointers_reached();
    unique_before();
    let view: Ref<'_, ArchivedBox<ArchivedSlice<X>>> = Ref::at(part);
    view.get()
}
"""


def boxed_slices(it):
    """The text that a module has for boxed slices, with the first type that needs it."""
    if not is_first(it):
        return ""
    f = it.formats
    f.use("archive_core::laws", "parts_reached", "pointers_reached", "unique_before")
    f.use("archive_core::ser", "ResolveExt", "WriterExt")
    f.use("std::alloc", "Allocator")
    f.use("std::marker", "PhantomData")
    f.ghost("Arrays", "named_twice", "twice_keyed", "no_two")
    f.ghost("Readable", "target_from")
    f.ghost("Reads", "u32_at")
    f.ghost("Shape", "run")
    f.ghost("Value", "box", "hole", "list", "shared_value")
    f.ghost("WriterState", "WriterState")
    f.ghost("Writing", "to_pointee")
    f.ghost("std.specs.Prelude", "◌*◌")
    return BOXED_SLICES


# ---- shared pointers ----


def shared_at(type):
    """The hollow part of a shared pointer, or of an option of one."""
    if type.name == "Option":
        return f"Option{shared_at(type.args[0])}"
    return weak_at(type) if type.name == "WeakShared" else f"Shared{type.args[0].own.name}At"


def shared_pointers(it):
    """The hollow parts that the fields of a family need, each with the first type that has such a field."""
    done, out = [], []
    for other in it.family.members:
        for type in (type for case in other.cases for type in case.types if it.terms.is_pointer(type)):
            inner = type.args[0] if type.name == "Option" else type
            for part, text in ((inner, weak_pointer if inner.name == "WeakShared" else shared_pointer), (type, option_pointer)):
                if shared_at(part) not in done:
                    done.append(shared_at(part))
                    out += [text(it, part)] if other is it else []
    return "\n".join(out)


def shared_pointer(it, type):
    f, name, X = it.formats, shared_at(type), it.formats.archived(type.args[0])
    flat = f"λ _ r. rc_flat r (one {it.terms.shape(type.args[0])}) 0"
    body = f"        ArchivedRc::<{X}, RcFlavor>::resolve_from_ref(self, resolver, Place::new(pos, bytes))\n"
    return f"""// A shared pointer to a value that was written before. It can be resolved, and nothing else: it means nothing.
#[derive(Drop)]
struct {name};

{hollow_region(f, name, X)}
{hollow_source(name, f.archived(type), "RcResolver", flat, 4, body)}"""


def hollow_region(f, name, archived):
    """The impl by which a hollow part is a source that a pointer leads to."""
    f.ghost("Arrays", "named_twice", "twice_keyed", "no_two")
    f.ghost("Value", "shared_value")
    source = "".join(f"    ghost {member} = {{ {its} }};\n\n" for member, its in HOLLOW)
    return f"""impl ArchiveUnsized for {name} {{
    type Archived = {archived};

    ghost source_length = {{ λ _. 0 }};

{source}    ghost one_length = {{ λ _ _. refl }};

    #[inline(always)]
    fn archived_metadata(&self) -> Result<(), Error> {{
        Ok(())
    }}
}}
"""


def weak_pointer(it, type):
    return weak.hollow(it, type, hollow_region, hollow_source)


def option_pointer(it, type):
    name, of = shared_at(type), shared_at(type.args[0])
    flat = f"λ _ r. option_flat (λ y s. rc_flat s (one {it.terms.shape(type.args[0].args[0])}) 0) r r"
    body = f"""        match resolver {{
            None => {{
                let none: Option<{of}> = None;
                none.resolve(None, Place::new(pos, bytes))
            }}
            Some(at) => {{
                let some = Some({of});
                some.resolve(Some(at), Place::new(pos, bytes))
            }}
        }}
"""
    return f"""// An option of a shared pointer to a value that was written before, if there is one: what is kept of it says so. It means nothing.
#[derive(Drop)]
struct {name};

{hollow_source(name, it.formats.archived(type), "Option<RcResolver>", flat, it.formats.layout(type)[0], body)}"""


# The members of a source that means nothing: its keys name two things.
HOLLOW = [
    ("meaning", "λ _. shared_value 0"),
    ("keys", "λ _. named_twice"),
    ("keyed", "λ _. twice_keyed"),
    ("planned", "λ _ a s names known named. absurd (no_two names named)"),
]


def hollow_source(name, archived, resolver, flat, size, body, belongs="⊤"):
    """The impl of `Archive` of a hollow part; `belongs` says which resolvers are its own, `r` in braces, of which parts, `b` in braces."""
    meaning, keys, keyed, planned = (f"    ghost {member} = {{ {its} }};\n\n" for member, its in HOLLOW)
    return f"""impl Archive for {name} {{
    type Archived = {archived};

    type Resolver = {resolver};

{meaning}    ghost flat = {{ {flat} }};

{keys}    ghost belongs = {{ λ {'b' if '{b}' in belongs else '_'} {'r' if '{r}' in belongs else '_'}. {belongs.format(b='b', r='r')} }};

    ghost in_bulk = {{ None }};

{keyed}{planned}    #[inline(always)]
    fn resolve(
        &self,
        resolver: {resolver},
        place: Place<'_, {archived}>,
    ) -> Result<(), Error>
        requires zeroed {{ ZeroedPlace {size} place.pos place.bytes.now }}
        requires same_value {{ {belongs.format(b='self.now', r='resolver')} }}
        ensures {{ ResolvesAs ⟦<Self::Archived as Portable>⟧ place
            (⟦<Self as Archive>⟧.flat self.now resolver) result }}
    {{
        let Place {{ bytes, pos, .. }} = place;
{body}    }}

    #[inline(always)]
    fn copy_optimization() -> CopyOptimization<Self> {{
        CopyOptimization::disable()
    }}

    #[inline(always)]
    fn serialize_copied<S: Writer + Keys>(
        _values: &[Self],
        _together: usize,
        _serializer: &mut S,
    ) -> Result<Option<usize>, Error> {{
        Ok(None)
    }}
}}
"""


# ---- answers ----

WRITTEN_REGION = """use Rattle.std.proofs.Common.{◌≡◌, ◌<◌, ◌∙◌, arith}
use Rattle.archive_core.proofs.Causes.{err_by, goes_both, goes_written, goes_refused}
use Rattle.archive_core.proofs.Owners.{serialized_box, box_refused, far_box_refused}
use Rattle.archive_core.proofs.RunRegions.{serialized_elements, run_padded, run_hindered}
use Rattle.HERE.serialize_inner_box_slice.Goals as goal

pub returns-in_err-align_for-clause-refused : goal.returns-in_err-align_for-clause-refused
returns-in_err-align_for-clause-refused g c = err_by c.from_residual.result c.in_err-align_for.field-0.0 _ c.from_residual.ensures.1
    (λ old go h. box_refused _ _ _ _ _ old _ _ (run_padded _ _ _ _ _ _ _ _ old _ _ _ g.met.T.Archived.Portable.is_align g.met.T.Archived.Portable.has_layout h go
    (g.met.S.Writer.position_law _) (goes_refused _ _ c.in_err-align_for.ensures.kept c.in_err-align_for.ensures.room c.in_err-align_for.ensures.device c.in_err-align_for.ensures.keys)
    c.in_err-align_for.ensures.refusal))

pub returns-in_err-pos-clause-refused : goal.returns-in_err-pos-clause-refused
returns-in_err-pos-clause-refused g c = err_by c.from_residual-in_err-pos.result c.in_err-pos.field-0.0 _ c.from_residual-in_err-pos.ensures.1
    (λ old go h. box_refused _ _ _ _ _ old _ _ (run_hindered _ _ _ _ _ _ _ old _ _ _ _ g.met.T.Archived.Portable.has_layout h c.in_ok-align_for.ensures.padded
    (goes_both _ _ _ go (goes_written _ _ _ c.in_ok-align_for.ensures.written c.in_ok-align_for.ensures.room c.in_ok-align_for.ensures.device c.in_ok-align_for.ensures.keys))
    c.in_err-pos.ensures.outcome.goes_on c.in_err-pos.ensures.outcome.refused))

pub returns-then-pos-gt4294967295-clause-refused : goal.returns-then-pos-gt4294967295-clause-refused
returns-then-pos-gt4294967295-clause-refused g c = λ old go h. far_box_refused _ _ _ _ _ c.in_ok-pos.pos old _ c.if-pos-gt4294967295.true
    (serialized_elements _ _ _ _ _ _ _ c.in_ok-pos.pos old _ _ _ h c.in_ok-align_for.ensures.padded c.in_ok-pos.ensures.outcome.put (c.in_ok-pos.ensures.position ∙ g.met.S.Writer.position_law _))

pub returns-clause-boxed : goal.returns-clause-boxed
returns-clause-boxed g c =
    let same : c.from_pos.result ≡ c.in_ok-pos.pos = c.from_pos.ensures in
    rw same (λ old go h. serialized_box _ _ _ _ _ c.in_ok-pos.pos old _
    (serialized_elements _ _ _ _ _ _ _ c.in_ok-pos.pos old _ _ _ h c.in_ok-align_for.ensures.padded c.in_ok-pos.ensures.outcome.put (c.in_ok-pos.ensures.position ∙ g.met.S.Writer.position_law _)))
"""
SEEN_BEFORE = """use Rattle.std.proofs.Common.{◌≡◌, ℕ, List, [], Contains, None, ap, refl}
use Rattle.std.proofs.Math.Logic.{∥∥₁_elim}
use Rattle.std.proofs.lemmas.List.Elements.{Contains-push}
use Rattle.std.specs.Coded.{le_prop}
use Rattle.archive_core.specs.Layout.{size_of}
use Rattle.archive_core.specs.Readable.{position, target_from}
use Rattle.archive_core.specs.Reads.{SchemaTable, pointer_at, reads_boxed}
use Rattle.archive_core.specs.Shape.{Shape, boxed, one, run}
use Rattle.archive_core.specs.Tour.{Contents, contents_one}
use Rattle.archive_core.specs.Value.{Value, pointers}
use Rattle.HERE.before_box_slice.Goals as goal

has_pointer : (bytes : List ℕ) (q n : ℕ) (X : Shape) (s : SchemaTable) (v : Value) → Contents s bytes q (one (boxed (run X))) n v → Contains (pointers v) (pointer_at bytes q None (run X))
has_pointer bytes q n X s v (contents_one reads_boxed) = Contains-push [] (pointer_at bytes q None (run X))

pub returns-clause-ends : goal.returns-clause-ends
returns-clause-ends g c =
    let b = c.args.part.bytes.now in let q = c.args.part.pos in let n = c.args.part.len in let X = g.X.Portable.shape in let P = one (boxed (run X)) in let p = pointer_at b q None (run X) in
    rw (c.get.ensures.position, c.get.ensures.length, c.at-view.ensures.buffer, c.at-view.ensures.position) (∥∥₁_elim c.requires le_prop (λ (s, k, l).
    let (w, r) = c.parts_reached.ensures s b l.root l.shape l.accepted q P n l.part in
    let has = has_pointer b q n X s r.value r.reads in
    let (t, e, u, i) = c.pointers_reached.ensures s b l.root l.shape q P n w r p has in
    let lands : target_from b q q ≡ t = ap position e in
    let sized : size_of s.layouts X ≡ g.X.Portable.layout.size = ap (λ l. l.size) (g.met.X.Portable.has_layout.solved s k) in
    let ends = c.unique_before.ensures s b q P n r.value p t k.laid_out l r.reads has refl e in
    rw lands (rw sized at ends)))
"""


def files(it):
    """The answers on these calls, by their paths."""
    crate, module = it.declaration.crate, it.declaration.module
    here, folder = ".".join((crate, "proofs") + tuple(module)), "/".join(("proofs",) + tuple(module))
    each = {"serialize_inner_box_slice": WRITTEN_REGION, "before_box_slice": SEEN_BEFORE} if is_first(it) else {}
    return {f"{folder}/{name}/Answers.antt": f"-- {it.written}\n{text.replace('HERE', here)}" for name, text in each.items()}
