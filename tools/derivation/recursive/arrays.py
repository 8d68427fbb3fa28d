"""Arrays of boxes that lead back to a recursive type, or of options of boxes.

What the elements own is written as that of a vector's elements, and they are read back in such a loop, too. Their resolvers are kept in a vector, and what is
read in the array's place is said by these alone. In antt an array is a list of any length: of one that isn't the type's own, the meaning has no plan.
"""

from .refusals import leads_back


def is_array(type):
    """Whether it is an array. What is here is of those that lead back; others are plain parts."""
    return type.name == "array" and type.own is None


def has_array(declaration):
    """Whether an array leads back to a declaration's family."""
    return any(is_array(field.type) and leads_back(declaration, field.type) for field in declaration.all_fields())


def arrays_of(it):
    """The arrays of a type that lead back, each once."""
    return [type for type in it.owners if is_array(type)]


# ---- the module ----

CALLS = """// An array has as many elements as its type says.
#[inline(always)]
fn is_whole<T, const N: usize>(_array: &[T; N])
    ensures { length _array.now ≡ N }
{}

// The array of these elements.
#[inline(always)]
fn array_of<T: Drop, const N: usize>(items: Vec<T>) -> [T; N]
    requires { length items.items ≡ N }
    ensures { result ≡ items.items }
{
    let Ok(elements) = items.try_into() else {
        unreachable!();
    };
    elements
}
"""


def calls(it):
    """The text that a module has for arrays, with the first type that needs it."""
    first = next((its for its in it.formats.module.declarations if its.recursive and has_array(its)), None)
    return CALLS if first is it.declaration else ""


def array_at(it, type):
    """The hollow part of an array: `Array4OptionBoxQuadAt`."""
    return "".join(word.capitalize() for word in it.word(type).split("_")) + "At"


def hollow_arrays(it, kept, hollow_source):
    """The hollow parts that a type's arrays need; `kept` is the resolver of a part."""
    out = []
    for type in arrays_of(it):
        item = type.args[0]
        at = f"{item.name}At"
        of = it.formats.archived((item.args[0] if item.name == "Option" else item).args[0])
        body = f"""        let hollows: [{at}<{of}>; {type.length}] = [{', '.join([f'{at}::new()'] * int(type.length))}];
        hollows.resolve(ArrayResolver {{ kept: resolver }}, Place::new(pos, bytes))
"""
        text = hollow_source(
            array_at(it, type), it.formats.archived(type), kept(it, type), f"λ _ r. {it.terms.flat(type, '_', 'r')[1:-1]}", it.formats.layout(type)[0], body,
            f"length {{r}}.items ≡ {type.length}",
        )
        out.append(f"// An array whose values were written before. It can be resolved, and nothing else: it means nothing.\n#[derive(Drop)]\nstruct {array_at(it, type)};\n\n{text}")
        it.formats.use("archive_core::recursive", at)
        it.formats.use("archive_core::core_impls", "ArrayResolver")
        it.formats.ghost("Arrays", "named_twice", "twice_keyed", "no_two", "array_meaning", "array_keys")
        it.formats.ghost("Hollow", "option_at")
        it.formats.ghost("Shape", "array")
        it.formats.ghost("Runs", "each_meaning")
        it.formats.ghost("Value", "box", "hole", "list", "shared_value")
        it.formats.ghost("Writing", "to_pointee")
    return "\n".join(out)


def reading(it, type):
    """The body of the function that reads the elements of an array."""
    return f"""    let list: Ref<'_, {it.formats.archived(type)}> = Ref::at(part);
    let mut items = Vec::with_capacity(alloc, list.len())?;
    for index in 0..list.len() {{
        let item = read_{it.word(type.args[0])}(alloc, list.index(index).part(), deserializer)?;
        items.push_reserved(item);
    }}
    Ok(items)
"""


def read_contract(it, type):
    """What this function promises: of a vector of them, what an array of them means."""
    X, its = it.formats.archived(type), f"⟦<{it.formats.rust(type)} as Archive>⟧"
    return f"""    requires {{ IsPartOf ⟦<{X} as ArchivePointee>⟧ part }}
    ensures read {{ IfOk result (λ t. ReadsPart ⟦<{X} as ArchivePointee>⟧ part D.Entries deserializer
        ({its}.meaning t.items) ({its}.keys t.items)) }}
    ensures whole {{ IfOk result (λ t. length t.items ≡ {type.length}) }}
    ensures refused {{ IfErr result (RefusesPart ⟦<{X} as ArchivePointee>⟧ part D.Entries deserializer) }}
"""


# ---- what values mean ----

# The laws of arrays in a layer, by those of lists.
LAWS = """are_mapped : {A B : Type 0} (g : A → B) (n : ℕ) (xs : List A) → are (map g xs) n ≡ are xs n
are_mapped g zero [] = refl
are_mapped g (suc n) [] = refl
are_mapped g zero (x ∷ xs) = refl
are_mapped g (suc n) (x ∷ xs) = are_mapped g n xs

alike_array : {A B : Type 0} (g : A → B) (n : ℕ) (f : B → Value) (h : A → Value) (xs : List A) → each_meaning f (map g xs) ≡ each_meaning h xs → array_meaning n f (map g xs) ≡ array_meaning n h xs
alike_array g n f h xs same = ap (λ b. value_if b (list (each_meaning f (map g xs)))) (are_mapped g n xs) ∙ ap (λ vs. value_if (are xs n) (list vs)) same

alike_keys_array : {A B : Type 0} (g : A → B) (n : ℕ) (f : B → List Naming) (h : A → List Naming) (xs : List A) → each_keys f (map g xs) ≡ each_keys h xs → array_keys n f (map g xs) ≡ array_keys n h xs
alike_keys_array g n f h xs same = ap (λ b. keys_if b (each_keys f (map g xs))) (are_mapped g n xs) ∙ ap (λ ks. keys_if (are xs n) ks) same

keyed_array : {A B : Type 0} (g : A → B) (n : ℕ) (k : B → List Naming) (m : B → Value) (es : List A) → IsKeyed (each_keys k (map g es)) (list (each_meaning m (map g es))) → IsKeyed (array_keys n k (map g es)) (array_meaning n m (map g es))
keyed_array g n k m es h = by_length (are (map g es) n)
  where
    by_length : (b : Bool) → IsKeyed (keys_if b (each_keys k (map g es))) (value_if b (list (each_meaning m (map g es))))
    by_length true = h
    by_length false = twice_keyed

planned_array : {A B : Type 0} (g : A → B) (n : ℕ) (k : B → List Naming) (m : B → Value) (D : Definitions) (X : Shape) (es : List A)
    → HasRunPlan D X (length (map g es)) (each_keys k (map g es)) (each_meaning m (map g es)) → HasPlan D (array n X) (array_keys n k (map g es)) (array_meaning n m (map g es))
planned_array g n k m D X es h = by_length (are (map g es) n) refl
  where
    by_length : (b : Bool) → are (map g es) n ≡ b → HasPlan D (array n X) (keys_if b (each_keys k (map g es))) (value_if b (list (each_meaning m (map g es))))
    by_length true all = run_planned D X n (each_keys k (map g es)) (each_meaning m (map g es)) (subst (λ c. HasRunPlan D X c (each_keys k (map g es)) (each_meaning m (map g es))) (as_many (map g es) n all) h)
    by_length false all = λ a s names known named. absurd (no_two names named)
"""
SPOKEN = [
    ("archive_core.specs.Arrays", "are value_if keys_if as_many run_planned array_meaning array_keys array_planned twice_keyed no_two"),
    ("archive_core.specs.Runs", "HasRunPlan"),
    ("archive_core.specs.Shape", "Shape"),
    ("std.specs.Prelude", "zero suc true"),
]


def of_element(item, which, said):
    """What is said of an element, by what is said of its box."""
    return f"(λ o. option_{which} {said} o)" if item.name == "Option" else said


def mapped(type, items, which, said_of_mapped, said, each):
    """That what is said of an array whose elements were mapped is what is said of the elements, by the same of a list."""
    f, h = of_element(type.args[0], which, said_of_mapped), of_element(type.args[0], which, said)
    return f"alike_{'' if which == 'meaning' else 'keys_'}array _ {type.length} {f} {h} {items} ({each})"


# ---- proofs ----

# That elements which were serialized are an array that was, and why it wasn't; and that what is read in its place is said by the resolvers.
WRITTEN = """same_flats : {A R : Type 0} (f : A → R → Value) (h : R → Value) (b : A → R → Type 0) → ((x : A) (r : R) → b x r → f x r ≡ h r) → (xs : List A) (rs : List R) → EachBelongs b xs rs → each_flat f xs rs ≡ each_meaning h rs
same_flats f h b same [] [] all = refl
same_flats f h b same [] (r ∷ rs) all = absurd all
same_flats f h b same (x ∷ xs) [] all = absurd all
same_flats f h b same (x ∷ xs) (r ∷ rs) all = ap (λ v. value v (each_flat f xs rs)) (same x r all.0) ∙ ap (λ vs. value (h r) vs) (same_flats f h b same xs rs all.1)

as_many_kept : {A R : Type 0} (b : A → R → Type 0) (n : ℕ) (xs : List A) (rs : List R) → length xs ≡ n → EachBelongs b xs rs → length rs ≡ n
as_many_kept b n [] [] count all = count
as_many_kept b n [] (r ∷ rs) count all = absurd all
as_many_kept b n (x ∷ xs) [] count all = absurd all
as_many_kept b n (x ∷ xs) (r ∷ rs) count all = ap suc (as_many_kept b (length xs) xs rs refl all.1) ∙ count

all_are : {A : Type 0} (xs : List A) (n : ℕ) → length xs ≡ n → are xs n ≡ true
all_are xs n count = subst (λ c. are xs c ≡ true) count (they_are xs)

list_written : (D : Definitions) (X : Shape) (n : ℕ) (ks : List Naming) (vs flats : Values) (old new : WriterState) → SerializedRun D X n ks vs flats old new → Serialized D (array n X) ks (list vs) (list flats) old new
list_written D X n ks vs flats old new (serialized_run writes planned) = serialized (writes_list D old new ks flats vs writes)
    (λ below s names k m. (let q = planned below s names k m in record { flat = list q.flats; steps = q.steps; stop = q.stop; plans = plans_array q.plans; such = (ap list (q.such.0), q.such.1) }))

list_unwritten : (D : Definitions) (X : Shape) (n : ℕ) (ks : List Naming) (vs : Values) (old new : WriterState) (e : Error) → IsRunRefused D X n ks vs old new e → IsRefused D (array n X) ks (list vs) old new e
list_unwritten D X n ks vs old new e h = explains_sooner _ _ _ _ old new e
    (λ x. record {
      named = x.named;
      cause = λ below s names k m. (
          let q = x.cause below s names k m in
          record {
            flat = list q.flats;
            steps = q.steps;
            stop = q.stop;
            plans = plans_array q.plans;
            such = elim q.such [
              | inl y ↦ inl y
              | inr y ↦ inr (y.0, y.1, y.2, part_of_array y.3, y.4)
            ];
          });
    })
    (λ p x below s names k m. (let q = x below s names k m in record { flat = list q.flats; steps = q.steps; stop = q.stop; plans = plans_array q.plans; such = q.such })) h

module _ {A R : Type 0} (D : Definitions) (X : Shape) (n : ℕ) (k : A → List Naming) (m : A → Value) (f : A → R → Value) (h : R → Value) (b : A → R → Type 0) (same : (x : A) (r : R) → b x r → f x r ≡ h r) (xs : List A) (count : length xs ≡ n) (old new : WriterState) where
  array_written : (rs : List R) → EachBelongs b xs rs → SerializedRun D X (length xs) (each_keys k xs) (each_meaning m xs) (each_flat f xs rs) old new
      → Serialized D (array n X) (array_keys n k xs) (array_meaning n m xs) (list (each_meaning h rs)) old new
  array_written rs all those = subst (λ c. Serialized D (array n X) (keys_if c (each_keys k xs)) (value_if c (list (each_meaning m xs))) (list (each_meaning h rs)) old new) (sym (all_are xs n count))
      (subst (λ fs. Serialized D (array n X) (each_keys k xs) (list (each_meaning m xs)) (list fs) old new) (same_flats f h b same xs rs all)
      (list_written D X n (each_keys k xs) (each_meaning m xs) (each_flat f xs rs) old new (subst (λ c. SerializedRun D X c (each_keys k xs) (each_meaning m xs) (each_flat f xs rs) old new) count those)))

  array_unwritten : (e : Error) → IsRunRefused D X (length xs) (each_keys k xs) (each_meaning m xs) old new e → IsRefused D (array n X) (array_keys n k xs) (array_meaning n m xs) old new e
  array_unwritten e those = subst (λ c. IsRefused D (array n X) (keys_if c (each_keys k xs)) (value_if c (list (each_meaning m xs))) old new e) (sym (all_are xs n count))
      (list_unwritten D X n (each_keys k xs) (each_meaning m xs) old new e (subst (λ c. IsRunRefused D X c (each_keys k xs) (each_meaning m xs) old new e) count those))
"""
# And of an option, by that of a box.
OPTION_WRITTEN = """option_kept : {A : Type 0} (P : Pointee) (y : Option A) (r : Option ℕ) → OptionBelongs (λ (z : A) (t : ℕ). ⊤) y r → option_flat (λ (z : A) (t : ℕ). box (hole (to_pointee t P 0))) y r ≡ option_at P r
option_kept P None None h = refl
option_kept P None (Some r) h = absurd h
option_kept P (Some y) None h = absurd h
option_kept P (Some y) (Some r) h = refl
"""
CITED = [
    ("archive_core.proofs.Causes", "explains_sooner"),
    ("archive_core.proofs.RunRegions", "writes_list"),
    ("archive_core.specs.Arrays", "are they_are value_if keys_if array_meaning array_keys"),
    ("archive_core.specs.Causes", "IsRefused part_of_array"),
    ("archive_core.specs.Error", "Error"),
    ("archive_core.specs.Hollow", "option_at"),
    ("archive_core.specs.Options", "option_flat OptionBelongs"),
    ("archive_core.specs.Plans", "Serialized serialized plans_array"),
    ("archive_core.specs.Runs", "each_keys each_meaning each_flat EachBelongs SerializedRun serialized_run IsRunRefused"),
    ("archive_core.specs.Shape", "Pointee Shape array"),
    ("archive_core.specs.Value", "Values list"),
    ("archive_core.specs.WriterState", "WriterState"),
    ("archive_core.specs.Writing", "to_pointee"),
    ("std.specs.Prelude", "Option ⊤ true suc"),
]
