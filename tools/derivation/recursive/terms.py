"""Terms of antt on the parts of recursive types: what a part looks like, what it means, and the laws of it.

A part is plain (a number, a text, another type that `tools/derive` wrote), the type itself, or an owner of it: a box, an option of a box, an array of these, a
boxed slice, or a vector, of which an element may be a tuple of plain parts and of values of the type, or a map, whose entries are such tuples. A term is one at
a value, which is a term itself:
`meaning(type, "a0", m)`, where `m` is the meaning of the type itself.
"""

from . import arrays
from . import weak
from ..formats import snake
from ..model import Type
from .plain import Plain, inner_in, items_of, product
from . import term_words


class Terms:
    """The terms of a recursive type. It gathers what a file has to bring in."""

    def __init__(self, declaration):
        self.declaration = declaration
        self.n = term_words.stem(declaration.name)
        self.plain = Plain(declaration.path)
        self.plain.inner_known = None if declaration.holder else self.inner_known
        self.owns = self.plain.owns  # plain parts that `tools/derive` wrote

    def is_member(self, type):
        """Whether it is the type itself, or another of its family."""
        return any(type.own is it for it in self.declaration.family)

    def n_of(self, type):
        """What names of a type of the family begin with."""
        return term_words.stem(type.own.name)

    def word(self, type):
        """What functions of an owner, or of a part, are called by: `box_expr`."""
        if self.is_member(type):
            return self.n_of(type)
        names = {"()": "unit", "tuple": "pair" if len(type.args) == 2 else f"tuple{len(type.args)}"}
        if self.leads_back(type):
            names["BTreeMap"] = "map"
        name = names.get(type.name, snake(type.name) + type.length)
        return "_".join([name] + [self.word(arg) for arg in type.args])

    def leads_back(self, type):
        return self.is_member(type) or any(self.leads_back(arg) for arg in type.args)

    @property
    def inner(self):
        """The types of other families that it holds, each once. What holds a recursive type and isn't one has no definition of its own, so it has none here."""
        if self.declaration.holder:
            return []
        plain = [field.type for it in self.declaration.family for field in it.all_fields() if not self.leads_back(field.type)]
        return list({own.name: own for type in plain for own in inner_in(type)}.values())

    def inner_definitions(self, some=None):
        """What these define, or some of them."""
        out = [self.plain.described("definitions", Type(it.name, own=it)) for it in some or self.inner]
        return product(out[:-1], out[-1], "both")

    def inner_known(self, own):
        """A proof that what such a type defines is known where the type's own definitions are."""
        at, out = self.inner.index(own), "knows_right s _ _ k"
        for _ in range(len(self.declaration.family) - 1 + at):
            out = f"knows_right s _ _ ({out})"
        return f"(knows_left s _ _ ({out}))" if at < len(self.inner) - 1 else f"({out})"

    def own(self, which):
        """What is said of values of each type of the family, by its name."""
        return {it.name: f"{term_words.stem(it.name)}_{which}" for it in self.declaration.family}

    @property
    def shares(self):
        """Whether a type of the family leads to one of it behind a shared pointer: then the keys of a value have what it means, too."""
        return any(self.has_shared(field.type) for it in self.declaration.family for field in it.all_fields())

    def has_shared(self, type):
        return self.leads_back(type) and (type.name in ("Shared", "SharedSlice", "WeakShared") or any(map(self.has_shared, type.args)))

    def is_shared(self, type):
        """Whether it is a shared pointer that leads back."""
        return type.name == "Shared" and self.leads_back(type)

    def is_shared_slice(self, type):
        """Whether it is a shared slice that leads back."""
        return type.name == "SharedSlice" and self.leads_back(type)

    def is_weak(self, type):
        """Whether it is a weak pointer that leads back."""
        return type.name == "WeakShared" and self.leads_back(type)

    def is_row(self, type):
        """Whether it is a tuple that leads back."""
        return type.name == "tuple" and self.leads_back(type)

    def is_pointer(self, type):
        """Whether it is a shared pointer that leads back, an option of one, or a weak one."""
        return self.is_shared(type) or self.is_weak(type) or self.is_option(type) and self.is_shared(type.args[0])

    def is_option(self, type):
        """Whether it is an option of a box, or of a shared pointer, that leads back."""
        return type.name == "Option" and self.leads_back(type)

    def is_nullable(self, type):
        """Whether it leads back by a shared pointer, or by none: a weak pointer, and an option of a shared one."""
        return self.is_weak(type) or self.is_option(type) and self.is_shared(type.args[0])

    def list_in(self, type, x, which):
        """The vector or array that leads back, of a part that is one or a box of one, with the term of its elements; none of other parts. Of a shared slice, of
        which the keys alone say what its elements do, the term is its own."""
        if not self.leads_back(type) or self.is_member(type):
            return None
        if self.is_shared_slice(type):
            return (type, x) if which == "keys" else None
        if arrays.is_array(type):
            return type, x
        if type.name == "Box":
            return self.list_in(type.args[0], f"{x}.value", which)
        return (type, items_of(type, x)) if term_words.is_run(type) or term_words.is_map(type) else None

    # ---- formats ----

    def shape(self, type):
        if self.is_member(type):
            return f"{self.n_of(type)}_shape"
        if not self.leads_back(type):
            return self.plain.shape(type)
        if type.name == "tuple":
            return f"{self.word(type)}_shape"
        if term_words.is_map(type):
            return f"(sorted_map {self.plain.key(type)} {self.shape(type.args[1])})"
        item = self.shape(type.args[0])
        shapes = {"Box": f"(boxed (one {item}))", "BoxSlice": f"(boxed (run {item}))", "Option": f"(option_shape {item})", "Vec": f"(vec {item})"}
        others = {"Shared": f"(shared rc_flavor (one {item}))", "SharedSlice": f"(shared rc_flavor (run {item}))", "WeakShared": f"(weak rc_flavor (one {item}))", "array": f"(array {type.length} {item})"}
        return {**shapes, **others}[type.name]

    def definitions(self, type):
        if not self.leads_back(type):
            return self.plain.definitions(type)
        if type.name == "tuple" or term_words.is_map(type):
            return f"{self.word(term_words.element(type) if term_words.is_map(type) else type)}_definitions"
        return f"{self.n}_definitions" if self.is_member(type) else self.definitions(type.args[0])

    def known(self, type):
        """A proof that its definitions are known where the type's own are."""
        if not self.leads_back(type):
            return self.plain.known(type)
        if type.name == "tuple" or term_words.is_map(type):
            return product([self.known(arg) for arg in type.args], "(knows_none s k.laid_out)", "knows_both s _ _")
        return "k" if self.is_member(type) else self.known(type.args[0])

    # ---- values ----

    def function(self, which, type, m):
        """What a value means, or its keys, as a function."""
        if self.is_member(type):
            its = term_words.said(m, type)
            return f"(λ v. v{its})" if its.startswith(".") else its
        return f"(λ y. {getattr(self, which)(type, 'y', m)})"

    def meaning(self, type, x, m):
        if self.is_member(type):
            return term_words.applied(m, type, x)
        if not self.leads_back(type):
            return self.plain.meaning(type, x)
        if type.name == "tuple":
            return f"(product {self.parts_meaning(type.args, term_words.places(type, x), m)})"
        item = term_words.element(type)
        if type.name in ("Shared", "SharedSlice"):
            return f"(shared_value {x}.key)"
        if type.name == "WeakShared":
            return self.of_weak("meaning", type, x, m)
        if type.name == "Box":
            return f"(box {self.meaning(item, f'{x}.value', m)})"
        if type.name == "Option":
            return f"(option_meaning {self.function('meaning', item, m)} {x})"
        if arrays.is_array(type):
            return f"(array_meaning {type.length} {self.function('meaning', item, m)} {x})"
        return term_words.around(type, f"(list (each_meaning {self.function('meaning', item, m)} {items_of(type, x)}))")

    def keys(self, type, x, k):
        if self.is_member(type):
            return term_words.applied(k, type, x)
        if not self.leads_back(type):
            return self.plain.keys(type, x)
        if type.name == "tuple":
            return self.parts_keys(type.args, term_words.places(type, x), k)
        item = term_words.element(type)
        if type.name == "Shared":
            y = f"{x}.value.value"
            return f"(rc_keys {x}.key (one {self.shape(item)}) 0 {self.meaning(item, y, term_words.meant(k))} {self.keys(item, y, k)})"
        if type.name == "SharedSlice":
            items = items_of(type, x)
            meanings, keys = (f"(each_{which} {self.function(which, item, its)} {items})" for which, its in (("meaning", term_words.meant(k)), ("keys", k)))
            return self.slice_keys(type, x, items, meanings, keys)
        if type.name == "WeakShared":
            return self.of_weak("keys", type, x, k)
        if type.name == "Box":
            return self.keys(item, f"{x}.value", k)
        if type.name == "Option":
            return f"(option_keys {self.function('keys', item, k)} {x})"
        if arrays.is_array(type):
            return f"(array_keys {type.length} {self.function('keys', item, k)} {x})"
        return f"(each_keys {self.function('keys', item, k)} {items_of(type, x)})"

    def slice_keys(self, type, x, items, meanings, keys):
        """The keys of a shared slice: its own, with what it names, and those of its elements."""
        return f"(rc_keys {x}.key (run {self.shape(type.args[0])}) (length {items}) (list {meanings}) {keys})"

    def of_weak(self, which, type, x, m):
        """What is said of a weak pointer: as of the shared one in it, or of nothing."""
        said = getattr(self, which)
        shared = Type("Shared", type.args)
        if not weak.is_written_out(x):
            lemma = {"meaning": "weak_value", "keys": "option_keys"}[which]
            return f"({lemma} (λ s. {said(shared, 's', m)}) {x}.value)"
        held = weak.held_in(x)
        return said(shared, held, m) if held else {"meaning": "null", "keys": "[]"}[which]

    def flat(self, type, x, r):
        if self.is_member(type):
            return f"({self.n_of(type)}_flat {x} {r})"
        if not self.leads_back(type):
            return self.plain.flat(type, x, r)
        if type.name == "tuple":
            return f"(product {self.parts_flat(type.args, term_words.places(type, x), r)})"
        if term_words.is_map(type):
            return f"(map_flat {self.plain.key(type)} {self.shape(type.args[1])} (btree_map_len {x}) {r})"
        item = self.shape(type.args[0])
        if type.name == "Shared":
            return f"(rc_flat {r} (one {item}) 0)"
        if type.name == "SharedSlice":
            return f"(rc_flat {r} (run {item}) (length {items_of(type, x)}))"
        if type.name == "WeakShared":
            return f"(weak_flat rc_flavor (one {item}) 0 {r})"
        if type.name == "Box":
            return f"(box (hole (to_pointee {r} (one {item}) 0)))"
        if type.name == "Option" and self.is_shared(type.args[0]):
            return f"(option_flat (λ y s. (rc_flat s (one {self.shape(type.args[0].args[0])}) 0)) {r} {r})"
        if type.name == "Option":
            return f"(option_at (one {self.shape(type.args[0].args[0])}) {r})"
        if arrays.is_array(type):
            return f"(list (each_meaning {self.kept(type.args[0])} {r}.items))"
        return term_words.around(type, f"(hole (to_pointee {r} (run {item}) (length {items_of(type, x)})))")

    def belongs(self, type, x, r):
        if self.is_member(type):
            return f"({self.n_of(type)}_belongs {x} {r})"
        if not self.leads_back(type):
            return self.plain.belongs(type, x, r)
        if type.name == "tuple":
            return self.parts_belong(type.args, term_words.places(type, x), r)
        if type.name in ("Box", "Option", "Shared", "WeakShared"):
            return "⊤"
        if term_words.is_map(type):
            return f"(btree_map_len {x} ≤ 4294967295)"
        if arrays.is_array(type):
            return f"(length {r}.items ≡ {type.length})"
        return f"(length {items_of(type, x)} ≤ 4294967295)"

    def kept(self, item):
        """What is read in the place of an array's element, by what is kept of it alone."""
        return f"(λ s. {self.flat(item, 'y', 's')})"

    # ---- laws ----

    def keyed(self, type, x):
        """A proof that the keys of a part are those that its meaning leads to, where each value of the type itself has the law beside it."""
        if self.is_member(type):
            return f"{x}.1"
        if not self.leads_back(type):
            return self.plain.keyed(type, x)
        if type.name == "tuple":
            return f"(record_keyed {self.parts_keyed(type.args, term_words.places(type, x))})"
        item = term_words.element(type)
        if type.name == "Shared":
            return f"(rc_keyed {x}.key (one {self.shape(item)}) 0 _ _ {self.keyed(item, f'{x}.value.value')})"
        if type.name == "WeakShared":
            held = weak.held_in(x)
            return self.keyed(Type("Shared", type.args), held) if held else "(weak_keyed {A = ⊥} (λ u. []) (λ u. null) (λ u. absurd u) None)"
        if type.name == "Box":
            return f"(box_keyed _ _ {self.keyed(item, f'{x}.value')})"
        if type.name == "Option":
            return "none_keyed" if x == "None" else f"(some_keyed _ _ {self.keyed(item, term_words.something(x))})"
        items = items_of(type, x)
        if self.is_option(item):
            its = f"(held_options_keyed _ {self.said(item.args[0])} refl (λ e. {self.keyed(item, '(Some e)')}) {items})"
        elif self.is_weak(item):
            its = f"(held_weaks_keyed _ {self.said(Type('Shared', item.args))} refl (λ e. {self.keyed(item, weak.written_out('(Some e)'))}) {items})"
        elif not self.is_member(item):
            its = f"(held_each_keyed _ {self.said(item)} (λ e. {self.keyed(item, 'e')}) {items})"
        else:
            its = f"(held_keyed {self.said(item)} {items})"
        if arrays.is_array(type):
            return f"(keyed_array _ {type.length} {self.said(item)} {x} {its})"
        if type.name == "SharedSlice":
            return f"(rc_keyed {x}.key (run {self.shape(item)}) _ _ _ {its})"
        return f"(box_keyed _ _ {its})" if type.name == "BoxSlice" else its

    def planned(self, type, x, held):
        """A proof that there is a plan of a part; `held` where each value of the type itself has the law beside it."""
        if self.is_member(type):
            return f"{x}.1" if held else f"({self.n_of(type)}_planned {x})"
        if not self.leads_back(type):
            return self.plain.planned(type, x)
        if type.name == "tuple":
            return f"(product_planned _ _ _ _ {self.row_planned(type, x, held)})"
        item = term_words.element(type)
        D, X = self.definitions(type), self.shape(item)
        if type.name == "Shared":
            return f"(rc_one_planned {D} {x}.key (one {X}) {X} refl _ _ {self.planned(item, f'{x}.value.value', held)})"
        if type.name == "WeakShared":
            return self.weak_planned(type, x, held)
        if type.name == "Box":
            return f"(boxed_one_planned {D} (one {X}) {X} refl _ _ {self.planned(item, f'{x}.value', held)})"
        if type.name == "Option" and held:
            return f"(none_planned {D} {X})" if x == "None" else f"(some_planned {D} {X} {self.held_pair(item, term_words.something(x))} {self.planned(item, term_words.something(x), held)})"
        if type.name == "Option":
            k, m = (self.function(which, item, self.own(which)) for which in ("keys", "meaning"))
            return f"(option_planned {D} {X} {k} {m} (λ y. {self.planned(item, 'y', False)}) {x})"
        items = items_of(type, x)
        its = f"held_planned {self.said(item)} {D} {X} {items}"
        if self.is_option(item):
            inner = item.args[0]
            its = f"held_options_planned _ {self.said(inner)} {D} {self.shape(inner)} refl (λ e. {self.planned(item, '(Some e)', True)}) {items}"
        elif self.is_weak(item):
            its = f"held_weaks_planned _ {self.said(Type('Shared', item.args))} {D} (one {self.shape(item.args[0])}) refl (λ e. {self.planned(item, weak.written_out('(Some e)'), True)}) {items}"
        elif not self.is_member(item):
            its = f"held_each_planned _ {self.said(item)} {D} {X} (λ e. {self.planned(item, 'e', True)}) {items}"
        if arrays.is_array(type) and held:
            return f"(planned_array _ {type.length} {self.said(item)} {D} {X} {x} ({its}))"
        if arrays.is_array(type):
            return f"(array_planned {type.length} {D} {X} {self.said(item)} {self.plan(item)} {x})"
        owner = f"vec_planned {D} {X}" if type.name == "Vec" else f"box_planned {D} (run {X})"
        if term_words.is_map(type):
            owner = f"map_planned {D} {self.plain.key(type)} {self.shape(type.args[1])}"
        if type.name == "SharedSlice":
            owner = f"rc_planned {D} {x}.key (run {X})"
        if held:
            return f"({owner} _ _ _ (run_region_planned {D} {X} _ _ _ ({its})))"
        return f"({owner} _ _ _ (slice_planned {D} {X} {self.said(item)} {self.plan(item)} {items}))"

    def weak_planned(self, type, x, held):
        """A proof that there is a plan of a weak pointer; of one in a layer, by whether it is null."""
        D, X, shared = self.definitions(type), self.shape(type.args[0]), Type("Shared", type.args)
        head = f"{D} rc_flavor (one {X})"
        if not held:
            k, m = (f"(λ s. {getattr(self, which)(shared, 's', self.own(which))})" for which in ("keys", "meaning"))
            return f"(weak_planned {head} {k} {m} (λ s. {self.planned(shared, 's', False)}) {x}.value)"
        y = weak.held_in(x)
        if not y:
            return f"(weak_planned {{A = ⊥}} {head} (λ u. []) (λ u. null) (λ u. absurd u) None)"
        keys, meaning = self.held_two(shared, y)
        return f"(weak_planned {{A = Unit {{0}}}} {head} (λ u. {keys}) (λ u. {meaning}) (λ u. {self.planned(shared, y, True)}) (Some tt))"

    def held_pair(self, type, x):
        """The keys and the meaning of a shared pointer in a layer of which each value has a law beside it; antt finds those of a box."""
        return " ".join(self.held_two(type, x)) if self.is_shared(type) else "_ _"

    def held_two(self, type, x):
        item, y = type.args[0], f"{x}.value.value.0"
        keys, meaning = (term_words.applied(self.own(which), item, y) for which in ("keys", "meaning"))
        return f"(rc_keys {x}.key (one {self.shape(item)}) 0 {meaning} {keys})", f"(shared_value {x}.key)"

    def row_planned(self, type, x, held):
        """A proof that there are plans of the parts of a tuple."""
        values = term_words.places(type, x)
        shown = [f"{y}.0" if held and self.is_member(arg) else y for arg, y in zip(type.args, values)]
        return self.parts_planned(type.args, values, shown, held)

    def said(self, item):
        """The keys and the meaning of the elements of a vector, as functions."""
        return " ".join(self.function(which, item, self.own(which)) if not self.is_member(item) else self.own(which)[item.own.name] for which in ("keys", "meaning"))

    def plan(self, item):
        """The plan of each element of a vector, as a function."""
        return f"{self.n_of(item)}_planned" if self.is_member(item) else f"(λ y. {self.planned(item, 'y', False)})"

    # ---- parts one after another ----

    def parts(self, types):
        out = "no_part"
        for type in reversed(types):
            out = f"(part {self.shape(type)} {out})"
        return out

    def parts_definitions(self, types):
        out = "no_definition"
        for type in reversed(types):
            out = f"(both {self.definitions(type)} {out})"
        return out

    def parts_meaning(self, types, values, m, terms=None):
        out = "no_value"
        for i, (type, x) in reversed(list(enumerate(zip(types, values)))):
            its = self.meaning(type, x, m)
            if terms and i in terms:
                its = term_words.listed(type, terms[i])
            out = f"(value {its} {out})"
        return out

    def parts_keys(self, types, values, k, terms=None):
        out = "[]"
        for i, (type, x) in reversed(list(enumerate(zip(types, values)))):
            out = f"({terms[i] if terms and i in terms else self.keys(type, x, k)} ++ {out})"
        return out

    def parts_flat(self, types, values, r):
        out = "no_value"
        for i, (type, x) in reversed(list(enumerate(zip(types, values)))):
            out = f"(value {self.flat(type, x, r + '.1' * i + '.0')} {out})"
        return out

    def parts_belong(self, types, values, r):
        out = "Unit {0}"
        for i, (type, x) in reversed(list(enumerate(zip(types, values)))):
            out = f"({self.belongs(type, x, r + '.1' * i + '.0')} × {out})"
        return out

    def parts_keyed(self, types, values):
        out = "nothing_keyed"
        for type, x in reversed(list(zip(types, values))):
            out = f"(part_keyed {self.keyed(type, x)} {out})"
        return out

    def parts_planned(self, types, values, shown, held):
        """`values` are those that have the law beside them where `held`, `shown` the values themselves."""
        k, m = self.own("keys"), self.own("meaning")
        out = "no_part_planned"
        for type, x, y in reversed(list(zip(types, values, shown))):
            out = (
                f"(part_planned {self.definitions(type)} {self.shape(type)} {self.keys(type, y, k)} {self.meaning(type, y, m)}"
                f" {self.planned(type, x, held)} {out})"
            )
        return out


class Placed(str):
    """A tuple that is written out, with its parts."""

    def __new__(cls, parts):
        its = super().__new__(cls, f"({', '.join(parts)})")
        its.parts = parts
        return its


PRELUDE = {
    "std.specs.Prelude": "ℕ List [] ◌++◌ ◌≡◌ ◌≤◌ refl pos length map string_bytes codes ⊤ Option None Some",
    "archive_core.specs.Digits": "bool_byte",
    "std.specs.Int.RustNames": "FitsSigned",
    "std.specs.Int": "w8 w16 w32 w64 w128",
    "std.proofs.Common": "ap subst sym ◌∙◌ inl inr",
    "archive_core.specs.Definitions": "Definitions defines both no_definition HasLayout IsAlign Knows NoOthers",
    "archive_core.specs.Denotes": "Naming",
    "archive_core.specs.Layout": "Layout",
    "archive_core.specs.NamedLayout": "name_has_layout name_reached",
    "archive_core.specs.NoOthers": "around_reached both_reached no_parts_reached part_reached",
    "archive_core.specs.Defined": "mentions_map",
    "archive_core.specs.LeafLayout": "no_definition_reached",
    "archive_core.specs.PartsLayout": "IsRecord by_name knows_none for_itself is_record no_part_laid_out part_laid_out record_has_layout",
    "archive_core.specs.SelfCheck.Arrays": "array_has_layout array_reaches",
    "archive_core.specs.SelfCheck.Owners": "one_reaches run_reaches vec_reaches",
    "archive_core.specs.Variants": "case_of",
    "archive_core.specs.VariantsLayout": "IsChoice is_recursive_choice no_variant_laid_out no_variants_reached variant_laid_out variant_reached",
    "archive_core.specs.Shape": "Name Shape Parts Variants named choice parts boxed shared array weak vec sorted_map str one run text leaf unit bool char non_zero unsigned signed leaf_key str_key part no_part variant no_variant",
    "archive_core.specs.SharedSources": "rc_flavor rc_flat rc_keys rc_keyed rc_one_planned rc_planned",
    "archive_core.specs.declared.rc.sources.Shared": "Shared",
    "archive_core.specs.declared.rc.sources.long.SharedSlice": "SharedSlice",
    "archive_core.specs.declared.rc.sources.weak.WeakShared": "WeakShared",
    "archive_core.specs.SharedLaws": "weak_value weak_flat weak_keyed weak_planned",
    "archive_core.specs.Value": "Value Values case product list box hole number value no_value text_value null shared_value",
    "archive_core.specs.Keyed": "each_keyed case_keyed record_keyed nothing_keyed part_keyed number_keyed text_keyed box_keyed",
    "archive_core.specs.Choices": "option_has_layout option_reached option_shape",
    "archive_core.specs.Options": "option_keys option_meaning option_flat OptionBelongs option_keyed option_planned",
    "archive_core.specs.Results": "result_keys result_meaning result_flat ResultBelongs result_keyed result_planned",
    "archive_core.specs.ResultShapes": "result_has_layout result_reached result_shape",
    "archive_core.specs.Arrays": "array_keys array_meaning array_keyed array_planned",
    "archive_core.specs.MapPairs": "pair_meaning pair_keys",
    "archive_core.specs.PlannedMaps": "pairs_keyed map_of_pairs_planned map_planned",
    "archive_core.specs.Planned": "leaf_planned string_planned text_planned",
    "archive_core.specs.PlannedOwners": "box_planned boxed_one_planned vec_planned run_region_planned slice_planned",
    "archive_core.specs.PartsPlanned": "part_planned no_part_planned product_planned record_planned",
    "archive_core.specs.Plans": "HasPlan",
    "archive_core.specs.Reads": "SchemaTable",
    "archive_core.specs.SelfCheck.Laws": "IsCheckOf by_schema own_check",
    "archive_core.specs.Runs": "each_keys each_meaning each_flat EachBelongs HasRunPlan",
    "archive_core.specs.Strings": "string_flat",
    "archive_core.specs.Writing": "IsKeyed to_pointee map_flat",
    "std.specs.BTreeMap": "btree_map_len",
    "archive_core.specs.Held": "member_has_layout knows_both each_mapped each_mapped_keys held_keyed held_planned variant_planned keyed_as planned_as",
    "archive_core.specs.HeldLists": "each_alike each_alike_keys held_each_keyed held_each_planned options_alike options_alike_keys held_options_keyed held_options_planned",
    "archive_core.specs.HeldOptions": "none_keyed some_keyed none_planned some_planned",
    "archive_core.specs.Hollow": "option_at",
}
RENAMED = {"number_kind": ("archive_core.specs.Shape", "number")}
