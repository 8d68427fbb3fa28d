"""Terms of antt on plain parts of recursive types, which lead to no value of the type: numbers, texts, other types that `tools/derive` wrote, and options,
results, tuples, arrays, vectors, maps and boxes of these.

A term is one at a value, which is a term itself.
"""

from ..formats import snake

# Leaves: shape, what a value means, and the type that antt has for it.
LEAVES = {
    **{f"u{n}": (f"leaf (number_kind unsigned w{n})", "number (pos {x})", "ℕ") for n in (8, 16, 32, 64, 128)},
    **{f"i{n}": (f"leaf (number_kind signed w{n})", "number {x}", "ℤ") for n in (8, 16, 32, 64, 128)},
    "usize": ("leaf (number_kind unsigned w32)", "number (pos {x})", "ℕ"),
    "isize": ("leaf (number_kind signed w32)", "number {x}", "ℤ"),
    "char": ("leaf char", "number (pos {x})", "ℕ"),
    "bool": ("leaf bool", "number (pos (bool_byte {x}))", "Bool"),
    "()": ("leaf unit", "number (pos 0)", "⊤"),
}
# Which resolvers are a leaf's own, where not all are.
OWN_RESOLVERS = {"usize": "({x} < 2 ^ 32)", "isize": "(FitsSigned w32 {x})"}
# Arrays as they are, and as they are read back: lists, in antt.
ARRAYS = ("array", "OwnedArray")


def items_of(type, x):
    """The elements of a vector, of a boxed or a shared slice, or of an array, which is a list itself; the entries of a map."""
    if type.name == "array":
        return x
    if type.name == "BTreeMap":
        return f"{x}.entries"
    if type.name == "SharedSlice":
        return f"{x}.value.items.value.items"
    return f"{x}.items" if type.name == "Vec" else f"{x}.items.items"


def product(words, end="no_value", head="value"):
    out = end
    for word in reversed(words):
        out = f"({head} {word} {out})"
    return out


# What the shape of a type of the same file may be made of.
SHAPED = set(LEAVES) | {"String", "BoxStr", "NonZero", "Option", "Result", "Box", "BoxSlice", "Vec", "BTreeMap", "OwnedArray", "array", "tuple"}


def is_shaped(type, path):
    """Whether the shape of a plain type can be told in a file: of those that stand in it, from what they are made of."""
    if type.own is None:
        return type.name in SHAPED and all(is_shaped(arg, path) for arg in type.args)
    return not type.args and (type.own.path != path or all(is_shaped(field.type, path) for field in type.own.all_fields()))


def has_boxed(type):
    """Whether a boxed text or slice is in a type: a user's crate can't name these, whose types are of a lower library."""
    return type.own is None and (type.name in ("BoxStr", "BoxSlice") or any(map(has_boxed, type.args)))


def inner_in(type):
    """The types written part by part that are in a plain part."""
    if type.own is None:
        return [own for arg in type.args for own in inner_in(arg)]
    return [type.own] if not type.args and (type.own.recursive or type.own.holds_recursive) else []


class Plain:
    """The terms of plain parts. It gathers what a file has to bring in."""

    def __init__(self, path):
        self.path = path  # the file that the type stands in
        self.owns = {}  # a plain part's declaration, by its name
        self.inner_known = None  # a proof that what one of another family defines is known, by its declaration

    def format_of(self, type):
        self.owns[type.name] = type.own
        return f"(format_of_{snake(type.name)}.ghosts)"

    def described(self, which, type):
        """A definition that stands beside the module of a recursive type, or of one that holds such a type: by a name that no type of this file has."""
        self.owns[type.name] = type.own
        return f"{which}_of_{snake(type.name)}"

    def source_of(self, type):
        self.owns[type.name] = type.own
        return f"(source_of_{snake(type.name)}.ghosts)"

    # ---- types and formats ----

    def antt(self, type):
        if type.own is not None:
            return f"{type.name}-Source"
        if type.name in LEAVES:
            return LEAVES[type.name][2]
        if type.name == "NonZero":
            return self.antt(type.args[0])
        args = [self.antt(arg) for arg in type.args]
        if type.name == "String":
            return "(String Global)"
        if type.name == "tuple":
            return f"({' × '.join(args)})"
        if type.name in ("Option", "Result", "BTreeMap"):
            return f"({type.name} {' '.join(args)})"
        return f"(List {args[0]})" if type.name in ARRAYS else f"({type.name} {args[0]} Global)"

    def shape(self, type):
        if type.own is not None and type.own.part_by_part:
            return self.described("shape", type)
        if type.own is not None and type.own.path == self.path:
            return self.written_out(type.own)
        if type.own is not None:
            return f"{self.format_of(type)}.shape"
        if type.name in LEAVES:
            return f"({LEAVES[type.name][0]})"
        if type.name == "NonZero":
            return self.shape(type.args[0]).replace("number_kind", "non_zero")
        if type.name in ("String", "BoxStr"):
            return {"String": "str", "BoxStr": "(boxed text)"}[type.name]
        args = [self.shape(arg) for arg in type.args]
        if type.name == "tuple":
            return f"(parts {product(args, 'no_part', 'part')})"
        if type.name == "Result":
            return f"(result_shape {args[0]} {args[1]})"
        if type.name == "BTreeMap":
            return f"(sorted_map {self.key(type)} {args[1]})"
        array = f"(array {type.length} {{}})"
        shapes = {"Box": "(boxed (one {}))", "BoxSlice": "(boxed (run {}))", "Option": "(option_shape {})", "Vec": "(vec {})", "OwnedArray": array, "array": array}
        return shapes[type.name].format(args[0])

    def written_out(self, own):
        """What a type of this file looks like. Its impls can't be cited, since they bring in what stands beside the file."""
        if own.kind == "struct":
            return f"(parts {product([self.shape(field.type) for field in own.fields], 'no_part', 'part')})"
        variants = [product([self.shape(field.type) for field in variant.fields], "no_part", "part") for variant in own.variants]
        return f'(choice (codes "{own.archived}") {product(variants, "no_variant", "variant")})'

    def key(self, type):
        """What the keys of a map are."""
        shape = self.shape(type.args[0])
        return "str_key" if shape == "str" else shape.replace("(leaf ", "(leaf_key ", 1)

    def definitions(self, type):
        if type.own is not None and type.own.part_by_part:
            return self.described("definitions", type)
        if type.own is None and type.name == "Result":
            return f"(both {self.definitions(type.args[0])} {self.definitions(type.args[1])})"
        if type.own is None and type.name in ("tuple", "BTreeMap"):
            return product([self.definitions(arg) for arg in type.args], "no_definition", "both")
        return self.definitions(type.args[0]) if type.own is None and type.args else "no_definition"

    def known(self, type):
        """A proof that its definitions, which are none, are known."""
        nothing = "(knows_none s k.laid_out)"
        if self.inner_known is not None and type.own is not None and type.own.part_by_part:
            return self.inner_known(type.own)
        if type.own is None and type.name == "Result":
            return f"(knows_both s _ _ {self.known(type.args[0])} {self.known(type.args[1])})"
        if type.own is None and type.name in ("tuple", "BTreeMap"):
            return product([self.known(arg) for arg in type.args], nothing, "knows_both s _ _")
        return self.known(type.args[0]) if type.own is None and type.args else nothing

    # ---- values ----

    def as_function(self, which, type):
        return f"(λ y. {getattr(self, which)(type, 'y')})"

    def as_two(self, which, type):
        return f"(λ y s. {getattr(self, which)(type, 'y', 's')})"

    def meaning(self, type, x):
        if type.own is not None:
            return f"({self.source_of(type)}.meaning {x})"
        if type.name in LEAVES:
            return f"({LEAVES[type.name][1].format(x=x)})"
        if type.name == "NonZero":
            return self.meaning(type.args[0], x)
        if type.name == "String":
            return f"(text_value (string_bytes {x}))"
        if type.name == "BoxStr":
            return f"(box (text_value (string_bytes {x}.text)))"
        if type.name == "tuple":
            return f"(product {product([self.meaning(arg, f'{x}.{i}') for i, arg in enumerate(type.args)])})"
        if type.name == "Box":
            return f"(box {self.meaning(type.args[0], f'{x}.value')})"
        each = [self.as_function("meaning", arg) for arg in type.args]
        if type.name in ("Vec", "BoxSlice"):
            its = f"(list (each_meaning {each[0]} {items_of(type, x)}))"
            return its if type.name == "Vec" else f"(box {its})"
        if type.name == "BTreeMap":
            return f"(list (each_meaning (pair_meaning {' '.join(each)}) {x}.entries))"
        heads = {"Option": "option_meaning", "Result": "result_meaning", **dict.fromkeys(ARRAYS, f"array_meaning {type.length}")}
        return f"({heads[type.name]} {' '.join(each)} {x})"

    def keys(self, type, x):
        if type.own is not None:
            return f"({self.source_of(type)}.keys {x})"
        if type.name in LEAVES or type.name in ("NonZero", "String", "BoxStr"):
            return "[]"
        if type.name == "tuple":
            out = "[]"
            for i, arg in reversed(list(enumerate(type.args))):
                out = f"({self.keys(arg, f'{x}.{i}')} ++ {out})"
            return out
        if type.name == "Box":
            return self.keys(type.args[0], f"{x}.value")
        each = [self.as_function("keys", arg) for arg in type.args]
        if type.name in ("Vec", "BoxSlice"):
            return f"(each_keys {each[0]} {items_of(type, x)})"
        if type.name == "BTreeMap":
            return f"(each_keys (pair_keys {' '.join(each)}) {x}.entries)"
        heads = {"Option": "option_keys", "Result": "result_keys", **dict.fromkeys(ARRAYS, f"array_keys {type.length}")}
        return f"({heads[type.name]} {' '.join(each)} {x})"

    def flat(self, type, x, r):
        if type.own is not None:
            return f"({self.source_of(type)}.flat {x} {r})"
        if type.name in LEAVES or type.name == "NonZero":
            return self.meaning(type, x)
        if type.name == "String":
            return f"(string_flat (string_bytes {x}) {r})"
        if type.name == "tuple":
            return f"(product {product([self.flat(arg, f'{x}.{i}', r + '.1' * i + '.0') for i, arg in enumerate(type.args)])})"
        if type.name == "Box":
            return f"(box (hole (to_pointee {r} (one {self.shape(type.args[0])}) 0)))"
        if type.name == "BoxStr":
            return f"(box (hole (to_pointee {r} text (length (string_bytes {x}.text)))))"
        if type.name in ("Vec", "BoxSlice"):
            its = f"(hole (to_pointee {r} (run {self.shape(type.args[0])}) (length {items_of(type, x)})))"
            return its if type.name == "Vec" else f"(box {its})"
        if type.name == "BTreeMap":
            return f"(map_flat {self.key(type)} {self.shape(type.args[1])} (btree_map_len {x}) {r})"
        each = [self.as_two("flat", arg) for arg in type.args]
        if type.name in ARRAYS:
            return f"(list (each_flat {each[0]} {x} {r}.kept.items))"
        return f"({'option_flat' if type.name == 'Option' else 'result_flat'} {' '.join(each)} {x} {r})"

    def belongs(self, type, x, r):
        if type.own is not None:
            return f"({self.source_of(type)}.belongs {x} {r})"
        if type.name in LEAVES:
            return OWN_RESOLVERS.get(type.name, "⊤").format(x=x)
        if type.name in ("Box", "NonZero"):
            return "⊤"
        if type.name == "String":
            return f"(length (string_bytes {x}) ≤ 1073741823)"
        if type.name == "tuple":
            out = "Unit {0}"
            for i, arg in reversed(list(enumerate(type.args))):
                out = f"({self.belongs(arg, f'{x}.{i}', r + '.1' * i + '.0')} × {out})"
            return out
        if type.name == "BoxStr":
            return f"(length (string_bytes {x}.text) ≤ 4294967295)"
        if type.name in ("Vec", "BoxSlice"):
            return f"(length {items_of(type, x)} ≤ 4294967295)"
        if type.name == "BTreeMap":
            return f"(btree_map_len {x} ≤ 4294967295)"
        each = [self.as_two("belongs", arg) for arg in type.args]
        if type.name in ARRAYS:
            return f"(EachBelongs {each[0]} {x} {r}.kept.items)"
        return f"({'OptionBelongs' if type.name == 'Option' else 'ResultBelongs'} {' '.join(each)} {x} {r})"

    # ---- laws ----

    def keyed(self, type, x):
        if type.own is not None:
            return f"(keyed_of_{snake(type.name)} {x})" if self.source_of(type) else ""
        if type.name in LEAVES or type.name == "NonZero":
            return "(number_keyed _)"
        if type.name == "String":
            return f"(text_keyed (string_bytes {x}))"
        if type.name == "BoxStr":
            return f"(box_keyed [] (text_value (string_bytes {x}.text)) (text_keyed (string_bytes {x}.text)))"
        if type.name == "tuple":
            return f"(record_keyed {product([self.keyed(arg, f'{x}.{i}') for i, arg in enumerate(type.args)], 'nothing_keyed', 'part_keyed')})"
        if type.name == "Box":
            return f"(box_keyed _ _ {self.keyed(type.args[0], f'{x}.value')})"
        said = " ".join(self.as_function(which, arg) for which in ("keys", "meaning", "keyed") for arg in type.args)
        if type.name in ("Vec", "BoxSlice"):
            its = f"(each_keyed {said} {items_of(type, x)})"
            return its if type.name == "Vec" else f"(box_keyed _ _ {its})"
        if type.name == "BTreeMap":
            return f"(pairs_keyed {said} {x}.entries)"
        heads = {"Option": "option_keyed", "Result": "result_keyed", **dict.fromkeys(ARRAYS, f"array_keyed {type.length}")}
        return f"({heads[type.name]} {said} {x})"

    def planned(self, type, x):
        if type.own is not None:
            return f"(planned_of_{snake(type.name)} {x})" if self.source_of(type) else ""
        if type.name in LEAVES or type.name == "NonZero":
            return "(leaf_planned no_definition _ _ [] _ refl)"
        if type.name == "String":
            return f"(string_planned no_definition [] (string_bytes {x}))"
        if type.name == "BoxStr":
            text = f"(string_bytes {x}.text)"
            return f"(box_planned no_definition text (length {text}) [] (text_value {text}) (text_planned no_definition [] {text}))"
        if type.name == "tuple":
            return f"(product_planned _ _ _ _ {self.parts_plan(type.args, [f'{x}.{i}' for i in range(len(type.args))])})"
        D, X = ([getattr(self, which)(arg) for arg in type.args] for which in ("definitions", "shape"))
        if type.name == "Box":
            y = f"{x}.value"
            return f"(boxed_one_planned {D[0]} (one {X[0]}) {X[0]} refl {self.keys(type.args[0], y)} {self.meaning(type.args[0], y)} {self.planned(type.args[0], y)})"
        said = " ".join(self.as_function(which, arg) for which in ("keys", "meaning") for arg in type.args)
        each = " ".join(self.as_function("planned", arg) for arg in type.args)
        if type.name == "Result":
            return f"(result_planned {said} {' '.join(D + X)} {each} {x})"
        if type.name == "BTreeMap":
            return f"(map_of_pairs_planned {said} {' '.join(D + X)} {each} {self.key(type)} refl {x}.entries)"
        if type.name == "BoxSlice":
            return f"(box_planned {D[0]} (run {X[0]}) _ _ _ (slice_planned {D[0]} {X[0]} {said} {each} {x}.items.items))"
        if type.name == "Vec":
            return f"(vec_planned {D[0]} {X[0]} _ _ _ (slice_planned {D[0]} {X[0]} {said} {each} {x}.items))"
        head = "option_planned" if type.name == "Option" else f"array_planned {type.length}"
        return f"({head} {D[0]} {X[0]} {said} {each} {x})"

    def parts_plan(self, types, values):
        """A plan of parts one after another, with all that it speaks of."""
        out = "no_part_planned"
        for type, x in reversed(list(zip(types, values))):
            out = f"(part_planned {self.definitions(type)} {self.shape(type)} {self.keys(type, x)} {self.meaning(type, x)} {self.planned(type, x)} {out})"
        return out
