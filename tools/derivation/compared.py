"""Views that are compared and hashed: the impl of `Ordered`, with its laws from those of the fields.

It is written only if the declaration derives an order or a hash, since it adds to the time of the check. It calls one function over a nest of pairs of the
fields. The laws are terms: with a bound on the nest (`where PointParts: ComparedFields`), callers would pass the impls of all fields in fields.
"""

from .formats import ALIGNS, INTEGERS, snake
from .layout import Generic, Group, pair, statement
from .loads import Loads
from .units import types_in_turn
from .variant_blocks import MOST_IN_NEST

# What a declaration derives whose views are compared.
ASKING = {"Eq", "PartialOrd", "Ord", "Hash"}
# Up to so many fields of a struct or of a variant.
MOST = 8
# What is allowed of the count over the variants of an enum: a call that compares passes more than one that checks. Of those tried, 4,432 was taken, and of 6,270
# "the impls to pass for `i64: PartialEq` do not end, or are too many".
MOST_OF_CASES = 4_500
# Types whose views are compared, and those that are where what they hold is. Other types of the library have no `PartialEq`, so nothing of them derives these.
LEAVES = set(INTEGERS) | {"bool", "char", "usize", "isize", "String", "NonZero"}
HOLDERS = {"Option", "Result", "Box", "Vec", "BTreeMap"}
# What numbers of no certain size are in an archive.
SIZED = {"usize": "u32", "isize": "i32"}
NO_NAME = "no_definition"


def is_compared(declaration, known=None):
    """Whether the views of a declared type are compared: it derives an order or a hash, and all fields can be. Of which ones that is known is kept."""
    if declaration.as_tuple or declaration.part_by_part or not ASKING & set(declaration.derives):
        return False
    known = {} if known is None else known
    if id(declaration) not in known:
        known[id(declaration)] = are_compared(declaration, known)
    return known[id(declaration)]


def are_compared(declaration, known):
    """Whether all fields of a declaration that asks for it can be compared."""
    lists = [declaration.fields] + [variant.fields for variant in declaration.variants]
    variants = types_in_turn(declaration)
    if len(variants) > MOST_IN_NEST or Loads().of_variants(variants) > MOST_OF_CASES:
        return False
    return all(len(fields) <= MOST and all(can_be(field.type, known) for field in fields) and in_pairs(fields) for fields in lists)


def in_pairs(fields):
    """Whether the nest of these fields is one of pairs."""
    return Loads().are_read_at_once([field.type for field in fields])


def can_be(type, known):
    """Whether the views of a type are compared."""
    if type.parameter:
        return False
    if type.own is not None:
        return is_compared(type.own, known)
    if type.name in HOLDERS or type.name == "tuple" and len(type.args) == 2:
        return all(can_be(arg, known) for arg in type.args)
    return type.name in LEAVES


class Terms:
    """The laws of types that are compared, each as a term."""

    def __init__(self, formats):
        self.formats = formats

    def call(self, name, *arguments):
        self.formats.ghost("ComparedLeaves" if name in OF_LEAVES else "ComparedUnits" if name == "units_compared" else "ComparedTypes", name)
        return f"({name} {' '.join(arguments)})" if arguments else name

    def laid(self, type):
        """The layout of a type, and that it has it."""
        return f"⟦<{self.formats.archived(type)} as Portable>⟧.layout", "(record { solved = λ s k. refl })"

    def align(self, type):
        return f"({ALIGNS[self.formats.layout(type)[1]]})"

    def number(self, name, prefix=""):
        """A number, or one that isn't 0."""
        bits = name[1:]
        self.formats.ghost("std.specs.Int", f"w{bits}")
        self.formats.use("std::hash", "Hash")
        sign = "signed" if name[0] == "i" else "unsigned"
        return self.call(f"{sign}{prefix}_compared", f"w{bits}", str(int(bits) // 8), f"⟦<{name} as Hash>⟧.hash_input", "refl")

    def of(self, type):
        kind = self.formats.kind(type)
        if kind == "own":
            return self.known(type)
        if kind == "integer" or kind in SIZED:
            return self.number(SIZED.get(kind, type.name))
        if kind == "NonZero":
            return self.number(type.args[0].name, "_non_zero")
        if kind in ("bool", "char"):
            self.formats.use("std::hash", "Hash")
            return self.call(f"{kind}_compared", f"⟦<{kind} as Hash>⟧.hash_input")
        if kind == "String":
            return self.call("string_compared")
        if kind == "Box":
            return self.call("box_compared", self.of(type.args[0]))
        if kind == "Vec":
            return self.call("vec_compared", self.of(type.args[0]), *self.laid(type.args[0]))
        if kind == "Option":
            return self.call("option_compared", self.of(type.args[0]), *self.laid(type.args[0]), self.align(type.args[0]))
        return self.two(kind, *type.args)

    def two(self, kind, one, other):
        both = [self.of(one), *self.laid(one), self.of(other), *self.laid(other)]
        if kind == "Result":
            return self.call("result_compared", *both, self.align(one), self.align(other))
        if kind == "BTreeMap":
            self.formats.use("archive_core::traits", "MapKey")
            return self.call("map_compared", *both, f"⟦<{self.formats.archived(one)} as MapKey>⟧.key", "refl")
        return self.call("pair_compared", *both)

    def known(self, type):
        """A declared type, whose laws are those of its own impl."""
        own = type.own
        archived = self.formats.archived(type)
        laws = [self.formats.impl_law(own, f"{archived}Ordered", law, f"{law}_of_{snake(own.archived)}") for law in ("total", "respects", "by_value")]
        its = f"⟦<{archived} as Ordered>⟧"
        return self.call("as_known", NO_NAME, f"(one {self.formats.shape(type)})", f"{its}.order", f"{its}.hash_input", *laws)

    def fields(self, types):
        out = self.call("no_field_compared")
        for type in reversed(types):
            out = self.call("field_compared", self.of(type), *self.laid(type), out)
        return out

    def record(self, types):
        return self.call("record_compared", self.fields(types), "refl")

    def choice(self, name, units):
        cases = units.folded(
            lambda count, others: self.call("units_compared", str(count), others),
            lambda case, others: self.call("case_compared", self.fields(case.types), others),
            self.call("no_case_compared"),
        )
        return self.call("choice_compared", name, cases, "refl")


OF_LEAVES = {f"{sign}{which}_compared" for sign in ("unsigned", "signed") for which in ("", "_non_zero")} | {"char_compared", "bool_compared"}


def record(source):
    """The impl for a struct, where its views are compared."""
    if not is_compared(source.declaration):
        return ""
    laws = Terms(source.formats).record(source.types)
    name, said = f"{source.name}Parts", ""
    if source.by_fours:
        name, said = in_pairs_of(source, pair(source.formats_of))
    nest = f"⟦<{name} as ComparedFields>⟧"
    source.formats.use("archive_core::compared", "ComparedFields", "compare_record", "hash_record")
    return said + ordered(source, laws, f"{nest}.order 0", f"{nest}.hash_input 0", "record", name)


def choice(source):
    """The impl for an enum, where its views are compared."""
    if not is_compared(source.declaration):
        return ""
    laws = Terms(source.formats).choice(f'(codes "{source.archived}")', source.units)
    name, said = f"{source.name}Variants", ""
    if len(source.units.blocks) > 1 or any(case.by_fours for case in source.cases):
        those = source.units.folded(
            lambda count, others: Group("UnitVariants<", [str(count), others], ">"),
            lambda case, others: Group("(", [pair(case.archived), others], ")", 60),
            "()",
        )
        name, said = in_pairs_of(source, those)
    nest = f"⟦<{name} as ComparedCases>⟧"
    source.formats.use("archive_core::compared", "ComparedCases", "compare_choice", "hash_choice")
    source.formats.ghost("ComparedCases", "choice_order", "choice_fed")
    return said + ordered(source, laws, f"choice_order {nest}.order", f"choice_fed {nest}.hash_input", "choice", name)


def in_pairs_of(source, those):
    """A nest of pairs by which views are compared, and the lines that declare it."""
    name = f"{source.name}Compared"
    return name, f"// As views are compared.\n{statement(0, f'type {name} = ', those, ';')}\n"


def ordered(source, laws, order, fed, kind, nest):
    f = source.formats
    f.use("archive_core::compare", "Ordered")
    f.use("std::cmp", "Ordering")
    f.use("std::hash", "Hasher")
    f.ghost("std.specs.Prelude", "refl")
    f.ghost("std.proofs.Common", "inl", "inr")
    f.ghost("Definitions", "no_definition")
    f.ghost("Shape", "one")
    compare = statement(8, "", Generic(f"compare_{kind}", ["Self", nest], ["a", "b"]), "")
    hash_it = statement(8, "", Generic(f"hash_{kind}", ["Self", nest, "H"], ["part", "state"]), ";")
    return f"""/// Views are compared as the values that they show.
impl Ordered for {source.archived} {{
{f.law_lines()}    ghost order = {{ {order} }};

    ghost hash_input = {{ {fed} }};

    ghost settling = {{ 0 }};

    ghost total = {{ {laws}.total }};

    ghost respects = {{ {laws}.respects }};

    ghost level = {{ tt }};

    ghost by_value = {{ {laws}.by_value }};

    fn compare(a: RawView<'_>, b: RawView<'_>) -> Ordering {{
{compare}    }}

    fn hash_part<H: Hasher>(part: RawView<'_>, state: &mut H) {{
{hash_it}    }}

    fn settling_bytes() -> usize {{
        0
    }}
}}
"""
