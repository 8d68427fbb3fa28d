"""How much a call passes: an impl for each bound, and for all that the impl asks in turn, each as often as it is asked for.

The front end takes some 30,000, and rejects more ("the impls to pass .. do not end, or are too many"). What a type comes to triples with each type around
it, and grows with the square of how deep the nest of the fields is, so a struct in a struct's place helps: it comes to three. The counts follow the heads
of the library's impls. Of some 80 lists of fields that were tried, all below 28,900 were taken and all above 34,600 rejected:

    25,588   six fields `Option<Box<Vec<String>>>`   taken         28,989   sixteen `(String, String)`     rejected
    32,804   two fields `Vec<Option<Vec<u32>>>`      taken         30,672   eleven `Vec<u32>`              rejected

From four fields on they go by fours, which comes to less than pairs (evidence.py). What reading them at once comes to grows fastest, so deep ones are read in
pieces, or in the blocks in which they are checked and written.
"""

from .formats import substituted
from .long import is_long

# What is allowed of it over fields, and over the variants of an enum, where the count comes to less than the front end's: eleven `Option<Box<u32>>`, a
# variant each, are 23,177 and rejected.
MOST = 26_000
MOST_OF_VARIANTS = 12_000
# And over the fields of a block, of structs that have several. A struct of more than so many fields has.
MOST_OF_BLOCK = 12_000
MOST_AT_ONCE = 16
MOST_IN_BLOCK = 12
LEAST_IN_FOURS = 4
# How many fields are read at once of those that are read in pieces: the evidence doubles with each.
MOST_IN_PIECE = 3
# `Native` of a number, with all that this asks: `Copy`, `Ord`, `Hash` and theirs.
NATIVE = 9
PLAIN = {"u8", "i8", "bool", "()"}
NUMBERS = {f"{sign}{bits}" for sign in "ui" for bits in (16, 32, 64, 128)} | {"char"}
SIZES = {"usize", "isize"}
ALONE = {"String", "BoxStr", "SharedStr", "PhantomData", "own"}
# Those of them that are archived as pointers.
TEXTS = {"BoxStr", "SharedStr"}
# What points to one value, and to several.
POINTERS = {"Box", "Shared", "WeakShared"}
TO_MANY = {"BoxSlice", "SharedSlice"}
# Those that a pool reads back.
SHARED = {"Shared", "WeakShared", "SharedSlice"}


def kind(type):
    """The name of a type's kind, and the types in it."""
    if type.own is None:
        return type.name, type.args
    if not type.own.as_tuple:
        return "own", []
    by = {p.name: x for p, x in zip(type.own.parameters, type.args)}
    fields = [field.type for field in type.own.all_fields()]
    return "tuple", [substituted(it, by) for it in fields] if by else fields


class Loads:
    """What bounds on types come to. Each is found once for each type."""

    def __init__(self):
        self.known = {}

    def once(self, bound, type, find):
        key = (bound, id(type))
        if key not in self.known:
            self.known[key] = (type, find(*kind(type)))
        return self.known[key][1]

    def all(self, bound, types):
        return sum(bound(it) for it in types)

    # ---- formats ----

    def pointee(self, type):
        """`ArchivePointee`."""
        def find(name, args):
            if name in NUMBERS | SIZES:
                return 1 + NATIVE
            if name == "NonZero":
                return 2 + NATIVE
            if name in POINTERS:
                return 2 + self.all(self.pointee, args)
            if name == "tuple":
                return 1 + self.parts(args)
            if name in TEXTS:
                return 3
            return 1 + (name in TO_MANY | {"BTreeMap"}) + self.all(self.portable, args)
        return self.once("pointee", type, find)

    def check(self, type):
        """`SelfCheck` of its check."""
        def find(name, args):
            if name in NUMBERS | SIZES:
                return 1 + NATIVE
            if name == "NonZero":
                return 2 + NATIVE
            if name == "tuple":
                return 1 + self.parts(args)
            if name in SHARED:
                return 1
            return 1 + (name == "BTreeMap") + self.all(self.portable, args)
        return self.once("check", type, find)

    def pointed(self, type):
        """`PortablePointee` of one value."""
        return 1 + self.portable(type) + self.pointee(type)

    def portable(self, type):
        """`Portable`."""
        def find(name, args):
            asked = self.all(self.portable, args)
            if name in NUMBERS | SIZES:
                asked = NATIVE
            elif name == "NonZero":
                asked = 1 + NATIVE
            elif name == "tuple":
                asked = self.parts(args)
            elif name in POINTERS:
                asked = 1 + self.all(self.pointed, args)
            elif name in TO_MANY:
                asked = 2 + 2 * asked
            elif name in TEXTS:
                asked = 2
            return 1 + asked + (name == "BTreeMap") + self.pointee(type) + self.check(type)
        return self.once("portable", type, find)

    # ---- values ----

    def leaf(self, type):
        """`Leaf`."""
        return 2 + NATIVE + 2 * self.portable(type)

    def archive(self, type):
        """`Archive`."""
        def find(name, args):
            asked = self.all(self.archive, args)
            if name in PLAIN | NUMBERS | {"NonZero"}:
                asked = self.leaf(type)
            elif name in SIZES | ALONE:
                asked = 0
            elif name == "tuple" and len(args) > 3:
                asked = self.sources(args, True)
            elif name == "BTreeMap":
                asked += 7 + self.portable(args[0])
            return 2 + asked + self.portable(type)
        return self.once("archive", type, find)

    def serialize(self, type):
        """`Serialize`."""
        def find(name, args):
            asked = self.all(self.serialize, args)
            if name in PLAIN | NUMBERS | {"NonZero"}:
                asked = self.leaf(type)
            elif name in SIZES | ALONE:
                asked = 0
            elif name == "tuple" and len(args) > 3:
                asked = self.serialized(args, True)
            elif name == "BTreeMap":
                asked += 7 + self.archive(args[0]) + self.portable(args[0])
            return 3 + asked + self.archive(type)
        return self.once("serialize", type, find)

    def deserialize(self, type):
        """`Deserialize`."""
        def find(name, args):
            asked = self.all(self.item, args)
            if name in PLAIN | NUMBERS | {"NonZero"}:
                asked = 1 + NATIVE + self.portable(type)
            elif name in SIZES | ALONE:
                asked = 0
            elif name == "Box":
                asked += self.pointee(args[0])
            elif name in SHARED:
                asked += 2 * self.archive(type) + 2 * self.archive(args[0])
            elif name == "tuple":
                asked += self.parts(args) + self.read(args, len(args) > 3)
            elif name == "BTreeMap":
                asked += 10
            return 2 + asked + self.pointee(type) + self.archive(type)
        return self.once("deserialize", type, find)

    def item(self, type):
        """What reading a value that holds this one asks."""
        return 1 + self.portable(type) + self.deserialize(type) + self.archive(type)

    # ---- fields one after another, in pairs or in fours ----

    def checked(self, types):
        """`CheckedParts`."""
        return 1 + len(types) + self.all(self.portable, types)

    def parts(self, types, fours=False):
        """`PortableParts`."""
        return 2 + sum(1 + self.all(self.portable, first) + self.checked(rest) for first, rest in levels(types, fours))

    def owned(self, types):
        """`OwnedParts`."""
        return 1 + sum(1 + self.archive(it) for it in types)

    def sources(self, types, fours):
        """`SourceParts`."""
        return 5 + sum(2 + sum(3 + self.archive(it) for it in first) + self.parts(rest, fours) for first, rest in levels(types, fours))

    def serialized(self, types, fours):
        """`SerializeParts`."""
        of_each = lambda it: 3 + self.archive(it) + self.serialize(it)
        return 5 + sum(1 + self.all(of_each, first) + self.sources(rest, fours) for first, rest in levels(types, fours))

    def read(self, types, fours):
        """`DeserializeParts`."""
        return 2 + sum(1 + self.all(self.item, first) + self.parts(rest, fours) + 2 * self.owned(rest) for first, rest in levels(types, fours))

    # ---- calls ----

    def of_lent(self, types):
        """What a call passes that resolves these fields, lent: nothing of how they are written or read."""
        return self.parts(types, True) + self.sources(types, True)

    def of_pairs(self, types):
        """What a call passes that writes these fields, in pairs."""
        return self.parts(types, False) + self.serialized(types, False)

    def of_reading(self, types, fours):
        """What a call passes that reads these fields."""
        return self.parts(types, fours) + self.owned(types) + self.read(types, fours)

    def are_read_at_once(self, types):
        """Whether one call reads them. Up to eight are counted as in pairs, which is more than they come to."""
        return self.of_reading(types, is_long(types)) <= MOST

    def pieces(self, types):
        """Where each piece begins and ends in which fields are read that aren't read at once: as many fields each as are not too much."""
        found, begin = [], 0
        for end in range(1, len(types) + 1):
            if end == len(types) or end - begin == MOST_IN_PIECE or self.of_reading(types[begin:end + 1], False) > MOST:
                found.append((begin, end))
                begin = end
        return found

    def written(self, types, fours):
        """What a call passes that checks or writes these fields: many go by their nest, others by their number. Of a nest it is more than is counted: of 13 fields
        that come to 22,398 it was taken, and of 13 that come to 23,540 rejected."""
        parts = self.parts(types, fours)
        if is_long(types):
            return (parts + self.serialized(types, True)) * 6 // 5
        return max(parts, self.all(self.serialize, types))

    def at_once(self, types, fours):
        """The most that a call over these fields passes, of a struct or of a variant, where they are read at once."""
        return max(self.written(types, fours), self.of_reading(types, fours))

    def blocks(self, types):
        """Where each block begins and ends in which fields of a struct go that don't at once: as many each as are not too much."""
        if len(types) <= MOST_AT_ONCE and self.written(types, self.go_by_fours(types)) <= MOST:
            return []
        found, begin = [], 0
        while begin < len(types):
            ends = range(begin + 2, min(begin + MOST_IN_BLOCK, len(types)) + 1)
            end = max((it for it in ends if self.is_block(types[begin:it])), default=begin + 1)
            found.append((begin, end))
            begin = end
        return found

    def is_block(self, types):
        """Whether these fields are not too much for a block."""
        return self.of_block(types) <= MOST_OF_BLOCK and self.of_block_read(types) <= MOST

    def of_block(self, types):
        """What a call passes that checks or writes the fields of a block."""
        return self.parts(types, True) + self.serialized(types, True)

    def of_block_read(self, types):
        """What a call passes that reads them."""
        return self.of_reading(types, len(types) >= LEAST_IN_FOURS)

    def least_of_fields(self, types, in_blocks=False):
        """The same where those of a struct are in blocks, and where others are read in pieces if that comes to less."""
        blocks = [types[begin:end] for begin, end in self.blocks(types)] if in_blocks else []
        if blocks:
            return max(max(self.of_block(those), self.of_block_read(those)) for those in blocks)
        pieces = [types] if self.are_read_at_once(types) else [types[begin:end] for begin, end in self.pieces(types)]
        return max([self.written(types, self.go_by_fours(types))] + [self.of_reading(those, is_long(those)) for those in pieces])

    def go_by_fours(self, types):
        """Whether the nest of these fields has four at once."""
        return len(types) >= LEAST_IN_FOURS

    def of_variants(self, variants):
        """`PortableVariants`, of an enum with these fields in its variants: those without fields that are written together count as one."""
        checks = [self.checked(types) for types in variants]
        return sum(2 + self.parts(types, self.go_by_fours(types)) + sum(checks[i:]) for i, types in enumerate(variants))


def levels(types, fours):
    """Of each level of the nest the fields in it, and those from it on."""
    out, left = [], list(types)
    while left:
        width = 4 if fours and len(left) >= LEAST_IN_FOURS else 1
        out.append((left[:width], left))
        left = left[width:]
    return out
