"""How long the evidence of an impl is, in lines of what the check writes out.

The check is handed two words for each bound, what the impl says and what it does, and writes both out with all that the bound's own impl is handed. So a bound
within another one doubles the text: of the variants of a nest of pairs, the evidence of the fifth is there 160 times. Each law of an impl has the text once, and
26,000 lines take a second of a processor. `LittleEndian` is handed all that a native number asks, so a number is 14 times a string or a struct.
"""

from .loads import LEAST_IN_FOURS, NUMBERS, POINTERS, SIZES, TEXTS, TO_MANY, kind

# What says a type without arguments is archived: as a pointee, as a value, and how it is checked.
WORDS = 6
# And of a number.
NUMBER = 84


def value(type):
    """Of an archived value."""
    name, args = kind(type)
    if name in NUMBERS | SIZES:
        return NUMBER
    if name == "NonZero":
        return 2 * NUMBER
    if name == "tuple":
        return WORDS * (1 + parts(args))
    if name == "BTreeMap":
        return WORDS * (1 + 2 * value(args[0]) + value(args[1]))
    if name in POINTERS | TO_MANY:
        return WORDS * (1 + 3 * sum(map(value, args)))
    if name in TEXTS or name == "PhantomData" or not args:
        return WORDS
    return WORDS * (1 + sum(map(value, args)))


def laid(types):
    """Of parts that are laid out, and of parts that are checked."""
    if not types:
        return 2, 2
    width = 4 if len(types) >= LEAST_IN_FOURS else 1
    here = 1 + sum(map(value, types[:width]))
    behind, checked = laid(types[width:])
    return 2 * (here + behind + checked), 2 * (here + checked)


def parts(types):
    """Of the fields of a struct, or of a variant."""
    return sum(laid(types))


def variants(types):
    """Of the variants of an enum with these fields, or of some of them."""
    behind, checked = 2, 2
    for those in reversed(types):
        behind, checked = 2 * (1 + parts(those) + behind + checked), 2 * (1 + laid(those)[1] + checked)
    return behind + checked
