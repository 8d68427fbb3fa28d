"""Fields one after another: up to eight are written by calls by their number, more by their nest. They are checked and read back by the nest, from four on by
fours.

The evidence of a call with a flat list of fields (`serialize_record_4` and its kin) is linear in the fields. Reading goes by the nest: by number, with a
bound `A::Archived: Deserialize<A, R>` a field, it "stopped at the step limit (50000000 steps a task, the default)" at three. The front end doesn't take
sixteen fields in pairs, but in fours.

A part of a nest is found in each value of the whole, and a variant's fields aren't in each value of an enum. So a variant lends many fields in a struct of
references. `serialize_case` and `resolve_case` ask for `Portable` of the enum: with `Choice`, whose variants are passed, too, "the impls to pass for
`char: Eq` do not end, or are too many" at sixteen fields. By number, each field more adds a half to what the check takes: 21 seconds at nine, 30 at eleven.
"""

from .layout import flat, fours, implementation, literal, pair, statement

# Up to so many fields there are calls by their number.
MOST_BY_NUMBER = 8
# The fields of a `FourParts`.
ORDINALS = ("first", "second", "third", "fourth")


def is_long(parts):
    return len(parts) > MOST_BY_NUMBER


def nest(parts, by_fours, end="()"):
    """Fields as types or as values, with what is behind them."""
    return fours(parts, end) if by_fours else pair(parts, end)


def places(count, by_fours):
    """Where each of so many fields is in the nest of their values."""
    if not by_fours:
        return [f"{'.1' * i}.0" for i in range(count)]
    last = 4 * (count // 4)
    quads = [f"{'.rest' * (i // 4)}.{ORDINALS[i % 4]}" for i in range(last)]
    return quads + [f"{'.rest' * (last // 4)}{'.1' * i}.0" for i in range(count - last)]


def pattern(names, by_fours):
    """The pattern that names each of the values."""
    if not by_fours or len(names) < 4:
        return pair(names)
    first = [f"{at}: {name}" for at, name in zip(ORDINALS, names)]
    return literal("FourParts", first + [f"rest: {flat(pattern(names[4:], by_fours))}"])


def inside(count, by_fours):
    """Where what is behind so many fields is in the nest of their values."""
    return f"{'.rest' * (count // 4)}{'.1' * (count % 4)}" if by_fours else ".1" * count


def names_of(names, indent, by_fours, end="()"):
    """The lines that name each of `values`, and what is behind them."""
    if not by_fours:
        return statement(indent, "let ", pair(names, end), " = values;")
    lines, left, whole = "", list(names), "values"
    while len(left) >= 4:
        pattern = literal("FourParts", [f"{at}: {name}" for at, name in zip(ORDINALS, left)] + ["rest"])
        lines += statement(indent, "let ", pattern, f" = {whole};")
        left, whole = left[4:], "rest"
    return lines + (statement(indent, "let ", pair(left, end), " = rest;") if left or end != "rest" else "")


def as_parts(rust):
    """Fields of these types as parts of their struct."""
    return [f"Field<{i}, {type}>" for i, type in enumerate(rust)]


def fields_of(formats, name, whole, rust, values, those=None, lent=False):
    """Many fields of the struct `whole` as sources, and how each is found: `values` are their names. A struct of lent fields has references."""
    formats.use("archive_core::own", "Field", "HasField")
    those = statement(0, f"type {name} = ", those or fours(as_parts(rust)), ";")
    now, by = (".now", "") if lent else ("", "&")
    impls = "".join(
        f"""
{implementation([], "HasField", [str(i), type], whole)}
    ghost field = {{ λ v. v.{value}{now} }};

    fn field(&self) -> &{type} {{
        {by}self.{value}
    }}
}}
"""
        for i, (type, value) in enumerate(zip(rust, values))
    )
    return f"""// The fields as sources.
{those}{impls}"""


def lent(formats, name, path, rust):
    """The fields of a variant, lent: a struct of references."""
    names = [f"a{i}" for i in range(len(rust))]
    lines = "".join(f"    {value}: &'a {type},\n" for value, type in zip(names, rust))
    return f"""// The fields of `{path}`, lent.
#[derive(Drop)]
struct {name}Lent<'a> {{
{lines}}}

{fields_of(formats, f"{name}Fields", f"{name}Lent<'_>", rust, names, lent=True)}"""


def place(pieces, index):
    """Where the value of the field with this index is, of fields that were read in these pieces."""
    number = next(number for number, (_, end) in enumerate(pieces) if index < end)
    return f"{'.1' * number}.0{'.1' * (index - pieces[number][0])}.0"
