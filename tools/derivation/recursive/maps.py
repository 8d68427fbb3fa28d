"""Sorted maps whose values lead back to a recursive type.

An entry is a tuple of its key and its value. What the entries own is written as that of a vector's elements, where the map is gone over; their region, and the
pointer to it, by a call of the library, which lends the entries. They are read back as a vector of tuples, of which the library makes the map.
"""

from ..layout import Generic, flat, pair, statement
from .term_words import element


def bring(it):
    """What a module with such a map speaks of."""
    f = it.formats
    f.use("archive_core::map", "ArchivedSortedMap", "SortedMapResolver")
    f.use("archive_core::recursive", "MapAt", "before_map", "collect_map", "serialize_inner_map")


def archived_key(it, type):
    return it.formats.archived(type.args[0])


def hollow(it, type, of_value):
    """The hollow part of a map."""
    return f"MapAt<{archived_key(it, type)}, {of_value}>"


def entries(it, type):
    """What functions of a map's entries are called by: `entries_map_string_json`."""
    return f"entries_{it.word(type)}"


def writing(it, type, contract, parts_written):
    """The functions that write what a map owns, and before that what each of its entries does."""
    bring(it)
    item, T = element(type), it.formats.rust(type)
    row = it.row(item)
    its, D, X = it.formats.rust(item), it.terms.definitions(item), it.terms.shape(item)
    run = f"{D} {X} (length values.now.entries) (each_keys ⟦<{its} as Archive>⟧.keys values.now.entries)\n        (each_meaning ⟦<{its} as Archive>⟧.meaning values.now.entries)"
    written = parts_written(it, row, ["key", "value"], 8, row.first_back)
    return f"""// Writes what each of the entries owns, in order.
#[cycle(serialize_{it.family.n})]
fn serialize_{entries(it, type)}<{it.writer}>(values: &{T}, serializer: &mut S) -> Result<Vec<<{its} as Archive>::Resolver, S::Alloc>, Error>
    ensures serialized {{ IfOk result (λ rs. SerializedRun {run}
        (each_flat ⟦<{its} as Archive>⟧.flat values.now.entries rs.items) (S.state serializer.old)
        (S.state serializer.new)) }}
    ensures same_values {{ IfOk result (λ rs. EachBelongs ⟦<{its} as Archive>⟧.belongs values.now.entries rs.items) }}
    ensures goes_on {{ GoesOn (S.state serializer.old) (S.state serializer.new) }}
    ensures refused {{ IfErr result (IsRunRefused {run}
        (S.state serializer.old) (S.state serializer.new)) }}
{{
    let alloc = serializer.resolver_alloc();
    let mut resolvers = Vec::with_capacity(alloc, values.len())?;
    for (key, value) in values {{
{written}        resolvers.push({flat(pair(row.names))}).map_err(AllocError::from)?;
    }}
    Ok(resolvers)
}}

// Writes what a map owns.
#[cycle(serialize_{it.family.n})]
fn serialize_{it.word(type)}<{it.writer}>(value: &{T}, serializer: &mut S) -> Result<SortedMapResolver, Error>
{contract(it, type, "value")}{{
    if value.len() > u32::MAX as usize {{
        return Err(Error::LengthTooLarge);
    }}
    let kept = match serialize_{entries(it, type)}(value, serializer) {{
        Ok(kept) => kept,
        Err(error) => return Err(error),
    }};
    match serialize_inner_map(value, kept, serializer) {{
        Ok(at) => Ok(at),
        Err(error) => Err(error),
    }}
}}
"""


def reading(it, type, inside):
    """The body of the function that reads a map back; `inside` is the archived type of a part."""
    item = element(type)
    key, value, row = archived_key(it, type), inside(it, type.args[1]), inside(it, item)
    rust = [it.formats.rust(arg) for arg in type.args]
    made = Generic("collect_map", [key, value, *rust], ["alloc", "part", "items"])
    return f"""{statement(4, "let list = ", Generic("before_map", [key, value, row], ["part"]), ";")}    let mut items = Vec::with_capacity(alloc, list.len())?;
    for index in 0..list.len() {{
        let item = match read_{it.word(item)}(alloc, list.index(index).part(), deserializer) {{
            Ok(item) => item,
            Err(error) => return Err(error),
        }};
        items.push_reserved(item);
    }}
{statement(4, "", made, "")}"""
