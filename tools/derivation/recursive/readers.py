"""What reads values of recursive types back."""

from . import weak
from . import arrays
from . import frames
from . import maps
from . import places, slices
from .reads import is_made, skips_none, word_of
from .term_words import is_map
from ..layout import Generic, Group, call, literal, statement
from ..model import Refused
from . import code, resolvers

# Of a graph with an enum, up to so many functions that read its values are proved, which call each other.
MOST_OF_GRAPH = 12


def reading(it):
    refuse_many(it)
    out = [made_reading(it)] + [owner_reading(it, type) for type in it.owners]
    if it.is_record:
        out.append(record_reading(it))
    else:
        out += [case_reading(it, case) for case in it.cases]
        out.append(choice_reading(it))
    return "\n".join(piece for piece in out if piece)


def refuse_many(it):
    """Of a graph with an enum, how its values are read back isn't proved by more functions."""
    count = calls_back(it.family)
    if it.family.shares and not it.is_holder and not all(other.is_record for other in it.family.members) and count > MOST_OF_GRAPH:
        said = f"`{it.name}` leads back in more ways than are proved of an enum with shared pointers: {count} functions would read its values, and {MOST_OF_GRAPH} are the most"
        raise Refused(it.declaration.path, it.declaration.line, f"{said}; write fewer variants, and fewer types of fields, that lead back")


def calls_back(family):
    """How many functions call each other that read the family's values."""
    owners = sum(1 + slices.is_shared_slice(type) for it in family.members for type in it.owners)
    return owners + sum(1 + sum(any(case.leads_back) for case in it.cases if not it.is_record) for it in family.members)


def made_parts(it):
    """The plain parts that are made of tuples, each by the function that reads it: of several types of a family the first has it."""
    found = {}
    for other in it.family.members:
        here = {}
        for case in other.cases:
            for type in case.types:
                name = word_of(it, type)
                if is_made(type) and not it.terms.leads_back(type) and name not in found:
                    here[name] = type
        if other is it:
            return here
        found.update(here)


def made_reading(it):
    f, out = it.formats, []
    for name, type in made_parts(it).items():
        T, X = f.rust(type), f.archived(type)
        out.append(f"""// Reads a part back.
#[inline(always)]
fn {name}<{it.reader}>(alloc: Global, part: RawView<'_>, deserializer: &mut D) -> Result<{T}, Error>
    requires {{ IsPartOf ⟦<{X} as ArchivePointee>⟧ part }}
    ensures {{ ReadsAs ⟦<{X} as ArchivePointee>⟧ part D.Entries deserializer ⟦<{T} as Archive>⟧ result }}
{{
{statement(4, "", Generic("read_part", [X, T, "D"], ["alloc", "part", "deserializer"]), "")}}}
""")
    return "\n".join(out)


def read_contract(it, type):
    """What a function that reads a value promises: of one with tuples, by what these mean."""
    X, said = code.inside(it, type), rows_said(it, type, "t")
    return code.READ_ROWS.format(X=X, meaning=said[0], keys=said[1]) if said else code.READ.format(T=it.formats.rust(type), X=X)


def rows_said(it, type, x):
    """What a tuple means, or what is made of tuples, and its keys; nothing of another type."""
    w = it.word(type)
    if it.terms.is_row(type):
        return f"({w}_meaning {x})", f"({w}_keys {x})"
    if type.name == "Box" and (said := rows_said(it, type.args[0], f"{x}.value")):
        return f"(box {said[0]})", said[1]
    if type.name == "Vec" and it.terms.is_row(type.args[0]):
        item = it.word(type.args[0])
        return f"(list (each_meaning {item}_meaning {x}.items))", f"(each_keys {item}_keys {x}.items)"
    return None


def reader(it, name, T, contract_, body, said, cycle=True, inlined=""):
    mark = f"#[cycle(read_{it.family.n})]\n{inlined}" if cycle else code.ALWAYS
    return f"""// {said}
{mark}fn read_{name}<{it.reader}>(alloc: Global, part: RawView<'_>, {"levels: usize, " if it.family.shares and cycle else ""}deserializer: &mut D) -> Result<{T}, Error>
{contract_}{{
{body}}}
"""


def owner_reading(it, type):
    item = type.args[0]
    T = it.formats.rust(type)
    inner = code.inside(it, item)
    levels = "levels, " if it.family.shares else ""
    if type.name == "tuple":
        row = it.row(type)
        body = parts_read(it, row) + statement(4, "Ok(", Group("(", made_values(it, row), ")"), ")")
    elif arrays.is_array(type):
        T = f"Vec<{it.formats.rust(item)}>"
        return reader(it, it.word(type), T, arrays.read_contract(it, type), arrays.reading(it, type), "Reads the elements of an array back.", inlined=frames.of_owner(it, type))
    elif is_map(type):
        body = maps.reading(it, type, code.inside)
    elif type.name == "Shared":
        of = f"{inner}, RcFlavor, {T}, D"
        body = f"""    let known = match begin_reading::<{of}>(part, deserializer) {{
        Ok(known) => known,
        Err(error) => return Err(error),
    }};
    match known {{
        Some(value) => Ok(value),
        None => {{
            let behind = part_behind::<{inner}, RcFlavor>(part);
            let value = match read_{it.word(item)}(alloc, behind, levels, deserializer) {{
                Ok(value) => value,
                Err(error) => return Err(error),
            }};
            finish_reading::<{of}>(alloc, part, value, deserializer)
        }}
    }}
"""
    elif type.name == "WeakShared":
        body = weak.reading(it, type)
    elif slices.is_shared_slice(type):
        inner_ = reader(it, slices.items_word(it, type), f"Vec<{it.formats.rust(item)}>", slices.read_contract(it, type), slices.reading_items(it, type), "Reads the elements of a shared slice back.")
        return inner_ + "\n" + reader(it, it.word(type), T, read_contract(it, type), slices.reading(it, type), "Reads a shared slice back.")
    elif type.name == "Box":
        body = f"""    let view: Ref<'_, ArchivedBox<{inner}>> = Ref::at(part);
    let value = match read_{it.word(item)}(alloc, before_box(view).part(), {levels}deserializer) {{
        Ok(value) => value,
        Err(error) => return Err(error),
    }};
    let whole = Box::new(alloc, value)?;
    Ok(whole)
"""
    elif type.name == "Option":
        body = f"""    let view: Ref<'_, ArchivedOption<{inner}>> = Ref::at(part);
    match view.as_ref() {{
        None => Ok(None),
        Some(inner) => match read_{it.word(item)}(alloc, inner.part(), {levels}deserializer) {{
            Ok(value) => Ok(Some(value)),
            Err(error) => Err(error),
        }},
    }}
"""
    else:
        lines = f"    let view: Ref<'_, ArchivedVec<{inner}>> = Ref::at(part);\n    let list = before_vec(view);\n"
        made = "items"
        if type.name == "BoxSlice":
            lines, made = f"    let list = before_box_slice::<{inner}>(part);\n", "BoxSlice { items }"
        body = f"""{lines}    let mut items = Vec::with_capacity(alloc, list.len())?;
    for index in 0..list.len() {{
        let item = match read_{it.word(item)}(alloc, list.index(index).part(), {levels}deserializer) {{
            Ok(item) => item,
            Err(error) => return Err(error),
        }};
        items.push_reserved(item);
    }}
    Ok({made})
"""
    inlined = frames.of_owner(it, type)
    if skips_none(it, type):
        return none_reading(it, type) + "\n" + reader(it, f"each_{it.word(item)}", T, read_contract(it, type), body, "Reads the elements of a vector back.", inlined=inlined)
    whats = {"Box": "a box", "BoxSlice": "a boxed slice", "Option": "an option", "Vec": "a vector", "BTreeMap": "a map", "Shared": "a shared value", "WeakShared": "a weak pointer"}
    told = "Reads a tuple back, part by part." if type.name == "tuple" else f"Reads {whats[type.name]} back."
    return reader(it, it.word(type), T, read_contract(it, type), body, told, inlined=inlined)


def none_reading(it, type):
    """The function that reads a vector back with no call, where it has no elements. It stands in its callers, as does the one that reads an element."""
    body = f"""    let view: Ref<'_, ArchivedVec<{code.inside(it, type.args[0])}>> = Ref::at(part);
    if view.is_empty() {{
        return Ok(Vec::new(alloc));
    }}
    read_each_{it.word(type.args[0])}(alloc, part, deserializer)
"""
    return reader(it, it.word(type), it.formats.rust(type), read_contract(it, type), body, "Reads a vector back. One with no elements takes no call, whose result would go through memory.", inlined=code.ALWAYS)


def parts_read(it, case):
    lines = ""
    for i, (name, type, back, T, offset) in enumerate(zip(case.names, case.types, case.leads_back, case.read, case.offsets)):
        X = code.inside(it, type)
        if case.is_record:
            where = Generic("part_of_record", [it.row_name(case.tuple) if case.is_row else it.archived, X], ["part", str(i), str(offset)])
        elif places.goes(it, case):
            where = call(places.name(case, i), ["part"])
        else:
            where = Generic("part_of_variant", [it.archived, X], ["part", str(case.tag), str(i), str(offset)])
        lines += statement(4, f"let p{i} = ", where, ";")
        levels = ["levels"] if it.family.shares and back else []
        read = call(word_of(it, type), ["alloc", f"p{i}"] + levels + ["deserializer"]) if back or is_made(type) else Generic("read_part", [X, T, "D"], ["alloc", f"p{i}", "deserializer"])
        lines += statement(4, f"let {name} = match ", read, " {") + f"        Ok({name}) => {name},\n        Err(error) => return Err(error),\n    }};\n"
    return lines


def built(it, case):
    names = made_values(it, case)
    if it.is_record:
        if case.form == "tuple":
            return Group(f"{it.name}(", names, ")")
        return literal(it.name, [f"{field.name}: {name}" for field, name in zip(case.fields, names)])
    return resolvers.pattern(it, case, names)


def made_values(it, case):
    """The parts, of what was read in their places: of an array that leads back its elements."""
    values = []
    for name, type, back in zip(case.names, case.types, case.leads_back):
        value = f"array_of({name})" if arrays.is_array(type) else name
        values.append(value if back else it.formats.arrays.value(type, name))
    return values


def case_reading(it, case):
    contract_ = f"    requires viewed {{ IsPartOf ⟦<{it.archived} as ArchivePointee>⟧ part }}\n    requires tag {{ part_tag part ≡ {case.tag} }}\n"
    contract_ += "".join(code.READ.format(T=it.name, X=it.archived).splitlines(True)[1:])
    body = parts_read(it, case) + statement(4, "Ok(", built(it, case), ")")
    text_ = reader(it, case.n, it.name, contract_, body, f"Reads `{case.name}` back.", any(case.leads_back), frames.of_case(it, case))
    return text_ if case.count else text_.replace("(alloc: Global", "(_alloc: Global").replace("deserializer", "_deserializer")


def choice_reading(it):
    arms = ""
    for case in it.cases:
        tag = "_" if case is it.cases[-1] else str(case.tag)
        levels = "levels, " if it.family.shares and any(case.leads_back) else ""
        arms += f"        {tag} => read_{case.n}(alloc, part, {levels}deserializer),\n"
    body = f"{one_level(it)}    match {places.tag(it)} {{\n{arms}    }}\n"
    return reader(it, it.n, it.name, code.READ.format(T=it.name, X=it.archived), body, "Reads a value back.", not it.is_holder, frames.of_value(it))


def one_level(it):
    """The lines by which reading terminates that follows shared pointers, which may lead anywhere: a value has fewer levels than its archive has bytes."""
    return "    if levels == 0 {\n        return Err(Error::OutOfMemory);\n    }\n    let levels = levels - 1;\n" if it.family.shares else ""


def record_reading(it):
    case = it.cases[0]
    body = one_level(it) + parts_read(it, case) + statement(4, "Ok(", built(it, case), ")")
    return reader(it, it.n, it.name, code.READ.format(T=it.name, X=it.archived), body, "Reads a value back, part by part.", not it.is_holder, frames.of_value(it))


def deserialize(it):
    read = f"read_chain::<{it.archived}, {it.name}, D>(alloc, part, deserializer)" if it.is_chain else f"read_{it.n}(alloc, part, deserializer)"
    if it.family.shares:
        read = f"let levels = part.bytes.len();\n        read_{it.n}(alloc, part, levels, deserializer)"
    return f"""impl<{it.reader}> Deserialize<{it.name}, D> for {it.archived} {{
    #[inline(always)]
    fn deserialize_part(
        alloc: Global,
        part: RawView<'_>,
        deserializer: &mut D,
    ) -> Result<{it.name}, Error>
        requires {{ IsPartOf ⟦<Self as ArchivePointee>⟧ part }}
        ensures {{ ReadsAs ⟦<Self as ArchivePointee>⟧ part D.Entries deserializer ⟦<{it.name} as Archive>⟧ result }}
    {{
        {read}
    }}
}}
"""
