"""What writes values of recursive types: what each owner, variant and record owns, in order."""

from . import arrays
from . import frames
from . import maps
from . import rooms
from . import slices
from . import tuples
from ..common import chain, infix
from .term_words import is_map
from ..layout import Group, flat, pair, signature, statement
from . import code, resolvers


def writing(it):
    out = [owner_writing(it, type) for type in it.owners if it.is_written(type)]
    if it.is_record:
        out.append(record_writing(it))
    else:
        out += [case_writing(it, case) for case in it.cases if case.count and not is_inline(case)]
        out.append(choice_writing(it))
    return "\n".join(piece for piece in out if piece)


def contract(it, type, v):
    """What a function that writes what a value owns promises."""
    return code.SERIALIZED.format(
        T=it.formats.rust(type), D=it.terms.definitions(type), X=f"{it.word(type)}_shape" if is_map(type) else it.terms.shape(type), v=v, flat=flat_of(it, type, f"{v}.now", "r"), belongs=belongs_of(it, type, f"{v}.now", "r")
    )


def flat_of(it, type, v, r):
    """What is read in a value's place, by what is kept of it: of an option by that alone."""
    if it.terms.leads_back(type) and type.name == "Option":
        return it.terms.flat(type, v, r)[1:-1]
    return f"⟦<{it.formats.rust(type)} as Archive>⟧.flat {v} {r}"


def belongs_of(it, type, v, r):
    if it.terms.leads_back(type) and type.name == "Option":
        return "⊤"
    return f"⟦<{it.formats.rust(type)} as Archive>⟧.belongs {v} {r}"


def owner_writing(it, type):
    item = type.args[0]
    name = it.word(type)
    T = it.formats.rust(type)
    if type.name == "Box":
        return f"""// Writes what a box owns.
#[cycle(serialize_{it.family.n})]
fn serialize_{name}<{it.writer}>(value: &{T}, serializer: &mut S) -> Result<BoxResolver, Error>
{contract(it, type, "value")}{{
    let inner = &**value;
    let kept = match serialize_{it.word(item)}(inner, serializer) {{
        Ok(kept) => kept,
        Err(error) => return Err(handed_on(error)),
    }};
    match serialize_inner(inner, kept, serializer) {{
        Ok(at) => Ok(at),
        Err(error) => Err(error),
    }}
}}
"""
    if type.name == "Shared":
        return f"""// Writes what a shared pointer leads to, if its key is unknown.
#[cycle(serialize_{it.family.n})]
fn serialize_{name}<{it.writer}>(value: &{T}, serializer: &mut S) -> Result<RcResolver, Error>
{contract(it, type, "value")}{{
{behind_shared(it, type, "value", 4, "Ok({})")}}}
"""
    if type.name == "WeakShared":
        return f"""// Writes what a weak pointer leads to, if its key is unknown.
#[cycle(serialize_{it.family.n})]
fn serialize_{name}<{it.writer}>(value: &{T}, serializer: &mut S) -> Result<RcWeakResolver, Error>
{contract(it, type, "value")}{{
    match &value.value {{
        None => Ok(None),
        Some(whole) => {{
{behind_shared(it, type, "whole", 12, "Ok(Some({}))")}        }}
    }}
}}
"""
    if type.name == "Option" and it.terms.is_shared(item):
        its = option_writing(it, type, f"serialize_{name}", contract(it, type, "value"))
        return f"// Writes what an option of a shared pointer leads to, if its key is unknown.\n{its}"
    if type.name == "Option":
        return f"""// Writes what an option owns.
#[cycle(serialize_{it.family.n})]
{code.ALWAYS}fn serialize_{name}<{it.writer}>(value: &{T}, serializer: &mut S) -> Result<{resolvers.kept(it, type)}, Error>
{contract(it, type, "value")}{{
    match value {{
        None => Ok(None),
        Some(whole) => {{
            let inner = &**whole;
            let kept = match serialize_{it.word(item.args[0])}(inner, serializer) {{
                Ok(kept) => kept,
                Err(error) => return Err(handed_on(error)),
            }};
            match serialize_inner(inner, kept, serializer) {{
                Ok(at) => Ok(Some(at)),
                Err(error) => Err(error),
            }}
        }}
    }}
}}
"""
    if is_map(type):
        return maps.writing(it, type, contract, parts_written)
    each = each_writing(it, item) if it.is_first_run(type) else ""
    if slices.is_shared_slice(type):
        return each + slices.writing(it, type)
    return each[:-1] if arrays.is_array(type) else each + run_writing(it, type)


def member_behind(it, item):
    """The type of the family that an element of a vector leads to by a shared pointer, if by any."""
    return item.args[0].args[0] if item.name == "Option" else item.args[0]


def keyed(it, member):
    """The function that writes a value of a type of the family under a key."""
    return f"serialize_keyed_{it.word(member)}"


def keyed_writing(it, member):
    """This function. Of one that is passed the weak pointer, or the option, the toolchain doesn't see that it ends where a loop over a vector calls it."""
    T, D, X = it.formats.rust(member), it.terms.definitions(member), it.terms.shape(member)
    it.formats.ghost("SharedSources", "rc_flat", "rc_flavor", "rc_keys")
    it.formats.ghost("Value", "shared_value")
    its, states = f"⟦<{T} as Archive>⟧", "(S.state serializer.old) (S.state serializer.new)"
    said = f"{D} (shared rc_flavor (one {X}))\n        (rc_keys key (one {X}) 0 ({its}.meaning value.now) ({its}.keys value.now)) (shared_value key)"
    return f"""// Writes a value that is shared under this key, if that is unknown.
#[cycle(serialize_{it.family.n})]
fn {keyed(it, member)}<{it.writer}>(value: &{T}, key: u64, serializer: &mut S) -> Result<RcResolver, Error>
    ensures serialized {{ IfOk result (λ r. Serialized {said}
        (rc_flat r (one {X}) 0) {states}) }}
    ensures goes_on {{ GoesOn {states} }}
    ensures refused {{ IfErr result (IsRefused {said} {states}) }}
{{
    let known = match begin_shared(key, serializer) {{
        Ok(known) => known,
        Err(error) => return Err(error),
    }};
    match known {{
        Some(resolver) => Ok(resolver),
        None => {{
            let kept = match serialize_{it.word(member)}(value, serializer) {{
                Ok(kept) => kept,
                Err(error) => return Err(error),
            }};
            match finish_shared(key, value, kept, serializer) {{
                Ok(resolver) => Ok(resolver),
                Err(error) => Err(error),
            }}
        }}
    }}
}}

"""


def option_writing(it, type, function, says):
    """The function of this name that writes what an option of a shared pointer leads to."""
    return f"""#[cycle(serialize_{it.family.n})]
fn {function}<{it.writer}>(value: &{it.formats.rust(type)}, serializer: &mut S) -> Result<{resolvers.kept(it, type)}, Error>
{says}{{
    match value {{
        None => Ok(None),
        Some(whole) => {{
{behind_shared(it, type.args[0], "whole", 12, "Ok(Some({}))")}        }}
    }}
}}
"""


def each_writing(it, item):
    """The function that writes what each element of a vector, or of a boxed slice, owns."""
    before = keyed_writing(it, member_behind(it, item)) if it.is_first_keyed(item) else ""
    its, D, X = it.formats.rust(item), it.terms.definitions(item), it.terms.shape(item)
    run = f"{D} {X} (length values.now) (each_keys ⟦<{its} as Archive>⟧.keys values.now)\n        (each_meaning ⟦<{its} as Archive>⟧.meaning values.now)"
    return f"""{before}// Writes what each of the values owns, in order.
#[cycle(serialize_{it.family.n})]
{"#[inline(never)]" + chr(10) if it.is_tree else ""}fn serialize_each_{it.word(item)}<{it.writer}>(values: &[{its}], serializer: &mut S) -> Result<Vec<<{its} as Archive>::Resolver, S::Alloc>, Error>
    ensures serialized {{ IfOk result (λ rs. SerializedRun {run}
        (each_flat ⟦<{its} as Archive>⟧.flat values.now rs.items) (S.state serializer.old)
        (S.state serializer.new)) }}
    ensures same_values {{ IfOk result (λ rs. EachBelongs ⟦<{its} as Archive>⟧.belongs values.now rs.items) }}
    ensures goes_on {{ GoesOn (S.state serializer.old) (S.state serializer.new) }}
    ensures refused {{ IfErr result (IsRunRefused {run}
        (S.state serializer.old) (S.state serializer.new)) }}
{{
    let alloc = serializer.resolver_alloc();
    let mut resolvers = Vec::with_capacity(alloc, values.len())?;
    for value in values {{
{element_written(it, item)}    }}
    Ok(resolvers)
}}

""" + frames.some_writing(it, item, run)


def boxed_contract(it, type):
    """What a function promises that writes what a boxed slice owns. It is passed the elements: of the boxed slice the toolchain doesn't see that they are less."""
    its, D, X = f"⟦<{it.formats.rust(type.args[0])} as Archive>⟧", it.terms.definitions(type), it.terms.shape(type.args[0])
    said = f"{D} (boxed (run {X})) (each_keys {its}.keys value.now.items)\n        (box (list (each_meaning {its}.meaning value.now.items)))"
    return f"""    ensures serialized {{ IfOk result (λ r. Serialized {said}
        (box (hole (to_pointee r (run {X}) (length value.now.items))))
        (S.state serializer.old) (S.state serializer.new)) }}
    ensures same_value {{ IfOk result (λ r. length value.now.items ≤ 4294967295) }}
    ensures goes_on {{ GoesOn (S.state serializer.old) (S.state serializer.new) }}
    ensures refused {{ IfErr result (IsRefused {said}
        (S.state serializer.old) (S.state serializer.new)) }}
"""


def run_writing(it, type):
    """The function that writes what a vector, or a boxed slice, owns."""
    of, what, region, says = it.formats.rust(type), "a vector", rooms.run_of(it), contract(it, type, "value")
    if type.name == "BoxSlice":
        of, what, region, says = f"Vec<{it.formats.rust(type.args[0])}>", "a boxed slice of these elements", "serialize_inner_box_slice", boxed_contract(it, type)
    return f"""// Writes what {what} owns.
#[cycle(serialize_{it.family.n})]
{in_line(it)}fn serialize_{it.word(type)}<{it.writer}>(value: &{of}, serializer: &mut S) -> Result<{resolvers.kept(it, type)}, Error>
{says}{{
    if value.len() > u32::MAX as usize {{
        return Err(Error::LengthTooLarge);
    }}
    let items = value.as_slice();
{of_no_elements(it, region)}    let kept = match {frames.some(it, type.args[0])}(items, serializer) {{
        Ok(kept) => kept,
        Err(error) => return Err(error),
    }};
    match {region}(items, kept, serializer) {{
        Ok(at) => Ok(at),
        Err(error) => Err(error),
    }}
}}
"""


def in_line(it):
    """That a function is inlined: the one that goes over a vector's elements calls itself then."""
    return "#[inline(always)]\n" if it.is_tree else ""


def of_no_elements(it, region):
    """The lines that write an empty vector without a call."""
    if not it.is_tree:
        return ""
    return f"""    if items.is_empty() {{
        let none = Vec::new(serializer.resolver_alloc());
        return match {region}(items, none, serializer) {{
            Ok(at) => Ok(at),
            Err(error) => Err(error),
        }};
    }}
"""


def element_written(it, item):
    """The lines that write what an element of a vector owns, and keep its resolver. A box's value is written where the vector is gone over, and a tuple's: of a
    function that is passed the box or the tuple the toolchain doesn't see that it ends."""
    push = "resolvers.push_reserved({});" if rooms.is_reserved(it, item) else "resolvers.push({}).map_err(AllocError::from)?;"
    if it.terms.is_row(item):
        row = it.row(item)
        written = parts_written(it, row, [f"&value.{i}" for i in range(row.count)], 8, row.first_back)
        return f"{written}        {push.format(flat(pair(row.names)))}\n"
    if it.terms.is_member(item):
        return f"""        let resolver = match serialize_{it.word(item)}(value, serializer) {{
            Ok(resolver) => resolver,
            Err(error) => return Err(handed_on(error)),
        }};
        {push.format("resolver")}
"""
    if item.name == "Shared":
        return shared_written(it, item, push)
    if item.name == "Box":
        return inner_written(it, item, "value", 8) + f"        {push.format('resolver')}\n"
    written = keyed_written(it, item, 16) if it.terms.is_nullable(item) else inner_written(it, item.args[0], "whole", 16)
    return f"""        match {'&value.value' if it.terms.is_weak(item) else 'value'} {{
            None => {{
                {push.format("None")}
            }}
            Some(whole) => {{
{written}                {push.format("Some(resolver)")}
            }}
        }}
"""


def keyed_written(it, item, indent):
    """The lines that write what a shared pointer in an element of a vector leads to."""
    pad = " " * indent
    return f"""{pad}let inner = &*whole.value;
{pad}let resolver = match {keyed(it, member_behind(it, item))}(inner, whole.key, serializer) {{
{pad}    Ok(resolver) => resolver,
{pad}    Err(error) => return Err(error),
{pad}}};
"""


def shared_written(it, item, push):
    """The same of a shared pointer, whose value is written if its key is unknown."""
    return behind_shared(it, item, "value", 8, push, True)


def behind_shared(it, item, name, indent, made, is_element=False):
    """The lines that write what is behind a shared pointer if its key is unknown; `made` is what its resolver is taken for."""
    pad, its = " " * indent, made.format("resolver")
    known = f"{{\n{pad}        {its}\n{pad}    }}" if is_element else f"{its},"
    finished = f"finish_shared({name}.key, inner, kept, serializer)"
    last = f"""let resolver = match {finished} {{
{pad}            Ok(resolver) => resolver,
{pad}            Err(error) => return Err(error),
{pad}        }};
{pad}        {its}""" if is_element else f"""match {finished} {{
{pad}            Ok(resolver) => {its},
{pad}            Err(error) => Err(error),
{pad}        }}"""
    return f"""{pad}let inner = &*{name}.value;
{pad}let known = match begin_shared({name}.key, serializer) {{
{pad}    Ok(known) => known,
{pad}    Err(error) => return Err(error),
{pad}}};
{pad}match known {{
{pad}    Some(resolver) => {known}
{pad}    None => {{
{pad}        let kept = match serialize_{it.word(item.args[0])}(inner, serializer) {{
{pad}            Ok(kept) => kept,
{pad}            Err(error) => return Err(error),
{pad}        }};
{pad}        {last}
{pad}    }}
{pad}}}
"""


def inner_written(it, box, name, indent):
    """The lines that write what a box holds, as the region that it owns."""
    pad = " " * indent
    return f"""{pad}let inner = &**{name};
{pad}let kept = match serialize_{it.word(box.args[0])}(inner, serializer) {{
{pad}    Ok(kept) => kept,
{pad}    Err(error) => return Err(handed_on(error)),
{pad}}};
{pad}let resolver = match serialize_inner(inner, kept, serializer) {{
{pad}    Ok(resolver) => resolver,
{pad}    Err(error) => return Err(error),
{pad}}};
"""


def parts_written(it, case, values, indent=4, by_call=None):
    """The lines that write parts one after another; `by_call` is the index of one whose error comes by a call."""
    lines, pad = "", " " * indent
    for i, (name, type, back, value) in enumerate(zip(case.names, case.types, case.leads_back, values)):
        function, error = f"serialize_{it.word(type)}" if back else "serialize_part", "handed_on(error)" if i == by_call else "error"
        if back and type.name == "BoxSlice":
            value = f"&{value.lstrip('&')}.items"
        if it.terms.is_row(type):
            row = it.row(type, name)
            lines += parts_written(it, row, tuples.lent_parts(row, value), indent) + statement(indent, f"let {name} = ", pair(row.names), ";")
            continue
        if back and arrays.is_array(type):
            function = f"serialize_each_{it.word(type.args[0])}"
            lines += f"{pad}is_whole({value});\n"
        if back and slices.is_shared_slice(type):
            items, value = slices.items_named(it, case, i), value.lstrip("&")
            lines += f"{pad}let {items} = {value}.value.as_slice();\n"
            value = f"{value}.key, {items}"
        lines += f"{pad}let {name} = match {function}({value}, serializer) {{\n{pad}    Ok({name}) => {name},\n{pad}    Err(error) => return Err({error}),\n{pad}}};\n"
    return lines


def said_of_parts(it, case, kept_):
    """The keys, what the parts mean, and what is read in their places, of arguments by their names."""
    sources = [f"⟦<{rust} as Archive>⟧" for rust in case.rust]
    keys = infix("++", [f"{q}.keys {a}.now" for q, a in zip(sources, case.names)], "[]")
    meanings = chain("value", [f"({q}.meaning {a}.now)" for q, a in zip(sources, case.names)], "no_value")
    kepts = [f"{kept_}{'.1' * i}.0" for i in range(case.count)]
    flats = chain("value", [f"({flat_of(it, type, f'{a}.now', r)})" for type, a, r in zip(case.types, case.names, kepts)], "no_value")
    belongs = infix("×", [belongs_of(it, type, f"{a}.now", r) for type, a, r in zip(case.types, case.names, kepts)], "Unit {0}")
    return keys, meanings, flats, belongs


def case_writing(it, case):
    keys, meanings, flats, belongs = said_of_parts(it, case, "r")
    n = it.n
    D, X, states = f"{n}_definitions", f"{n}_shape", "(S.state serializer.old) (S.state serializer.new)"
    head = signature(
        f"fn serialize_{case.n}", [it.writer], [f"{name}: &{rust}" for name, rust in zip(case.names, case.rust)] + ["serializer: &mut S"], Group("Result<", [resolvers.kept_of(it, case), "Error"], ">")
    )
    cycle = f"#[cycle(serialize_{it.family.n})]\n" if any(case.leads_back) else ""
    return f"""// Writes what the parts of `{case.name}` own, in order.
{cycle}{head}
    ensures serialized {{ IfOk result (λ r. Serialized {D} {X} ({keys}) (case {case.tag} {meanings}) (case {case.tag} {flats}) {states}) }}
    ensures same_values {{ IfOk result (λ r. {belongs}) }}
    ensures goes_on {{ GoesOn {states} }}
    ensures refused {{ IfErr result (IsRefused {D} {X} ({keys}) (case {case.tag} {meanings}) {states}) }}
{{
{parts_written(it, case, case.names)}    Ok({flat(pair(case.names))})
}}
"""


def is_inline(case):
    """Whether a variant is written where the value is matched: the toolchain doesn't see that a function ends that is passed several parts which lead back, or a
    boxed or a shared slice."""
    return sum(case.leads_back) > 1 or any(back and type.name in ("BoxSlice", "SharedSlice") for type, back in zip(case.types, case.leads_back))


def cycle_of(it):
    """That the function which writes a value calls itself by others."""
    return "" if it.is_holder else f"#[cycle(serialize_{it.family.n})]\n"


def choice_writing(it):
    arms = ""
    for case in it.cases:
        made = f"{it.resolver}::{case.name}"
        if not case.count:
            arms += f"        {flat(resolvers.pattern(it, case, []))} => Ok({made}),\n"
            continue
        if is_inline(case):
            arms += f"""        {flat(resolvers.pattern(it, case, case.names))} => {{
{parts_written(it, case, case.names, 12)}            Ok({made}({flat(pair(case.names))}))
        }}
"""
            continue
        arms += f"""        {flat(resolvers.pattern(it, case, case.names))} => match serialize_{case.n}({', '.join(case.names)}, serializer) {{
            Ok(kept) => Ok({made}(kept)),
            Err(error) => Err(error),
        }},
"""
    return f"""// Writes what a value owns.
{cycle_of(it)}fn {rooms.level(it)}<{it.writer}>(value: &{it.name}, serializer: &mut S) -> Result<{it.resolver}, Error>
{contract(it, it.itself, "value")}{{
    match value {{
{arms}    }}
}}
{rooms.level_call(it, cycle_of(it), contract(it, it.itself, "value"))}"""


def record_writing(it):
    case = it.cases[0]
    values = [f"&value.{field.name}" for field in case.fields]
    return f"""// Writes what a value owns, part by part.
{cycle_of(it)}{in_line(it)}fn {rooms.level(it)}<{it.writer}>(value: &{it.name}, serializer: &mut S) -> Result<{it.resolver}, Error>
{contract(it, it.itself, "value")}{{
{parts_written(it, case, values, by_call=rooms.by_call(it, case))}    Ok({it.resolver} {{ kept: {flat(pair(case.names))} }})
}}
{rooms.level_call(it, cycle_of(it), contract(it, it.itself, "value"))}"""


def serialize(it):
    return f"""impl<{it.writer}> Serialize<S> for {it.name} {{
    #[inline(always)]
    fn serialize(&self, serializer: &mut S) -> Result<Self::Resolver, Error> {{
        serialize_{it.n}(self, serializer)
    }}
}}
"""


def region(it):
    """The value as a region of its own."""
    n, f = it.n, it.formats
    keyed, planned = f.law_of(it.declaration, "keyed"), f.law_of(it.declaration, "planned")
    its = f"⟦<{it.name} as Archive>⟧"
    return f"""/// As a region of its own: the value itself.
impl ArchiveUnsized for {it.name} {{
{f.law_lines()}    type Archived = {it.archived};

    ghost source_length = {{ λ _. 0 }};

    ghost meaning = {{ {its}.meaning }};

    ghost keys = {{ {its}.keys }};

    ghost keyed = {{ {keyed} }};

    ghost one_length = {{ λ _ _. refl }};

    ghost planned = {{ λ v. one_planned {n}_definitions {n}_shape ({its}.keys v) ({its}.meaning v) ({planned} v) }};

    #[inline(always)]
    fn archived_metadata(&self) -> Result<(), Error> {{
        Ok(())
    }}
}}

impl<{it.writer}> SerializeUnsized<S> for {it.name} {{
    #[inline(always)]
    fn serialize_unsized(&self, serializer: &mut S) -> Result<usize, Error> {{
        serialize_one(self, serializer)
    }}
}}
"""
