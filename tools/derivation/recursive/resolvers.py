"""Resolvers of recursive types, and how their values are resolved."""

from . import arrays, by_number, lent
from . import maps
from . import slices
from . import tuples
from ..common import in_turn, taken_apart
from ..common import kept_of as handed_on
from .hollow import shared_at
from .plain import items_of
from .term_words import has_elements, is_map, is_run
from ..layout import Generic, Group, call, flat, literal, pair, statement
from . import code


def kept(it, type):
    """The resolver of a part."""
    if not it.terms.leads_back(type):
        return f"<{it.formats.rust(type)} as Archive>::Resolver"
    if it.terms.is_member(type):
        return f"{type.own.name}Resolver"
    if type.name == "Option":
        return f"Option<{kept(it, type.args[0])}>"
    if arrays.is_array(type):
        return f"Vec<{kept(it, type.args[0])}>"
    if it.terms.is_row(type):
        return flat(pair([kept(it, arg) for arg in type.args]))
    resolvers = {"Box": "BoxResolver", "BoxSlice": "BoxResolver", "BTreeMap": "SortedMapResolver", "Shared": "RcResolver", "SharedSlice": "RcResolver", "Vec": "VecResolver", "WeakShared": "RcWeakResolver"}
    return resolvers[type.name]


def kept_of(it, case):
    return pair([kept(it, type) for type in case.types])


def resolver(it):
    if it.is_record:
        return f"""/// What is kept of `{it.name}` between `serialize` and `resolve`.
#[derive(Drop)]
pub struct {it.resolver} {{
{statement(4, "kept: ", kept_of(it, it.cases[0]), ",")}}}
"""
    lines = ""
    for case in it.cases:
        lines += f"    /// Of `{case.name}`.\n"
        lines += statement(4, "", Group(f"{case.name}(", [kept_of(it, case)], ")"), ",") if case.count else f"    {case.name},\n"
    return f"""/// What is kept of `{it.name}` between `serialize` and `resolve`.
#[derive(Drop)]
{it.seen}enum {it.resolver} {{
{lines}}}
"""


def hollow(it, type):
    """What stands for a part that was written: its type."""
    if arrays.is_array(type):
        return arrays.array_at(it, type)
    if is_map(type):
        return maps.hollow(it, type, code.inside(it, type.args[1]))
    item = type.args[0].args[0] if type.name == "Option" else type.args[0]
    if it.terms.is_pointer(type):
        return shared_at(type)
    if slices.is_shared_slice(type):
        return slices.slice_at(type)
    if it.terms.is_row(type):
        return tuples.tuple_at(it, type)
    return f"{type.name}At<{code.inside(it, item)}>"


def hollows(it, case):
    """The types and the values by which the parts are resolved, and the lines before."""
    rust, values, lines = [], [], []
    for name, type, mine, back, field in zip(case.names, case.types, case.rust, case.leads_back, case.fields):
        at = f"self.{field.name}" if it.is_record else name
        if not back or it.terms.is_member(type):
            rust.append(mine)
            values.append(f"&{at}" if it.is_record else at)
            continue
        its = hollow(it, type)
        made = f"{type.name}At::of({items_of(type, at)[:-len('.items')]}.len())" if is_run(type) else f"{type.name}At::new()"
        made = f"MapAt::of({at}.len())" if is_map(type) else made
        made = f"{its} {{ len: {at}.value.len() }}" if slices.is_shared_slice(type) else made
        made = tuples.made(it, type, at) if it.terms.is_row(type) else made
        rust.append(its)
        is_unit = it.terms.is_pointer(type) or arrays.is_array(type)
        if is_unit and not case.is_long:
            values.append(f"&{its}")
            continue
        made = its if is_unit else made
        values.append(f"&h{name[1:]}")
        lines.append((f"let h{name[1:]}: {its} = ", made))
    return rust, values, lines


def pattern(it, case, names):
    path = f"{it.name}::{case.name}"
    if case.form == "struct":
        return literal(path, [f"{field.name}: {name}" for field, name in zip(case.fields, names)])
    return Group(f"{path}(", names, ")") if case.form == "tuple" else path


def archive(it):
    n = it.n
    names = [f"{n}_{w}" for w in ("meaning", "flat", "keys", "belongs", "keyed", "planned")]
    if it.is_record:
        case = it.cases[0]
        rust, values, lines = hollows(it, case)
        kept_, taken = handed_on(it.formats, case.types), taken_apart(it.formats, case.types, 8)
        body = f"        let {it.resolver} {{ kept }} = resolver;\n{taken}" + "".join(statement(8, before, made, ";") for before, made in lines)
        if case.is_long:
            body += lent.call(it, case, values, kept_, 8)
        else:
            body += statement(8, "", Generic(f"resolve_named_record_{case.count}", rust + [it.archived], values + [kept_, "Place::new(pos, bytes)"]), "")
            it.formats.use("archive_core::recursive", f"resolve_named_record_{case.count}")
    else:
        body = "        match self {\n" + "".join(resolve_arm(it, case) for case in it.cases) + "        }\n"
    told, calls = in_turn(it.formats)
    return f"""impl Archive for {it.name} {{
    ghost use Rattle.{it.declaration.crate}.specs.{it.family.name}Meaning.{{{', '.join(names)}}};

    type Archived = {it.archived};

    type Resolver = {it.resolver};

    ghost meaning = {{ {n}_meaning }};

    ghost flat = {{ {n}_flat }};

    ghost keys = {{ {n}_keys }};

    ghost belongs = {{ {n}_belongs }};

{told}
    ghost keyed = {{ {n}_keyed }};

    ghost planned = {{ {n}_planned }};

    #[inline(always)]
    fn resolve(
        &self,
        resolver: Self::Resolver,
        place: Place<'_, Self::Archived>,
    ) -> Result<(), Error>
        requires zeroed {{ ZeroedPlace {it.size} place.pos place.bytes.now }}
        requires same_value {{ ⟦<Self as Archive>⟧.belongs self.now resolver }}
        ensures {{ ResolvesAs ⟦<Self::Archived as Portable>⟧ place
            (⟦<Self as Archive>⟧.flat self.now resolver) result }}
    {{
        let Place {{ bytes, pos, .. }} = place;
{body}    }}

{calls}}}
"""


def bound(it, case):
    """The names of a variant's fields where it is resolved. What a box leads to isn't looked at."""
    is_read = [has_elements(type) and not arrays.is_array(type) or is_map(type) or it.terms.is_member(type) for type in case.types]
    return [name if here or not back else f"_{name}" for name, here, back in zip(case.names, is_read, case.leads_back)]


def call_of(it, case, rust, arguments):
    """The call by which a variant is resolved whose fields are of these types."""
    if not by_number.goes(it):
        it.formats.use("archive_core::recursive", f"resolve_named_case_{case.count}")
        return Generic(f"resolve_named_case_{case.count}", rust + [it.archived], arguments)
    function = by_number.name(it, case.count)
    return Generic(function, rust, arguments) if rust else call(function, arguments)


def resolve_arm(it, case):
    rust, values, lines = hollows(it, case)
    kept_ = handed_on(it.formats, case.types)
    if case.is_long:
        resolved = lent.call(it, case, values, kept_, 16)
    else:
        resolved = statement(16, "", call_of(it, case, rust, [str(case.tag)] + values + [kept_, "Place::new(pos, bytes)"]), "")
    opened = f"let {it.resolver}::{case.name}(kept) = resolver" if case.count else f"let {it.resolver}::{case.name} = resolver"
    other = " else {\n                    unreachable!();\n                }" if len(it.cases) > 1 else ""
    if not case.count:
        return f"            {flat(pattern(it, case, bound(it, case)))} => {{\n{resolved}            }}\n"
    return f"""            {flat(pattern(it, case, bound(it, case)))} => {{
                {opened}{other};
{taken_apart(it.formats, case.types, 16)}{"".join(statement(16, before, made, ";") for before, made in lines)}{resolved}            }}
"""
