"""What a module has beside the library for tuples that lead back to a recursive type and are fields of it, outside a vector.

Their parts are written where the value's other parts are: of a function that is passed a tuple the toolchain doesn't see that it ends. A value is resolved with
a hollow part in a tuple's place, which lends those of its parts that don't lead back.
"""

from ..layout import Generic, literal, statement
from .hollow import hollow_source


def tuples_of(it):
    """The tuples that are fields and lead back, each once."""
    found = {it.word(type): type for case in it.cases for type in case.types if it.terms.is_row(type)}
    return list(found.values())


def tuple_at(it, type):
    """The hollow part of a tuple, as a type: it lends where a part doesn't lead back."""
    return f"{it.row_name(type)}At{'<' + chr(39) + '_>' if is_lending(it, type) else ''}"


def is_lending(it, type):
    return not all(map(it.terms.leads_back, type.args))


def made(it, type, at):
    """The hollow part of a tuple."""
    lent = [f"a{i}: &{at}.{i}" for i, arg in enumerate(type.args) if not it.terms.leads_back(arg)]
    name = f"{it.row_name(type)}At"
    return literal(name, lent) if lent else name


def lent_parts(row, value):
    """The parts of a tuple, lent."""
    return [f"&{value.lstrip('&')}.{i}" for i in range(row.count)]


def hollow_tuples(it, kept, hollow):
    """The hollow parts that a type's tuples need; `kept` is the resolver of a part, and `hollow` the type of what stands for one."""
    out, f = [], it.formats
    for type in tuples_of(it):
        row, R = it.row(type), it.row_name(type)
        values, rust, lines, fields = [], [], "", ""
        for i, arg in enumerate(type.args):
            if it.terms.leads_back(arg):
                its = hollow(it, arg)
                rust.append(its)
                values.append(f"&h{i}")
                lines += statement(8, f"let h{i}: {its} = ", f"{its.split('<')[0]}::new()", ";")
            else:
                rust.append(f.rust(arg))
                values.append(f"self.a{i}")
                fields += f"    a{i}: &'a {f.rust(arg)},\n"
        call = f"resolve_named_record_{row.count}"
        f.use("archive_core::recursive", call)
        f.ghost("Arrays", "named_twice", "twice_keyed", "no_two")
        f.ghost("Value", "box", "hole", "product", "shared_value", "value", "no_value")
        f.ghost("Writing", "to_pointee")
        f.ghost("Shape", "one")
        f.ghost("Hollow", "option_at")
        f.ghost("std.specs.Prelude", "⊤")
        body = lines + statement(8, "", Generic(call, rust + [R], values + ["resolver", "Place::new(pos, bytes)"]), "")
        its_flat, its_belongs = said(it, type, "v", "r"), belongs(it, type)
        source = hollow_source(f"{R}At{'<' + chr(39) + '_>' if fields else ''}", R, kept(it, type), f"λ v r. product {its_flat}", f.layout(type)[0], body, its_belongs)
        lent = " {\n" + fields + "}" if fields else ";"
        out.append(f"""// A tuple whose values that lead back were written before; the others are lent. It can be resolved, and nothing else: it means nothing.
#[derive(Drop)]
struct {R}At{"<'a>" if fields else ""}{lent}

{source}""")
    return "\n".join(out)


def said(it, type, v, r):
    """What is read in the places of its parts."""
    out = "no_value"
    for i, arg in reversed(list(enumerate(type.args))):
        at = f"{r}{'.1' * i}.0"
        its = it.terms.flat(arg, "_", at) if it.terms.leads_back(arg) else f"(⟦<{it.formats.rust(arg)} as Archive>⟧.flat {v}.a{i}.now {at})"
        out = f"(value {its} {out})"
    return out


def belongs(it, type):
    """Which resolvers are its own."""
    out = "Unit {{0}}"
    for i, arg in reversed(list(enumerate(type.args))):
        at = "{r}" + ".1" * i + ".0"
        its = "⊤" if it.terms.leads_back(arg) else f"(⟦<{it.formats.rust(arg)} as Archive>⟧.belongs {{b}}.a{i}.now {at})"
        out = f"({its} × {out})"
    return out
