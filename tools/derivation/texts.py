"""The schema text of a file: its declarations, and those of the types that they name, as `archive_inspect` reads them."""

import re

from .model import Refused

ASKED = re.compile(r"^// text: (\S*)[ \t]*$", re.M)
WIDTH = 100


def text(module):
    """The constant that a line `// text: NAME` above the marker asks for; nothing without one."""
    asked = ASKED.search(module.head)
    if asked is None:
        return ""
    line = module.head.count("\n", 0, asked.start()) + 1
    name = asked.group(1)
    if not re.fullmatch(r"[A-Z][A-Z0-9_]*", name) or name in module.names:
        raise Refused(module.path, line, f"`{name}` is no name of a new constant; write `// text: SCHEMA`")
    texts = [declaration_text(it, module, line) for it in all_declarations(module)]
    lines = "\n".join(texts)
    return f'/// The types of this file and those that they name, as a schema text.\npub const {name}: &str = "{lines}";\n\n'


def all_declarations(module):
    """Each declaration once, behind those that it names."""
    found = []
    seen = set()

    def visit(declaration):
        if id(declaration) in seen:
            return
        seen.add(id(declaration))
        for field in declaration.all_fields():
            for own in named_in(field.type):
                visit(own)
        found.append(declaration)

    for declaration in module.declarations:
        visit(declaration)
    return found


def named_in(type):
    """The declared types that stand in a type."""
    if type.own is not None:
        yield type.own
    for argument in type.args:
        yield from named_in(argument)


def own_name(declaration, module, line):
    """The name of a type in the text: that of its archived type behind `Archived`."""
    if declaration.parameters:
        raise Refused(module.path, line, f"`{declaration.name}` has type parameters, which a schema text has not; remove the line `// text:`")
    if not declaration.archived.startswith("Archived"):
        why = f"`{declaration.name}` is archived as `{declaration.archived}`, which a schema text can't say"
        raise Refused(module.path, line, f"{why}; remove the line `// text:`")
    return declaration.archived[len("Archived") :]


def declaration_text(declaration, module, line):
    name = own_name(declaration, module, line)
    if declaration.kind == "enum":
        variants = [variant.name + fields_text(variant.form, variant.fields, module, line) for variant in declaration.variants]
        return block(f"enum {name} ", variants)
    if declaration.form == "struct":
        return block(f"struct {name} ", [field_text(it, module, line) for it in declaration.fields])
    return f"struct {name}{fields_text(declaration.form, declaration.fields, module, line)};"


def block(head, items):
    """In braces, on one line where that fits, else an item a line."""
    short = f"{head}{{ {', '.join(items)} }}"
    if len(short) <= WIDTH:
        return short
    return head + "{\n" + "".join(f"    {it},\n" for it in items) + "}"


def fields_text(form, fields, module, line):
    if form == "unit":
        return ""
    if form == "tuple":
        return f"({', '.join(type_text(it.type, module, line) for it in fields)})"
    return f" {{ {', '.join(field_text(it, module, line) for it in fields)} }}"


def field_text(field, module, line):
    return f"{field.name}: {type_text(field.type, module, line)}"


def type_text(type, module, line):
    if type.own is not None:
        return own_name(type.own, module, line)
    args = [type_text(it, module, line) for it in type.args]
    if type.name == "tuple":
        return f"({', '.join(args)}{',' if len(args) == 1 else ''})"
    if type.name == "array":
        return f"[{args[0]}; {type.length}]"
    if type.length:
        args.append(type.length)
    return f"{type.name}<{', '.join(args)}>" if args else type.name
