"""What the name of a recursive type stands for, as an expression that is made when a schema is compiled.

The calls of the library hand on what others made, or that memory was refused: so no function of the module tests for that, and none drops an expression.
"""

from ..layout import Generic, Group, call, signature, statement
from .maps import archived_key
from .term_words import is_map

# By its path: with a `use` of it, the toolchain finds no clause of the module unless `crates.txt` names `archive_check`, whose type it is.
EXPR = "archive_core::shape::Expr"
# The calls for a type around one that leads back, by its name.
AROUND = {"Box": "boxed", "BoxSlice": "run", "Option": "option", "Shared": "shared", "SharedSlice": "shared_run", "Vec": "vec", "WeakShared": "weak"}


def brought(it):
    f = it.formats
    f.use("archive_core::recursive", "define_choice", "define_record", "expression_of", "first_expression", "first_variant", "named_expression")
    f.use("archive_core::recursive", "array_expression", "map_expression", "no_expressions", "no_variants", "record_expression")
    f.use("archive_core::recursive", *(f"{word}_expression" for word in AROUND.values()))
    f.use("std::alloc", "AllocError", "Global")
    f.ghost("Expressed", "ExpressesParts", "ExpressesVariants")


def expression(it, type):
    """The calls that make the expression of a part."""
    if it.terms.is_member(type):
        return call("named_expression", [f'"{type.own.archived}"'])
    if not it.terms.leads_back(type):
        return Generic("expression_of", [it.formats.archived(type)], ["alloc"])
    if type.name == "tuple":
        return call("record_expression", [call(f"{it.word(type)}_expressions", ["alloc"])])
    if is_map(type):
        return Generic("map_expression", [archived_key(it, type)], ["alloc", expression(it, type.args[1])])
    item = expression(it, type.args[0])
    if type.name in AROUND:
        return call(f"{AROUND[type.name]}_expression", ["alloc", item])
    return call("array_expression", [str(type.length), "alloc", item])


class Steps:
    """The steps of a function as its answers name them: a call in another has its number among those of its name."""

    def __init__(self):
        self.counts = {}

    def of(self, name):
        count = self.counts[name] = self.counts.get(name, 0) + 1
        return f"c.{name}.ensures" if count == 1 else f"c.{name}-{count}.ensures"

    def said(self, it, type):
        """That the calls for a part make an expression of its shape."""
        if it.terms.is_member(type):
            return self.of("named_expression")
        if not it.terms.leads_back(type):
            return self.of("expression_of")
        if type.name == "tuple":
            made = self.of(f"{it.word(type)}_expressions")
            return f"({self.of('record_expression')} _ {made})"
        item = type.args[1] if is_map(type) else type.args[0]
        made = self.said(it, item)
        name = "map" if is_map(type) else AROUND.get(type.name, "array")
        return f"({self.of(f'{name}_expression')} _ {made})"


def folded(first, rest, items):
    """Lines that put items before what is behind them, from the last one on: those that are left are `rest0`, `rest1` and so on."""
    lines = f"    let rest{len(items)} = {rest};\n"
    for i, item in reversed(list(enumerate(items))):
        lines += statement(4, f"let rest{i} = " if i else "", call(first, [item, f"rest{i + 1}"]), ";" if i else "")
    return lines


def folded_by(first, rest, said):
    """The term that says what such lines make."""
    out = f"c.{rest}-rest{len(said)}.ensures"
    for i, its in reversed(list(enumerate(said))):
        out = f"(c.{first}-rest{i}.ensures _ _ {its} {out})" if i else f"c.{first}.ensures _ _ {its} {out}"
    return out


def listed(it):
    """The functions that make lists of expressions: their names, what they are of, the types of the parts, and the word for these."""
    rows = [(it.word(type), "a tuple", it.row(type).types) for type in it.rows]
    return rows + [(case.n, f"`{case.name}`", case.types) for case in it.cases if case.count]


def head(n, made):
    return signature(f"fn {n}_expressions", [], ["alloc: Global"], Group("Result<", [made, "AllocError"], ">"))


def text(it):
    """These functions, and that of the variants."""
    brought(it)
    out = []
    for n, what, types in listed(it):
        out.append(f"""// The parts of {what}.
{head(n, f"Vec<{EXPR}>")}
    ensures {{ ExpressesParts {n}_parts result }}
{{
{folded("first_expression", "no_expressions(alloc)", [expression(it, type) for type in types])}}}
""")
    if not it.is_record:
        made = [f"{case.n}_expressions(alloc)" if case.count else "no_expressions(alloc)" for case in it.cases]
        out.append(f"""// Its variants.
{head(it.n, f"Vec<Vec<{EXPR}>>")}
    ensures {{ ExpressesVariants {it.n}_variants result }}
{{
{folded("first_variant", "no_variants(alloc)", made)}}}
""")
    return out


def defining(it):
    """The line that adds the definition of the name."""
    return f'define_{"record" if it.is_record else "choice"}("{it.archived}", {it.n}_expressions(alloc), defs)'


def files(it, answers_of):
    """The answers on these functions."""
    out = {}
    for n, _, types in listed(it):
        answers, steps = answers_of(it.family, f"{n}_expressions"), Steps()
        said = [its for _, its in sorted((i, steps.said(it, type)) for i, type in reversed(list(enumerate(types))))]
        answers.answer("", "returns", folded_by("first_expression", "no_expressions", said), "c")
        out.update(answers.files())
    if not it.is_record:
        answers, steps = answers_of(it.family, f"{it.n}_expressions"), Steps()
        said = [its for _, its in sorted((case.tag, steps.of(f"{case.n}_expressions" if case.count else "no_expressions")) for case in reversed(it.cases))]
        answers.answer("", "returns", folded_by("first_variant", "no_variants", said), "c")
        out.update(answers.files())
    return out
