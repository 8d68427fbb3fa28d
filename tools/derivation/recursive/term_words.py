"""Words that terms of recursive types are made of."""

from . import arrays
from . import slices
from ..formats import snake
from ..model import Type
from . import terms


def stem(name):
    """What names of a type begin with: none of the library's that are brought in begin so."""
    from .proofs import CITED

    own = snake(name)
    taken = any(it.startswith(f"{own}_") for names in [*terms.PRELUDE.values(), *CITED.values()] for it in names.split())
    return f"{own}_type" if taken else own


def places(type, x):
    """The parts of a tuple."""
    return x.parts if isinstance(x, terms.Placed) else [f"{x}.{i}" for i in range(len(type.args))]


def is_run(type):
    """Whether it is a vector or a boxed slice: elements one after another, behind a pointer."""
    return type.name in ("Vec", "BoxSlice")


def is_map(type):
    """Whether it is a sorted map."""
    return type.name == "BTreeMap" and type.own is None


def element(type):
    """The type of what it holds: of a map that of its entries, which are tuples."""
    return Type("tuple", type.args, type.line) if is_map(type) else type.args[0]


def has_elements(type):
    """Whether it is one of these, a shared slice, or an array."""
    return is_run(type) or slices.is_shared_slice(type) or arrays.is_array(type)


def around(type, term):
    """What a vector or a map means, or what is read in its place, as that of a boxed slice where it is one."""
    return f"(box {term})" if type.name == "BoxSlice" else term


def listed(type, term):
    """What a vector, a boxed slice, or a box of one means, by what its elements do."""
    if arrays.is_array(type):
        return term
    return f"(box {listed(type.args[0], term)})" if type.name == "Box" else around(type, f"(list {term})")


def said(m, type):
    """What is said of values of a type of the family: the same of all, or by its name."""
    return m if isinstance(m, str) else m[type.own.name]


def applied(m, type, x):
    """What is said of a value of a type of the family; a place of a pair is behind it."""
    its = said(m, type)
    return f"{x}{its}" if its.startswith(".") else f"({its} {x})"


def meant(k):
    """What values mean, where these are their keys."""
    if isinstance(k, dict):
        return {name: meant(its) for name, its in k.items()}
    return ".0" if k == ".1" else f"m{k[1:]}" if k.startswith("k") and "_" not in k else k.replace("_keys", "_meaning")


def something(x):
    """What `(Some x)` holds."""
    return x[len("(Some "):-1]


def words(text):
    """The words of a text of antt."""
    out, word = set(), ""
    for letter in text + " ":
        if letter.isspace() or letter in "(){}.;,λ":
            out.add(word)
            word = ""
        else:
            word += letter
    return out


def brought(body, more=()):
    """The lines that bring in what a text names; `more` are names with their modules."""
    used = words(body)
    lines = []
    known = dict(terms.PRELUDE)
    for path, names in more:
        known[path] = " ".join(dict.fromkeys(f"{known.get(path, '')} {names}".split()))
    for path, names in sorted(known.items()):
        here = [n for n in names.split() if (n.replace("◌", "") if "◌" in n else n) in used or n == "[]" and "[]" in body]
        here += [f"{name} as {alias}" for alias, (where, name) in terms.RENAMED.items() if where == path and alias in used]
        if here:
            lines.append(f"use Rattle.{path}.{{{', '.join(here)}}}\n")
    return "".join(lines)


def brought_owns(terms, body):
    """The lines that bring in what is said of plain parts that `tools/derive` wrote."""
    lines = []
    for name, own in sorted(terms.owns.items()):
        path = ".".join(("Rattle", own.crate, "specs", "contracts") + tuple(own.module))
        n = snake(name)
        if own.part_by_part:
            described = [f"{stem(name)}_{it} as {it}_of_{n}" for it in ("shape", "definitions", "has_layout", "no_others") if f"{it}_of_{n}" in words(body)]
            lines += [f"use Rattle.{own.crate}.specs.{own.family[0].name}Shape.{{{', '.join(described)}}}\n"] if described else []
        if f"format_of_{n}" in body:
            lines.append(f"use {path}.{own.archived}Portable.TheImpl as format_of_{n}\n")
        if f"source_of_{n}" in body:
            lines.append(f"use {path}.{name}Archive.TheImpl as source_of_{n}\n")
        laws = [f"{law}-law as {law}_of_{n}" for law in ("keyed", "planned") if f"{law}_of_{n}" in body]
        if laws:
            lines.append(f"use {path}.{name}Archive.TheImpl.Laws.{{{', '.join(laws)}}}\n")
    return "".join(lines)
