"""Names that are above the marker and below it."""

import re
from typing import Dict, Tuple

from .formats import snake
from .model import MARK, Declaration, Module, Refused
from .names import STD_CRATES, STD_MODULES
from .parse import parsed

# Names of std that the written part has without bringing them in, with what their paths end.
PRELUDE = {name: (STD_MODULES[name], name) for name in ("String", "Vec", "Option", "Result", "Box")}
PRELUDE.update({name: (of, name) for of, names in (("Option", ("Some", "None")), ("Result", ("Ok", "Err"))) for name in names})


def check_clashes(module: Module, written: str):
    """Refuses a file in which a name is declared or brought in that the written part, with all that it brings in, has for another thing."""
    below = parsed(module.path, written.replace(MARK, "", 1))
    for name, line in below.twice:
        raise Refused(module.path, line_of(module, name), f"`{name}` would be written twice; give one of the types another name")
    for name in sorted(set(below.items) & set(below.uses)):
        of = named_in(module, name)
        raise Refused(module.path, of.line, f"`{name}` would be written of `{of.name}`, and the library has a call of this name; give the type another name")
    above = {it.lower(): (it, line) for it, line in module.names.items()}
    for name in below.items:
        if name.lower() in above:
            other, line = above[name.lower()]
            said = f"`{name}`" if name == other else f"`{name}`, which differs from `{other}` only in case,"
            raise Refused(module.path, line, f"{said} is written by tools/derive; give this one another name")
        if name in module.uses:
            raise Refused(module.path, line_of(module, name), f"`{name}` is written by tools/derive; bring this one in `as` another name")
    check_prelude(module)
    check_globs(module, below.uses)
    check_uses(module, below.uses, module.uses, "use")
    check_uses(module, below.ghost_uses, module.ghost_uses, "ghost use")


def named_in(module: Module, name: str) -> Declaration:
    """The declaration that a written name is made of: the one whose name has the most of it."""
    return max(module.declarations, key=lambda it: len(it.name) if snake(it.name) in name.lower() else 0)


def check_prelude(module: Module):
    """Refuses other things under names of std that every file has."""
    for name, end in PRELUDE.items():
        path = module.uses.get(name, end)
        if name in module.names:
            raise Refused(module.path, module.names[name], f"`{name}` is that of std in the written part; give this one another name")
        if path[-2:] != end or path != end and path[0] not in STD_CRATES:
            raise Refused(module.path, line_of(module, name), f"`{name}` is that of std in the written part; bring this one in `as` another name")
        if name in module.globbed and module.globbed[name][1][-2:] != end:
            raise Refused(module.path, line_of_glob(module, name), f"this brings in another `{name}` than that of std; name what you bring in, and this one by `as`")


def check_globs(module: Module, below: Dict[str, Tuple[str, ...]]):
    """Refuses what a file has by a `*` and names, if the written part brings in another thing of this name."""
    for name in sorted(set(below) & set(module.globbed)):
        if module.globbed[name][1] != below[name] and name not in module.uses and names_it(module.head, name):
            said = f"the written part brings in `{'::'.join(below[name])}`; bring in by name what is named here, and `{name}` by `as`"
            raise Refused(module.path, line_of_glob(module, name), said)


def names_it(head: str, name: str) -> bool:
    """Whether a name stands in what is above the marker, but for `use` items and comments."""
    lines = [it for it in head.split("\n") if not re.match(r"\s*(//|(pub(\(\w+\))? )?use )", it)]
    return any(re.search(rf"(?<![\w:]){re.escape(name)}(?!\w)", it) for it in lines)


def line_of_glob(module: Module, name: str) -> int:
    """The line of the `use` item that brings in a name by a `*`."""
    path = module.globbed[name][0]
    lines = enumerate(module.head.split("\n"), 1)
    return next((number for number, it in lines if re.search(rf"\b{re.escape(path[-1])}\s*::.*\*", it)), 1)


def check_uses(module: Module, below: Dict[str, Tuple[str, ...]], above: Dict[str, Tuple[str, ...]], word: str):
    for name, path in below.items():
        if name in module.names and word == "use":
            raise Refused(module.path, module.names[name], f"the written part brings in `{'::'.join(path)}`; give this one another name")
        if name in above and above[name] != path:
            raise Refused(module.path, line_of(module, name), f"the written part brings in `{'::'.join(path)}`; bring this one in `as` another name")


def line_of(module: Module, name: str) -> int:
    """The line above the marker that brings in or declares a name."""
    for number, line in enumerate(module.head.split("\n"), 1):
        if re.search(rf"(?<!\w){re.escape(name)}(?!\w)", line):
            return number
    return 1
