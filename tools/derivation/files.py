"""The files that a module comes to: its own, and short files of proofs in its crate."""

import os
import re
import shutil
from typing import Dict, List, Optional, Sequence, Tuple

from . import renames, write
from .clashes import check_clashes
from .clauses import clauses
from .model import MARK, Module, Refused
from .names import text_of
from .tokens import END, tokens

# The end of the name of the file that says what values of a recursive type mean.
MEANING = "Meaning.antt"
# How much of a line is told, in characters.
MOST_TOLD = 100
PROOF_BEGINS = "-- Written by tools/derive: change the declaration, and run it again."


def wanted(module: Module, made: Dict[str, Module]) -> Dict[str, str]:
    """The files as they should be, by their paths. One that is no longer wanted is to be empty. Whose definitions are `made` is kept from module to module."""
    written = renames.written(module)
    check_clashes(module, written)
    out = {module.path: above(module) + clauses(written)}
    crate = crate_folder(module)
    out.update({path: "" for path in proofs_there(module, crate) + specs_there(module, crate)})
    out.update({os.path.normpath(os.path.join(crate, path)): text for path, text in write.proofs(module).items()})
    check_definitions(module, crate, out, made)
    specs = {os.path.basename(path)[:-len(".antt")]: text for path, text in out.items() if os.path.dirname(path) == os.path.join(crate, "specs")}
    if specs:
        path = os.path.join(crate, "specs", "Lib.antt")
        gone = [name for name, text in specs.items() if not text]
        out[path] = naming(text_of(path) if os.path.isfile(path) else "", sorted(name for name in specs if name not in gone), gone)
    return out


def naming(lib: str, names: List[str], gone: Sequence[str] = ()) -> str:
    """The list of a crate's definitions, which names these files as well, and those no longer."""
    lines = [line for line in lib.splitlines() if line not in {f"pub mod {name}" for name in gone}]
    lines += [line for line in (f"pub mod {name}" for name in names) if line not in lines]
    return "".join(f"{line}\n" for line in lines)


def crate_folder(module: Module) -> str:
    """The folder of the crate, of which the module's path is `src/a/b.rt`."""
    folder = os.path.dirname(module.path)
    for _ in module.module[:-1]:
        folder = os.path.join(folder, "..")
    return os.path.normpath(os.path.join(folder, ".."))


def proofs_there(module: Module, crate: str) -> List[str]:
    """The files of proofs that were written for the module before."""
    found = []
    for folder, folders, files in os.walk(os.path.join(crate, "proofs", *module.module)):
        below = os.path.relpath(folder, os.path.join(crate, "proofs"))
        folders[:] = sorted(it for it in folders if not os.path.isfile(os.path.join(crate, "src", below, f"{it}.rt")))
        for path in (os.path.normpath(os.path.join(folder, it)) for it in sorted(files) if it.endswith(".antt")):
            if text_of(path).startswith(PROOF_BEGINS):
                found.append(path)
    return found


def specs_there(module: Module, crate: str) -> List[str]:
    """The files of definitions that were written for the module before, of recursive types."""
    folder, found = os.path.join(crate, "specs"), []
    for file in sorted(os.listdir(folder)) if os.path.isdir(folder) else []:
        if file.endswith(MEANING) and home_of(os.path.join(folder, file)) == module.module:
            found += [path for path in (os.path.join(folder, f"{file[:-len(MEANING)]}{it}.antt") for it in ("Meaning", "Shape")) if is_written(path)]
    return found


def home_of(path: str) -> Optional[Tuple[str, ...]]:
    """The module of the types of which a file of definitions says what they mean."""
    name = re.escape(os.path.basename(path)[:-len(MEANING)])
    found = re.search(rf"\.specs\.declared\.([\w.]*?)\.?{name}Resolver\.", text_of(path))
    return tuple(found[1].split(".")) if found and found[1] else () if found else None


def check_definitions(module: Module, crate: str, out: Dict[str, str], made: Dict[str, Module]):
    """Refuses a recursive type whose definitions would be written over others: over those of a type of its name in another module of the crate, of which those
    that were just `made` are given, or over what is by hand."""
    for declaration in module.declarations:
        path = os.path.normpath(os.path.join(crate, "specs", f"{declaration.name}{MEANING}"))
        if not out.get(path):
            continue
        other = made.setdefault(path, module)
        place = other.path if other is not module else other_place(module, path, declaration.name) if os.path.isfile(path) else ""
        if place:
            said = f"the definitions of `{declaration.name}` would be written over those of {place}; give one of the types another name"
            raise Refused(module.path, declaration.line, said)


def other_place(module: Module, path: str, name: str) -> str:
    """What else a file of definitions belongs to: the source of another module that still declares such a type, or the file itself, if it is by hand."""
    if not is_written(path):
        return path
    home = home_of(path)
    if home is None or home == module.module:
        return ""
    folder = os.path.join(os.path.dirname(path), "..", "src")
    sources = [os.path.normpath(os.path.join(folder, it)) for it in ([f"{'/'.join(home)}.rt"] if home else ["lib.rt", "main.rt"])]
    return next((it for it in sources if os.path.isfile(it) and declares(it, name)), "")


def declares(path: str, name: str) -> bool:
    """Whether a type of this name stands above the marker of a file."""
    head = text_of(path).split(f"\n{MARK}")[0]
    return re.search(rf"\b(struct|enum)\s+{re.escape(name)}\b", head) is not None


def is_written(path: str) -> bool:
    """Whether the command wrote the file, as its first line says."""
    return os.path.isfile(path) and text_of(path).split("\n")[0].endswith(PROOF_BEGINS[len("-- "):])


def above(module: Module) -> str:
    """What is above the marker: it begins a line, and an empty one is before it."""
    head = module.head
    if head and not head.endswith("\n"):
        head += "\n"
    return head if not head or head.endswith("\n\n") else head + "\n"


def with_lines_of(path: str, text: str) -> str:
    """A list of definitions with those lines as well that another file of the same run brought to it, but none of a file that was removed."""
    if os.path.basename(path) != "Lib.antt" or not os.path.isfile(path):
        return text
    names = [line[len("pub mod "):] for line in text_of(path).splitlines() if line.startswith("pub mod ")]
    gone = [it for it in names if not any(os.path.exists(os.path.join(os.path.dirname(path), file)) for file in (f"{it}.antt", it))]
    return naming(text_of(path), [line[len("pub mod "):] for line in text.splitlines() if line.startswith("pub mod ")], gone)


# ---- what differs ----


def difference(module: Module, path: str, text: str) -> Optional[str]:
    """Where a file isn't as it should be, if so."""
    if path == module.path:
        return module_difference(module, text)
    now = text_of(path) if os.path.isfile(path) else ""
    if now == text:
        return None
    lines = zip(now.split("\n") + [""], text.split("\n") + [""])
    number = next((i for i, (one, other) in enumerate(lines, 1) if one != other), 1)
    return f"{path}:{number}: {told(line_of(now, number), line_of(text, number))}"


def module_difference(module: Module, text: str) -> Optional[str]:
    if not module.written:
        return f"{module.path}:{lines(module.head)}: nothing is written yet; run tools/derive on it"
    before = lines(above(module)) - 1
    if module.head != above(module):
        return f"{module.path}:{before}: no empty line is above the marker; run tools/derive again"
    wanted_text = text[len(module.head):]
    is_now, should_be = words_of(module.written[len(MARK):]), words_of(wanted_text[len(MARK):])
    for now, it in zip(is_now + [("", lines(module.written))], should_be + [("", 0)]):
        if now[0] != it[0]:
            found = line_of(module.written, now[1] if now[0] else 0)
            return f"{module.path}:{before + now[1]}: {told(found, line_of(wanted_text, it[1]))}"
    return None


def words_of(text: str) -> List[Tuple[str, int]]:
    """The words of a text with their lines. Where a line is broken doesn't count, nor does a comma before what closes a list."""
    words = [(it.text, it.line) for it in tokens("", text).words if it.kind != END]
    closed = [following[0] in (")", "]", "}", ">") for following in words[1:]] + [False]
    return [it for it, is_last in zip(words, closed) if not (it[0] == "," and is_last)]


def lines(text: str) -> int:
    return text.count("\n") + 1


def line_of(text: str, line: int) -> str:
    """A line of a text; nothing where there is none."""
    all_lines = text.split("\n")
    return all_lines[line - 1].strip() if 0 < line <= len(all_lines) else ""


def told(found: str, wanted: str) -> str:
    """What is wrong with a line, of long ones where they begin to differ."""
    start = len(os.path.commonprefix([found, wanted]))
    return f"found {part_of(found, start)}; it should be {part_of(wanted, start)}: run tools/derive again"


def part_of(line: str, start: int) -> str:
    if not line:
        return "nothing"
    first = max(0, start - 30) if len(line) > MOST_TOLD else 0
    part = line[first:first + MOST_TOLD]
    return f"`{'..' if first else ''}{part}{'..' if first + MOST_TOLD < len(line) else ''}`"


def put(path: str, text: str):
    """Writes a file whole, or not at all; removes it where it is to be empty."""
    if not text:
        os.remove(path)
        return
    os.makedirs(os.path.dirname(path) or ".", exist_ok=True)
    path = os.path.realpath(path)
    with open(f"{path}.new", "w", encoding="utf-8", newline="") as file:
        file.write(text)
    if os.path.exists(path):
        shutil.copymode(path, f"{path}.new")
    os.replace(f"{path}.new", path)
