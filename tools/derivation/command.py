"""What the command `tools/derive` does with its arguments."""

import os
import sys
from typing import Dict, List, Tuple

from . import files, read
from .model import MARK, Module, Refused
from .recursive.refusals import MOST_BY_NAME, MOST_FLAT, MOST_RECURSIVE_VARIANTS
from .recursive.refusals import MOST_FIELDS as MOST_OF_RECURSIVE

HELP = f"""Writes what archives your types.

    tools/derive FILE.rt ..            writes the rest of each file, below what you declared
    tools/derive --check FILE.rt ..    only looks whether that is done, and up to date
    tools/derive --check               looks at each file of the folder `crates` here that has a written part

A FILE.rt is a module of a crate, `crates/NAME/src/MODULE.rt`, that declares structs and enums in plain Rust. All of them are archived: move a type
that isn't to be archived to another file. The files of types that hold each other are named together. What is written begins with the line

    {MARK}

and what is above it stays as it is, byte for byte. docs/OWN_TYPES.md shows what is written, and how it is used.

Fields: whole numbers, `bool`, `char`, `()`, `String`, `Option`, `Result`, `Box`, `Vec`, `PhantomData`, tuples of up to {read.MOST_PARTS}, arrays, `BTreeMap` with
keys that are whole numbers, `char` or `String`; of the library `BoxSlice`, `BoxStr`, `OwnedArray`, `NonZero` (and `ArchivedNonZeroU8` ..), `Shared`,
`SharedSlice`, `SharedStr`, `WeakShared`; and other types that this command wrote, of any module or crate of the repository. A struct has
up to {read.MOST_FIELDS} fields, each variant of an enum of several {read.MOST_OF_VARIANT}, of deep types fewer, a recursive struct {MOST_OF_RECURSIVE}, in a family or a graph {MOST_BY_NAME}, a struct that
holds a recursive type {read.MOST_FEW}, or beside numbers and texts {MOST_FLAT}. An enum has up to {read.MOST_VARIANTS} variants, {read.MOST_BESIDE_FIELDS} if one has fields, {read.MOST_WITH_FIELDS} with fields, a recursive one or one that
holds a recursive type {MOST_RECURSIVE_VARIANTS}:
the command counts what the toolchain takes at once, and tells which field or variant is too much.

Views are compared and hashed as the values that they show if the type derives `Eq`, `PartialOrd`, `Ord` or `Hash` and all fields can be.

A field `x` is shown by the call `x()` of a view and by `x_mut()` of a seal, the field 0 of a tuple struct by `field_0()`. A field that is named as a call
that each view has (`pos`, `part`, `field`, `eq`, `hash`, ..) is shown by `pos_field()` and `pos_field_mut()`.

A line `// text: SCHEMA` has a constant of this name written, the text of these types and of those that they name, by which the crate `archive_inspect` names
their fields and variants.

An enum with type parameters, a struct with them of more than {read.MOST_FEW} fields, and one with an alias in its file is archived by an alias for each use:
`pub type Sum = Outcome<u32, String>;` gives `ArchivedSum`.

The archived type of `Point` is `ArchivedPoint`. A line `// name: Spot` above a declaration gives it the name `Spot` in place of that.

Status: 0; 1 where --check finds a difference, with the first line that differs; 2 where a file can't be archived, with a line that says why and what to
write instead. Nothing is written then.
"""
CRATES = "crates"
USAGE = "tools/derive [--check] FILE.rt ..: writes what archives the types of these files (--help says more)"


def main(arguments: List[str]) -> int:
    if "--help" in arguments or "-h" in arguments:
        print(HELP, end="")
        return 0
    check = "--check" in arguments
    paths = [it for it in arguments if it != "--check"]
    if check and not paths:
        if not os.path.isdir(CRATES):
            print(f"there is no folder `{CRATES}` here; name the files, or run this where the repository begins", file=sys.stderr)
            return 2
        paths = written_files()
        if not paths:
            return 0
    if not paths or any(it.startswith("-") for it in paths):
        print(USAGE, file=sys.stderr)
        return 2
    paths = from_top(paths)
    try:
        differing = differences(paths)
    except Refused as error:
        print(error, file=sys.stderr)
        return 2
    except RecursionError:
        print(f"{paths[0]}:1: a type or an item is nested too deep; write less at once", file=sys.stderr)
        return 2
    for path, text, told in differing:
        if check:
            print(told, file=sys.stderr)
        elif not put(path, text):
            return 2
    return 1 if check and differing else 0


def from_top(paths: List[str]) -> List[str]:
    """The same files by their paths from the repository's top folder, to which it goes from a folder below: what stands beside a file is found by its path."""
    here = top = os.getcwd()
    while not os.path.isfile(os.path.join(top, "crates.txt")) and top != os.path.dirname(top):
        top = os.path.dirname(top)
    if top == here or not os.path.isfile(os.path.join(top, "crates.txt")):
        return paths
    whole = [os.path.abspath(it) for it in paths]
    os.chdir(top)
    return [os.path.relpath(it, top) for it in whole]


def put(path: str, text: str) -> bool:
    try:
        files.put(path, files.with_lines_of(path, text))
        return True
    except OSError as error:
        print(f"{path}:1: this can't be written ({error.strerror}); give leave to write it", file=sys.stderr)
        return False


def written_files() -> List[str]:
    """The files of the folder `crates` here that have a written part."""
    found = []
    for folder, folders, names in os.walk(CRATES):
        folders[:] = sorted(it for it in folders if it not in ("out", "data"))
        for path in sorted(os.path.join(folder, it) for it in names if it.endswith(".rt")):
            with open(path, "rb") as text:
                if MARK.encode() in text.read().splitlines():
                    found.append(path)
    return found


def differences(paths: List[str]) -> List[Tuple[str, str, str]]:
    """The files that aren't as they should be: path, text, and where they differ."""
    made: Dict[str, Module] = {}
    done = [(it, files.wanted(it, made)) for it in read.modules(paths)]
    kept = {path for _, wanted in done for path, text in wanted.items() if text}
    found = [(path, text, files.difference(it, path, text)) for it, wanted in done for path, text in wanted.items() if text or path not in kept]
    return [it for it in found if it[2]]
