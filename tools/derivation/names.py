"""What a name stands for: a type of the library, a declaration of this file, of another module or of another crate, or an alias."""

import os
import re
from dataclasses import dataclass, field
from typing import Dict, List, Optional, Set, Tuple

from .model import Refused
from .parse import Alias, Declared, File, parsed

PRIMITIVES = {f"{sign}{bits}" for sign in "ui" for bits in (8, 16, 32, 64, 128)} | {"bool", "char", "usize", "isize"}
FLOATS = {"f32", "f64"}
# Types of std that have a format, with the number of their arguments, and those that a file has without a `use`.
STD = {"String": 0, "Vec": 1, "Option": 1, "Result": 2, "Box": 1, "BTreeMap": 2, "PhantomData": 1}
PRELUDE = {"String", "Vec", "Option", "Result", "Box"}
STD_MODULES = {
    "String": "string",
    "Vec": "vec",
    "Option": "option",
    "Result": "result",
    "Box": "boxed",
    "BTreeMap": "collections",
    "PhantomData": "marker",
}
# Those of the library: the module of `archive_core` that has them, and the number of their arguments.
LIBRARY: Dict[str, Tuple[str, int]] = {
    "BoxSlice": ("boxed", 1),
    "BoxStr": ("boxed", 0),
    "OwnedArray": ("array", 2),
    "NonZero": ("primitive", 1),
    "Shared": ("rc", 1),
    "SharedSlice": ("rc", 1),
    "SharedStr": ("rc", 0),
    "WeakShared": ("rc", 1),
}
# Names of the library for other types of it.
ALIASES = {f"ArchivedNonZero{sign.upper()}{bits}": ("NonZero", f"{sign}{bits}") for sign in "ui" for bits in (8, 16, 32, 64, 128)}
ALIASES.update({"ArchivedNonZeroUsize": ("NonZero", "u32"), "ArchivedNonZeroIsize": ("NonZero", "i32")})
ALIASES.update({"FixedUsize": ("u32", ""), "FixedIsize": ("i32", "")})
LIBRARY_CRATES = {f"archive_{it}" for it in "core types check num nonzero enum tuple write schema fields own seal shared api pointers".split()}
STD_CRATES = {"std", "core", "alloc"}


@dataclass
class Source:
    """A file of a crate."""

    path: str
    crate: str
    module: Tuple[str, ...]
    file: File
    head: str
    written: str
    is_given: bool = False
    declared: Dict[str, Declared] = field(default_factory=dict)


@dataclass
class Found:
    """What a name stands for: `kind` is `primitive`, `std`, `library`, `own` or `alias`."""

    kind: str
    name: str
    source: Optional[Source] = None
    declared: Optional[Declared] = None
    alias: Optional[Alias] = None


class World:
    """The crates around the given files."""

    def __init__(self):
        self.sources: Dict[Tuple[str, Tuple[str, ...]], Optional[Source]] = {}
        self.folders: Dict[str, str] = {}  # the `src` of each crate
        self.given: Set[str] = set()

    def give(self, path: str) -> Source:
        """The source of a file that a module is wanted of."""
        crate, module = self.place(path)
        self.given.add(os.path.realpath(path))
        source = self.source(crate, module, path)
        source.is_given = True
        return source

    def place(self, path: str) -> Tuple[str, Tuple[str, ...]]:
        """The crate and the module of a file."""
        if not path.endswith(".rt"):
            raise Refused(path, 1, "this is no file of a crate; name a file `crates/NAME/src/MODULE.rt`")
        folder, parts = os.path.dirname(path), [os.path.basename(path)[:-3]]
        whole = os.path.abspath(folder)
        while os.path.basename(whole) != "src":
            if os.path.dirname(whole) == whole:
                raise Refused(path, 1, "this is in no crate; move it to `crates/NAME/src`")
            parts.insert(0, os.path.basename(whole))
            whole, folder = os.path.dirname(whole), os.path.join(folder, "..")
        crate = os.path.basename(os.path.dirname(whole))
        self.folders.setdefault(crate, os.path.normpath(folder))
        return crate, () if parts in (["lib"], ["main"]) else tuple(parts)

    def folder(self, crate: str) -> str:
        """The `src` of a crate beside those that are known."""
        if crate not in self.folders:
            known = next(iter(self.folders.values()))
            self.folders[crate] = os.path.normpath(os.path.join(known, "..", "..", crate, "src"))
        return self.folders[crate]

    def source(self, crate: str, module: Tuple[str, ...], path: str = "") -> Optional[Source]:
        """The file of a module, or `None` where there is no such file."""
        key = (crate, module)
        if key not in self.sources:
            tried = [path] if path else [os.path.join(self.folder(crate), *it) for it in self.file_names(module)]
            found = path or next((it for it in tried if os.path.isfile(it)), "")
            self.sources[key] = self.load(found, crate, module) if found else None
        return self.sources[key]

    @staticmethod
    def file_names(module: Tuple[str, ...]) -> List[Tuple[str, ...]]:
        return [module[:-1] + (f"{module[-1]}.rt",)] if module else [("lib.rt",), ("main.rt",)]

    def load(self, path: str, crate: str, module: Tuple[str, ...]) -> Source:
        text = text_of(path)
        check_characters(path, text)
        file = parsed(path, text)
        head, written = text[: file.head_end], text[file.head_end:]
        source = Source(path, crate, module, file, head, written)
        for it in file.declared:
            if it.is_test:
                continue
            name = it.declaration.name
            if name in source.declared:
                raise Refused(path, it.declaration.line, f"`{name}` is declared twice; give one of them another name")
            source.declared[name] = it
        return source

    # ---- names ----

    def globbed(self, source: Source) -> Dict[str, Tuple[Tuple[str, ...], Tuple[str, ...]]]:
        """The names that a file brings in by `*` from files of the repository, each with the path before the `*` and that of what is brought in, if it isn't theirs."""
        out = {}
        for path in source.file.globs:
            found = self.find(path, source, by_globs=False) if path else None
            file = self.module_of(path, source)
            if found and found.declared:
                out.update({it.name: (path, ()) for it in found.declared.declaration.variants})
            elif file:
                out.update({name: (path, file.uses.get(name, ())) for name in file.shown})
        return out

    def module_of(self, words: Tuple[str, ...], source: Source) -> Optional[File]:
        """The file of a module that a path names."""
        crate, module = source.crate, source.module + words
        if words[:1] == ("crate",):
            module = words[1:]
        elif words[:1] == ("self",):
            module = source.module + words[1:]
        elif words[:1] == ("super",):
            ups = next((i for i, it in enumerate(words) if it != "super"), len(words))
            module = source.module[:-ups] + words[ups:]
        elif words and not self.source(crate, module) and words[0] not in STD_CRATES | LIBRARY_CRATES:
            crate, module = words[0], words[1:]
        found = self.source(crate, module) if "*" not in module else None
        return found.file if found else None

    def find(self, words: Tuple[str, ...], source: Source, passed: Optional[Set[Tuple]] = None, by_globs: bool = True) -> Optional[Found]:
        """What a path stands for in a file. What was `passed` on the way is not looked at again: files may bring in all of each other. A path before a `*` isn't
        looked for `by_globs`."""
        passed = set() if passed is None else passed
        if not is_new((source.crate, source.module, words), passed):
            return None
        first, rest = words[0], words[1:]
        if first in ("crate", "self", "super"):
            module = {"crate": (), "self": source.module, "super": source.module[:-1]}[first]
            while rest[:1] == ("super",):
                module, rest = module[:-1], rest[1:]
            return self.within(source.crate, module, rest, passed) if rest else None
        here = self.item(words, source, passed, by_globs)
        return here or self.outside(words, source, passed)

    def item(self, words: Tuple[str, ...], source: Source, passed: Set[Tuple], by_globs: bool = True) -> Optional[Found]:
        """What a path stands for among a file's own items and what it brings in."""
        first, rest = words[0], words[1:]
        if not rest and first in source.declared:
            return Found("own", first, source, source.declared[first])
        if not rest and first in source.file.aliases:
            return Found("alias", first, source, alias=source.file.aliases[first])
        if first in source.file.uses and source.file.uses[first]:
            path = source.file.uses[first]
            if path[0] == first and not self.is_child(first, source):
                return self.outside(path + rest, source, passed)
            return self.find(path + rest, source, passed)
        for path in source.file.globs if by_globs else []:
            found = self.find(path + words, source, passed, False) if path else None
            if found and found.kind != "foreign":
                return found
        return None

    def is_child(self, name: str, source: Source) -> bool:
        return self.source(source.crate, source.module + (name,)) is not None

    def outside(self, words: Tuple[str, ...], source: Source, passed: Set[Tuple]) -> Optional[Found]:
        """What a path stands for that a file has no item for: a module below, another crate, or what every file has."""
        first, rest = words[0], words[1:]
        below = self.within(source.crate, source.module + (first,), rest, passed) if rest else None
        if below:
            return below
        if rest and first in STD_CRATES:
            return Found("std", rest[-1]) if rest[-1] in STD else Found("foreign", rest[-1])
        if rest and first in LIBRARY_CRATES:
            known = rest[-1] in LIBRARY or rest[-1] in ALIASES
            return Found("library" if known else "foreign", rest[-1])
        if rest and first != source.crate and os.path.isdir(self.folder(first)):
            return self.within(first, (), rest, passed)
        if rest:
            return None
        return Found("primitive", first) if first in PRIMITIVES else Found("std", first) if first in PRELUDE else None

    def within(self, crate: str, module: Tuple[str, ...], words: Tuple[str, ...], passed: Set[Tuple]) -> Optional[Found]:
        """What a path stands for in a module, without what every file has."""
        for count in range(len(words) - 1, -1, -1):
            source = self.source(crate, module + words[:count])
            if source is None or not is_new((crate, module, words, count), passed):
                continue
            found = self.item(words[count:], source, passed)
            if found:
                return found
        return None


# A path that is longer leads to itself: as `use self::a::b as a` does.
MOST_WORDS = 30


def is_new(step: Tuple, passed: Set[Tuple]) -> bool:
    """Whether a step of a search wasn't passed yet; it is from now on."""
    was = step in passed or len(step[2]) > MOST_WORDS
    passed.add(step)
    return not was


# Control characters, other ends of lines, and what turns the direction of writing.
REJECTED = re.compile("[\0-\x09\x0b-\x1f\x7f-\x9f\u2028\u2029\u202a-\u202e\u2066-\u2069\ufeff]")
INSTEAD = {"\t": "write spaces in place of this tab", "\r": "save the file with line ends of `\\n` alone", "\ufeff": "save the file without a byte order mark"}


def check_characters(path: str, text: str):
    """Refuses what the toolchain takes nowhere, not even in a comment."""
    found = REJECTED.search(text)
    if found:
        said = INSTEAD.get(found[0], "remove it")
        raise Refused(path, text.count("\n", 0, found.start()) + 1, f"the toolchain rejects the character U+{ord(found[0]):04X}; {said}")


def text_of(path: str) -> str:
    try:
        with open(path, "rb") as file:
            data = file.read()
    except OSError as error:
        raise Refused(path, 1, f"this can't be read ({error.strerror}); name a file that can")
    try:
        return data.decode("utf-8")
    except UnicodeDecodeError as error:
        line = data.count(b"\n", 0, error.start) + 1
        raise Refused(path, line, "this isn't UTF-8; save the file as UTF-8")
