"""What a declaration says: what `read.py` makes of a file, and `write.py` writes a module from.

The steps of `tools/derive`:

    modules = read.modules(paths)       a list of `Module`, each type resolved; raises `Refused`
    text = write.written(module)        what follows the marker, with "\\n" for line ends; raises `Refused`

`formats.py` knows the format, layout, laws and bounds of each type of a field.
"""

from dataclasses import dataclass, field
from typing import List, Optional, Tuple

MARK = "// Below this line all is written by tools/derive: change what is above it, and run it again."


class Refused(Exception):
    """Why a declaration gets no module: file, line, and what to write instead."""

    def __init__(self, path: str, line: int, text: str):
        super().__init__(f"{path}:{line}: {text}")
        self.path = path
        self.line = line
        self.text = text


@dataclass
class Type:
    """A type as a field names it.

    `name` is `()`, `tuple`, `array`, or the last word of its path: `i32`, `Vec`, `Point`, `T`.
    `args` are its type arguments, the fields of a tuple, or the item of an array.
    `own` is the declaration of a type that a module of this generator (or one of its form) gives;
    `None` for types of the library, parameters, tuples and arrays.
    """

    name: str
    args: List["Type"] = field(default_factory=list)
    line: int = 0
    path: Tuple[str, ...] = ()  # the words as written, `("archive_core", "boxed", "Box")`
    length: str = ""  # the number of items of an array, or of an `OwnedArray`
    parameter: bool = False  # a type parameter of the declaration
    own: Optional["Declaration"] = None
    text: str = ""  # as the file names it, an alias unexpanded: what is above the marker brings it into scope


@dataclass
class Field:
    """A field of a struct or of a variant. A tuple's fields are named `0`, `1`, .."""

    name: str
    type: Type
    line: int = 0
    docs: List[str] = field(default_factory=list)
    visibility: str = ""  # `pub`, `pub(crate)` or nothing
    accessor: str = ""  # the call of a view that shows it: `name`, or `field_0` for `0`


@dataclass
class Variant:
    name: str
    form: str  # `unit`, `tuple` or `struct`
    fields: List[Field] = field(default_factory=list)
    line: int = 0
    docs: List[str] = field(default_factory=list)


@dataclass
class Parameter:
    """A type parameter: `T`, and its bounds as written."""

    name: str
    bounds: str = ""


@dataclass
class Declaration:
    kind: str  # `struct` or `enum`
    name: str
    form: str = "struct"  # of a struct: `struct`, `tuple` or `unit`
    fields: List[Field] = field(default_factory=list)  # of a struct
    variants: List[Variant] = field(default_factory=list)  # of an enum
    parameters: List[Parameter] = field(default_factory=list)
    where: str = ""  # the words behind `where`, as written
    derives: List[str] = field(default_factory=list)  # `Debug`, `PartialEq`, ..
    is_dropped: bool = False  # derives `Drop` or `Copy`, or has an impl of one above the marker
    attributes: List[str] = field(default_factory=list)  # all of them, as written
    docs: List[str] = field(default_factory=list)
    visibility: str = ""
    archived: str = ""  # the name of the archived type: `ArchivedPoint`, or another on demand
    instance_of: str = ""  # the name of a type with type parameters: this is what an alias of it with arguments stands for, and has that alias's name
    named: bool = False  # `// name: ArchivedTest` stands above it
    recursive: bool = False  # holds itself behind a pointer
    family: List["Declaration"] = field(default_factory=list, compare=False, repr=False)  # of a recursive one: those that it holds and that hold it, itself among them
    holds_recursive: bool = False  # isn't recursive itself, and holds a type that is
    holder: bool = False  # is one of these, and is written part by part
    path: str = ""  # the file that it stands in
    line: int = 0
    crate: str = ""
    module: Tuple[str, ...] = ()  # `("event",)` of src/event.rt; empty at the root

    @property
    def as_tuple(self) -> bool:
        """Whether it is archived as a tuple whose fields have names, by impls that take any definitions."""
        return bool(self.parameters) or self.holds_recursive and not self.holder

    @property
    def part_by_part(self) -> bool:
        """Whether it is written and read by functions of its own, with definitions beside its module: it is recursive, or holds a type that is."""
        return self.recursive or self.holder

    @property
    def declared_name(self) -> str:
        """The name under which it is declared, and its variants."""
        return self.instance_of or self.name

    def home(self, *folder: str) -> str:
        """How what is written of its module begins in a folder of the crate: `game.specs.declared.event`; at the root without a module."""
        return ".".join((self.crate, *folder, *self.module))

    def all_fields(self) -> List[Field]:
        return self.fields if self.kind == "struct" else [f for v in self.variants for f in v.fields]


@dataclass
class Module:
    """A file with declarations: what stands above the marker, and what is written below it."""

    path: str
    crate: str
    module: Tuple[str, ...]
    head: str  # above the marker, byte for byte
    written: str  # the marker and what follows it, or nothing
    declarations: List[Declaration] = field(default_factory=list)
    uses: dict = field(default_factory=dict)  # the names that its `use` items bring: name -> path as a tuple of words
    ghost_uses: dict = field(default_factory=dict)  # those of its `ghost use` items, likewise
    names: dict = field(default_factory=dict)  # the names that it declares, each with its line
    globbed: dict = field(default_factory=dict)  # the names that its `use` items with a `*` bring: name -> the path before the `*`, and the path of what it is
