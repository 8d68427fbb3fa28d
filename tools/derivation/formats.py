"""The types of fields: for each its archived format, layout, laws, and what its values need to be written and read back.

A term of a law is one at a value: `keyed(type, "v.name")`. Where a law of another type takes a function, it is the λ of such a term.
"""

import re
from dataclasses import replace

from .arrays import Arrays, as_read, is_made
from .laws import Laws
from .model import Refused

INTEGERS = [f"{sign}{bits}" for sign in "ui" for bits in (8, 16, 32, 64, 128)]
# Types of the library with type arguments: how many, the module of the archived type, and its name.
GENERIC = {
    "Option": (1, "option", "ArchivedOption"),
    "Result": (2, "result", "ArchivedResult"),
    "Box": (1, "boxed", "ArchivedBox"),
    "BoxSlice": (1, "boxed", "ArchivedBox"),
    "Vec": (1, "vec", "ArchivedVec"),
    "BTreeMap": (2, "map", "ArchivedSortedMap"),
    "Shared": (1, "rc", "ArchivedRc"),
    "SharedSlice": (1, "rc", "ArchivedRc"),
    "WeakShared": (1, "rc", "ArchivedRcWeak"),
    "NonZero": (1, "primitive", "NonZero"),
    "PhantomData": (1, "", "PhantomData"),
    "OwnedArray": (1, "core_impls", "OwnedArray"),
}
# Types without arguments: size and alignment, the module of the archived type, and its name.
PLAIN = {
    "()": ((0, 1), "", "()"),
    "bool": ((1, 1), "", "bool"),
    "char": ((4, 4), "primitive", "ArchivedChar"),
    "usize": ((4, 4), "primitive", "ArchivedUsize"),
    "isize": ((4, 4), "primitive", "ArchivedIsize"),
    "String": ((8, 4), "string", "ArchivedString"),
    "BoxStr": ((8, 4), "boxed", "ArchivedBox"),
    "SharedStr": ((8, 4), "rc", "ArchivedRc"),
}
# Where types of the library are brought in from.
HOMES = {
    "Shared": "archive_core::rc",
    "SharedSlice": "archive_core::rc",
    "SharedStr": "archive_core::rc",
    "WeakShared": "archive_core::rc",
    "BoxSlice": "archive_core::boxed",
    "BoxStr": "archive_core::boxed",
    "NonZero": "archive_core::primitive",
    "OwnedArray": "archive_core::core_impls",
    "BTreeMap": "std::collections",
    "PhantomData": "std::marker",
}
POINTERS = {"Box", "BoxSlice", "Vec", "BTreeMap", "Shared", "SharedSlice", "WeakShared"}
SHARING = {"Shared", "SharedSlice", "SharedStr", "WeakShared"}
NUMBERS = set(INTEGERS) | {"bool", "char", "()", "usize", "isize", "NonZero"}
ALIGNS = {
    1: "inl refl",
    2: "inr (inl refl)",
    4: "inr (inr (inl refl))",
    8: "inr (inr (inr (inl refl)))",
    16: "inr (inr (inr (inr (inl refl))))",
}


# Before a name that is the user's where the library has one, too (renames.py).
USERS = "\ue000"


def snake(name):
    return re.sub(r"(?<!^)(?=[A-Z])", "_", name.replace(USERS, "")).lower()


def up(offset, align):
    return -(-offset // align) * align


def layout_of(sizes, start=0):
    """Of parts one after another: size, alignment, the offsets, and where the last one ends."""
    offset, align, offsets = start, 1, []
    for size, its in sizes:
        offset = up(offset, its)
        offsets.append(offset)
        offset += size
        align = max(align, its)
    return up(offset, align), align, offsets, offset


def substituted(type, by):
    """The type with other types in place of parameters."""
    if type.parameter:
        return by.get(type.name, type)
    if not by:
        return type
    return replace(type, args=[substituted(arg, by) for arg in type.args], text="")


def is_seen(type, seen):
    """Whether a declared type was seen, which is so from now on. One with arguments counts as another each time."""
    if type.own is None or type.args:
        return False
    was = id(type.own) in seen
    seen.add(id(type.own))
    return was


def without(type, family):
    """The type, or where it leads to one of these, the arguments that don't."""
    if any(type.own is it for it in family):
        return []
    if any(part is not arg for arg in type.args for part in without(arg, family) or [None]):
        return [part for arg in type.args for part in without(arg, family)]
    return [type]


def pooled_of(type):
    """What a pool keeps of a shared value: a weak pointer is read back as the shared one that it holds."""
    return replace(type, name="Shared", text="") if type.name == "WeakShared" else type


def has_shared(type, family):
    """Whether the type leads to one of these behind a shared pointer."""
    return leads_by(type, family, SHARING)


def leads_by(type, family, names):
    """Whether the type leads to one of these behind one of these names."""
    leads = any(arg is not part for arg in type.args for part in without(arg, family) or [None])
    return leads and type.own is None and (type.name in names or any(leads_by(arg, family, names) for arg in type.args))


class Formats(Laws):
    """What a module says of types. It gathers the names that the module has to bring in."""

    def __init__(self, module):
        self.module = module
        self.uses = {}  # a path of Rust, and the names of it
        self.ghosts = {}  # a path of specs, and the names of it
        self.laws = {}  # a declaration, and its laws
        self.layouts = {}  # a declaration, and its layout
        self.arrays = Arrays(self)

    # ---- names ----

    def use(self, path, *names):
        self.uses.setdefault(path, set()).update(names)

    def ghost(self, path, *names):
        """Names of a file of specs of the library; `std.` begins one of the standard library."""
        path = path if path.startswith("std.") else f"archive_core.specs.{path}"
        self.ghosts.setdefault(path, set()).update(names)

    def refuse(self, type, text):
        raise Refused(self.module.path, type.line, text)

    def path_of(self, own):
        """How this module names the module of a declaration."""
        if own.crate == self.module.crate:
            return "::".join(("crate",) + tuple(own.module))
        return "::".join((own.crate,) + tuple(own.module))

    def here(self, own):
        return own.crate == self.module.crate and tuple(own.module) == tuple(self.module.module)

    def kind(self, type):
        if type.parameter:
            return "parameter"
        if type.own is not None:
            return "own"
        if type.name in INTEGERS:
            return "integer"
        return type.name

    def fields(self, type):
        """The fields of a declared type, with its arguments in place of the parameters."""
        own = type.own
        return [substituted(field.type, {p.name: arg for p, arg in zip(own.parameters, type.args)}) for field in own.all_fields()]

    # ---- formats ----

    def rust(self, type):
        """The type as the declaration has it."""
        return type.text or self.spelled(type)

    def read_as(self, type):
        """The type that a field is read back as: no call returns an array of the machine."""
        return self.spelled(as_read(type)) if is_made(type) else self.rust(type)

    def spelled(self, type):
        """The type by its names, of which those of other modules are brought in."""
        if type.name == "()":
            return "()"
        args = [self.spelled(arg) for arg in type.args]
        if type.own is not None and not self.here(type.own):
            self.use(self.path_of(type.own), type.name)
        elif type.name in HOMES:
            self.use(HOMES[type.name], type.name)
        if type.name == "tuple":
            return f"({', '.join(args)}{',' if len(args) == 1 else ''})"
        if type.name == "array":
            return f"[{args[0]}; {type.length}]"
        if type.name == "OwnedArray":
            args.append(type.length)
        return type.name + (f"<{', '.join(args)}>" if args else "")

    def archived(self, type, bare=False):
        """The name of its archived type, which is brought in; `bare` where a parameter is one itself."""
        kind = self.kind(type)
        if kind == "parameter":
            return type.name if bare else f"<{type.name} as Archive>::Archived"
        if kind == "own":
            return self.archived_own(type, bare)
        if kind == "PhantomData":
            return self.rust(type)
        if kind == "NonZero":
            return self.spelled(type)
        args = [self.archived(arg, bare) for arg in type.args]
        if kind == "integer":
            if type.name in ("u8", "i8"):
                return type.name
            name = f"Archived{type.name.upper()}"
            self.use("archive_core::primitive", name)
            return name
        if kind == "tuple":
            name = f"ArchivedTuple{len(args)}"
            self.use("archive_core::core_impls", name)
            return f"{name}<{', '.join(args)}>"
        if kind in ("array", "OwnedArray"):
            return f"[{args[0]}; {type.length}]"
        if kind in PLAIN:
            _, module, name = PLAIN[kind]
        elif kind in GENERIC:
            _, module, name = GENERIC[kind]
        else:
            self.refuse(type, f"`{self.rust(type)}` has no format")
        if module:
            self.use(f"archive_core::{module}", name)
        if kind in ("BoxSlice", "SharedSlice"):
            self.use("archive_core::slice", "ArchivedSlice")
            args = [f"ArchivedSlice<{args[0]}>"]
        if kind in ("BoxStr", "SharedStr"):
            self.use("archive_core::string", "ArchivedStr")
            args = ["ArchivedStr"]
        if kind in SHARING:
            self.use("archive_core::rc", "RcFlavor")
            args.append("RcFlavor")
        return name + (f"<{', '.join(args)}>" if args else "")

    def archived_own(self, type, bare):
        """The name of the archived type of a declared one, with its arguments."""
        own = type.own
        if not self.here(own):
            self.use(self.path_of(own), own.archived)
        args = [self.archived(arg, bare) for arg in type.args]
        return own.archived + (f"<{', '.join(args)}>" if args else "")

    def layout(self, type):
        """Size and alignment of its archived type."""
        kind = self.kind(type)
        if kind == "integer":
            size = int(type.name[1:]) // 8
            return size, size
        if kind in PLAIN:
            return PLAIN[kind][0]
        if kind in ("Box", "Shared", "WeakShared"):
            return 4, 4
        if kind in ("BoxSlice", "Vec", "BTreeMap", "SharedSlice"):
            return 8, 4
        if kind == "PhantomData":
            return 0, 1
        if kind == "NonZero":
            return self.layout(type.args[0])
        if kind == "Option":
            return layout_of([self.layout(type.args[0])], 1)[:2]
        if kind == "Result":
            sides = [layout_of([self.layout(arg)], 1) for arg in type.args]
            align = max(side[1] for side in sides)
            return up(max(side[3] for side in sides), align), align
        if kind == "tuple":
            return layout_of([self.layout(arg) for arg in type.args])[:2]
        if kind in ("array", "OwnedArray"):
            size, align = self.layout(type.args[0])
            return size * int(type.length, 0), align
        if kind == "own" and type.args:
            return layout_of([self.layout(field) for field in self.fields(type)])[:2]
        if kind == "own":
            return self.layout_of_declaration(type.own)
        self.refuse(type, f"`{self.rust(type)}` has no layout before its parameters are known")

    def layout_of_declaration(self, own):
        if id(own) not in self.layouts:
            self.layouts[id(own)] = self.found_layout(own)
        return self.layouts[id(own)]

    def found_layout(self, own):
        if own.kind == "struct":
            return layout_of([self.layout(field.type) for field in own.fields])[:2]
        sides = [layout_of([self.layout(field.type) for field in variant.fields], 1) for variant in own.variants]
        align = max(side[1] for side in sides)
        return up(max(side[3] for side in sides), align), align

    def shape(self, type):
        if type.parameter:
            return f"{type.name}.Archived.shape"
        return f"⟦<{self.archived(type)} as Portable>⟧.shape"

    def pointee(self, type):
        return f"⟦<{self.archived(type)} as ArchivePointee>⟧.pointee"

    def source(self, type):
        """The members of `Archive`, of a parameter by its name."""
        return type.name if type.parameter else f"⟦<{self.rust(type)} as Archive>⟧"

    def definitions(self, type):
        """The definitions that its archived type brings."""
        self.ghost("Definitions", "both", "no_definition")
        kind = self.kind(type)
        if kind == "parameter":
            return f"{type.name}.Archived.definitions"
        if kind == "own" and type.own.part_by_part:
            return f"⟦<{self.archived(type)} as ArchivePointee>⟧.definitions"
        if kind == "Result":
            return f"(both {self.definitions(type.args[0])} {self.definitions(type.args[1])})"
        if kind in ("tuple", "BTreeMap") or kind == "own" and type.own.as_tuple:
            out = "no_definition"
            for arg in reversed(self.fields(type) if kind == "own" else type.args):
                out = f"(both {self.definitions(arg)} {out})"
            return out
        if kind in GENERIC and kind not in ("NonZero", "PhantomData") or kind == "array":
            return self.definitions(type.args[0])
        return "no_definition"

    # ---- what values need ----

    def held(self, type):
        """The types of what a value holds, of a declared type those of its fields."""
        if type.own is not None:
            return self.fields(type)
        return [] if type.name == "PhantomData" else type.args

    def any_of(self, type, names, seen=None):
        """Whether the type, or one that it holds, is one of these; none of those declared ones holds one that were `seen`."""
        if type.name in names and type.own is None:
            return True
        if type.own is None or not type.own.recursive:
            seen = set() if seen is None else seen
            return not is_seen(type, seen) and any(self.any_of(part, names, seen) for part in self.held(type))
        if any(leads_by(field.type, type.own.family, names) for it in type.own.family for field in it.all_fields()):
            return True
        held = [part for it in type.own.family for field in it.all_fields() for part in without(field.type, type.own.family)]
        return any(self.any_of(part, names, seen) for part in held)

    def holds(self, type, names, inside, seen=None):
        """Whether the type holds another declared one, and that one of these, both behind no pointer; `inside` that one already."""
        if type.own is None and type.name in POINTERS:
            return False
        if inside and type.own is None and type.name in names:
            return True
        seen = set() if seen is None else seen
        return not is_seen(type, seen) and any(self.holds(x, names, inside or type.own is not None, seen) for x in self.held(type))

    def shares(self, type):
        return self.any_of(type, SHARING)

    def pooled(self, type, seen=None):
        """The shared values that are kept to read it back, as types."""
        if type.own is not None and type.own.recursive:
            return [inner for it in type.own.family for field in it.all_fields() for inner in self.pooled_in(field.type, type.own.family)]
        seen = set() if seen is None else seen
        if is_seen(type, seen):
            return []
        out = [pooled_of(type)] if type.own is None and type.name in SHARING else []
        return out + [inner for part in self.held(type) for inner in self.pooled(part, seen)]

    def pooled_in(self, type, family):
        """The same of a field of a recursive type, whose family it may lead to."""
        if any(type.own is it for it in family):
            return []
        if not any(arg is not part for arg in type.args for part in without(arg, family) or [None]):
            return self.pooled(type)
        return ([pooled_of(type)] if type.own is None and type.name in SHARING else []) + [inner for arg in type.args for inner in self.pooled_in(arg, family)]

    def writer_bound(self, types, whole=False):
        """What the serializer has to be."""
        self.use("archive_core::ser", "ResolverAlloc", "Writer")
        alloc = "ResolverAlloc"
        if any(self.any_of(t, ("array", "OwnedArray")) for t in types):
            self.use("std::alloc", "Global")
            alloc = "ResolverAlloc<Alloc = Global>"
        if any(self.shares(t) for t in types):
            self.use("archive_core::sharing", "Sharing")
            return f"Sharing + Writer + {alloc}"
        return f"Writer + {alloc}"

    def reader_bound(self, types):
        """What the deserializer has to be."""
        pooled = []
        for t in types:
            for shared in self.pooled(t):
                name = self.spelled(shared)
                pooled += [] if name in pooled else [name]
        if pooled:
            self.use("archive_core::pooling", "Pooling")
            return " + ".join(f"Pooling<{p}>" for p in pooled)
        self.use("archive_core::traits", "Entries")
        return "Entries"

    # ---- laws ----
