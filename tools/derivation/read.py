"""Reads declarations: each type of a field is looked up, and what can't be archived is refused, with the file, the line and what to write instead.

How much the toolchain takes at once is counted in loads.py.
"""

import copy
from typing import Dict, List, Optional, Sequence

from .circles import check_circles
from .drops import DROPPED, check_drops
from .model import Declaration, Module, Refused, Type
from .names import ALIASES, FLOATS, LIBRARY, PRIMITIVES, STD, STD_MODULES, Found, Source, World
from .parse import Alias, Declared
from .items import number_of
from . import checks

# Of a struct, and of a variant.
MOST_FIELDS = 32
MOST_OF_VARIANT = 16
# Of an enum's variants that have fields: as many are proved, where some have deep, many or shared ones.
MOST_WITH_FIELDS = 64
# Of a struct that is archived as a tuple with names: it holds a recursive type, or has type parameters. Of more fields one with type parameters goes by aliases:
# of a view of such a tuple, with an `i64` and a `u32` in it, "the borrow checker does not cover this function yet".
MOST_FEW = 8
MOST_PARTS = 13
MOST_VARIANTS = 256
# Where one has fields, so that views hold references: of more "a value is made at a variant after the 128th, of an enum that owns memory or holds a reference".
MOST_BESIDE_FIELDS = 128
MOST_ITEMS = 2**32 - 1

# What to write in place of types that have no format.
OWNED = "write a type that owns what it holds, as a `String`, a `Vec` or a `Box`"
NO_PATH = {
    "&": f"a reference has no format; {OWNED}",
    "*": f"a raw pointer has no format; {OWNED}",
    "fn": "a function has no format; write an enum of what may be called",
    "dyn": "`dyn` has no format; write an enum of what it may be",
    "impl": "`impl` names no one type; write the type",
    "[]": "a slice has no length of its own; write a `Vec`, or a `BoxSlice`",
    "!": "`!` has no value; remove the field",
    "<>": "only a type's own name is looked up; write the type",
    "#": "a number is no type; write the type",
    "macro": "a macro's type isn't looked up; write the type",
    "_": "write the type in place of `_`",
}
INSTEAD = {
    "Rc": "a `Shared`, of `archive_core::rc`",
    "Arc": "a `Shared`, of `archive_core::rc`",
    "Weak": "a `WeakShared`, of `archive_core::rc`",
    "Cow": "a `String` or a `Vec`",
    "str": "a `String`",
    "VecDeque": "a `Vec`",
    "LinkedList": "a `Vec`",
    "BinaryHeap": "a `Vec`",
    "Duration": "its number of nanoseconds, as a `u64`",
    "Instant": "a number, as a `u64`",
    "SystemTime": "its number of seconds, as a `u64`",
    "PathBuf": "a `String`",
    "OsString": "a `String`",
    "Range": "a tuple of its two ends",
    "Ordering": "an enum",
    "Infallible": "`()`",
}
for it in ("HashMap", "IndexMap"):
    INSTEAD[it] = "a `BTreeMap`, or a `Vec` of pairs, as `Vec<(K, V)>`"
for it in ("HashSet", "BTreeSet", "IndexSet"):
    INSTEAD[it] = "a `Vec`"
for it in ("Cell", "RefCell", "UnsafeCell", "OnceCell", "OnceLock", "Mutex", "RwLock", "ManuallyDrop", "MaybeUninit", "Pin"):
    INSTEAD[it] = "what it holds"
for it in ("Bool", "U8", "U16", "U32", "U64", "Usize", "I8", "I16", "I32", "I64", "Isize"):
    INSTEAD[f"Atomic{it}"] = f"a `{it.lower()}`"
    INSTEAD[f"NonZero{it}"] = f"an `ArchivedNonZero{it}`, of `archive_core::primitive`"


# The keys of a map.
KEYS = (PRIMITIVES - {"bool"}) | {"String"}


class Scope:
    """Where a type is written: a declaration's own, or an alias with what its parameters stand for."""

    def __init__(self, source: Source, parameters: Dict[str, Optional[Type]], owner: Optional[Declaration], aliases=()):
        self.source = source
        self.parameters = parameters
        self.owner = owner
        self.aliases = aliases


class Reader:
    def __init__(self, world: World):
        self.world = world
        self.read: List[int] = []
        self.instances: Dict[int, Declaration] = {}  # by the alias that each is the meaning of

    def declaration(self, declared: Declared, source: Source) -> Declaration:
        """The declaration with its types looked up. A type that holds itself meets itself here unfinished."""
        it = declared.declaration
        if id(it) in self.read:
            return it
        self.read.append(id(it))
        it.crate, it.module = source.crate, source.module
        it.is_dropped = is_dropped(it, source)
        self.check(declared, source)
        return self.looked_up(it, Scope(source, {p.name: None for p in it.parameters}, it))

    def check(self, declared: Declared, source: Source):
        """Refuses a declaration that can't be archived, whatever its fields are."""
        self.check_is_written(declared.declaration, source)
        for fault in sorted(declared.faults, key=lambda x: x.line)[:1]:
            raise fault
        checks.check_shape(declared.declaration)

    def looked_up(self, it: Declaration, scope: Scope) -> Declaration:
        """The declaration, once its types are looked up."""
        for field in it.all_fields():
            field.type = self.type(field.type, scope)
            field.accessor = checks.accessor(field)
        checks.check_accessors(it)
        return it

    # ---- types with type parameters that go by aliases ----

    def declarations(self, declared: Declared, source: Source) -> List[Declaration]:
        """What is archived of a declaration: of some with type parameters what their aliases stand for."""
        if not self.goes_by_aliases(declared, source):
            return [self.declaration(declared, source)]
        it, aliases = declared.declaration, self.aliases_of(declared, source)
        if not aliases:
            like = f"pub type {it.name}Of.. = {it.name}<{', '.join('..' for _ in it.parameters)}>;"
            many = f" and more than {MOST_FEW} fields" if it.kind == "struct" else ""
            raise Refused(it.path, it.line, f"`{it.name}` has type parameters{many}: name the types that it is used with, each by an alias in this file, as `{like}`")
        if it.named:
            raise Refused(it.path, it.line, f"`{it.name}` has type parameters, so its archived types have the names of its aliases; remove the line `// name:`")
        return [self.instance(declared, source, alias) for alias in aliases]

    def goes_by_aliases(self, declared: Declared, source: Source) -> bool:
        """Whether what is archived of it is what its aliases stand for: of an enum with type parameters, and of a struct with them that has many fields or such
        an alias in its file."""
        it = declared.declaration
        return bool(it.parameters) and (it.kind == "enum" or len(it.fields) > MOST_FEW or bool(self.aliases_of(declared, source)))

    def aliases_of(self, declared: Declared, source: Source) -> List[Alias]:
        """The aliases in its file that hand arguments to a type with type parameters."""
        stands_for = lambda alias: alias.type.path and (found := self.world.find(alias.type.path, source)) and found.declared is declared
        return [it for it in source.file.aliases.values() if not it.parameters and stands_for(it)]

    def arguments_of(self, alias: Alias, declared: Declared, source: Source) -> List[Type]:
        scope = Scope(source, {}, None)
        self.want_arguments(alias.type, scope, len(declared.declaration.parameters))
        return [self.type(it, scope) for it in alias.type.args]

    def instance(self, declared: Declared, source: Source, alias: Alias) -> Declaration:
        """What an alias stands for: a declaration of its name, with the alias's arguments in place of parameters."""
        if id(alias) in self.instances:
            return self.instances[id(alias)]
        generic = declared.declaration
        generic.is_dropped = is_dropped(generic, source)
        it = self.instances[id(alias)] = copy.deepcopy(generic)
        it.name, it.instance_of, it.archived, it.line = alias.name, generic.name, f"Archived{alias.name}", alias.line
        it.crate, it.module, it.parameters = source.crate, source.module, []
        self.check(declared, source)
        args = self.arguments_of(alias, declared, source)
        for other in self.aliases_of(declared, source):
            if other is not alias and all(map(checks.is_same, self.arguments_of(other, declared, source), args)):
                raise Refused(source.path, max(alias.line, other.line), f"`{alias.name}` and `{other.name}` are one type; remove one of these aliases")
        return self.looked_up(it, Scope(source, {p.name: x for p, x in zip(generic.parameters, args)}, it))

    def instance_type(self, it: Type, args: List[Type], found: Found, scope: Scope) -> Type:
        """A type with its arguments, by the alias that is written for these."""
        declared, source = found.declared, found.source
        for alias in self.aliases_of(declared, source):
            if all(map(checks.is_same, self.arguments_of(alias, declared, source), args)):
                own = self.instance(declared, source, alias)
                return Type(own.name, [], it.line, it.path, own=own, text=checks.shown(Type(it.name, args, path=it.path)).text)
        text = checks.shown(Type(it.name, args, path=(it.name,))).text
        if any(map(checks.has_parameter, args)):
            raise self.no_format(it, scope, f"`{text}` names a parameter, and what is archived by its aliases takes types alone; write a type")
        raise self.no_format(it, scope, f"no alias stands for `{text}`; write one into {source.path}, as `pub type {it.name}Of.. = {text};`")

    def check_is_written(self, it: Declaration, source: Source):
        by_hand = ("Archive", it.name) in source.file.impls
        if by_hand and source.is_given:
            raise Refused(it.path, it.line, f"`{it.name}` has an `Archive` impl above the marker; remove it, or move both to a file of their own")
        if by_hand:
            raise Refused(it.path, it.line, f"`{it.name}` is archived by hand, so its format isn't known; hold what it holds, or let tools/derive write it")
        if not source.is_given and not source.written:
            raise Refused(it.path, it.line, f"`{it.name}` isn't archived yet; run tools/derive on both files together")

    # ---- types ----

    def type(self, it: Type, scope: Scope) -> Type:
        if it.name in NO_PATH:
            raise self.no_format(it, scope, NO_PATH[it.name])
        if it.name.startswith("'"):
            raise self.no_format(it, scope, f"the lifetime {it.name} borrows; {OWNED}")
        if it.name == "()":
            return Type("()", line=it.line, text="()")
        if it.name == "tuple":
            if len(it.args) > MOST_PARTS:
                raise self.no_format(it, scope, f"a tuple of {len(it.args)} has no format, only up to {MOST_PARTS}; write a struct")
            return checks.shown(Type("tuple", [self.type(x, scope) for x in it.args], it.line))
        if it.name == "array":
            length = self.length(it, it.length, scope)
            return checks.shown(Type("array", [self.type(it.args[0], scope)], it.line, length=length))
        return self.path_type(it, scope)

    def no_format(self, it: Type, scope: Scope, why: str) -> Refused:
        return Refused(scope.source.path, it.line, why)

    def path_type(self, it: Type, scope: Scope) -> Type:
        if len(it.path) == 1 and it.name in scope.parameters:
            stands_for = scope.parameters[it.name]
            if it.args:
                raise self.no_format(it, scope, f"`{it.name}` is a parameter and takes no arguments; write `{it.name}`")
            return stands_for or Type(it.name, line=it.line, path=it.path, parameter=True, text=it.name)
        if it.path == ("Self",) and scope.owner and not it.args:
            args = [Type(p.name, line=it.line, path=(p.name,), parameter=True, text=p.name) for p in scope.owner.parameters]
            return checks.shown(Type(scope.owner.name, args, it.line, (scope.owner.name,), own=scope.owner))
        if len(it.path) == 1 and it.name in FLOATS:
            bits = it.name[1:]
            raise self.no_format(it, scope, f"a float has no format; write its bits, a `u{bits}` of `to_bits`")
        found = self.world.find(it.path, scope.source)
        if found is None or found.kind == "foreign":
            raise self.unknown(it, scope)
        return getattr(self, f"{found.kind}_type")(it, found, scope)

    def unknown(self, it: Type, scope: Scope) -> Refused:
        name = it.name
        if len(it.path) == 1 and name in STD and name not in scope.source.declared:
            return self.no_format(it, scope, f"`{name}` isn't brought in; write `use std::{STD_MODULES[name]}::{name};`")
        if len(it.path) == 1 and (name in LIBRARY or name in ALIASES):
            module = LIBRARY[name][0] if name in LIBRARY else "primitive"
            return self.no_format(it, scope, f"`{name}` isn't brought in; write `use archive_core::{module}::{name};`")
        if name in INSTEAD:
            return self.no_format(it, scope, f"`{name}` has no format; write {INSTEAD[name]}")
        if name.startswith("Archived") and name != "Archived":
            return self.no_format(it, scope, f"`{name}` is an archived type; write the type of its values, as `String` for `ArchivedString`")
        return self.no_format(it, scope, f"`{'::'.join(it.path)}` has no format here; declare it in a file of its own and run tools/derive on that, or name it in a `use`")

    def want_arguments(self, it: Type, scope: Scope, count: int):
        if len(it.args) != count:
            wanted = {0: "no", 1: "one", 2: "two"}.get(count, str(count))
            noun = "argument" if count == 1 else "arguments"
            raise self.no_format(it, scope, f"`{it.name}` takes {wanted} {noun}, not {len(it.args)}; write {wanted if count else 'none'}")

    def primitive_type(self, it: Type, found: Found, scope: Scope) -> Type:
        self.want_arguments(it, scope, 0)
        return Type(found.name, line=it.line, path=it.path, text="::".join(it.path))

    def std_type(self, it: Type, found: Found, scope: Scope) -> Type:
        self.want_arguments(it, scope, STD[found.name])
        if found.name == "PhantomData":
            return checks.shown(Type("PhantomData", [self.unread(it.args[0], scope)], it.line, it.path))
        if found.name == "Box":
            inner = it.args[0]
            if inner.name == "[]":
                raise self.no_format(it, scope, "a boxed slice is a type of the library; write `BoxSlice`, of `archive_core::boxed`")
            if inner.path == ("str",):
                raise self.no_format(it, scope, "a boxed text is a type of the library; write `BoxStr`, of `archive_core::boxed`")
        if found.name == "BTreeMap":
            key = self.type(it.args[0], scope)
            if key.own is not None or key.parameter or key.name not in KEYS:
                raise self.no_format(it, scope, f"`{key.text or key.name}` is no key of a map in an archive; write a whole number, a `char` or a `String`")
        return checks.shown(Type(found.name, [self.type(x, scope) for x in it.args], it.line, it.path))

    def unread(self, it: Type, scope: Scope) -> Type:
        """What a `PhantomData` names: it needs no format, but what it says has to stand in the written part, too."""
        if it.name in NO_PATH or it.name.startswith("'"):
            raise self.no_format(it, scope, "a `PhantomData` is written where it names a plain type; write one in place of this")
        args = [self.unread(x, scope) for x in it.args]
        parameter = len(it.path) == 1 and it.name in scope.parameters
        if parameter and scope.parameters[it.name]:
            return scope.parameters[it.name]
        return checks.shown(Type(it.name, args, it.line, it.path, it.length, parameter))

    def library_type(self, it: Type, found: Found, scope: Scope) -> Type:
        if found.name in ALIASES:
            self.want_arguments(it, scope, 0)
            name, number = ALIASES[found.name]
            args = [Type(number, line=it.line, path=(number,), text=number)] if number else []
            return Type(name, args, it.line, it.path, text="::".join(it.path))
        self.want_arguments(it, scope, LIBRARY[found.name][1])
        if found.name == "OwnedArray":
            length = self.length(it, it.args[1].length or it.args[1].name, scope)
            return checks.shown(Type("OwnedArray", [self.type(it.args[0], scope)], it.line, it.path, length))
        args = [self.type(x, scope) for x in it.args]
        if found.name == "NonZero" and (args[0].name not in PRIMITIVES or args[0].name in ("bool", "char", "usize", "isize")):
            raise self.no_format(it, scope, f"`NonZero` is of a number of one size; write `NonZero<u32>` in place of `{checks.shown(Type('NonZero', args)).text}`")
        return checks.shown(Type(found.name, args, it.line, it.path))

    def own_type(self, it: Type, found: Found, scope: Scope) -> Type:
        declared = found.declared
        self.check_is_no_parameter(it, scope)
        self.want_arguments(it, scope, len(declared.declaration.parameters))
        args = [self.type(x, scope) for x in it.args]
        if self.goes_by_aliases(declared, found.source):
            return self.instance_type(it, args, found, scope)
        own = self.declaration(declared, found.source)
        return checks.shown(Type(own.name, args, it.line, it.path, own=own))

    def check_is_no_parameter(self, it: Type, scope: Scope):
        if len(it.path) == 1 and it.name in PARAMETERS:
            raise self.no_format(it, scope, f"the written part has a type parameter `{it.name}`; give this type another name, or bring it in under one")

    def alias_type(self, it: Type, found: Found, scope: Scope) -> Type:
        alias = found.alias
        self.check_is_no_parameter(it, scope)
        if id(alias) in scope.aliases:
            raise Refused(found.source.path, alias.line, f"the type `{alias.name}` is an alias of itself; write what it stands for")
        self.want_arguments(it, scope, len(alias.parameters))
        args = [self.type(x, scope) for x in it.args]
        inner = Scope(found.source, dict(zip(alias.parameters, args)), None, scope.aliases + (id(alias),))
        stands_for = self.type(alias.type, inner)
        text = checks.shown(Type(it.name, args, path=it.path)).text
        return Type(stands_for.name, stands_for.args, it.line, stands_for.path, stands_for.length, stands_for.parameter, stands_for.own, text)

    def length(self, it: Type, written: str, scope: Scope) -> str:
        """The number of items of an array, written as a number or as a constant of the file."""
        word = written.strip("{} ")
        number = number_of(word)
        if number is None:
            number = scope.source.file.numbers.get(word)
        if number is None:
            raise self.no_format(it, scope, f"the number of items `{written}` isn't known; write a number, or a constant of this file whose value is one")
        if not 0 <= number <= MOST_ITEMS:
            raise self.no_format(it, scope, f"an array of {number} items is too long; write at most {MOST_ITEMS}")
        return str(number)


# ---- what a declaration may be ----


# Names that the toolchain keeps for itself.
TAKEN = {"deriving", "TheVariants", "TheLinks", "TheBound", "TheImpl", "TheOwn", "TheLaws", "Prim", "Lib"}
# Type parameters of what is written.
PARAMETERS = {"S", "D"}
# Calls that each view has, of its own or of the traits of std: a field so named is shown by an accessor under another name.
CALLS = set(
    """pos part field clone clone_from drop eq ne lt le gt ge cmp partial_cmp max min clamp hash cmp_native eq_native compare_said
    into try_into""".split()
)


# ---- modules ----


def modules(paths: Sequence[str]) -> List[Module]:
    """A module for each file, in order. Raises `Refused` for what comes first."""
    world = World()
    sources: List[Source] = []
    for path in paths:
        source = world.give(path)
        if source not in sources:
            sources.append(source)
    reader = Reader(world)
    return [module(reader, it) for it in sources]


def module(reader: Reader, source: Source) -> Module:
    out = Module(source.path, source.crate, source.module, source.head, source.written)
    out.uses, out.ghost_uses = dict(source.file.uses), dict(source.file.ghost_uses)
    out.names = dict(source.file.items)
    out.globbed = reader.world.globbed(source)
    out.declarations = [one for it in source.declared.values() for one in reader.declarations(it, source)]
    if not out.declarations:
        above = " above the line that tools/derive wrote" if source.written else ""
        raise Refused(source.path, 1, f"no struct and no enum is declared here; declare one{above}")
    check_circles(out.declarations)
    checks.check_nests(out)
    checks.check_loads(out)
    checks.check_arrays(out)
    checks.check_slices(out)
    checks.check_marks(out)
    checks.check_seen(out)
    checks.check_wide(out)
    checks.check_own_names(out)
    check_drops(out)
    return out


def is_dropped(it: Declaration, source: Source) -> bool:
    """Whether a declaration has one of the traits by which its values may be let go."""
    return any(trait in it.derives or (trait, it.name) in source.file.impls for trait in DROPPED)


# What isn't proved among more than eight fields of a variant.
NOT_IN_FOURS = {"tuple", "array", "OwnedArray", "SharedSlice", "SharedStr", "WeakShared"}

# Numbers of eight bytes, and what may be beside one in a struct with type parameters.
WIDE = {"u64", "i64"}
NARROW = {"u8", "i8", "bool", "()"}
