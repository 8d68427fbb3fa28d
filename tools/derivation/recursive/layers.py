"""Types that hold themselves behind boxes and vectors: what is known of such a declaration, and the files that are written for it."""

from . import chains, code, proofs, specs, variant_rests, writers
from ..formats import Formats, layout_of, snake
from ..model import Field, Type
from .refusals import MOST_BY_NAME
from .slices import is_shared_slice
from .terms import Terms
from .term_words import element, has_elements, is_map

WRITTEN = "Written by tools/derive: change the declaration, and run it again."


class Case:
    """A variant, or all fields of a record, as parts."""

    def __init__(self, whole, name, n, tag, form, fields, docs):
        formats = whole.formats
        self.name, self.n, self.tag, self.form, self.fields, self.docs = name, n, tag, form, fields, docs
        self.parts, self.defined = f"{n}_parts", f"{n}_definitions"
        self.types = [field.type for field in fields]
        self.count = len(fields)
        self.names = [f"a{i}" for i in range(self.count)]
        self.binders = self.names
        self.rust = [formats.rust(type) for type in self.types]
        self.read = [formats.rust(type) if whole.terms.leads_back(type) else formats.read_as(type) for type in self.types]  # what the parts are read back as
        self.archived = [formats.archived(type) for type in self.types]
        sizes = layout_of([formats.layout(type) for type in self.types], 0 if tag is None else 1)
        self.align, self.offsets, self.end = sizes[1:]
        self.leads_back = [whole.terms.leads_back(type) for type in self.types]
        self.is_record, self.is_row = tag is None, False
        self.is_long = self.count > MOST_BY_NAME  # resolved as a nest of fields that are lent


class Row(Case):
    """The parts of a tuple that leads back, as of a record that stands for itself; of one that is a field each is named after that."""

    def __init__(self, whole, type, name=""):
        super().__init__(whole, "", whole.word(type), None, "tuple", [Field(str(i), arg, type.line) for i, arg in enumerate(type.args)], [])
        self.is_row, self.tuple, self.whole = True, type, whole.formats.archived(type)
        self.first_back = self.leads_back.index(True)
        if name:
            self.names = [f"{name}_{i}" for i in range(self.count)]


class Family:
    """Types that hold each other, or one that holds itself. Cycles of functions and files are named after the first."""

    def __init__(self, formats, declaration):
        self.members = []
        for its in declaration.family:
            self.members.append(Recursive(formats, its, self))
        self.first = self.members[0]
        self.n, self.name, self.crate, self.module = self.first.n, self.first.name, self.first.declaration.crate, self.first.declaration.module
        # as the toolchain has them in its folds: enums before structs
        self.ordered = sorted(self.members, key=lambda it: (it.is_record, it.name))
        # those first that others hold behind no pointer
        self.inner_first = sorted(self.members, key=lambda it: it.nest)
        self.most_nest = self.inner_first[-1].nest
        # whether the layout of one rests on that of another, or of one of another family
        self.is_nested = self.most_nest > 0 or bool(self.first.inner)
        self.shares = self.first.terms.shares
        self.rows = [type for it in self.members for type in it.rows]
        self.deepest = max((depth for it in self.members for depth in map(it.depth, it.owners)), default=0)

    def member(self, declaration):
        return next(it for it in self.members if it.declaration is declaration)

    def declared(self, *more):
        """The module of what the toolchain says of a type of the family."""
        return ".".join((self.crate, "specs", "declared") + tuple(self.module) + more)


class Recursive:
    """A declaration that holds itself."""

    def __init__(self, formats, declaration, family):
        self.formats, self.family = formats, family
        self.declaration = declaration
        self.terms = Terms(declaration)
        self.name, self.archived = declaration.name, declaration.archived
        self.resolver = f"{declaration.name}Resolver"
        self.seen = f"{declaration.visibility} " if declaration.visibility else ""
        self.n = self.terms.n
        self.source = f"{declaration.name}-Source"  # the type as antt has it, under a name that nothing else has
        self.written = WRITTEN
        self.itself = Type(declaration.name, own=declaration)
        writer = formats.writer_bound([self.itself], whole=True)
        self.writer = f"S: {writer if writer.startswith('Sharing') else writer.replace('Writer', 'Writer + Keys')}"
        self.reader = f"D: {formats.reader_bound([self.itself])}"
        self.is_record = declaration.kind == "struct"
        self.is_alone = len(declaration.family) == 1
        self.is_holder = declaration.holder  # nothing in it leads back to it
        # types of other families in it: what they define is defined with it
        self.inner = self.terms.inner
        self.is_simple = self.is_alone and not self.inner
        self.is_chain = not self.is_holder and not self.inner and chains.is_chain(declaration, self.terms.leads_back)
        # under which names the variants of layers, of a value and of its resolver are brought in
        several = sum(its.kind == "enum" for its in declaration.family) > 1
        self.layer, self.its, self.kept = "Layer", *(f"{word}{declaration.name}" if several else word for word in ("Its", "Kept"))
        self.tag = None
        if self.is_record:
            self.cases = [Case(self, self.name, self.n, None, declaration.form, declaration.fields, declaration.docs)]
            whole = self.cases[0]
            self.types, self.fields, self.names = whole.types, declaration.fields, whole.names
            self.binders = [f"t.{field.name}" for field in declaration.fields]
        else:
            self.cases = [
                Case(self, variant.name, f"{self.n}_{snake(variant.name)}", tag, variant.form, variant.fields, variant.docs)
                for tag, variant in enumerate(declaration.variants)
            ]
            self.visibility, self.units = self.seen, variant_rests.Blocks(self)
        self.align = max(case.align for case in self.cases)
        self.size = -(-max(case.end for case in self.cases) // self.align) * self.align
        self.owners = self.owners_of()
        self.rows = [type for type in self.owners if self.terms.is_row(type)]
        self.maps = [type for type in self.owners if is_map(type)]
        self.nest = nest_of(declaration)
        # a struct of which only one vector leads back: what a value without elements owns is written in line
        self.is_tree = self.is_record and self.is_simple and [type.name for type in self.owners] == ["Vec"] and sum(self.cases[0].leads_back) == 1

    def owners_of(self):
        """The owners of the family that its parts name and that no type before it does, each once, with what they hold first."""
        found = []
        before = [self.word(type) for it in self.family.members for type in it.owners]

        def go(type):
            for arg in type.args:
                go(arg)
            if is_map(type) and self.terms.leads_back(type):
                go(element(type))
            if self.terms.leads_back(type) and not self.terms.is_member(type) and self.word(type) not in before + [self.word(other) for other in found]:
                found.append(type)

        for case in self.cases:
            for type in case.types:
                go(type)
        return found

    def is_written(self, type):
        """Whether a function writes what an owner owns: what is in an option is written with it, and a vector in a box by a function of its own."""
        parts = [part for it in self.family.members for case in it.cases for part in case.types if self.terms.leads_back(part)]
        parts += [part.args[0] for part in parts if part.name == "Box"]
        parts += [arg for part in parts if self.terms.is_row(part) for arg in part.args if self.terms.leads_back(arg)]
        return not self.terms.is_row(type) and any(self.word(part) == self.word(type) for part in parts)

    def row(self, type, name=""):
        return Row(self, type, name)

    def row_name(self, type):
        """The type by which functions know an archived tuple: `PairStringJson`."""
        return "".join(word.capitalize() for word in self.word(type).split("_"))

    def is_first_run(self, type):
        """Whether a vector, a boxed slice or an array is the first one of its elements that a function writes: that of the elements stands with it."""
        runs = [run for it in self.family.members for run in it.owners if has_elements(run) and it.is_written(run)]
        return type is next(run for run in runs if self.word(run.args[0]) == self.word(type.args[0]))

    def is_first_keyed(self, item):
        """Whether the elements of a vector are the first that lead to their type of the family by a shared pointer or by none: it is written under a key by a
        function that stands with them."""
        items = [run.args[0] for it in self.family.members for run in it.owners if has_elements(run) and it.is_written(run) and it.is_first_run(run)]
        leads_to = writers.member_behind
        first = next((other for other in items if self.terms.is_nullable(other) and self.terms.is_nullable(item) and leads_to(self, other).own is leads_to(self, item).own), None)
        return item is first

    def word(self, type):
        """What functions of an owner are called by: `box_expr`."""
        return self.terms.word(type)

    def depth(self, type):
        """How many owners a type has around one of the family: of a shared slice the elements are read by a function of their own."""
        around = 2 if is_shared_slice(type) else 1
        return 0 if self.terms.is_member(type) else around + max(self.depth(arg) for arg in type.args if self.terms.leads_back(arg))

    def antt(self, type, held=None):
        """A type as antt has it; `held` has what stands in place of each type of the family, by its name."""
        if held and self.terms.is_member(type):
            return held[type.name]
        if not self.terms.leads_back(type):
            return self.terms.plain.antt(type)
        if self.terms.is_member(type):
            return f"{type.name}-Source"
        if type.name == "tuple":
            return f"({' × '.join(self.antt(arg, held) for arg in type.args)})"
        if type.name == "Option":
            return f"(Option {self.antt(type.args[0], held)})"
        if type.name == "array":
            return f"(List {self.antt(type.args[0], held)})"
        if is_map(type):
            return f"(BTreeMap {' '.join(self.antt(arg, held) for arg in type.args)})"
        return f"({type.name} {self.antt(type.args[0], held)})" if type.name in ("Shared", "SharedSlice", "WeakShared") else f"({type.name} {self.antt(type.args[0], held)} Global)"

    def plain_types(self, body):
        """The lines that bring in the types of plain parts that `tools/derive` wrote."""
        lines = ""
        found = {}

        def go(type):
            if type.own is not None and not self.terms.is_member(type):
                found[type.name] = type.own
            for arg in type.args:
                go(arg)

        for case in self.cases:
            for type in case.types:
                go(type)
        for name, own in sorted(found.items()):
            if f"{name}-Source" in body:
                lines += f"use Rattle.{'.'.join((own.crate, 'specs', 'declared') + tuple(own.module))}.{name}.{{{name} as {name}-Source}}\n"
        return lines

    def shape_names(self):
        n = self.n
        names = [f"{n}_name", f"{n}_shape", f"{n}_definitions"]
        names += [f"{self.word(type)}_{what}" for type in self.rows for what in ("shape", "parts", "definitions", "has_parts")]
        if self.is_record:
            return names + [f"{n}_parts", f"{n}_part_definitions", f"{n}_has_parts"]
        names += [f"{n}_variants", f"{n}_variant_definitions", f"{n}_has_variants"]
        return names + [f"{case.n}_{what}" for case in self.cases for what in ("parts", "definitions")]


def nest_of(declaration):
    """How many types of its family are in one another, behind no pointer, in a type."""
    inner = [field.type.own for field in declaration.all_fields() if any(field.type.own is it for it in declaration.family)]
    return 1 + max(map(nest_of, inner)) if inner else 0


def text(formats, declaration):
    return code.text(Family(formats, declaration).member(declaration))


def files(module):
    """The files beside the module, by their paths in the crate's folder."""
    out, formats = {}, Formats(module)
    for declaration in module.declarations:
        if declaration.part_by_part and declaration is declaration.family[0]:
            family = Family(formats, declaration)
            out[f"specs/{family.name}Shape.antt"] = specs.shape(family)
            out[f"specs/{family.name}Meaning.antt"] = specs.meaning(family)
            out.update(proofs.files(family))
    return out
