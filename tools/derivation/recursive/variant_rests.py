"""The variants of a recursive enum, or of one that holds a recursive type, in blocks, as those of other enums (variant_blocks.py).

Whoever is passed the impl of an enum is passed those of its first block and of one type that stands for the others: of a nest of all variants each level
doubles what the check writes out, so a nest of six came to gigabytes. The laws of parts that lead back name those of the enum itself.
"""

from .. import part_laws, variant_blocks
from ..formats import snake
from ..layout import pair
from . import code, holders
from .refusals import with_rows_named
from .term_words import stem


def text(it):
    """The types that stand for the variants behind the first block, and their impls."""
    return "\n".join(Rest(it, number).text() for number in range(1, len(it.units.blocks)))


def types_in_turn(declaration):
    """The types of the fields of each variant, with those tuples that lead back as types with names."""
    return [[with_rows_named(declaration, field.type) for field in variant.fields] for variant in declaration.variants]


class Blocks:
    """How the variants go in blocks: as `Units`, but for those without fields, each of which is by itself."""

    def __init__(self, it):
        self.it = it
        self.blocks = variant_blocks.blocks_of(types_in_turn(it.declaration))

    def runs(self):
        return self.it.cases

    def tags_before(self, run):
        return run

    def nest(self, number=0):
        """The nest of a block, with the type of what is behind it."""
        begin, end = self.blocks[number]
        those = [f"{code.word(self.it, case)}Parts" if case.count else "()" for case in self.it.cases[begin:end]]
        return pair(those, variant_blocks.behind(self.it, number))


class Rest(variant_blocks.Rest):
    """The variants from a block on."""

    def parts(self, case):
        part_laws.bring(self.formats)
        told = Told(self.choice)
        return [(told.definitions(type), told.shape(type), *self.formats.layout(type), holders.laid(told, type)) for type in case.types]

    def reached(self, case):
        return holders.PartsOf(Told(self.choice), case.types).reached()


class Told:
    """A recursive type with the terms on its parts as its module says them: by the impls of their archived types."""

    def __init__(self, it):
        self.it, self.formats = it, it.formats
        self.terms = self.plain = self
        f = self.formats
        f.ghost("PartsLayout", "no_part_laid_out", "part_laid_out")
        f.ghost("NoOthers", "around_reached", "both_reached", "no_parts_reached", "part_reached")
        f.ghost("LeafLayout", "no_definition_reached")
        f.ghost("Choices", "option_has_layout", "option_reached")
        f.ghost("ResultShapes", "result_has_layout", "result_reached")
        f.ghost("SelfCheck.Arrays", "array_has_layout", "array_reaches")
        f.ghost("SelfCheck.Owners", "one_reaches", "run_reaches", "vec_reaches")
        f.ghost("Defined", *{word for way in holders.AROUND.values() for word in way.replace("(", " ").replace(")", " ").split() if word != "{}"})
        f.ghost("Shape", "part", "no_part", "one")
        self.is_member, self.n_of, self.is_row = it.terms.is_member, it.terms.n_of, it.terms.is_row

    def word(self, type):
        return self.it.word(type)

    def shape(self, type):
        return f"⟦<{code.inside(self.it, type)} as Portable>⟧.shape"

    def definitions(self, type):
        return self.formats.definitions(type)

    def parts(self, types):
        return "".join(f"(part {self.shape(type)} " for type in types) + "no_part" + ")" * len(types)

    def parts_definitions(self, types):
        return "".join(f"(both {self.definitions(type)} " for type in types) + "no_definition" + ")" * len(types)

    def described(self, which, type):
        """What stands beside the module of a recursive type, or of one that holds such a type."""
        name = f"{which}_of_{snake(type.name)}"
        path = f"{type.own.crate}.specs.{type.own.family[0].name}Shape"
        self.formats.ghosts.setdefault(path, set()).add(f"{stem(type.name)}_{which} as {name}")
        return name
