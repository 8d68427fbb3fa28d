"""Enums of more variants than the toolchain takes at once: the variants go in blocks.

Behind the variants of a block there is a type without values. It stands for those of the next block with all that is behind it, so a call passes the impls of
one block and one more: in a nest of all of them they grow with the square of how many there are. Its members are those of the nest that it stands for, so
tags, offsets and contracts are those of the variants one after another.
"""

from . import evidence, part_laws
from .formats import ALIGNS
from .layout import call, statement
from .loads import MOST_OF_VARIANTS, Loads
from .part_laws import bare

# Up to so many variants are one nest.
MOST_IN_NEST = 8
# The most that the variants of one block come to, where there are several, and how many there are.
MOST_OF_BLOCK = 6_000
MOST_IN_BLOCK = 4
# What a block more costs, in lines of evidence.
COST = 35_000


def blocks_of(types):
    """Where each block begins and ends among the variants, by the types of their fields: a run of variants without fields is one without. Those blocks that
    cost the least."""
    loads = Loads()
    least = [(0, [])]
    for end in range(1, len(types) + 1):
        begins = [begin for begin in range(max(0, end - MOST_IN_BLOCK), end) if begin == end - 1 or loads.of_variants(types[begin:end]) <= MOST_OF_BLOCK]
        least.append(min((least[begin][0] + COST + evidence.variants(types[begin:end]), [*least[begin][1], (begin, end)]) for begin in begins))
    if len(types) <= MOST_IN_NEST and loads.of_variants(types) <= MOST_OF_VARIANTS:
        least.append(min(least[-1], (COST + evidence.variants(types), [(0, len(types))])))
    return least[-1][1]


def rest_of(choice, number):
    """The type that stands for the variants from this block on."""
    return f"{choice.name}Rest{number}"


def behind(choice, number):
    """The type of what is behind a block."""
    return rest_of(choice, number + 1) if number + 1 < len(choice.units.blocks) else "()"


def text(choice):
    """The types that stand for the variants behind the first block, and their impls."""
    return "\n".join(Rest(choice, number).text() for number in range(1, len(choice.units.blocks)))


class Rest:
    """The variants from a block on."""

    def __init__(self, choice, number):
        self.choice = choice
        self.formats = choice.formats
        begin, end = choice.units.blocks[number]
        runs = choice.units.runs()
        self.runs = runs[begin:end]
        self.is_last = end == len(runs)
        self.name = rest_of(choice, number)
        self.behind = behind(choice, number)
        self.nest = f"{choice.name}Block{number}"
        self.number = number
        self.cases = [run for run in runs[begin:] if not isinstance(run, int)]

    def text(self):
        f, choice = self.formats, self.choice
        f.use("archive_core::self_check", "CheckedVariants")
        f.use("archive_core::traits", "PortableVariants")
        f.use("archive_core::validation", "ArchiveContext")
        first = choice.cases[choice.units.tags_before(choice.units.blocks[self.number][0])].name
        return f"""/// The variants of `{choice.name}` from `{first}` on, as one type: it has no values.
{choice.visibility}struct {self.name};

{statement(0, f"type {self.nest} = ", choice.units.nest(self.number), ";")}
{self.checked()}
{self.portable()}"""

    def members(self, trait, names):
        return "".join(f"    ghost {it} = {{ ⟦<{self.nest} as {trait}>⟧.{it} }};\n\n" for it in names)

    def law(self, which, end):
        """A law of what is behind the block."""
        if self.is_last:
            return end
        return self.formats.impl_law(self.choice.declaration, f"{self.behind}PortableVariants", which, f"{which}_behind")

    def folded(self, of_units, of_case, end):
        out = end
        for run in reversed(self.runs):
            out = of_units(run, out) if isinstance(run, int) else of_case(run, out)
        return out

    def checked(self):
        """As variants that are checked."""
        checked = call(f"<{self.nest} as CheckedVariants>::check_variant", ["bytes", "base", "tag", "refusal", "context"])
        return f"""impl CheckedVariants for {self.name} {{
{self.members("CheckedVariants", ("variants", "definitions", "end", "direct"))}    fn are_direct() -> bool {{
        <{self.nest} as CheckedVariants>::are_direct()
    }}

    #[inline(always)]
    fn check_variant<C: ArchiveContext>(
        bytes: &[u8],
        base: usize,
        tag: usize,
        refusal: &mut Error,
        context: &mut C,
    ) -> Option<bool> {{
{statement(8, "", checked, "")}    }}
}}
"""

    def portable(self):
        """As variants that are laid out."""
        f = self.formats
        align = max([1] + [case.align for case in self.cases])
        laws = {
            "is_align": ALIGNS[align],
            "laid_out": self.laid_out(),
            "no_others": self.no_others(),
            "sized": self.sized(),
            "within": self.within(),
        }
        told = "".join(f"    ghost {name} = {{ {bare(term)} }};\n\n" for name, term in laws.items())
        return f"""impl PortableVariants for {self.name} {{
{f.law_lines()}{self.members("PortableVariants", ("greatest", "begin", "size_at"))}{told}    fn align() -> usize {{
        <{self.nest} as PortableVariants>::align()
    }}

    #[inline(always)]
    fn longest_end() -> usize {{
        <{self.nest} as PortableVariants>::longest_end()
    }}

    #[inline(always)]
    fn payload_offset(tag: usize, i: usize) -> usize {{
        <{self.nest} as PortableVariants>::payload_offset(tag, i)
    }}

    fn push_variants(
        alloc: Global,
        list: &mut Vec<Vec<archive_core::shape::Expr>>,
    ) -> Result<(), Error> {{
        <{self.nest} as PortableVariants>::push_variants(alloc, list)
    }}

    fn define(alloc: Global, defs: &mut Defs) -> Result<(), Error> {{
        <{self.nest} as PortableVariants>::define(alloc, defs)
    }}
}}
"""

    # ---- the laws, of the parts of each variant ----

    def laid_out(self):
        f = self.formats
        f.ghost("VariantsLayout", "no_variant_laid_out", "variant_laid_out")
        f.ghost("Units", "units_laid_out")
        of_units = lambda count, out: f"(units_laid_out {count} _ _ _ _ _ {out})"
        of_case = lambda case, out: f"(variant_laid_out _ _ _ _ _ _ {part_laws.laid_out(self.parts(case))} _ _ _ _ {out})"
        return self.folded(of_units, of_case, self.law("laid_out", "no_variant_laid_out"))

    def no_others(self):
        f = self.formats
        f.ghost("VariantsLayout", "no_variants_reached", "variant_reached")
        f.ghost("Units", "units_reached")
        out = self.law("no_others", "no_variants_reached")
        for i, run in reversed(list(enumerate(self.runs))):
            behind = f"{self.defined_behind(i)} %s{self.variants_behind(i)}"
            if isinstance(run, int):
                out = f"(units_reached {run} {behind % ''} {out})"
            else:
                out = f"(variant_reached {run.defined} {behind % (run.parts + ' ')} {self.reached(run)} {out})"
        return out

    def sized(self):
        f = self.formats
        f.ghost("VariantsHeld", "no_payload_sized", "payload_sized")
        f.ghost("Units", "units_sized")
        out = self.law("sized", "no_payload_sized")
        for i, run in reversed(list(enumerate(self.runs))):
            behind = self.variants_behind(i)
            if isinstance(run, int):
                out = f"(units_sized {run} {self.defined_behind(i)} {behind} _ {out})"
            else:
                out = f"(payload_sized {run.defined} {self.defined_behind(i)} {run.parts} _ {part_laws.sized(self.parts(run))} {behind} _ {out})"
        return out

    def within(self):
        f = self.formats
        f.ghost("VariantsHeld", "no_payload_within", "payload_within")
        f.ghost("Units", "units_within")
        of_units = lambda count, out: f"(units_within {count} _ _ _ {out})"
        of_case = lambda case, out: f"(payload_within _ _ _ {self.parts_within(case)} _ _ _ {out})"
        return self.folded(of_units, of_case, self.law("within", "no_payload_within"))

    def variants_behind(self, i):
        """The shapes of the variants behind one of the block."""
        out = "no_variant" if self.is_last else f"⟦<{self.behind} as CheckedVariants>⟧.variants"
        for run in reversed(self.runs[i + 1 :]):
            out = f"(units {run} {out})" if isinstance(run, int) else f"(variant {run.parts} {out})"
        return out

    def defined_behind(self, i):
        """The definitions that they bring."""
        out = "no_definition" if self.is_last else f"⟦<{self.behind} as CheckedVariants>⟧.definitions"
        for run in reversed(self.runs[i + 1 :]):
            out = f"(unit_definitions {run} {out})" if isinstance(run, int) else f"(both {run.defined} {out})"
        return out

    def parts(self, case):
        part_laws.bring(self.formats)
        return part_laws.parts_of(self.formats, case.types)

    def reached(self, case):
        """That its parts bring no definition."""
        self.formats.ghost("LeafLayout", "no_definition_reached")
        return f"(no_definition_reached (parts {case.parts}))"

    def parts_within(self, case):
        parts = self.parts(case)
        return f"({part_laws.within_from(1, parts, part_laws.within(parts[1:]))})" if parts else "(within_at 1)"
