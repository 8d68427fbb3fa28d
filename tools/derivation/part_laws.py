"""The laws of parts one after another, as terms: those of a block of fields (blocks.py), and of the fields of a variant (variant_blocks.py).

A part is its definitions, shape, size and alignment, and a proof of these two. Each term stands over one for what is behind the parts: nothing, unless it is
said.
"""

from .common import chain
from .formats import ALIGNS


# That a part has its layout, which is computed, but for what is behind a name.
COMPUTED = "(record { solved = λ s k. refl })"


def parts_of(formats, types):
    """The parts that fields of these types are."""
    return [(formats.definitions(type), formats.shape(type), *formats.layout(type), COMPUTED) for type in types]


def bring(formats):
    """Brings in what the terms name."""
    formats.ghost("SelfCheck.Regions", "no_lower", "rises_over")
    formats.ghost("PartsLayout", "first_or", "no_part_laid_out", "no_part_sized", "part_laid_out", "part_sized", "within_at", "within_over")
    formats.ghost("Layout", "up")


def bare(term):
    """Without the outermost brackets."""
    return term[1:-1] if term.startswith("(") and term.endswith(")") else term


def solved(size, align, law):
    """A layout, and that it is the type's."""
    return f"(record {{ size = {size}; align = {align} }}) {law}"


def laid_out(parts, end="no_part_laid_out"):
    """Where each part lies."""
    for D, X, *layout in reversed(parts):
        end = f"(part_laid_out {D} _ {X} {solved(*layout)} _ _ _ _ {end})"
    return end


def sized(parts, end="no_part_sized", defined="no_definition", shapes="no_part", sizes="(λ i. 0)"):
    """What each part takes."""
    for i, (D, X, *layout) in reversed(list(enumerate(parts))):
        later = parts[i + 1 :]
        behind = [chain("both", [it[0] for it in later], defined), chain("part", [it[1] for it in later], shapes), chain("first_or", [str(it[2]) for it in later], sizes)]
        end = f"(part_sized {D} {behind[0]} {X} {solved(*layout)} {behind[1]} {behind[2]} {end})"
    return end


def rises(parts, end="no_lower"):
    """That the end of the parts isn't below where they begin."""
    for _, _, size, align, _ in reversed(parts):
        end = f"(λ n. rises_over n {align} {size} ({ALIGNS[align]}) _ {end})"
    return end


def within(parts, end="within_at", risen="no_lower"):
    """That each part ends where all do at most, wherever they begin."""
    for i in reversed(range(len(parts))):
        end = f"(λ n. {within_from('n', parts[i:], end, risen)})"
    return end


def within_from(start, parts, end, risen="no_lower"):
    """The same where they begin at `start`: `end` is the term for the parts behind the first one."""
    (_, _, size, align, _), *later = parts
    return f"within_over (up {start} {align}) {size} _ _ _ {rises(later, risen)} {end}"
