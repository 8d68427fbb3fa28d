"""The variants without fields of an enum whose calls go in groups (variant_groups.py): functions of their own resolve, serialize and read them, by their tags.

A proof by cases goes over a value that is an argument, so the type of the value isn't named: it may have arguments.
"""

from .formats import snake
from .layout import Generic, flat, signature, statement
from .made import WRITTEN

# What an `elim` of a proof is, of which that is to be said.
AS_TYPE = "as (λ _. Type 0) "
SAME = "ap (λ n. case n no_value) (sym tagged)"


class UnitFunctions:
    """The functions of variants without fields."""

    def __init__(self, groups):
        self.groups = groups
        self.functions = groups.functions
        self.choice = groups.choice
        self.units = groups.choice.units

    def name(self, which):
        return f"{which}_without_fields"

    def maker(self, number):
        """The function that makes a variant of its tag, in a group."""
        return f"{snake(self.choice.name)}_without_fields_from_{self.groups.range(number)[0]}"

    def has_no_field(self, value, typed=""):
        """That a value is none of the variants with fields."""
        return self.groups.none_before(len(self.groups.groups), value, typed)

    # ---- the functions ----

    def texts(self):
        return [self.resolve(), self.serialize(), self.read()]

    def tag_call(self):
        return f"{self.choice.name}Tag::tag(value)"

    def resolve(self):
        choice, its = self.choice, self.functions.its
        choice.formats.use("std::mem", "drop")
        arguments = [f"value: &{choice.name}", f"resolver: {choice.resolver}", f"place: Place<'_, {choice.archived}>"]
        # Where a field has an `Option`, the body has one: else the borrow checker "was not told which modules hold the type `core::option::Option`".
        dropped = "Some(resolver)" if any(choice.formats.any_of(type, ("Option",)) for type in choice.all_types) else "resolver"
        return f"""    // Writes a variant without fields over its place.
{signature(f"fn {self.name('resolve')}", [], arguments, "Result<(), Error>", 4)}
        requires from {{ {self.has_no_field("value.now")} }}
        requires zeroed {{ ZeroedPlace {choice.size} place.pos place.bytes.now }}
        ensures {{ ResolvesAs ⟦<{choice.archived} as Portable>⟧ place ({its}.flat value.now resolver) result }}
    {{
        drop({dropped});
        let Place {{ bytes, pos, .. }} = place;
{statement(8, "", self.functions.unit_call(self.tag_call()), "")}    }}
"""

    def serialize(self):
        choice, its = self.choice, self.functions.its
        bound = choice.formats.writer_bound(choice.all_types)
        serialized = Generic("serialize_case_0", [choice.archived, "S"], [self.tag_call(), "serializer"])
        return f"""    // Writes what a variant without fields owns: nothing.
{signature(f"fn {self.name('serialize')}", [f"S: {bound}"], [f"value: &{choice.name}", "serializer: &mut S"], f"Result<{choice.resolver}, Error>", 4)}
        requires from {{ {self.has_no_field("value.now")} }}
        ensures {{ Serializes {its} ⟦<{choice.archived} as Portable>⟧ value.now S.Keys serializer result }}
    {{
{statement(8, "match ", serialized, " {")}            Ok(()) => Ok({choice.resolver}::{self.units.name}),
            Err(error) => Err(error),
        }}
    }}
"""

    def read(self):
        choice, its = self.choice, self.functions.its
        bound = choice.formats.reader_bound(choice.all_types)
        part = f"⟦<{choice.archived} as ArchivePointee>⟧"
        arguments = [f"value: {choice.name}", "tag: u8", "alloc: Global", "part: RawView<'_>", "deserializer: &mut D"]
        read = Generic("read_case", ["Self", "()", "()", "D"], ["tag", "alloc", "part", "deserializer"])
        return f"""    // Reads a variant without fields back, which was made of its tag.
{signature(f"fn {self.name('read')}", [f"D: {bound}"], arguments, f"Result<{choice.name}, Error>", 4)}
        requires viewed {{ IsPartOf {part} part }}
        requires tag {{ part_tag part ≡ tag }}
        requires variant {{ variant_in ⟦<{choice.archived} as Portable>⟧.shape tag ≡ Some no_part }}
        requires meaning {{ {its}.meaning value ≡ case tag no_value }}
        requires keys {{ {its}.keys value ≡ [] }}
        ensures {{ ReadsAs {part} part D.Entries deserializer {its} result }}
    {{
{statement(8, "match ", read, " {")}            Ok(()) => Ok(value),
            Err(error) => Err(error),
        }}
    }}
"""

    def made(self, number):
        """The function that makes a variant of its tag, in a group that has some."""
        choice, groups = self.choice, self.groups
        its, tags, those = self.functions.its, groups.range(number), groups.units_in(number)
        known = [f"from {{ {tags[0]} ≤ tag }}"] if tags[0] else []
        known += [f"below {{ tag < {tags[-1] + 1} }}"] + [f"not_{tag} {{ tag ≢ {tag} }}" for tag in tags if choice.cases[tag].count]
        requires = "".join(f"    requires {it}\n" for it in known)
        arms = "".join(f"        {'_' if case is those[-1] else case.tag} => {flat(case.pattern())},\n" for case in those)
        return f"""// The variant with this tag, which has no fields.
fn {self.maker(number)}(tag: u8) -> {choice.name}
{requires}    ensures variant {{ variant_in ⟦<{choice.archived} as Portable>⟧.shape tag ≡ Some no_part }}
    ensures meaning {{ {its}.meaning result ≡ case tag no_value }}
    ensures keys {{ {its}.keys result ≡ [] }}
{{
    match tag {{
{arms}    }}
}}

"""

    # ---- proofs ----

    def proofs(self, module, dotted):
        """By their paths in the crate."""
        found = {"resolve": self.resolve_answers, "serialize": self.serialize_answers}
        of = self.choice.archived
        return {f"proofs/{module}/{of}/{self.name(which)}/Answers.antt": answers(f"{dotted}.{of}.{self.name(which)}") for which, answers in found.items()}

    def by_tag(self, said, same, indent=0):
        """The proof of something of the value `v` with the tag `t`, by cases, in a line with this indent."""
        has_tag = self.choice.elim(f"v {AS_TYPE.strip()}", lambda case: f"t ≡ {case.tag}")
        arms = self.units.by_case(f"λ t none tagged. {same}", "λ t none tagged. absurd none", indent + 2)
        return f"""((elim c.args.value.now as (λ v. (t : ℕ) → ({self.has_no_field("v", AS_TYPE)}) → ({has_tag}) → {said}) [
{arms}{" " * indent}]) c.tag.result c.requires.from c.tag.ensures)"""

    def brought(self, *more):
        """What a proof brings in beside the goals, and these of an impl each."""
        choice = self.choice
        declared, contracts = (choice.declaration.home("specs", it) for it in ("declared", "contracts"))
        names = ", ".join(sorted(f"{case.name} as {case.word}" for case in choice.cases))
        impls = "".join(f"use Rattle.{contracts}.{impl}.TheImpl.{{{names}}}\n" for impl, names in more)
        return f"""use Rattle.std.proofs.Common.{{◌≡◌, ℕ, Some, [], ap, refl, sym}}
use Rattle.archive_core.specs.Plain.{{variant_in}}
use Rattle.archive_core.specs.Shape.{{no_part}}
use Rattle.archive_core.specs.Value.{{case, no_value}}
use Rattle.{declared}.{choice.declaration.declared_name}.TheVariants.{{{names}}}
{impls}"""

    def requires_answer(self, call, given):
        step = f"{call}-requires-clause-variant"
        return f"""
-- No part is behind its tag.
pub {step} : goal.{step}
{step} {given} = {self.by_tag("variant_in (shape-value).it t ≡ Some no_part", "rw tagged refl")}
"""

    def resolve_answers(self, dotted):
        """It is flat as its tag."""
        choice, unit = self.choice, self.functions.unit
        brought = self.brought((f"{choice.archived}Portable", "shape-value"), (f"{choice.name}Archive", "flat-value"))
        flat_as = self.by_tag("(flat-value).it v c.args.resolver ≡ case t no_value", SAME, 4)
        return f"""-- {WRITTEN}
use Rattle.std.proofs.Common.{{rules}}
{brought}use Rattle.{dotted}.Goals as goal
{self.requires_answer(unit, "c")}
pub returns : goal.returns
returns c =
    let e = {flat_as} in
    grind (e, c.{unit}.ensures, rules)
"""

    def serialize_answers(self, dotted):
        """It means its tag, with nothing of its own."""
        choice, kept = self.choice, f"{self.choice.name}Kept"
        values = ", ".join(f"{it}-value" for it in ("belongs", "flat", "keys", "meaning"))
        brought = self.brought((f"{choice.archived}Portable", "shape-value"), (f"{choice.name}Archive", values))
        kept_of = f"use Rattle.{choice.declaration.home('specs', 'declared')}.{choice.resolver}.TheVariants.{{{self.units.name} as {kept}}}\n"
        facts = {
            "keys": self.by_tag("(keys-value).it v ≡ []", "refl", 4),
            "meaning": self.by_tag("(meaning-value).it v ≡ case t no_value", SAME, 4),
            "flat": self.by_tag(f"(flat-value).it v {kept} ≡ case t no_value", SAME, 4),
            "belongs": self.by_tag(f"(belongs-value).it v {kept}", "tt", 4),
        }
        lets = "".join(f"    let its_{name} = {proof} in\n" for name, proof in facts.items())
        return f"""-- {WRITTEN}
{brought}{kept_of}use Rattle.{dotted}.Goals as goal
{self.requires_answer("serialize_case_0", "g c")}
pub returns-in-Ok : goal.returns-in-Ok
returns-in-Ok g c =
{lets}    record {{
      serialized = rw (its_keys, its_meaning, its_flat) c.in-Ok.ensures.serialized;
      same_value = its_belongs;
      goes_on = c.serialize_case_0.ensures.goes_on;
      refused = tt;
    }}
"""
