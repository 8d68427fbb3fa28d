"""Enums of more variants than one body calls the functions of (variant_functions.py): their calls go in groups.

Behind the variants of a group its body calls a function that has those of the next one, so a body takes what it would take in an enum of as many variants as
are in a group. That function requires that the value is none of the variants before it, or that its tag is at least the first of its own. Variants without
fields are behind all groups where a value is looked at (variant_units.py), and in the group that their tags are in where a tag is.
"""

from .layout import call, signature, statement
from .made import WRITTEN
from .variant_units import AS_TYPE, UnitFunctions

# Up to so many variants have their calls in one body.
MOST_IN_BODY = 28
# How many are in a group, where they are more.
MOST_IN_GROUP = 16


def groups_of(cases, one_body):
    """The variants group by group, in order; one group of them all where they are to have one body."""
    if one_body:
        return [cases]
    return [cases[begin : begin + MOST_IN_GROUP] for begin in range(0, len(cases), MOST_IN_GROUP)]


class Groups:
    """The groups of an enum's variants, and the functions of those behind the first one."""

    def __init__(self, functions, are):
        self.functions = functions
        self.choice = functions.choice
        self.are = are
        self.groups = groups_of(functions.cases, not are)
        self.of_units = UnitFunctions(self) if are and self.choice.units.are else None
        self.ends = [group[0].tag for group in self.groups[1:]] + [len(self.choice.cases)]
        if are:
            self.choice.formats.ghost("std.specs.Prelude", "◌<◌", "◌≤◌")

    # ---- the calls of them ----

    def has_behind(self, number):
        """Whether a group has something behind it: another one, or the variants without fields."""
        return number + 1 < len(self.groups) or self.of_units is not None

    def behind(self, number, which, pattern, arguments):
        """The arm that calls the function of what is behind a group; nothing behind the last."""
        if not self.has_behind(number):
            return ""
        return statement(12, f"{pattern} => ", call(f"{self.choice.archived}::{self.name(number + 1, which)}", arguments), ",")

    def resolve_behind(self, number, value):
        return self.behind(number, "resolve", "_", [value, "resolver", "Place::new(pos, bytes)"])

    def serialize_behind(self, number, value):
        return self.behind(number, "serialize", "_", [value, "serializer"])

    def read_behind(self, number):
        """The arm of the tags that no variant of a group has: those without fields up to the next group, and what is from that one on."""
        units, archived = self.units_in(number), self.choice.archived
        is_last = number + 1 == len(self.groups)
        others = "" if is_last else call(f"{archived}::{self.name(number + 1, 'read')}", ["tag", "alloc", "part", "deserializer"])
        if not units:
            return statement(12, "tag => ", others, ",") if others else ""
        unit = call(f"{archived}::{self.of_units.name('read')}", [f"{self.of_units.maker(number)}(tag)", "tag", "alloc", "part", "deserializer"])
        if is_last:
            return statement(12, "tag => ", unit, ",")
        return f"""            tag => {{
                if tag < {self.ends[number]} {{
{statement(20, "", unit, "")}                }} else {{
{statement(20, "", others, "")}                }}
            }}
"""

    def name(self, number, which):
        return f"{which}_from_{self.groups[number][0].tag}" if number < len(self.groups) else self.of_units.name(which)

    def range(self, number):
        """The tags of a group: from its first on, of the first group from 0 on."""
        return range(self.ends[number - 1] if number else 0, self.ends[number])

    def units_in(self, number):
        """The variants without fields whose tags are in a group."""
        return [self.choice.cases[tag] for tag in self.range(number) if self.of_units and not self.choice.cases[tag].count]

    def is_closed(self, number, case):
        """Whether the arm of a variant is the last of its body: all other tags were before."""
        return number + 1 == len(self.groups) and case is self.groups[number][-1] and not self.units_in(number)

    # ---- the functions ----

    def texts(self, resolve_arms, serialize_arms, read_arms):
        """Of each group behind the first one, with what writes its arms."""
        out = []
        for number in range(1, len(self.groups)):
            out.append(self.resolve(number, resolve_arms(number, "value")))
            out.append(self.serialize(number, serialize_arms(number, "value")))
            out.append(self.read(number, read_arms(number)))
        return out

    def units(self):
        """The functions of the variants without fields."""
        return self.of_units.texts() if self.of_units else []

    def makers(self):
        """Those that make a variant without fields of its tag, of each group that has some."""
        return "".join(self.of_units.made(number) for number in range(len(self.groups)) if self.units_in(number))

    def none_before(self, number, value, typed=""):
        """That a value is none of the variants before a group. Within a proof the type of an `elim` is to be said."""
        return f"elim {value} {typed}[ " + "".join(f"{case.bound()} ↦ ⊥ | " for case in self.before(number)) + "_ ↦ Unit {0} ]"

    def matched(self, number, arms):
        """The `match` of a value: in the last group all others were before."""
        other = "" if self.has_behind(number) else "            _ => unreachable!(),\n"
        return f"        match value {{\n{arms}{other}        }}\n"

    def resolve(self, number, arms):
        choice, of = self.choice, self.functions
        first = self.groups[number][0].name
        arguments = [f"value: &{choice.name}", f"resolver: {choice.resolver}", f"place: Place<'_, {choice.archived}>"]
        return f"""    // Writes a variant from `{first}` on over its place.
{signature(f"fn {self.name(number, 'resolve')}", [], arguments, "Result<(), Error>", 4)}
        requires from {{ {self.none_before(number, "value.now")} }}
        requires zeroed {{ ZeroedPlace {choice.size} place.pos place.bytes.now }}
        requires same_value {{ {of.its}.belongs value.now resolver }}
        ensures {{ ResolvesAs ⟦<{choice.archived} as Portable>⟧ place ({of.its}.flat value.now resolver) result }}
    {{
        let Place {{ bytes, pos, .. }} = place;
{self.matched(number, arms)}    }}
"""

    def serialize(self, number, arms):
        choice, of = self.choice, self.functions
        first = self.groups[number][0].name
        bound = choice.formats.writer_bound(choice.all_types)
        arguments = [f"value: &{choice.name}", "serializer: &mut S"]
        return f"""    // Writes what a variant from `{first}` on owns.
{signature(f"fn {self.name(number, 'serialize')}", [f"S: {bound}"], arguments, f"Result<{choice.resolver}, Error>", 4)}
        requires from {{ {self.none_before(number, "value.now")} }}
        ensures {{ Serializes {of.its} ⟦<{choice.archived} as Portable>⟧ value.now S.Keys serializer result }}
    {{
{self.matched(number, arms)}    }}
"""

    def read(self, number, arms):
        choice, of = self.choice, self.functions
        first = self.groups[number][0]
        bound = choice.formats.reader_bound(choice.all_types)
        part = f"⟦<{choice.archived} as ArchivePointee>⟧"
        arguments = ["tag: u8", "alloc: Global", "part: RawView<'_>", "deserializer: &mut D"]
        return f"""    // Reads a variant from `{first.name}` on back.
{signature(f"fn {self.name(number, 'read')}", [f"D: {bound}"], arguments, f"Result<{choice.name}, Error>", 4)}
        requires viewed {{ IsPartOf {part} part }}
        requires tag {{ part_tag part ≡ tag }}
        requires from {{ {first.tag} ≤ tag }}
        requires below {{ tag < {len(choice.cases)} }}
        ensures {{ ReadsAs {part} part D.Entries deserializer {of.its} result }}
    {{
        match tag {{
{arms}        }}
    }}
"""

    # ---- proofs ----

    def proofs(self, module, dotted):
        """Of the groups, by their paths in the crate."""
        out = {}
        choice = self.choice
        for number in range(len(self.groups)):
            owner = {"resolve": f"{choice.name}Archive.resolve", "serialize": f"{choice.name}Serialize.serialize"}
            for which in owner if self.are else ():
                place = owner[which] if number == 0 else f"{choice.archived}.{self.name(number, which)}"
                out[f"proofs/{module}/{place.replace('.', '/')}/Answers.antt"] = self.answers(number, which, f"{dotted}.{place}")
        if self.of_units:
            out.update(self.of_units.proofs(module, dotted))
        return out

    def answers(self, number, which, dotted):
        """That the value is behind the variants of the group or, in the last one, that no other is left; and that each variant is resolved as it is flat."""
        goals = f"Rattle.{dotted}.Goals"
        given = "c" if which == "resolve" else "g c"
        step = self.is_behind(number, which, given) if self.has_behind(number) else self.none_left(number, given)
        if which != "resolve":
            longs = "".join(self.long_serialized(case) for case in self.groups[number] if case.is_long)
            return f"-- {WRITTEN}\n{self.brought(number)}use {goals} as goal\n{step}{longs}"
        steps = self.resolved(number)
        arms = "".join(f"  | {it} w ↦ {how}\n" for it, how in steps.items())
        return f"""-- {WRITTEN}
use Rattle.std.proofs.Common.{{rules}}
{self.brought(number)}use {goals}.{{{', '.join(steps)}}}
use {goals} as goal
{step}
pub returns : goal.returns
returns c = elim c.match-{self.value(number)}.branch [
{arms}]
"""

    def long_serialized(self, case):
        """That a variant of many fields is serialized as its function ensures: the search doesn't find it."""
        ensures = f"c.{self.functions.name(case, 'serialize')}.ensures"
        fields = "; ".join(f"{it} = {ensures}.{it}" for it in ("serialized", "same_value", "goes_on", "refused"))
        return f"""
pub returns-in-{case.name} : goal.returns-in-{case.name}
returns-in-{case.name} g c = rw (c.in-{case.name}.is) record {{ {fields} }}
"""

    def resolved(self, number):
        """How each arm of `resolve` is proved."""
        calls = {f"in-{case.name}": self.functions.name(case, "resolve") for case in self.groups[number]}
        if self.has_behind(number):
            calls["in_default"] = self.name(number + 1, "resolve")
        return {step: f"grind (w.{it}.ensures, w.bytes-is, w.result-is, rules)" for step, it in calls.items()}

    def value(self, number):
        return "value" if number else "self"

    def before(self, number):
        """The variants before a group."""
        return [case for group in self.groups[:number] for case in group]

    def brought(self, number):
        choice = self.choice
        declared = choice.declaration.home("specs", "declared")
        names = ", ".join(sorted(f"{case.name} as {case.word}" for case in self.before(number + 1)))
        return f"""use Rattle.std.proofs.Common.{{◌≡◌, refl}}
use Rattle.{declared}.{choice.declaration.declared_name}.TheVariants.{{{names}}}
"""

    def none_here(self, number, goal, otherwise):
        """The proof of something of the value `v`, which is none of the variants up to this group, by cases. The type of the value has no name here, since it may have
        arguments."""
        value, absurd = f"c.args.{self.value(number)}.now", "absurd " if otherwise else ""
        here = self.none_before(number, "v", AS_TYPE) if number else "Unit {0}"
        before = "".join(f"{case.bound()} ↦ λ e before. {absurd}before | " for case in self.before(number))
        own = " | ".join(f"{case.bound()} ↦ λ e before. {absurd}(c.in_default.not-{' '.join([case.name] + case.binders)} e)" for case in self.groups[number])
        known = "c.requires.from" if number else "tt"
        other = f" | v ↦ λ e before. {otherwise}" if otherwise else ""
        return f"(elim {value} as (λ v. {value} ≡ v → ({here}) → ({goal})) [ {before}{own}{other} ]) refl {known}"

    def is_behind(self, number, which, given):
        """That a value that is none of the variants before a group, nor of its own, is none of those before the next one."""
        step, proof = f"{self.name(number + 1, which)}-requires", self.none_here(number, self.none_before(number + 1, "v", AS_TYPE), "tt")
        if which == "serialize":
            proof = f"record {{ from = {proof} }}"  # its only clause
        else:
            step += "-clause-from"
        return f"""
-- It is none of the variants before this group, nor one of its own.
pub {step} : goal.{step}
{step} {given} = {proof}
"""

    def none_left(self, number, given):
        """That a value that is none of the variants before the last group is one of its own."""
        return f"""
-- It is none of the variants before this group.
pub unreachable-requires : goal.unreachable-requires
unreachable-requires {given} = {self.none_here(number, "⊥", "")}
"""
