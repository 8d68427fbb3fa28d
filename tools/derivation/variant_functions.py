"""Enums of many variants with fields: each variant has functions of its own, which resolve, serialize and read it, so that a body has one call for each.

What the check takes for a body grows with its steps times its variables, so with the square of the variants: of 28 variants, each with several calls in one
body, the search in `resolve` gave up. A function of a variant takes what it would take in an enum of one.
"""

from .formats import SHARING
from .layout import Generic, call, signature, statement
from .long import is_long
from .made import WRITTEN
from .variant_groups import MOST_IN_BODY, Groups

# Up to so many variants with fields have their calls in one body.
MOST_AT_ONCE = 8
# And where the enum isn't a plain one.
MOST_AT_ONCE_OTHERS = 20
# From so many on variants without fields go together, where the calls aren't in groups.
FROM = 8
# What resolves variants without fields that go together.
UNIT = "resolve_unit"


def are_wanted(declaration):
    """Whether the variants of an enum have functions of their own."""
    return count_with_fields(declaration) > (MOST_AT_ONCE if is_plain(declaration) else MOST_AT_ONCE_OTHERS)


def count_with_fields(declaration):
    return sum(bool(variant.fields) for variant in declaration.variants)


def is_plain(declaration):
    """Whether an enum has no arguments, no variant of many fields, and nothing that is shared."""
    return not declaration.instance_of and not any(is_long(variant.fields) for variant in declaration.variants) and not shares(declaration, [])


def go_in_groups(declaration):
    """Whether the calls of these functions go in groups."""
    with_fields = count_with_fields(declaration)
    without = len(declaration.variants) - with_fields
    is_much = with_fields + (without if without < FROM else 0) > MOST_IN_BODY
    return are_wanted(declaration) and (is_much or not is_plain(declaration))


def shares(declaration, seen):
    """Whether a field leads to a shared value. Each declaration is looked at once."""
    if any(declaration is it for it in seen):
        return False
    seen.append(declaration)
    return any(type_shares(field.type, seen) for field in declaration.all_fields())


def type_shares(type, seen):
    is_shared = type.own is None and type.name in SHARING or type.own is not None and shares(type.own, seen)
    return is_shared or any(type_shares(arg, seen) for arg in type.args)


class Functions:
    """The functions of the variants of an enum that have arms of their own."""

    def __init__(self, choice):
        self.choice = choice
        self.cases = choice.units.apart()
        self.formats = choice.formats
        self.its = f"⟦<{choice.name} as Archive>⟧"
        self.formats.ghost("SourceOutcomes", "Serializes")
        self.formats.ghost("Seen", "part_tag")
        self.unit = UNIT
        self.groups = Groups(self, go_in_groups(choice.declaration))

    # ---- the calls of them ----

    def arm(self, case, pattern, which, arguments):
        """The arm that calls one."""
        return statement(12, f"{pattern} => ", call(f"{self.choice.archived}::{self.name(case, which)}", arguments), ",")

    def dropping_arm(self, pattern, resolved):
        """The arm of a variant without fields in `resolve`. The resolver goes by a call: else the check has a way for each variant of it that owns something."""
        self.formats.use("std::mem", "drop")
        return f"            {pattern} => {{\n                drop(resolver);\n{statement(16, '', resolved, '')}            }}\n"

    def unit_call(self, tag):
        """The call that resolves a variant without fields, of those that go together."""
        return call(f"{self.choice.archived}::{UNIT}", [tag, "Place::new(pos, bytes)"])

    def name(self, case, which):
        return f"{which}_variant_{case.tag}"

    # ---- the functions ----

    def text(self, functions):
        choice = self.choice
        brought = choice.brought(own=choice.name)
        if choice.units.are:
            functions = functions + [self.resolve_unit()] + self.groups.units()
        return f"""// What is done variant by variant.
impl {choice.archived} {{
{brought}{chr(10).join(functions)}}}
"""

    def value(self, case):
        """The variant of these fields, in contracts."""
        return f"({' '.join([case.word] + [f'{name}.now' for name in case.names])})" if case.count else case.word

    def lent(self, case):
        return [f"{name}: &{rust}" for name, rust in zip(case.names, case.rust)]

    def resolve(self, case, body):
        choice, value = self.choice, self.value(case)
        arguments = self.lent(case) + [f"resolver: {choice.resolver}", f"place: Place<'_, {choice.archived}>"]
        return f"""    // Writes `{case.name}` over its place.
{signature(f"fn {self.name(case, 'resolve')}", [], arguments, "Result<(), Error>", 4)}
        requires zeroed {{ ZeroedPlace {choice.size} place.pos place.bytes.now }}
        requires same_value {{ {self.its}.belongs {value} resolver }}
        ensures {{ ResolvesAs ⟦<{choice.archived} as Portable>⟧ place ({self.its}.flat {value} resolver) result }}
    {{
        let {choice.resolver}::{case.name}(kept) = resolver else {{
            unreachable!();
        }};
        let Place {{ bytes, pos, .. }} = place;
{body}    }}
"""

    def resolve_unit(self):
        archived, resolved = self.choice.archived, Generic("resolve_case_0", [self.choice.archived], ["tag", "()", "Place::new(pos, bytes)"])
        return f"""    // Writes the tag of a variant without fields over its place.
{signature(f"fn {UNIT}", [], ["tag: u8", f"place: Place<'_, {archived}>"], "Result<(), Error>", 4)}
        requires variant {{ variant_in ⟦<{archived} as Portable>⟧.shape tag ≡ Some no_part }}
        requires zeroed {{ ZeroedPlace {self.choice.size} place.pos place.bytes.now }}
        ensures {{ ResolvesAs ⟦<{archived} as Portable>⟧ place (case tag no_value) result }}
    {{
        let Place {{ bytes, pos, .. }} = place;
{statement(8, "", resolved, "")}    }}
"""

    def serialize(self, case, lent, serialized):
        choice = self.choice
        bound = self.formats.writer_bound(choice.all_types)
        arguments = self.lent(case) + ["serializer: &mut S"]
        kept, of = ("kept", "(kept)") if case.count else ("()", "")
        return f"""    // Writes what `{case.name}` owns.
{signature(f"fn {self.name(case, 'serialize')}", [f"S: {bound}"], arguments, f"Result<{choice.resolver}, Error>", 4)}
        ensures {{ Serializes {self.its} ⟦<{choice.archived} as Portable>⟧ {self.value(case)} S.Keys serializer result }}
    {{
{lent}{statement(8, "match ", serialized, " {")}            Ok({kept}) => Ok({choice.resolver}::{case.name}{of}),
            Err(error) => Err(error),
        }}
    }}
"""

    def read(self, case, read, ok):
        choice = self.choice
        bound = self.formats.reader_bound(choice.all_types)
        part = f"⟦<{choice.archived} as ArchivePointee>⟧"
        arguments = ["alloc: Global", "part: RawView<'_>", "deserializer: &mut D"]
        return f"""    // Reads `{case.name}` back.
{signature(f"fn {self.name(case, 'read')}", [f"D: {bound}"], arguments, f"Result<{choice.name}, Error>", 4)}
        requires viewed {{ IsPartOf {part} part }}
        requires tag {{ part_tag part ≡ {case.tag} }}
        ensures {{ ReadsAs {part} part D.Entries deserializer {self.its} result }}
    {{
{statement(8, "match ", read, " {")}{ok}            Err(error) => Err(error),
        }}
    }}
"""

    # ---- proofs ----

    def proofs(self, module, dotted):
        """Those that are written beside the module, by their paths in the crate."""
        choice, units = self.choice, self.choice.units
        out = self.groups.proofs(module, dotted) or {f"proofs/{module}/{choice.name}Archive/resolve/Answers.antt": self.resolve_answers(dotted)}
        if units.are and not self.groups.are:
            brought, of_units = units.serialize_answers(dotted)
            goals = f"use Rattle.{dotted}.{choice.name}Serialize.serialize.Goals as goal"
            out[f"proofs/{module}/{choice.name}Serialize/serialize/Answers.antt"] = f"-- {WRITTEN}\n{brought}{goals}\n{of_units}"
        for case in self.cases:
            if case.is_long:
                name = self.name(case, "resolve")
                out[f"proofs/{module}/{choice.archived}/{name}/Answers.antt"] = self.long_answers(f"{dotted}.{choice.archived}.{name}")
            if case.count > 2:
                name = self.name(case, "serialize")
                out[f"proofs/{module}/{choice.archived}/{name}/Answers.antt"] = self.serialize_answers(case, f"{dotted}.{choice.archived}.{name}")
        return out

    def resolve_answers(self, dotted):
        """That each variant is resolved as it is flat: among many the search gives up."""
        choice, units = self.choice, self.choice.units
        goals = f"Rattle.{dotted}.{choice.name}Archive.resolve.Goals"
        found = {f"in-{case.name}": f"grind (w.{self.name(case, 'resolve')}.ensures, w.bytes-is, w.result-is, rules)" if case.count else "search rules" for case in self.cases}
        brought, of_units = "", ""
        if units.are:
            brought, of_units, flat = units.flat_answers(dotted, UNIT)
            found["in_default"] = f"let e = {flat} in grind (e, w.{UNIT}.ensures, w.bytes-is, w.result-is, rules)"
        arms = "".join(f"  | {step} w ↦ {how}\n" for step, how in found.items())
        return f"""-- {WRITTEN}
use Rattle.std.proofs.Common.{{rules}}
{brought}use {goals}.{{{', '.join(found)}}}
use {goals} as goal
{of_units}
pub returns : goal.returns
returns c = elim c.match-self.branch [
{arms}]
"""

    def long_answers(self, dotted):
        """That a variant of many fields is resolved as it is flat."""
        return f"""-- {WRITTEN}
use Rattle.std.proofs.Common.{{rules}}
use Rattle.{dotted}.Goals as goal

pub returns : goal.returns
returns c = grind (c.resolve_case.ensures, rules)
"""

    def serialize_answers(self, case, dotted):
        """That a variant of several fields is serialized as it means."""
        call, same = ("serialize_case", "same_value") if case.is_long else (f"serialize_case_{case.count}", "same_values")
        return f"""-- {WRITTEN}
use Rattle.std.proofs.Common.{{rules}}
use Rattle.{dotted}.Goals as goal

pub returns-in-Ok : goal.returns-in-Ok
returns-in-Ok g c = record {{ serialized = c.in-Ok.ensures.serialized; same_value = c.in-Ok.ensures.{same}; goes_on = c.{call}.ensures.goes_on; refused = search rules }}
"""
