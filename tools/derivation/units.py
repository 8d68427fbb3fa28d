"""Variants without fields, where an enum has many: they are serialized, resolved and read back together, by their tags.

The evidence of a call over variants has an entry for each pair of a nest, and grows with the square of its depth; a run of variants without fields is one
type with their number, `UnitVariants<250, ()>`. Each arm with a call of the library takes about as long to prove as all arms that return a tag.
"""

from . import variant_blocks
from .formats import snake
from .layout import Generic, Group, flat, lay, statement
from .variant_functions import FROM, go_in_groups


def go_together(declaration):
    """Whether the variants without fields are written together: not of an enum with arguments, whose type a proof by cases would have to name with them, unless
    its calls go in groups."""
    count = sum(not v.fields for v in declaration.variants)
    if declaration.part_by_part or go_in_groups(declaration):
        return count > 0 and not declaration.part_by_part
    return not declaration.instance_of and count >= FROM


def types_in_turn(declaration):
    """The types of the fields of each variant, those without fields that are written together as one."""
    out, together = [], go_together(declaration)
    for variant in declaration.variants:
        if variant.fields or not together or not out or out[-1]:
            out.append([field.type for field in variant.fields])
    return out


class Units:
    """The variants of an enum that have no fields."""

    def __init__(self, choice):
        self.choice = choice
        self.cases = [case for case in choice.cases if not case.count]
        self.are = go_together(choice.declaration)
        words = {case.name.lower() for case in choice.cases if case.count}
        self.name = next(it for it in ("Unit", "NoField", "WithoutField") if it.lower() not in words)
        if self.are:
            choice.formats.use("archive_core::fields", "UnitVariants")
            choice.formats.ghost("Units", "units", "unit_definitions")
            choice.formats.ghost("Plain", "variant_in")
            choice.formats.ghost("std.specs.Prelude", "Some", "◌<◌", "◌≢◌")
        self.blocks = variant_blocks.blocks_of(types_in_turn(choice.declaration))

    def has(self, case):
        return self.are and not case.count

    def apart(self):
        """The variants that have arms of their own."""
        return [case for case in self.choice.cases if not self.has(case)]

    def runs(self):
        """Of the variants in order: how many without fields are together, or one."""
        out = []
        for case in self.choice.cases:
            if not self.has(case):
                out.append(case)
            elif out and isinstance(out[-1], int):
                out[-1] += 1
            else:
                out.append(1)
        return out

    # ---- the nest of all ----

    def folded(self, run, one, end):
        out = end
        for it in reversed(self.runs()):
            out = run(it, out) if isinstance(it, int) else one(it, out)
        return out

    def shapes(self):
        return self.folded(lambda n, rest: f"(units {n} {rest})", lambda case, rest: f"(variant {case.parts} {rest})", "no_variant")

    def definitions(self):
        return self.folded(lambda n, rest: f"(unit_definitions {n} {rest})", lambda case, rest: f"(both {case.defined} {rest})", "no_definition")

    def nest(self, number=0):
        """The nest of a block, with the type of what is behind it."""
        begin, end = self.blocks[number]
        out = variant_blocks.behind(self.choice, number)
        for it in reversed(self.runs()[begin:end]):
            if isinstance(it, int):
                out = Group("UnitVariants<", [str(it), out], ">")
            else:
                out = Group("(", [f"{it.word}Parts" if it.count else "()", out], ")", 60)
        return out

    def tags_before(self, run):
        """How many variants are before a run of them."""
        return sum(it if isinstance(it, int) else 1 for it in self.runs()[:run])

    # ---- what is kept ----

    def kept(self):
        """The variants of the resolver: their names, and those in contracts."""
        own = [(case.name, case.word) for case in self.apart()]
        return own + [(self.name, f"{self.choice.name}{self.name}")] if self.are else own

    def kept_count(self):
        return len(self.kept())

    def resolver(self):
        return [f"    /// Of a variant without fields.\n    {self.name},\n"] if self.are else []

    # ---- by their tags ----

    def tag(self):
        """The call that returns the tag of a variant."""
        if not self.are:
            return ""
        choice = self.choice
        said = choice.elim("self.now", lambda case: f"result ≡ {case.tag}")
        pattern = {"struct": " { .. }", "tuple": "(..)"}
        arms = "".join(f"            {choice.name}::{case.name}{pattern.get(case.form, '')} => {case.tag},\n" for case in choice.cases)
        return f"""// The tag of each variant.
trait {choice.name}Tag {{
    fn tag(&self) -> u8;
}}

impl {choice.name}Tag for {choice.name} {{
{choice.brought(own=choice.name)}    fn tag(&self) -> u8
        ensures {{ {said} }}
    {{
        match self {{
{arms}        }}
    }}
}}
"""

    def matched(self, what, arms):
        """A `match` with these arms; where no variant has fields, what its one arm does."""
        if self.apart():
            return f"        match {what} {{\n{arms}        }}\n"
        (line, *lines) = arms.splitlines()
        pattern, body = line.strip().split(" => ", 1)
        first = "" if pattern == "_" else f"        let {pattern} = {what};\n"
        if body == "{":
            return first + "".join(f"{it[8:]}\n" for it in lines[:-1])
        return first + "".join(f"{it}\n" for it in [f"        {body}"] + [it[4:] for it in lines])[:-2] + "\n"

    def tag_call(self):
        return f"{self.choice.name}Tag::tag(self)"

    def resolve_arm(self):
        if not self.are:
            return ""
        call = Generic("resolve_case_0", [self.choice.archived], [self.tag_call(), "()", "Place::new(pos, bytes)"])
        if self.choice.functions:
            return self.choice.functions.dropping_arm("_", self.choice.functions.unit_call(self.tag_call()))
        one = f"            _ => {flat(call)},\n"
        return one if len(one) <= 101 and len(flat(call)) <= 90 and call_fits(call) else f"            _ => {{\n{statement(16, '', call, '')}            }}\n"

    def serialize_arm(self, match_arm):
        if not self.are:
            return []
        call = Generic("serialize_case_0", [self.choice.archived, "S"], [self.tag_call(), "serializer"])
        return [match_arm("_", call, "()", f"{self.choice.resolver}::{self.name}")]

    def read_arm(self):
        if not self.are:
            return []
        call = Generic("read_case", ["Self", "()", "()", "D"], ["tag", "alloc", "part", "deserializer"])
        return [f"""            tag => {{
                let value = {self.maker()}(tag);
{statement(16, "match ", call, " {")}                    Ok(()) => Ok(value),
                    Err(error) => Err(error),
                }}
            }}
"""]

    def maker(self):
        return f"{snake(self.choice.name)}_without_fields"

    def made(self):
        """The function that makes a variant of its tag."""
        if not self.are:
            return ""
        choice = self.choice
        its = f"⟦<{choice.name} as Archive>⟧"
        others = "".join(f"    requires not_{case.tag} {{ tag ≢ {case.tag} }}\n" for case in self.apart())
        last = self.cases[-1]
        arms = "".join(f"        {'_' if case is last else case.tag} => {flat(case.pattern())},\n" for case in self.cases)
        return f"""// The variant with this tag, which has no fields.
fn {self.maker()}(tag: u8) -> {choice.name}
    requires below {{ tag < {len(choice.cases)} }}
{others}    ensures variant {{ variant_in ⟦<{choice.archived} as Portable>⟧.shape tag ≡ Some no_part }}
    ensures meaning {{ {its}.meaning result ≡ case tag no_value }}
    ensures keys {{ {its}.keys result ≡ [] }}
{{
    match tag {{
{arms}    }}
}}

"""


    # ---- proofs about one, by its tag: among many the search comes to its limit ----

    def brought(self, dotted, *more):
        """What a proof brings in beside the goals, and these of an impl each."""
        choice = self.choice
        declared, contracts = (choice.declaration.home("specs", it) for it in ("declared", "contracts"))
        names = ", ".join(sorted(f"{case.name} as {case.word}" for case in choice.cases))
        impls = "".join(f"use Rattle.{contracts}.{impl}.TheImpl.{{{names}}}\n" for impl, names in more)
        return f"""use Rattle.std.proofs.Common.{{◌≡◌, ℕ, Some, [], ap, refl, sym}}
use Rattle.archive_core.specs.Plain.{{variant_in}}
use Rattle.archive_core.specs.Shape.{{no_part}}
use Rattle.archive_core.specs.Value.{{case, no_value}}
use Rattle.{declared}.{choice.name}.{{{choice.name}}}
use Rattle.{declared}.{choice.name}.TheVariants.{{{names}}}
{impls}"""

    def by_case(self, body, refuted, indent=2):
        """An item a line: what has fields is refuted, and each other one has the same body. Of one item alone a name isn't taken."""
        lines = [f"{case.bound()} ↦ {refuted}" for case in self.apart()]
        if not lines:
            lines.append(f"{self.cases[0].bound()} ↦ {body}")
        return "".join(f"{' ' * indent}| {it}\n" for it in lines + [f"w ↦ {body}"])

    def lemmas(self):
        choice, name = self.choice, self.choice.name
        apart = "".join(f"{case.bound()} ↦ ⊥ | " for case in self.apart())
        none = f"elim v [ {apart}w ↦ Unit {{0}} ]" if apart else "Unit {0}"
        return f"""
-- The tag of each.
abbrev HasTag : {name} → ℕ → Type 0
HasTag v t = {choice.elim("v", lambda case: f"t ≡ {case.tag}")}

abbrev HasNoField : {name} → Type 0
HasNoField v = {none}

-- No part is behind its tag.
has_no_part : (v : {name}) (t : ℕ) → HasNoField v → HasTag v t → variant_in (shape-value).it t ≡ Some no_part
has_no_part v t = elim v as (λ v. HasNoField v → HasTag v t → variant_in (shape-value).it t ≡ Some no_part) [
{self.by_case("λ none tagged. rw tagged refl", "λ none tagged. absurd none")}]
"""

    def none(self, ways="c"):
        """The proof that the value has no field, in the last arm, of which `ways` knows what the value isn't."""
        arms = "".join(f"{case.bound()} ↦ λ e. {ways}.in_default.not-{case.name} {' '.join(case.binders)} e | " for case in self.apart())
        return f"((elim c.args.self.now as (λ v. c.args.self.now ≡ v → HasNoField v) [ {arms}v ↦ λ e. tt ]) refl)" if arms else "tt"

    def requires_answer(self, call, given):
        step = f"{call}-requires-clause-variant"
        return f"""
pub {step} : goal.{step}
{step} {given} = has_no_part c.args.self.now c.tag.result {self.none()} c.tag.ensures
"""

    def resolve_answers(self, dotted):
        """Of `resolve`: what it brings in, and the answer."""
        brought = self.brought(dotted, (f"{self.choice.archived}Portable", "shape-value"))
        return brought, self.lemmas() + self.requires_answer("resolve_case_0", "c")

    def flat_answers(self, dotted, call):
        """Of a `resolve` with this call in its last arm: what it brings in, the answers, and what proves that a value without fields is flat, in this arm."""
        name, resolver = self.choice.name, self.choice.resolver
        home = f"Rattle.{self.choice.declaration.home('specs', 'declared')}"
        brought = self.brought(dotted, (f"{self.choice.archived}Portable", "shape-value"), (f"{name}Archive", "flat-value"))
        brought += f"use {home}.{resolver}.{{{resolver}}}\n"
        lemma = f"""
-- It is flat as its tag.
is_flat : (v : {name}) (r : {resolver}) (t : ℕ) → HasNoField v → HasTag v t → (flat-value).it v r ≡ case t no_value
is_flat v r t = elim v as (λ v. HasNoField v → HasTag v t → (flat-value).it v r ≡ case t no_value) [
{self.by_case("λ none tagged. ap (λ n. case n no_value) (sym tagged)", "λ none tagged. absurd none")}]
"""
        flat = f"is_flat c.args.self.now c.args.resolver w.tag.result {self.none('w')} w.tag.ensures"
        return brought, self.lemmas() + lemma + self.requires_answer(call, "c"), flat

    def serialize_answers(self, dotted):
        """The same of `serialize`: a variant without fields means its tag, and nothing of its own is kept of it."""
        choice, name = self.choice, self.choice.name
        values = ", ".join(f"{it}-value" for it in ("belongs", "flat", "keys", "meaning"))
        brought = self.brought(dotted, (f"{choice.archived}Portable", "shape-value"), (f"{name}Archive", values))
        kept = f"use Rattle.{choice.declaration.home('specs', 'declared')}.{choice.resolver}.TheVariants.{{{self.name} as {name}Kept}}\n"
        is_first = choice.functions or not self.apart()  # of the calls whose result an arm takes
        arm = "in-Ok" if is_first else "in-Ok-serialize_case_0"
        same = "ap (λ n. case n no_value) (sym tagged)"  # where all are so, what is flat is the meaning by definition
        body = f"""λ none tagged. record {{
    keys = refl;
    meaning = {same};
    flat = {same};
    belongs = tt;
  }}"""
        return brought + kept, f"""{self.lemmas()}
-- It means its tag, with nothing of its own.
record IsPlain (v : {name}) (t : ℕ) : Type 0 where
  keys : (keys-value).it v ≡ []
  meaning : (meaning-value).it v ≡ case t no_value
  flat : (flat-value).it v {name}Kept ≡ case t no_value
  belongs : (belongs-value).it v {name}Kept

is_plain : (v : {name}) (t : ℕ) → HasNoField v → HasTag v t → IsPlain v t
is_plain v t = elim v as (λ v. HasNoField v → HasTag v t → IsPlain v t) [
{self.by_case(body, "λ none tagged. absurd none")}]
{self.requires_answer("serialize_case_0", "g c")}
pub returns-{arm} : goal.returns-{arm}
returns-{arm} g c =
    let it = is_plain c.args.self.now c.tag.result {self.none()} c.tag.ensures in
    record {{
      serialized = rw (it.keys, it.meaning{", it.flat" if self.apart() else ""}) c.{arm}.ensures.serialized;
      same_value = it.belongs;
      goes_on = c.serialize_case_0.ensures.goes_on;
      refused = tt;
    }}
"""


def call_fits(call):
    """Whether the arguments fit one line."""
    return "\n" not in lay(call, 12, 12)
