"""The views and seals of an enum."""

from .common import doc_lines, sealed_clauses
from .formats import snake
from .layout import Generic, Group, WIDTH, call, flat, implementation, signature, statement

# Up to so many variants with fields one body shows: of more `variant` is too much for one.
MOST_IN_BODY = 40
# How many of them are in a group, where they are more.
MOST_IN_GROUP = 16


def views(choice):
    f = choice.formats
    f.use("archive_core::view", "Ref")
    f.use("archive_core::fields", "tag_in", "part_in_case")
    f.ghost("Seen", "ShowsValueOf", "tag_of")
    f.ghost("Payloads", "payload_in")
    life = "<'a>" if any(case.count for case in choice.cases) else ""
    groups = groups_of(choice.cases)
    variants, arms, shown = [], [], []
    for case in choice.cases:
        doc = doc_lines(case.docs, f"The variant `{case.name}`.", 4)
        types = [f"Ref<'a, {archived}>" for archived in case.archived]
        if case.form == "struct" and case.count:
            inner = "".join(
                f"{doc_lines(field.docs, f'The field `{field.name}`.', 8)}        {field.name}: {type},\n"
                for field, type in zip(case.fields, types)
            )
            variants.append(f"{doc}    {case.name} {{\n{inner}    }},\n")
        else:
            variants.append(doc + statement(4, "", Group(f"{case.name}(", types, ")") if types else case.name, ","))
        calls = [
            Generic("part_in_case", [choice.archived, archived], ["self", str(case.tag), str(i), str(offset)])
            for i, (archived, offset) in enumerate(zip(case.archived, case.offsets))
        ]
        tag = "_" if case is choice.cases[-1] else str(case.tag)
        arms.append(view_arm(choice, case, tag, calls))
        facts = [f"(tag_of self.entry ≡ {case.tag})"]
        for i, offset in enumerate(case.offsets):
            facts += [
                f"(a{i}.bytes.now ≡ self.entry.bytes.now)",
                f"(a{i}.pos ≡ self.entry.pos + {offset})",
                f"(a{i}.len ≡ 0)",
                f"ShowsValueOf a{i} self.entry (payload_in {i})",
            ]
        shown.append(f"{case.bound('Shown')} ↦ {' × '.join(facts)}")
    shown = f"elim result [ {' | '.join(shown)} ]"
    behind = shown_by_groups(choice, groups, arms, shown) if len(groups) > 1 else ""
    return f"""/// What a view of an archived `{choice.name}` shows, by its tag.
#[derive(Drop)]
{choice.visibility}enum {choice.view}{life} {{
{"".join(variants)}}}

/// The variant of an archived `{choice.name}`, as a view.
{choice.visibility}trait {choice.name}View<'a> {{
    /// The variant that the tag names, with views of its fields.
    fn variant(self) -> {choice.view}{life};
}}

{implementation(["'a"], f"{choice.name}View", ["'a"], f"Ref<'a, {choice.archived}>")}
{choice.brought(Shown=choice.view)}    fn variant(self) -> {choice.view}{life}
        ensures shows {{ {shown} }}
    {{
        match tag_in(self) {{
{arms_of(choice, groups, arms, 0)}        }}
    }}
}}
{behind}"""


def groups_of(cases):
    """The variants that one body shows: those without fields go with what is before them. One group of them all where they are few."""
    with_fields = [case.tag for case in cases if case.count]
    begins = with_fields[MOST_IN_GROUP::MOST_IN_GROUP] if len(with_fields) > MOST_IN_BODY else []
    return [cases[begin:end] for begin, end in zip([0] + begins, begins + [len(cases)])]


def shower(group):
    """The name of what shows a group."""
    return f"variant_from_{group[0].tag}"


def arms_of(choice, groups, arms, number):
    """The arms of a group: the last one calls what shows the next group."""
    its = "".join(arms[case.tag] for case in groups[number])
    if number + 1 < len(groups):
        its += statement(12, "tag => ", call(f"{choice.name}ViewGroups::{shower(groups[number + 1])}", ["self", "tag"]), ",")
    return its


def shown_by_groups(choice, groups, arms, shown):
    """What shows the variants of each group behind the first one: the methods of a trait, as the borrow checker doesn't cover a function beside it."""
    choice.formats.ghost("std.specs.Prelude", "ℕ", "◌<◌", "◌≤◌")
    heads, bodies = [], []
    for number, group in list(enumerate(groups))[1:]:
        head = signature(f"fn {shower(group)}", [], ["self", "tag: u8"], f"{choice.view}<'a>", 4)
        requires = f"""        requires its_tag {{{{ {{}} self ≡ tag }}}}
        requires from {{{{ {group[0].tag} ≤ tag }}}}
        requires below {{{{ tag < {len(choice.cases)} }}}}"""
        heads.append(f"    // Shows a variant from `{group[0].name}` on.\n{head}\n{requires.format('tag_shown')};\n")
        bodies.append(f"""{head}
{requires.format("tag_of")}
        ensures shows {{ {shown} }}
    {{
        match tag {{
{arms_of(choice, groups, arms, number)}        }}
    }}
""")
    return f"""
// What a view shows, group by group.
trait {choice.name}ViewGroups<'a> {{
    // The tag that it shows.
    ghost tag_shown: {{ Self → ℕ }};

{chr(10).join(heads)}}}

{implementation(["'a"], f"{choice.name}ViewGroups", ["'a"], f"Ref<'a, {choice.archived}>")}
{choice.brought(Shown=choice.view)}    ghost tag_shown = {{ λ v. tag_of v }};

{chr(10).join(bodies)}}}
"""


def view_arm(choice, case, tag, calls):
    path = f"{choice.view}::{case.name}"
    if not case.count:
        return f"            {tag} => {path},\n"
    if case.form == "struct" and case.count:
        lines = "".join(statement(16, f"{name}: ", call, ",") for name, call in zip([field.name for field in case.fields], calls))
        return f"            {tag} => {path} {{\n{lines}            }},\n"
    if len(calls) == 1:
        call = calls[0]
        one = f"            {tag} => {path}({flat(call)}),\n"
        if len(one) <= WIDTH + 1 and len(flat(call)) <= 60:
            return one
    lines = "".join(statement(16, f"let {name} = ", call, ";") for name, call in zip(case.names, calls))
    made = statement(16, "", Group(f"{path}(", case.names, ")"), "")
    return f"            {tag} => {{\n{lines}{made}            }}\n"


def seals(choice):
    f = choice.formats
    if not any(case.count for case in choice.cases):
        return ""
    f.use("archive_core::seal", "Seal", "sealed_part_in_case")
    f.ghost("SealOutcomes", "IsSealOf", "SealsPart", "seal_tag")
    f.ghost("std.specs.Prelude", "ℕ")
    pointee = f"(one ⟦<{choice.archived} as Portable>⟧.shape)"
    heads, bodies, names = [], [], {}
    for case in choice.cases:
        for i, (field, format, offset) in enumerate(zip(case.fields, case.archived, case.offsets)):
            name = f"{snake(case.name)}_{field.name}_mut"
            if name in names:
                f.refuse(field.type, f"the seals of `{names[name]}` and `{case.name}` are both called `{name}`: name the field otherwise")
            names[name] = case.name
            head = signature(f"fn {name}", [], ["self"], f"Seal<'a, {format}>", 4)
            doc = doc_lines(field.docs, f"The field `{field.name}` of `{case.name}`.", 4)
            heads.append(f"{doc}{head}\n        requires come_to {{ sealed self }}\n        requires tag {{ tag self ≡ {case.tag} }};\n")
            call = Generic("sealed_part_in_case", [choice.archived, format], ["self", str(case.tag), str(i), str(offset)])
            clauses = sealed_clauses(pointee, format, offset, f.definitions(field.type)).replace("        ensures", f"        requires tag {{ seal_tag self ≡ {case.tag} }}\n        ensures", 1)
            bodies.append(f"{head}\n{clauses}    {{\n{statement(8, '', call, '')}    }}\n")
    return f"""/// The fields of an archived `{choice.name}`, as seals. The caller must ensure that the tag is the variant's.
{choice.visibility}trait {choice.name}Seal<'a> {{
    // The seal shows a part of a buffer that was checked.
    ghost sealed: {{ Self → Type 0 }};

    // The tag that it shows.
    ghost tag: {{ Self → ℕ }};

{chr(10).join(heads)}}}

{implementation(["'a"], f"{choice.name}Seal", ["'a"], f"Seal<'a, {choice.archived}>")}
    ghost sealed = {{ λ s. IsSealOf no_definition {pointee} s }};

    ghost tag = {{ λ s. seal_tag s }};

{chr(10).join(bodies)}}}
"""
