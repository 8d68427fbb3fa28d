"""Enums of more variants than one body calls the functions of: their calls go in groups."""

import re
from unittest import mock

from derivation.variant_groups import MOST_IN_BODY, MOST_IN_GROUP

from .repository import RepositoryTest


class VariantGroups(RepositoryTest):
    def written(self, count, more=()):
        self.file = self.put(f"pub enum A {{ {', '.join([f'V{i}(u8)' for i in range(count)] + list(more))} }}")
        with mock.patch("derivation.read.MOST_WITH_FIELDS", 256):
            self.assertEqual(self.run_command(self.file), (0, ""))
        return self.text(self.file)

    def bodies(self, text, which):
        """The variants that each body calls the functions of, by their tags, and the group that it calls last."""
        bodies = re.split(r"^    (?:pub )?fn ", text, flags=re.M)
        called = [[int(it) for it in re.findall(rf"ArchivedA::{which}_variant_(\d+)\(", body)] for body in bodies]
        behind = [[int(it) for it in re.findall(rf"ArchivedA::{which}_from_(\d+)\(", body)] for body in bodies]
        return sorted((tags, last) for tags, last in zip(called, behind) if tags)

    def test_few_have_one_body(self):
        text = self.written(MOST_IN_BODY)
        for which in ("resolve", "serialize", "read"):
            self.assertEqual(self.bodies(text, which), [(list(range(MOST_IN_BODY)), [])])

    def test_each_group_calls_the_next(self):
        count = 2 * MOST_IN_GROUP + 3
        text = self.written(count)
        ends = [MOST_IN_GROUP, 2 * MOST_IN_GROUP, count]
        wanted = [(list(range(end - MOST_IN_GROUP if end < count else ends[-2], end)), [end] if end < count else []) for end in ends]
        for which in ("resolve", "serialize", "read"):
            with self.subTest(which):
                self.assertEqual(self.bodies(text, which), wanted)

    def test_a_group_requires_that_none_is_before_it(self):
        text = self.written(MOST_IN_BODY + 1)
        head = text[text.index(f"fn read_from_{MOST_IN_GROUP}"):]
        self.assertIn(f"requires from {{ {MOST_IN_GROUP} ≤ tag }}", head[: head.index("match tag")])
        head = text[text.index(f"fn resolve_from_{MOST_IN_GROUP}"):]
        head = head[: head.index("match value")]
        self.assertEqual([int(it) for it in re.findall(r"AV(\d+) a0 ↦ ⊥", head)], list(range(MOST_IN_GROUP)))

    def test_proofs_are_written_for_each_group(self):
        self.written(MOST_IN_BODY + 1)
        for place in ("AArchive/resolve", "ASerialize/serialize", f"ArchivedA/resolve_from_{MOST_IN_GROUP}", f"ArchivedA/serialize_from_{MOST_IN_GROUP}"):
            self.assertTrue(self.text(self.file.replace("src/types.rt", f"proofs/types/{place}/Answers.antt")))

    def test_variants_without_fields_are_behind_all_groups(self):
        for units in (1, 8):
            with self.subTest(units):
                text = self.written(MOST_IN_BODY + 1, [f"U{i}" for i in range(units)] + ["W(u8)"])
                self.assertEqual(text.count("ArchivedA::resolve_without_fields("), 1)
                self.assertEqual(text.count("ArchivedA::serialize_without_fields("), 1)
                head = text[text.index("fn serialize_without_fields"):]
                head = head[: head.index("match ")]
                self.assertEqual([int(it) for it in re.findall(r"AV(\d+) a0 ↦ ⊥", head)], list(range(MOST_IN_BODY + 1)))
                self.assertIn(f"UnitVariants<{units}," if units > 1 else "UnitVariants<1,", text)
                self.assertNotIn("unreachable!()", text[text.index("fn resolve_from_"):text.index("fn serialize_from_")])

    def test_where_a_field_has_an_option_the_resolver_is_dropped_in_one(self):
        for more, dropped in ((["U"], "drop(resolver);"), (["U", "W(Option<u8>)"], "drop(Some(resolver));")):
            text = self.written(MOST_IN_BODY + 1, more)
            self.assertIn(dropped, text[text.index("fn resolve_without_fields"):])

    def test_the_arms_of_a_proof_are_indented_as_its_line_is(self):
        self.written(MOST_IN_BODY + 1, ["U"])
        for which, lets in (("resolve", 1), ("serialize", 4)):
            proof = self.text(self.file.replace("src/types.rt", f"proofs/types/ArchivedA/{which}_without_fields/Answers.antt"))
            ends = re.findall(r"^( *)\| (?:AV0|w) .*\n(?: *\| .*\n)*( *)\]\)", proof, re.M)
            self.assertEqual(ends, [("  ", "")] + [("      ", "    ")] * lets)

    def test_variants_without_fields_are_read_in_the_group_of_their_tags(self):
        fields = [f"V{i}(u8)" for i in range(MOST_IN_BODY + 1)]
        self.file = self.put(f"pub enum A {{ {', '.join(['X', 'Y'] + fields[:20] + ['Z'] + fields[20:])} }}")
        self.assertEqual(self.run_command(self.file), (0, ""))
        text = self.text(self.file)
        makers = dict(re.findall(r"^fn a_without_fields_from_(\d+)\(.*?\{\n    (.*?)\n\}$", text, re.M | re.S))
        self.assertEqual(sorted(makers), ["0", "18"])
        self.assertIn("0 => A::X,", makers["0"])
        self.assertIn("_ => A::Y,", makers["0"])
        self.assertIn("_ => A::Z,", makers["18"])
        self.assertIn("if tag < 18 {", text)
        self.assertIn("requires not_23 { tag ≢ 23 }", text)
        self.assertNotIn("requires not_22 ", text)  # the tag of `Z`

    def test_the_type_of_a_value_with_arguments_is_not_named(self):
        declared = ", ".join(["W(T)"] + [f"V{i}(u8)" for i in range(MOST_IN_BODY)] + ["U", "X"])
        self.file = self.put(f"pub enum E<T> {{ {declared} }}\npub type A = E<u8>;")
        self.assertEqual(self.run_command(self.file), (0, ""))
        for place in ("AArchive/resolve", f"ArchivedA/serialize_from_{MOST_IN_GROUP}", "ArchivedA/resolve_without_fields", "ArchivedA/serialize_without_fields"):
            proof = self.text(self.file.replace("src/types.rt", f"proofs/types/{place}/Answers.antt"))
            self.assertIn("declared.types.E.TheVariants.{", proof)
            self.assertNotIn("declared.types.A.", proof)
