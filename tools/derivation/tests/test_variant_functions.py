"""Enums of many variants with fields: each variant has functions of its own."""

import os
import re
from unittest import mock

from derivation.variant_functions import MOST_AT_ONCE, MOST_AT_ONCE_OTHERS

from .repository import RepositoryTest


class VariantFunctions(RepositoryTest):
    def written(self, variants):
        self.file = self.put(f"pub enum A {{ {', '.join(variants)} }}")
        with mock.patch("derivation.read.MOST_WITH_FIELDS", 256):
            self.assertEqual(self.run_command(self.file), (0, ""))
        return self.text(self.file)

    def functions(self, text, which):
        """The variants that have such a function, by their tags."""
        return [int(it) for it in re.findall(rf"^    fn {which}_variant_(\d+)\b", text, re.M)]

    def called(self, text, which):
        return [int(it) for it in re.findall(rf"ArchivedA::{which}_variant_(\d+)\(", text)]

    def proofs(self):
        folder = os.path.join(os.path.dirname(self.file), "..", "proofs", "types")
        return sorted(os.path.relpath(os.path.join(at, it), folder) for at, _, files in os.walk(folder) for it in files)

    def test_few_have_none(self):
        text = self.written([f"V{i}(u8)" for i in range(MOST_AT_ONCE)] + [f"U{i}" for i in range(9)])
        for which in ("resolve", "serialize", "read"):
            self.assertEqual(self.functions(text, which), [])

    def test_each_has_its_own_and_is_called_once(self):
        count = MOST_AT_ONCE + 1
        text = self.written([f"V{i}(u8)" for i in range(count)])
        for which in ("resolve", "serialize", "read"):
            with self.subTest(which):
                self.assertEqual(self.functions(text, which), list(range(count)))
                self.assertEqual(self.called(text, which), list(range(count)))

    def test_of_few_variants_without_fields_nothing_is_resolved(self):
        text = self.written([f"V{i}(u8)" for i in range(24)] + [f"U{i}" for i in range(3)])
        self.assertEqual(self.called(text, "resolve"), list(range(24)))
        self.assertEqual(self.called(text, "serialize"), list(range(27)))
        self.assertEqual(self.called(text, "read"), list(range(27)))

    def test_many_variants_without_fields_go_together(self):
        text = self.written([f"U{i}" for i in range(8)] + [f"V{i}(u8)" for i in range(24)])
        self.assertEqual(self.called(text, "read"), list(range(8, 32)))
        self.assertIn("AResolver::Unit", text)
        self.assertIn("AArchive/resolve/Answers.antt", self.proofs())
        self.assertIn("ASerialize/serialize/Answers.antt", self.proofs())

    def test_fields_keep_their_names(self):
        text = self.written([f"V{i}(u8)" for i in range(24)] + ["W { left: u8, right: String }"])
        self.assertIn("A::W {\n                left: a0,\n                right: a1,\n            }", text)
        self.assertIn("(AW a0.now a1.now)", text)

    def test_proofs_are_written_for_several_fields(self):
        self.written([f"V{i}(u8)" for i in range(24)] + ["W(u8, u16, u32)"])
        self.assertIn("ArchivedA/serialize_variant_24/Answers.antt", self.proofs())
        self.assertNotIn("ArchivedA/serialize_variant_0/Answers.antt", self.proofs())

    def others(self, count):
        """Enums of so many variants with fields that aren't plain."""
        fields = [f"V{i}(u8)" for i in range(count - 1)]
        return (
            f"use archive_core::rc::SharedStr;\n#[derive(Drop)]\npub struct B {{ x: SharedStr }}\npub enum A {{ {', '.join(fields + ['W(B)'])} }}",
            f"pub enum A {{ {', '.join(fields + ['W(' + ', '.join(['u8'] * 9) + ')'])} }}",
            f"pub enum E<T> {{ {', '.join(fields + ['W(T)'])} }}\npub type A = E<u8>;",
        )

    def test_what_is_not_plain_has_them_where_it_is_larger(self):
        for count, wanted in ((MOST_AT_ONCE_OTHERS, []), (MOST_AT_ONCE_OTHERS + 1, list(range(MOST_AT_ONCE_OTHERS + 1)))):
            for text in self.others(count):
                with self.subTest(text):
                    path = self.put(text)
                    self.assertEqual(self.run_command(path), (0, ""))
                    self.assertEqual(self.functions(self.text(path), "read"), wanted)

    def test_a_proof_is_written_for_a_variant_of_many_fields(self):
        self.file = self.put(self.others(MOST_AT_ONCE_OTHERS + 1)[1])
        self.assertEqual(self.run_command(self.file), (0, ""))
        for which in ("resolve", "serialize"):
            self.assertIn(f"ArchivedA/{which}_variant_{MOST_AT_ONCE_OTHERS}/Answers.antt", self.proofs())
