"""Values of many fields, and the proof of what is made of signed ones."""

import re

from derivation import write

from .repository import RepositoryTest


class MadeOfSigned(RepositoryTest):
    def answers(self, *types):
        """The proof, if there is one."""
        fields = ", ".join(f"f{i}: {type}" for i, type in enumerate(types))
        proofs = write.proofs(self.module(f"struct A {{ {fields} }}"))
        return next((text for path, text in proofs.items() if path.endswith("a_of/Answers.antt")), "")

    def widths(self, *types):
        """The widths that the proof names, field by field."""
        return re.findall(r"SFits (w\d+) c", self.answers(*types))

    def test_each_is_as_wide_as_it_is_in_memory(self):
        self.assertEqual(self.widths("i8", "i16", "i32", "i64", "i128", "isize", "u8"), ["w8", "w16", "w32", "w64", "w128", "w64"])

    def test_others_need_none(self):
        self.assertEqual(self.widths("u8", "u16", "u32", "u64", "u128", "usize", "bool"), [])

    def test_arrays_beside_them_are_named(self):
        self.assertIn("rw (c.into_array.ensures, c.into_array-2.ensures, to_z-of_z w8", self.answers("[u8; 2]", "i8", "[u8; 4]", *["u8"] * 5))
        self.assertEqual(self.answers("[u8; 2]", *["u8"] * 7), "")


class MadeOfArrays(RepositoryTest):
    def test_a_value_with_an_array_is_made_apart_however_few_its_fields(self):
        text = write.written(self.module("struct Hash([u8; 32]);\nenum Name { Nothing, Hashed([u8; 32]), Numbered(u64, [u32; 2]), Known(u8) }\n"))
        for name in ("fn hash_of(", "fn name_hashed_of(", "fn name_numbered_of("):
            self.assertIn(name, text)
        self.assertNotIn("fn name_known_of(", text)
