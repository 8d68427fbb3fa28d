"""Structs whose slices are written in bulk."""

from derivation import write

from .repository import RepositoryTest


class InBulk(RepositoryTest):
    def is_copied(self, text):
        module = self.module(text)
        written = write.written(module)
        self.assertEqual("copy_groups(values" in written, any("Copied" in path for path in write.proofs(module)))
        return "impl Copied for A {" in written

    def test_only_of_numbers_without_padding(self):
        for fields, is_there in [
            ("x: i32", True),
            ("x: bool, y: u8, z: char, w: ()", False),
            ("x: bool, y: i8, z: u16, w: char, v: ()", True),
            ("x: u32, y: u16", False),
            ("x: archive_core::primitive::ArchivedNonZeroU16, y: std::marker::PhantomData<String>", True),
            ("x: usize", False),
            ("x: String", False),
            ("x: [u8; 4]", False),
            ("x: (u8, u8)", False),
            (", ".join(f"x{i}: u128" for i in range(16)), True),
        ]:
            with self.subTest(fields):
                self.assertEqual(self.is_copied(f"struct A {{ {fields} }}"), is_there)

    def test_in_other_structs(self):
        self.assertTrue(self.is_copied("struct A { x: B, y: B }\n#[derive(Drop)]\nstruct B(u16, i16);"))
        self.assertFalse(self.is_copied("struct A { x: B }\n#[derive(Drop)]\nstruct B(Option<u8>);"))
        self.assertFalse(self.is_copied("struct A { x: B }\n#[derive(Drop)]\nenum B { C, D }"))

    def test_neither_with_nothing_nor_with_parameters(self):
        for text in ["struct A;", "struct A<T> { x: T }", "enum A { B(u8) }"]:
            with self.subTest(text):
                self.assertFalse(self.is_copied(text))

    def test_the_proof_of_a_nest(self):
        proofs = write.proofs(self.module("struct A { x: B }\n#[derive(Drop)]\nstruct B { y: u8 }"))
        owned = next(text for path, text in proofs.items() if path.endswith("ACopied/copied_size/Answers.antt"))
        self.assertIn("plain_owns_nothing (plain_parts (plain_part (plain_parts (plain_part plain_leaf plain_none)) plain_none))", owned)
