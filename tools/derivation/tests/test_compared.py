"""Views that are compared: of which types, and by which laws."""

from derivation import write

from .repository import RepositoryTest


class Compared(RepositoryTest):
    def written(self, text):
        return write.written(self.module(text))

    def test_only_where_it_is_derived(self):
        for derived, is_there in [("Debug, PartialEq", False), ("Eq", True), ("PartialOrd", True), ("Ord", True), ("Hash", True)]:
            with self.subTest(derived):
                text = self.written(f"#[derive({derived})]\nstruct A {{ x: u8, y: String }}")
                self.assertEqual("impl Ordered for ArchivedA {" in text, is_there)
                self.assertEqual("use archive_core::compared::{ComparedFields, compare_record, hash_record};" in text, is_there)

    def test_only_where_all_fields_can_be(self):
        for type, is_there in [
            ("u8", True),
            ("Option<Vec<Box<i64>>>", True),
            ("Result<char, bool>", True),
            ("(u8, String)", True),
            ("std::collections::BTreeMap<String, u8>", True),
            ("archive_core::rc::Shared<u8>", False),
            ("archive_core::rc::WeakShared<u8>", False),
            ("(u8, u8, u8)", False),
            ("[u8; 4]", False),
            ("()", False),
        ]:
            with self.subTest(type):
                text = self.written(f"#[derive(Hash)]\nstruct A {{ x: {type} }}\n#[derive(Hash)]\nenum B {{ C, D({type}) }}")
                self.assertEqual("impl Ordered for ArchivedA {" in text, is_there)
                self.assertEqual("impl Ordered for ArchivedB {" in text, is_there)

    def test_not_of_variants_that_are_too_deep(self):
        deep = "B(i32, Vec<Vec<Box<archive_core::primitive::ArchivedNonZeroI64>>>)"
        self.assertIn("impl Ordered", self.written("#[derive(Eq)]\nenum K { A, B(i32, Vec<Box<i64>>), C(String) }"))
        self.assertNotIn("impl Ordered", self.written(f"#[derive(Eq)]\nenum K {{ T {{ x: i8 }}, A, S(String), {deep}, N }}"))

    def test_a_type_of_others(self):
        derived = "#[derive(Ord, Drop)]\n"
        text = self.written(f"{derived}struct A {{ b: B }}\n{derived}struct B;\n{derived}struct C {{ d: E }}\n#[derive(Drop)]\nstruct E;")
        self.assertIn("impl Ordered for ArchivedA {", text)
        self.assertIn("ArchivedBOrdered.TheImpl.Laws.{by_value-law as by_value_of_archived_b, ", text)
        self.assertNotIn("impl Ordered for ArchivedC {", text)

    def test_not_with_parameters(self):
        self.assertNotIn("impl Ordered", self.written("#[derive(Ord)]\nstruct A<T> { x: T }"))
