"""Functions by which the variants of recursive enums are resolved: one for each number of fields."""

from .repository import RepositoryTest


class ByNumber(RepositoryTest):
    def written(self, declared):
        path = self.put(declared)
        self.assertEqual(self.run_command(path), (0, ""))
        return self.text(path)

    def test_one_function_for_each_number_of_fields(self):
        text = self.written("#[derive(Drop)]\npub enum A { Nil, End, Num(i64), Add(Box<A>, Box<A>), Mul(Box<A>, Box<A>) }")
        for count, said in ((0, "resolve_a_0(1, (), Place::new(pos, bytes))"), (1, "resolve_a_1::<i64>(2, a0, kept, Place::new(pos, bytes))"), (2, "resolve_a_2::<BoxAt<ArchivedA>, BoxAt<ArchivedA>>(")):
            self.assertEqual(text.count(f"fn resolve_a_{count}"), 1)
            self.assertIn(said, text)
        self.assertNotIn("fn resolve_a_3", text)
        self.assertNotIn("resolve_named_case", text)
        self.assertIn("    requires variant { variant_at a_variants tag ≡ Some\n        (part A.Archived.shape (part B.Archived.shape no_part)) }\n", text)

    def test_what_holds_a_recursive_type_has_none(self):
        text = self.written("#[derive(Drop)]\npub struct T { at: u8, next: Vec<T> }\n#[derive(Drop)]\npub enum H { One(T), Two(u8) }")
        self.assertNotIn("fn resolve_h_1", text)
        self.assertIn("resolve_named_case_1::<T, ArchivedH>(", text)

    def test_a_variant_that_comes_to_too_much(self):
        wide = ", ".join(["Vec<(u64, String)>"] * 5)
        said = "`A::Y` has more in its fields than the toolchain follows where a type is recursive; put some into a struct of another file"
        self.assertEqual(self.refusal(f"#[derive(Drop)]\npub enum A {{ X(Vec<A>),\nY({wide}) }}\n"), f"3: {said}")

    def test_tuples_that_lead_back_are_types_of_their_own(self):
        self.written("use std::collections::BTreeMap;\n#[derive(Drop)]\npub enum A { Text(String), Work(BTreeMap<u16, i8>), Table(Vec<(String, A, Option<String>)>) }")
