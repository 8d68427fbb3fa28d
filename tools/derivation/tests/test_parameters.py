"""Type parameters: the names that the written part has for its own, and those of a declaration that mark it alone."""

from .repository import RepositoryTest


class Parameters(RepositoryTest):
    def test_a_name_of_a_type_parameter_is_refused(self):
        for name, text, line in [
            ("D", "pub struct D { pub x: u8 }\n", 1),
            ("S", "pub struct A { pub x: u8 }\n\npub enum S { One, Two(A) }\n", 3),
            ("S", "use crate::other::Spot as S;\npub struct A { pub x: Box<S> }\n", 2),
            ("D", "pub struct Pair<C, D> { pub left: C, pub right: D }\n", 1),
        ]:
            with self.subTest(text):
                self.run_command(self.put("pub struct Spot { pub x: u8 }\n", "other"))
                path = self.put(text)
                status, said = self.run_command(path)
                self.assertEqual(status, 2)
                self.assertIn(f"types.rt:{line}: the written part has a type parameter `{name}`", said)
                self.assertEqual(self.text(path), text)

    def test_other_letters_are_names(self):
        text = "#[derive(PartialEq, Eq, Hash, Drop)]\npub enum C { H(H), W }\n#[derive(PartialEq, Eq, Hash, Drop)]\npub struct H { pub x: u8 }\npub struct Pair<A, B> { pub left: A, pub right: B }\n"
        self.assertEqual(self.run_command(self.put(text)), (0, ""))


MARKS = "use std::marker::PhantomData;\npub struct Id<T> { pub raw: u64, pub of: PhantomData<T> }\n"


class Marks(RepositoryTest):
    def test_a_parameter_of_a_phantom_is_refused(self):
        said = "2: a type parameter in a `PhantomData` isn't proved; write one struct for each type, without this"
        self.assertIn(said, self.refusal(MARKS))
        for field in ("PhantomData<T>", "Box<PhantomData<Vec<T>>>"):
            self.assertIn(f"3{said[1:]} `{field}`", self.refusal(f"use std::marker::PhantomData;\nstruct A<T> {{ x: T,\nof: {field} }}"))

    def test_a_type_that_marks_itself_is_refused(self):
        for text in ("struct User { x: u8,\nof: PhantomData<Vec<Self>> }", "struct User { x: u8,\nof: PhantomData<User> }"):
            said = "3: `User` names itself, though it holds none (User > User); mark it by a type of its own, as `struct UserMark;`"
            self.assertEqual(self.refusal(f"use std::marker::PhantomData;\n{text}"), said)

    def test_a_phantom_names_its_type_as_the_field_does(self):
        self.put("pub struct Mark;\n", "other")
        path = self.put("use std::marker::PhantomData;\npub struct A { pub of: Option<PhantomData<crate::other::Mark>> }\n")
        self.assertEqual(self.run_command(path), (0, ""))
        self.assertIn("ArchivedOption<PhantomData<crate::other::Mark>>", self.text(path))
