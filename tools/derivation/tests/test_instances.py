"""Enums with type parameters, and structs with them of many fields, archived with the arguments that an alias names."""

from .repository import RepositoryTest

EITHER = "#[derive(Drop)]\npub enum Either<A, B> { Left(A), Right { it: Vec<B>, times: u8 } }\n"


class Instances(RepositoryTest):
    def test_each_alias_is_a_type(self):
        made = self.module(f"{EITHER}pub type Label = Either<u32, String>;\npub type Labels = Either<Label, u8>;\ntype Unused = Vec<u8>;\n").declarations
        self.assertEqual([(it.name, it.archived, it.instance_of, it.parameters) for it in made], [("Label", "ArchivedLabel", "Either", []), ("Labels", "ArchivedLabels", "Either", [])])
        self.assertEqual([field.type.text for it in made for field in it.all_fields()], ["u32", "Vec<String>", "u8", "Label", "Vec<u8>", "u8"])
        self.assertIs(made[1].variants[0].fields[0].type.own, made[0])

    def test_a_field_names_the_alias_or_its_meaning(self):
        self.run_command(self.put(f"{EITHER}pub type Label = Either<u32, String>;\n", "either"))
        text = "use crate::either::{Either, Label};\npub struct A { one: Either<u32, String>, two: Vec<Label> }\n"
        one, two = (field.type for field in self.declaration(text).fields)
        self.assertIs(one.own, two.args[0].own)
        self.assertEqual((one.text, two.text), ("Either<u32, String>", "Vec<Label>"))
        self.assertEqual(self.run_command(self.put(text)), (0, ""))

    def test_variants_go_by_the_enum_and_all_else_by_the_alias(self):
        path = self.put(f"{EITHER}pub type Label = Either<u32, String>;\n")
        self.assertEqual(self.run_command(path), (0, ""))
        text = self.text(path)
        self.assertIn("declared.types.Either.TheVariants.{Left as LabelLeft, Right as LabelRight};", text)
        self.assertIn("declared.types.LabelResolver.TheVariants.", text)
        self.assertIn("impl Archive for Label {", text)
        self.assertIn("Label::Left(a0) =>", text)
        self.assertEqual(self.run_command("--check", path), (0, ""))

    def test_what_is_refused(self):
        for text, said in [
            (EITHER, "2: `Either` has type parameters: name the types that it is used with, each by an alias in this file, as `pub type EitherOf.. = Either<.., ..>;`"),
            (f"// name: Other\n{EITHER}type A = Either<u8, u8>;\n", "3: `Either` has type parameters, so its archived types have the names of its aliases; remove the line `// name:`"),
            (f"{EITHER}type A = Either<u8, u8>;\ntype B = Either<u8, u8>;\n", "4: `A` and `B` are one type; remove one of these aliases"),
            (f"{EITHER}type A = Either<u8>;\n", "3: `Either` takes two arguments, not 1; write two"),
            (f"{EITHER}type A = Either<u8, f32>;\n", "3: a float has no format"),
            (f"{EITHER}type A = Either<u8, u8>;\nstruct B {{ b: Either<u8, u16> }}\n", "4: no alias stands for `Either<u8, u16>`; write one into"),
            (f"{EITHER}type A = Either<u8, u8>;\nstruct B<T> {{ b: Either<u8, T> }}\n", "4: `Either<u8, T>` names a parameter, and what is archived by its aliases takes types alone; write a type"),
            ("enum Tree<T> { Leaf(T), Two(Box<Tree<T>>, Box<Tree<T>>) }\ntype Numbers = Tree<u8>;\n", "1: `Numbers` is recursive (Numbers > Numbers) and of a type with type parameters; write one without"),
            ("struct Tree { of: Vec<Tree> }\nenum Maybe<T> { No, Yes(T) }\ntype Some = Maybe<Tree>;\n", "3: `Some` holds a recursive type and is of an enum with type parameters; write one without"),
        ]:
            with self.subTest(text):
                self.assertIn(said, self.refusal(text))


MANY = f"#[derive(Drop)]\npub struct Many<A, B> {{ pub a: A, pub b: Vec<B>, {', '.join(f'pub f{i}: u8' for i in range(7))} }}\n"


class StructInstances(RepositoryTest):
    def test_each_alias_is_a_type(self):
        made = self.module(f"{MANY}pub type Texts = Many<String, u64>;\npub type All = Many<Texts, i64>;\n").declarations
        self.assertEqual([(it.name, it.archived, it.instance_of, it.parameters) for it in made], [("Texts", "ArchivedTexts", "Many", []), ("All", "ArchivedAll", "Many", [])])
        self.assertEqual([field.type.text for it in made for field in it.fields[:2]], ["String", "Vec<u64>", "Texts", "Vec<i64>"])

    def test_a_value_is_made_of_the_struct_and_all_else_goes_by_the_alias(self):
        path = self.put(f"{MANY}pub type Texts = Many<String, u64>;\n")
        self.assertEqual(self.run_command(path), (0, ""))
        text = self.text(path)
        for line in ("pub struct ArchivedTexts;", "impl Archive for Texts {", "impl HasField<0, String> for Texts {", "fn texts_of(values: TextsOwned) -> Texts", "    Many {\n        a: a0,"):
            self.assertIn(line, text)
        self.assertEqual(self.run_command("--check", path), (0, ""))

    def test_few_fields_go_by_aliases_where_there_are_any(self):
        pair = "#[derive(Drop)]\npub struct Pair<A, B> { pub left: A, pub right: B }\n"
        made = self.module(pair).declarations + self.module(f"{pair}pub type Both = Pair<u8, String>;\n").declarations
        self.assertEqual([(it.name, it.as_tuple) for it in made], [("Pair", True), ("Both", False)])

    def test_wide_numbers_beside_others_go_by_aliases(self):
        for fields, is_refused in [("t: T, x: u64", False), ("x: i64, t: T, y: u8, z: T", False), ("t: T, x: u64, y: u16", True), ("t: T, x: Vec<u64>", True), ("t: T, x: u64, y: u64", True)]:
            with self.subTest(fields):
                text = f"#[derive(Drop)]\npub struct A<T> {{ {fields} }}\n"
                if is_refused:
                    self.assertIn("beside these fields of a struct with type parameters isn't proved; name the types that it is used with, each by an alias in this file, as `pub type AOf.. = A<..>;`", self.refusal(text))
                    text += "pub type AOfText = A<String>;\n"
                self.assertEqual(self.run_command(self.put(text)), (0, ""))

    def test_what_is_refused(self):
        for text, said in [
            (MANY, "2: `Many` has type parameters and more than 8 fields: name the types that it is used with, each by an alias in this file, as `pub type ManyOf.. = Many<.., ..>;`"),
            (f"{MANY}type A = Many<u8, u8>;\nstruct B<T> {{ b: Many<u8, T> }}\n", "4: `Many<u8, T>` names a parameter, and what is archived by its aliases takes types alone; write a type"),
            (f"{MANY}type A = Many<u8, u8>;\nstruct B {{ b: Many<u8, u16> }}\n", "4: no alias stands for `Many<u8, u16>`; write one into"),
        ]:
            with self.subTest(text):
                self.assertIn(said, self.refusal(text))
