"""The command: what it writes, and what it leaves as it is."""

import os
from unittest import mock

from derivation.files import PROOF_BEGINS, told
from derivation.model import MARK
from derivation.read import MOST_FIELDS
from derivation.units import FROM

from .repository import RepositoryTest

POINT = "/// A point.\n#[derive(Debug, PartialEq, Drop)]\npub struct Point {\n    pub x: i32,\n    pub name: String,\n}\n"
EVENT = "#[derive(Drop)]\npub enum Event { Quit, Key(char), Move { x: i32, y: Point } }\n"


class Writing(RepositoryTest):
    def test_what_is_above_stays(self):
        for head in (POINT, POINT + "\n", "//! Words.  \n\n\n" + POINT + EVENT + "// The end."):
            with self.subTest(head):
                path = self.put(head)
                self.assertEqual(self.run_command(path), (0, ""))
                text = self.text(path)
                self.assertTrue(text.startswith(head))
                self.assertRegex(text[len(head):], r"^\n{0,2}// Below this line")
                self.assertEqual(text.count(MARK), 1)
                self.assertIn("pub struct ArchivedPoint", text)

    def test_the_same_text_twice(self):
        path = self.put(POINT + EVENT)
        self.run_command(path)
        first = self.text(path)
        self.assertEqual(self.run_command(path), (0, ""))
        self.assertEqual(self.text(path), first)
        other = self.put(POINT + EVENT, crate="game")
        self.run_command(other)
        self.assertEqual(self.text(other), first)

    def test_from_a_folder_below(self):
        crate = os.path.dirname(os.path.dirname(self.put("#[derive(Drop)]\npub struct Tree { value: u32, children: Vec<Tree> }\n")))
        with open(os.path.join(self.top, "crates.txt"), "w", encoding="utf-8") as file:
            file.write("game: archive_core\n")
        self.addCleanup(os.chdir, os.getcwd())
        os.chdir(crate)
        self.assertEqual(self.run_command(os.path.join("src", "types.rt")), (0, ""))
        self.assertTrue(os.path.isfile(os.path.join(crate, "specs", "TreeShape.antt")))

    def test_a_changed_declaration_is_written_anew(self):
        path = self.put(POINT)
        self.run_command(path)
        changed = self.text(path).replace("pub x: i32", "pub x: i64, pub y: u8")
        self.put(changed)
        self.run_command(path)
        fresh = self.put(POINT.replace("pub x: i32", "pub x: i64, pub y: u8"), "fresh")
        self.run_command(fresh)
        self.assertEqual(self.text(path), self.text(fresh).replace(".fresh.", ".types."))

    def test_nothing_is_written_where_a_file_is_refused(self):
        good, bad = self.put(POINT, "good"), self.put("pub struct A(f64);", "bad")
        status, said = self.run_command(good, bad)
        self.assertEqual((status, said), (2, "crates/game/src/bad.rt:1: a float has no format; write its bits, a `u64` of `to_bits`\n"))
        self.assertEqual((self.text(good), self.text(bad)), (POINT, "pub struct A(f64);"))

    def test_names_that_are_there_already(self):
        for more, why in [
            ("struct ArchivedPoint;\n", "`ArchivedPoint` is written by tools/derive; give this one another name"),
            ("enum A { BC(u8) }\nenum AB { C(u8) }\n", "`ABCParts` would be written twice; give one of the types another name"),
            ("#[derive(Drop)]\nstruct Choice { all: Vec<Choice>, list: List }\nenum List { Nil, Cons(Box<List>) }\n", "`define_choice` would be written of `Choice`, and the library has a call of this name; give the type another name"),
            ("fn pointview() {}\n", "`PointView`, which differs from `pointview` only in case, is written by tools/derive; give this one another name"),
        ]:
            with self.subTest(more):
                status, said = self.run_command(self.put(POINT + more))
                self.assertEqual(status, 2)
                self.assertIn(why, said)

    def test_many_fields_are_a_nest_of_four_at_once(self):
        fields = ", ".join(f"f{i}: u8" for i in range(10))
        path = self.put(f"#[derive(Drop)]\npub struct Big {{ {fields} }}\n")
        self.assertEqual(self.run_command(path), (0, ""))
        self.assertIn("serialize_record::<Self, BigFields, ArchivedBig, S>(self, serializer)", self.text(path))
        self.assertNotIn("serialize_record_10", self.text(path))
        self.assertEqual(self.run_command("--check", path), (0, ""))

    def test_more_fields_than_at_once_go_in_blocks(self):
        fields = ", ".join(f"f{i}: u8" for i in range(17))
        path = self.put(f"#[derive(Drop)]\npub struct Big {{ {fields} }}\n")
        self.assertEqual(self.run_command(path), (0, ""))
        written = self.text(path)
        self.assertIn("    FourParts<u8, u8, u8, u8, FourParts<u8, u8, u8, u8, BigRest1>>,\n", written)
        self.assertIn("type BigBlock1 = FourParts<u8, u8, u8, u8, (u8, ())>;", written)
        self.assertIn("pub struct BigKept1 {", written)
        self.assertIn("r.kept" + ".1" * 12 + ".kept.1.1.1.1.0)", written)
        self.assertIn("impl PortableParts for BigRest1 {", written)
        self.assertIn("match deserialize_record::<Self, BigOwned, D>(alloc, part, deserializer) {", written)
        self.assertIn("impl<D: Entries> DeserializeParts<BigOwned1, D> for BigRest1 {", written)
        self.assertIn("⟦<u8 as Archive>⟧.meaning values.rest.rest.rest.values.rest.0)", written)
        self.assertIn("    let BigOwned1 { values } = rest;\n", written)
        self.assertEqual(self.run_command("--check", path), (0, ""))

    def test_the_most_fields_of_a_struct(self):
        fields = [f"f{i}: {'i8' if i % 2 else 'String'}" for i in range(MOST_FIELDS)]
        path = self.put(f"#[derive(Drop)]\npub struct Big {{ {', '.join(fields)} }}\n")
        self.assertEqual(self.run_command(path), (0, ""))
        written = self.text(path)
        self.assertIn("impl<D: Entries> DeserializeParts<BigOwned2, D> for BigRest2 {", written)
        self.assertNotIn("BigRest3", written)

    def test_many_fields_of_a_variant_are_lent(self):
        path = self.put(f"#[derive(Drop)]\npub enum Big {{ None, Some({', '.join(['i16'] * 16)}) }}\n")
        self.assertEqual(self.run_command(path), (0, ""))
        written = self.text(path)
        self.assertIn("serialize_case::<BigSomeLent<'_>, BigSomeFields, ArchivedBig, S>(\n", written)
        self.assertIn("Ok(values) => Ok(big_some_of(values))", written)
        proof = os.path.join(self.top, "crates", "game", "proofs", "types", "big_some_of", "Answers.antt")
        self.assertIn("c.args.values.rest.rest.rest.fourth", self.text(proof))
        self.assertEqual(self.run_command("--check", path), (0, ""))

    def test_variants_of_many_fields_by_their_calls(self):
        """The first arm has no name of its call, the second one of a call has a number, and the call itself its variant."""
        many = ", ".join(["u8"] * 9)
        path = self.put(f"#[derive(Drop)]\npub enum Big {{ A({many}), B({many}), C({many}) }}\n")
        self.assertEqual(self.run_command(path), (0, ""))
        folder = os.path.join(self.top, "crates", "game", "proofs", "types")
        written = self.text(os.path.join(folder, "BigSerialize", "serialize", "Answers.antt"))
        resolved = self.text(os.path.join(folder, "BigArchive", "resolve", "Answers.antt"))
        for name in ("returns-in-Ok", "returns-in-Ok-serialize_case", "returns-in-Ok-serialize_case-2"):
            self.assertTrue(f"pub {name} : goal.{name}\n" in written, name)
        self.assertTrue("c.serialize_case-in-C.ensures.goes_on" in written)
        self.assertTrue("w.resolve_case-in-C.ensures" in resolved)

    def test_many_variants_without_fields(self):
        names = [f"V{i}" for i in range(128)]
        names[3], names[100] = "V3(String)", "V100 { x: u8 }"
        path = self.put("#[derive(Drop)]\npub enum Many { " + ", ".join(names) + " }\n")
        self.assertEqual(self.run_command(path), (0, ""))
        written = " ".join(self.text(path).split())
        for text in (
            "type ManyVariants = UnitVariants< 3, ( ManyV3Parts, UnitVariants<96, (ManyV100Parts, UnitVariants<27, ()>)>, ), >;",
            "(units 96 (variant (part ⟦<u8 as Portable>⟧.shape no_part) (units 27 no_variant)))",
            "_ => match serialize_case_0::<ArchivedMany, S>(ManyTag::tag(self), serializer) {",
            "requires not_100 { tag ≢ 100 }",
            "126 => Many::V126, _ => Many::V127, }",
        ):
            self.assertTrue(text in written, text)
        self.assertEqual(written.count("serialize_case_0::<"), 1)
        self.assertIn("_ => match serialize_case_0::<ArchivedMany, S>(ManyTag::tag(self), serializer) {", written)
        self.assertEqual(self.run_command("--check", path), (0, ""))

    def test_no_variant_with_fields(self):
        path = self.put("#[derive(Drop)]\npub enum Many { " + ", ".join(f"V{i}" for i in range(FROM)) + " }\n")
        self.assertEqual(self.run_command(path), (0, ""))
        written = self.text(path)
        self.assertTrue("let tag = known_tag::<Self>(part);\n        let value = many_without_fields(tag);\n" in written)
        self.assertTrue("    fn serialize(&self, serializer: &mut S) -> Result<Self::Resolver, Error> {\n        match serialize_case_0::<" in written)
        proof = os.path.join(os.path.dirname(path), "..", "proofs", "types", "ManySerialize", "serialize", "Answers.antt")
        self.assertTrue("pub returns-in-Ok : goal.returns-in-Ok\n" in self.text(proof))
        self.assertEqual(self.run_command("--check", path), (0, ""))

    def test_few_variants_without_fields(self):
        path = self.put("#[derive(Drop)]\npub enum Few { " + ", ".join(f"V{i}" for i in range(FROM - 1)) + " }\n")
        self.assertEqual(self.run_command(path), (0, ""))
        self.assertNotIn("UnitVariants", self.text(path))

    def test_names_that_the_library_has_too(self):
        text = "use std::fmt::Error;\n/// A Choice of these.\n#[derive(Drop)]\npub enum Choice { Record(Record), Choice }\n#[derive(Drop)]\npub struct Record { pub x: u8 }\n"
        path = self.put(text)
        self.assertEqual(self.run_command(path), (0, ""))
        written = self.text(path)[len(text):]
        for name, module in (("Error", "error"), ("Choice", "traits"), ("Record", "traits")):
            self.assertIn(f"{name} as Core{name}", written)
            self.assertIn(f"-> Result<usize, CoreError>", written)
        self.assertIn("impl CoreChoice for ArchivedChoice", written)
        self.assertIn("impl CoreRecord for ArchivedRecord", written)
        self.assertIn("impl Archive for Choice", written)
        self.assertIn("Choice::Record(", written)
        self.assertIn("Choice::Choice", written)
        self.assertNotIn("\ue000", written)
        self.assertEqual(self.run_command("--check", path), (0, ""))

    def test_types_that_are_met_again_and_again(self):
        for field in ("Vec<T{0}>", "T{0}"):
            types = "".join(f"#[derive(PartialEq, Eq, Drop)]\npub struct T{i} {{ pub x: {field.format(i + 1)}, pub y: Box<T{i + 1}> }}\n" for i in range(30))
            self.assertEqual(self.run_command(self.put(f"{types}#[derive(PartialEq, Eq, Drop)]\npub struct T30 {{ pub x: u8 }}\n")), (0, ""))

    def test_names_of_std_that_are_another_thing(self):
        self.put("pub type Result<T> = std::result::Result<T, u8>;\n", "kinds")
        self.put("pub enum Error { A }\npub use archive_core::view::Ref;\n", "faults")
        point = "pub struct Point { pub x: Vec<u8> }\n"
        for text, line, said in [
            ("pub type Result<T> = std::result::Result<T, u8>;\n", 1, "`Result` is that of std in the written part; give this one another name"),
            ("pub struct Ok { x: u8 }\n", 1, "`Ok` is that of std in the written part; give this one another name"),
            ("\nuse anyhow::Result;\n", 2, "`Result` is that of std in the written part; bring this one in `as` another name"),
            ("use std::fmt::Result;\n", 1, "`Result` is that of std in the written part; bring this one in `as` another name"),
            ("\nuse crate::kinds::*;\n", 2, "this brings in another `Result` than that of std; name what you bring in, and this one by `as`"),
            ("use Kind::*;\npub enum Kind { None, One }\n", 1, "this brings in another `None` than that of std; name what you bring in, and this one by `as`"),
            ("use crate::faults::*;\nfn f(x: Error) {}\n", 1, "the written part brings in `archive_core::error::Error`; bring in by name what is named here, and `Error` by `as`"),
        ]:
            with self.subTest(text):
                self.assertEqual(self.run_command(self.put(text + point)), (2, f"crates/game/src/types.rt:{line}: {said}\n"))
        for text in ("use std::result::Result::{self, Ok};\nuse core::option::Option::*;\n", "use crate::faults::*;\n// Error\n", "use anyhow::*;\nuse crate::nowhere::*;\nuse super::faults::*;\n"):
            with self.subTest(text):
                self.assertEqual(self.run_command(self.put(text + point)), (0, ""))

    def test_all_that_std_has(self):
        text = "use std::collections::*;\nuse archive_core::rc::*;\npub struct A { pub x: BTreeMap<u8, Shared<u16>>, pub y: bool }\n"
        self.assertEqual(self.run_command(self.put(text)), (0, ""))

    def test_a_file_keeps_its_mode_and_a_link_stays(self):
        path = self.put(POINT)
        os.chmod(path, 0o640)
        link = self.path("game", "link")
        os.symlink(path, link)
        self.assertEqual(self.run_command(link), (0, ""))
        self.assertTrue(os.path.islink(link))
        self.assertEqual(os.stat(path).st_mode & 0o777, 0o640)
        self.assertIn("pub struct ArchivedPoint", self.text(path))

    def test_what_the_head_brings_in_is_not_brought_in_again(self):
        path = self.put("use archive_core::error::Error;\nuse std::alloc::Global;\n" + POINT)
        self.assertEqual(self.run_command(path), (0, ""))
        self.assertEqual(self.text(path).count("use archive_core::error::Error;"), 1)


class Proofs(RepositoryTest):
    """Short files of proofs beside a module, where a record needs some."""

    def files(self):
        top = os.path.join(self.top, "crates", "game", "proofs")
        return sorted(os.path.relpath(os.path.join(folder, it), top) for folder, _, names in os.walk(top) for it in names)

    def given(self, *words):
        """Each record has these, from now on."""
        made = {f"proofs/deep/long/{it}/Answers.antt": f"{PROOF_BEGINS}\nuse {it}\n" for it in words}
        patch = mock.patch("derivation.write.proofs", lambda module: made)
        patch.start()
        self.addCleanup(patch.stop)

    def test_written_compared_and_removed(self):
        path = self.put(POINT, "deep/long")
        self.given("a", "b")
        self.assertEqual(self.run_command("--check", path)[0], 1)
        self.assertEqual(self.run_command(path), (0, ""))
        self.assertEqual(self.files(), ["deep/long/a/Answers.antt", "deep/long/b/Answers.antt"])
        self.assertEqual(self.run_command("--check", path), (0, ""))
        with open(os.path.join(self.top, "crates/game/proofs/deep/long/a/Answers.antt"), "a", encoding="utf-8") as file:
            file.write("more\n")
        told = "crates/game/proofs/deep/long/a/Answers.antt:3: found `more`; it should be nothing: run tools/derive again\n"
        self.assertEqual(self.run_command("--check", path), (1, told))
        self.run_command(path)
        self.assertEqual(self.run_command("--check", path), (0, ""))

    def test_what_is_by_hand_stays(self):
        path = self.put(POINT, "deep/long")
        self.given("a")
        self.run_command(path)
        hand = os.path.join(self.top, "crates/game/proofs/deep/long/hand/Answers.antt")
        os.makedirs(os.path.dirname(hand))
        with open(hand, "w", encoding="utf-8") as file:
            file.write("use x\n")
        self.put("pub struct A;", "deep/long/other")
        other = os.path.join(self.top, "crates/game/proofs/deep/long/other/Answers.antt")
        os.makedirs(os.path.dirname(other))
        with open(other, "w", encoding="utf-8") as file:
            file.write(f"{PROOF_BEGINS}\n")
        self.given()
        self.assertEqual(self.run_command("--check", path)[0], 1)
        self.run_command(path)
        self.assertEqual(self.files(), ["deep/long/hand/Answers.antt", "deep/long/other/Answers.antt"])


class Checking(RepositoryTest):
    def setUp(self):
        super().setUp()
        self.file = self.put(POINT)

    def check(self):
        return self.run_command("--check", self.file)

    def test_not_written(self):
        self.assertEqual(self.check(), (1, "crates/game/src/types.rt:7: nothing is written yet; run tools/derive on it\n"))
        self.assertEqual(self.text(self.file), POINT)

    def test_written(self):
        self.run_command(self.file)
        self.assertEqual(self.check(), (0, ""))

    def test_the_layout_does_not_count(self):
        self.run_command(self.file)
        text = self.text(self.file).replace("fn size() -> usize {\n        ", "fn size(  ) -> usize { ").replace("Prelude.{", "Prelude.{ ")
        self.put(text)
        self.assertEqual(self.check(), (0, ""))
        self.assertEqual(self.run_command(self.file), (0, ""))
        self.assertEqual(self.text(self.file), text)

    def test_the_first_line_that_differs(self):
        self.run_command(self.file)
        text = self.text(self.file)
        line = text[: text.index("        12\n")].count("\n") + 1
        self.put(text.replace("        12\n", "        16\n", 1))
        self.assertEqual(self.check(), (1, f"crates/game/src/types.rt:{line}: found `16`; it should be `12`: run tools/derive again\n"))

    def test_of_a_long_line_what_differs(self):
        line = ", ".join(f"part_{it}" for it in range(60))
        said = told(line.replace("part_30", "other"), line)
        self.assertRegex(said, r"^found `\.\.[^`]* other,[^`]*\.\.`; it should be `\.\.[^`]* part_30,[^`]*\.\.`: run tools/derive again$")
        self.assertLess(len(said), 400)

    def test_the_end_is_missing_or_too_long(self):
        self.run_command(self.file)
        text = self.text(self.file)
        self.put(text.rstrip().rstrip("}"))
        self.assertIn("found nothing; it should be `}`: run tools/derive again", self.check()[1])
        self.put(text + "fn more() {}\n")
        self.assertIn("found `fn more() {}`; it should be nothing: run tools/derive again", self.check()[1])

    def test_a_changed_declaration(self):
        self.run_command(self.file)
        self.put(self.text(self.file).replace("pub x: i32", "pub x: i64"))
        self.assertEqual(self.check()[0], 1)


class CheckingAll(RepositoryTest):
    def in_folder(self, folder):
        before = os.getcwd()
        self.addCleanup(os.chdir, before)
        os.chdir(folder)

    def test_all_written_files_are_looked_at(self):
        good, bad = self.put(POINT, "good"), self.put(POINT, "deep/bad", "other")
        self.put("pub struct Alone;\n", "plain")
        self.run_command(good, bad)
        self.in_folder(self.top)
        self.assertEqual(self.run_command("--check"), (0, ""))
        self.put(self.text(bad) + "more\n", "deep/bad", "other")
        status, said = self.run_command("--check")
        self.assertEqual(status, 1)
        self.assertRegex(said, r"\Acrates/other/src/deep/bad.rt:\d+: found `more`; it should be nothing: run tools/derive again\n\Z")

    def test_there_are_no_crates(self):
        self.in_folder(self.top)
        self.assertEqual(self.run_command("--check"), (2, "there is no folder `crates` here; name the files, or run this where the repository begins\n"))


class Arguments(RepositoryTest):
    def test_help(self):
        status, said = self.run_command("--help")
        self.assertEqual(status, 0)
        self.assertIn("tools/derive --check", said)

    def test_usage(self):
        for arguments in ([], ["--new"], ["--check", "-x"]):
            status, said = self.run_command(*arguments)
            self.assertEqual(status, 2)
            self.assertTrue(said.startswith("tools/derive [--check] FILE.rt .."))

    def test_a_text_where_it_is_asked_for(self):
        path = self.put("// text: EVENT_TEXT\n" + POINT + EVENT)
        self.assertEqual(self.run_command(path), (0, ""))
        text = "struct Point { x: i32, name: String }\nenum Event { Quit, Key(char), Move { x: i32, y: Point } }"
        self.assertIn(f'pub const EVENT_TEXT: &str = "{text}";', self.text(path))
        self.assertEqual(self.run_command("--check", path), (0, ""))

    def test_a_text_of_types_of_another_file(self):
        point = self.put(POINT, "point")
        path = self.put("// text: LINE_TEXT\nuse crate::point::Point;\n#[derive(Drop)]\npub struct Line(Point, Vec<(u8, Point)>);\n", "line")
        self.assertEqual(self.run_command(point, path), (0, ""))
        text = "struct Point { x: i32, name: String }\nstruct Line(Point, Vec<(u8, Point)>);"
        self.assertIn(f'pub const LINE_TEXT: &str = "{text}";', self.text(path))

    def test_no_text(self):
        for head, why in [
            ("// text: text\n" + POINT, "`text` is no name of a new constant; write `// text: SCHEMA`"),
            ("// text: POINT_TEXT\npub struct Pair<T> { one: T, other: T }\n", "`Pair` has type parameters, which a schema text has not; remove the line `// text:`"),
            ("// text: POINT\n" + POINT, "`POINT`, which differs from `Point` only in case, is written by tools/derive; give this one another name"),
        ]:
            with self.subTest(head):
                status, said = self.run_command(self.put(head))
                self.assertEqual(status, 2)
                self.assertIn(why, said)
