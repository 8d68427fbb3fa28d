"""Arrays in other types: those of integers, `bool` and `char` are read back as they are, others as `OwnedArray`s, of which functions of the module make them."""

import os

from derivation import write

from .repository import RepositoryTest


def bare(text):
    """Without what the layout adds."""
    return "".join(text.split()).replace(",)", ")").replace(",}", "}").replace(",>", ">")


class ArraysOfNumbers(RepositoryTest):
    def written(self, text):
        path = self.put(text)
        self.assertEqual(self.run_command(path), (0, ""))
        return bare(self.text(path))

    def test_they_are_read_as_they_are(self):
        text = self.written("pub struct A { pub x: [u16; 2], pub y: Option<[u8; 16]>, pub z: (u32, [bool; 4]) }\n")
        self.assertIn("typeAOwned=(OwnedArray<u16,2>,(Option<[u8;16]>,((u32,[bool;4]),())));", text)
        self.assertIn("typeAParts=([ArchivedU16;2],(ArchivedOption<[u8;16]>,(ArchivedTuple2<ArchivedU32,[bool;4]>,())));", text)
        self.assertIn("A{x:a0.into_array(),y:a1,z:a2}", text)

    def test_they_are_in_variants(self):
        text = self.written("pub enum A { X, Y(Result<[usize; 4], String>) }\n")
        self.assertIn("ArchivedResult<[ArchivedUsize;4],ArchivedString>", text)
        self.assertNotIn("OwnedArray", text)

    def test_they_are_behind_pointers(self):
        for type, archived in (
            ("Vec<[u8; 4]>", "ArchivedVec<[u8;4]>"),
            ("Option<Box<[i32; 3]>>", "ArchivedOption<ArchivedBox<[ArchivedI32;3]>>"),
            ("BoxSlice<[char; 2]>", "ArchivedBox<ArchivedSlice<[ArchivedChar;2]>>"),
            ("Shared<[u64; 2]>", "ArchivedRc<[ArchivedU64;2],RcFlavor>"),
            ("Vec<(u8, [u8; 2])>", "ArchivedVec<ArchivedTuple2<u8,[u8;2]>>"),
            ("BTreeMap<String, [u8; 4]>", "ArchivedSortedMap<ArchivedString,[u8;4]>"),
        ):
            with self.subTest(type):
                uses = "use archive_core::boxed::BoxSlice;\nuse archive_core::rc::Shared;\nuse std::collections::BTreeMap;\n"
                text = self.written(f"{uses}pub struct A {{ pub x: {type} }}\npub enum B {{ X, Y({type}) }}\n")
                self.assertIn(f"typeAParts=({archived},());", text)
                self.assertIn(f"typeAOwned=({bare(type)},());", text)
                self.assertNotIn("OwnedArray", text)


class ArraysWithin(RepositoryTest):
    def written(self, text):
        return bare(write.written(self.module(text)))

    def test_they_are_made_of_what_is_read_in_their_place(self):
        text = self.written("struct A { x: Option<[String; 4]> }\n")
        self.assertIn("typeAOwned=(Option<OwnedArray<String,4>>,());", text)
        self.assertIn("typeAParts=(ArchivedOption<[ArchivedString;4]>,());", text)
        self.assertIn("fnmade_option_array4_string(read:Option<OwnedArray<String,4>>)->Option<[String;4]>ensures{result≡read}", text)
        self.assertIn("A{x:made_option_array4_string(a0)}", text)

    def test_each_holder_has_its_way(self):
        text = self.written("enum A { X(Result<[String; 2], String>), Y(([String; 3], u8)), Z([[String; 2]; 3]) }\n")
        self.assertIn("{matchread{Ok(value)=>Ok(value.into_array()),Err(value)=>Err(value)}}", text.replace(",}", "}"))
        self.assertIn("{let(a0,a1)=read;(a0.into_array(),a1)}", text)
        self.assertIn("{let[a0,a1,a2]=read.into_array();[a0.into_array(),a1.into_array(),a2.into_array()]}", text)

    def test_numbers_beside_them_are_left(self):
        text = self.written("struct A { x: Result<[u32; 4], [String; 2]>, y: [[u32; 4]; 20] }\n")
        self.assertIn("{matchread{Ok(value)=>Ok(value),Err(value)=>Err(value.into_array())}}", text.replace(",}", "}"))
        self.assertIn("OwnedArray<[u32;4],20>", text)
        self.assertIn("y:a1.into_array()}", text)

    def test_a_function_is_written_once(self):
        text = self.written("struct A { x: Option<[String; 4]>, y: (u8, [String; 4]) }\nenum B { X(Option<[String; 4]>), Y(Result<[String; 4], u8>) }\nstruct C { x: [Option<[String; 4]>; 2] }\n")
        self.assertEqual(text.count("fnmade_option_array4_string("), 1)
        self.assertIn("[made_option_array4_string(a0),made_option_array4_string(a1)]", text)

    def test_an_array_of_own_values(self):
        text = self.written("#[derive(Drop)]\nstruct P { x: u8 }\nstruct A { x: Option<[P; 2]>, y: [Option<[String; 2]>; 1] }\n")
        self.assertIn("fnmade_option_array2_p(read:Option<OwnedArray<P,2>>)->Option<[P;2]>", text)
        self.assertIn("OwnedArray<Option<OwnedArray<String,2>>,1>", text)

    def test_two_runs_write_the_same(self):
        path = self.put("struct A { x: Option<[String; 4]>, y: ([i8; 2], u8), z: Result<[u64; 2], String> }\n")
        self.assertEqual(self.run_command(path), (0, ""))
        once = self.text(path)
        self.assertEqual(self.run_command(path), (0, ""))
        self.assertEqual(self.text(path), once)
        self.assertEqual(self.run_command("--check", path), (0, ""))


class OtherForms(RepositoryTest):
    """Arrays in types with type parameters, and in recursive types and those around one."""

    def written(self, text):
        path = self.put(f"use archive_core::rc::Shared;\n{text}")
        self.assertEqual(self.run_command(path), (0, ""))
        self.assertEqual(self.run_command("--check", path), (0, ""))
        return bare(self.text(path))

    def beside(self, *path):
        return bare(self.text(os.path.join(self.top, "crates", "game", *path)))

    def test_in_a_struct_with_type_parameters(self):
        text = self.written("struct A<T> { x: T, y: [u32; 3], z: [u8; 4] }\n")
        self.assertIn("typeOwned=(T,(OwnedArray<u32,3>,(OwnedArray<u8,4>,())));", text)
        self.assertIn("A{x:a0,y:a1.into_array(),z:a2.into_array()}", text)
        self.assertIn("S:Writer+ResolverAlloc<Alloc=Global>", text)
        self.assertIn("usestd::alloc::Global;", text)

    def test_other_arrays_and_much_beside_type_parameters(self):
        for fields, line, type in (
            ("y: [u32; 3],\nz: Option<u32>", 3, "Option<u32>"),
            ("y: [u32; 3],\nz: [u32; 3]", 3, "[u32; 3]"),
            ("y: [String; 2]", 2, "[String; 2]"),
            ("y: Option<[u8; 2]>", 2, "Option<[u8; 2]>"),
            ("y: Vec<[u8; 4]>", 2, "Vec<[u8; 4]>"),
        ):
            declared = f"struct A<T> {{ x: T,\n{fields} }}\n"
            said = f"{line}: `{type}` beside the other fields of a struct with type parameters and an array isn't proved"
            self.assertEqual(self.refusal(declared), f"{said}; name the types that it is used with, each by an alias in this file, as `pub type AOf.. = A<..>;`")
            self.module(f"{declared}pub type ByteA = A<u8>;\n")

    def test_in_a_recursive_struct(self):
        text = self.written("#[derive(Drop)]\nstruct Tree { key: [u32; 4], names: [String; 2], maybe: Option<[u8; 3]>, below: Vec<Tree> }\n")
        self.assertIn("matchread_part::<[ArchivedU32;4],OwnedArray<u32,4>,D>(alloc,p0,deserializer)", text)
        self.assertIn("matchread_part::<ArchivedOption<[u8;3]>,Option<[u8;3]>,D>(alloc,p2,deserializer)", text)
        self.assertIn("Tree{key:a0.into_array(),names:a1.into_array(),maybe:a2,below:a3}", text)
        self.assertIn("(array_meaning4(λy.(number(posy)))t.key)", self.beside("specs", "TreeMeaning.antt"))
        self.assertIn("rw(c.into_array.ensures,c.into_array-2.ensures)", self.beside("proofs", "types", "+read_tree", "Answers.antt"))

    def test_in_the_variants_of_a_recursive_enum(self):
        text = self.written("#[derive(Drop)]\nenum Tone { Colour([u8; 3]), Named(Option<[String; 2]>), Add(Box<Tone>, Box<Tone>) }\n")
        self.assertIn("Tone::Colour(a0.into_array())", text)
        self.assertIn("Tone::Named(made_option_array2_string(a0))", text)
        self.assertIn("rw(c.made_option_array2_string.ensures)", self.beside("proofs", "types", "read_tone_named", "Answers.antt"))

    def test_in_a_list_and_in_a_tuple_that_leads_back(self):
        text = self.written("enum List { Nil, Cons([u32; 2], u8, Box<List>) }\n#[derive(Drop)]\nstruct Rows { x: Vec<([u8; 2], Rows)> }\n")
        self.assertIn("ListFront::Cons(a0.into_array(),a1)", text)
        self.assertIn("Ok((a0.into_array(),a1))", text)
        self.assertIn("rw(c.into_array.ensures)", self.beside("proofs", "types", "read_list_cons", "Answers.antt"))

    def test_around_a_recursive_type(self):
        text = self.written("#[derive(Drop)]\nstruct Tree { below: Vec<Tree> }\nstruct A { x: [u8; 4], tree: Tree }\n")
        self.assertIn("A{x:a0.into_array(),tree:a1}", text)

    def test_what_is_behind_a_pointer_there(self):
        said = "an array of `String` in `Vec` is read back as an `OwnedArray`; write `OwnedArray<String, 2>`, of `archive_core::core_impls`"
        for text in ("#[derive(Drop)]\nstruct Tree { below: Vec<Tree>,\nx: Vec<[String; 2]> }\n", "struct A<T> { t: T,\n\nx: Vec<[String; 2]> }\n"):
            self.assertEqual(self.refusal(text), f"3: {said}")


class Refused(RepositoryTest):
    def refused(self, type):
        said = self.refusal(f"use archive_core::core_impls::OwnedArray;\nuse archive_core::rc::Shared;\nstruct P<T> {{ x: T }}\nstruct A {{ y: {type} }}\n")
        return said.removeprefix("4: ")

    def test_an_array_of_others_behind_a_pointer(self):
        for type, name, item in (
            ("Vec<[String; 4]>", "Vec", "String"),
            ("Option<Box<[Option<u8>; 4]>>", "Box", "Option<u8>"),
            ("[Vec<[[u8; 2]; 4]>; 2]", "Vec", "[u8; 2]"),
            ("Shared<Option<[String; 4]>>", "Shared", "String"),
            ("OwnedArray<[String; 4], 2>", "OwnedArray", "String"),
        ):
            with self.subTest(type):
                self.assertEqual(
                    self.refused(type),
                    f"an array of `{item}` in `{name}` is read back as an `OwnedArray`; write `OwnedArray<{item}, 4>`, of `archive_core::core_impls`",
                )
        self.declaration("use archive_core::core_impls::OwnedArray;\nstruct A { x: Vec<OwnedArray<String, 4>>, y: OwnedArray<[u8; 4], 2> }\n")

    def test_many_fields_with_arrays_behind_pointers(self):
        fields = ["a: Vec<[u8; 4]>", "b: Box<[i8; 2]>", "c: Option<Box<[u32; 3]>>", "d: [u8; 4]", "e: Vec<u8>", "f: Vec<(u8, [u8; 2])>"]
        said = "4 fields have an array behind a pointer, and 3 are the most; put some into a struct of their own"
        for one in (f"struct A {{ {', '.join(fields[:5])} }}\n", f"enum A {{ X {{ {', '.join(fields[:5])} }}, Y(Vec<[u8; 4]>) }}\n"):
            self.declaration(one)
        self.assertEqual(self.refusal(f"struct A {{ {', '.join(fields)} }}\n"), f"1: {said}")
        self.assertEqual(self.refusal(f"enum A {{ X {{ {', '.join(fields)} }}, Y }}\n"), f"1: {said}")

    def test_an_array_around_a_graph(self):
        web = "use archive_core::rc::Shared;\nstruct Web { x: u8, next: Vec<Shared<Web>> }\n"
        said = self.refusal(f"{web}struct A {{ web: Web, y: Vec<[u8; 4]> }}\n")
        self.assertEqual(said, "3: an array behind a pointer in a type with a recursive type isn't proved; put `[u8; 4]` into a struct of its own")
        said = self.refusal(f"{web}struct A {{ web: Web, y: Option<[u8; 4]> }}\n")
        self.assertEqual(said, "3: an array in a struct that holds a recursive type isn't proved; write a `Vec` in place of `[u8; 4]`")

    def test_an_array_in_the_arguments_of_a_struct(self):
        self.assertEqual(self.refused("P<[u32; 4]>"), "an array in the arguments of a struct isn't read back; write a `Vec` in place of `[u32; 4]`")

    def test_an_array_of_a_parameter(self):
        for type, array in (
            ("[T; 2]", "[T; 2]"),
            ("Option<[T; 2]>", "[T; 2]"),
            ("[Option<T>; 2]", "[Option<T>; 2]"),
            ("Vec<[T; 2]>", "[T; 2]"),
            ("Vec<OwnedArray<T, 2>>", "OwnedArray<T, 2>"),
        ):
            text = f"use archive_core::core_impls::OwnedArray;\nstruct A<T> {{ x: T,\ny: {type} }}\n"
            self.assertEqual(self.refusal(text), f"3: an array of a type parameter isn't read back; write a `Vec` in place of `{array}`")
            self.module(f"{text}pub type ByteA = A<u8>;\n")

    def test_more_arrays_than_are_taken_apart(self):
        self.assertEqual(self.refused("[[String; 4]; 4]"), "an array of `String` in more than 3 others is read back as an `OwnedArray`; write `OwnedArray<String, 4>`, of `archive_core::core_impls`")
        self.declaration("use archive_core::core_impls::OwnedArray;\nstruct A { x: [[String; 4]; 3], y: [OwnedArray<String, 4>; 4] }")
