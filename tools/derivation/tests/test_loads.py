"""What the toolchain rejected is too much, and what it took is mostly not."""

from derivation import loads

from .repository import RepositoryTest

# So many fields of a type, in one struct, that the front end rejected, in pairs up to eight.
REJECTED = [
    (16, "(String, String)"),
    (16, "Option<char>"),
    (16, "BoxSlice<u32>"),
    (16, "Shared<u32>"),
    (12, "Shared<u32>"),
    (12, "WeakShared<u32>"),
    (10, "SharedSlice<u32>"),
    (11, "Vec<u32>"),
    (8, "Option<Box<u32>>"),
    (8, "Option<Box<Vec<String>>>"),
    (8, "Vec<Option<u32>>"),
    (8, "BTreeMap<u32, Vec<u32>>"),
    (8, "Result<Vec<u32>, Vec<u32>>"),
    (8, "(u32, u32)"),
    (3, "Vec<Option<Vec<u32>>>"),
    (3, "Option<Box<Vec<u32>>>"),
]
# That it took, of each the most that is allowed.
TAKEN = [
    (16, "u32"),
    (16, "Vec<String>"),
    (16, "BTreeMap<String, String>"),
    (10, "Vec<u32>"),
    (9, "BoxSlice<u32>"),
    (9, "Option<Vec<Option<u8>>>"),
    (6, "Result<u32, u32>"),
    (5, "Option<Box<u32>>"),
    (5, "BTreeMap<u32, u32>"),
    (5, "Vec<Vec<u32>>"),
    (3, "(u8, u8, u8, u8, u8)"),
    (2, "(u8, u32, String)"),
]
# So many variants with so many fields of a type that it rejected.
REJECTED_VARIANTS = [(11, 1, "Option<Box<u32>>"), (33, 8, "String"), (30, 2, "u32")]
TAKEN_VARIANTS = [(24, 3, "u8"), (20, 4, "u8"), (7, 8, "u8"), (59, 1, "u8"), (19, 3, "Vec<String>")]
HEAD = """use archive_core::boxed::BoxSlice;
use archive_core::rc::{Shared, SharedSlice, WeakShared};
use std::collections::BTreeMap;
"""


class LoadsTest(RepositoryTest):
    def types(self, count, type):
        """The types of a variant with so many fields."""
        return [self.declaration(f"{HEAD}struct A {{ x: {type} }}").fields[0].type] * count

    def test_fields(self):
        all_loads = loads.Loads()
        for count, type in REJECTED:
            with self.subTest(type):
                self.assertGreater(all_loads.at_once(self.types(count, type), count > 8), loads.MOST)
        for count, type in TAKEN:
            with self.subTest(type):
                self.assertLessEqual(all_loads.least_of_fields(self.types(count, type)), loads.MOST)

    def test_variants(self):
        all_loads = loads.Loads()
        for count, fields, type in REJECTED_VARIANTS:
            with self.subTest(type):
                self.assertGreater(all_loads.of_variants([self.types(fields, type)] * count), loads.MOST_OF_VARIANTS)
        for count, fields, type in TAKEN_VARIANTS:
            with self.subTest(type):
                self.assertLessEqual(all_loads.of_variants([self.types(fields, type)] * count), loads.MOST_OF_VARIANTS)

    def test_deep_fields_beside_others(self):
        deep = ["[u8; 16]", "Option<(u32, String)>", "Vec<(String, u32)>", "Option<Vec<String>>", "BTreeMap<String, Vec<u32>>", "Result<String, Vec<u32>>"]
        fields = [f"f{i}: {type}" for i, type in enumerate(deep + deep[:2])]
        for declared in (f"pub struct A {{ {', '.join(fields)} }}", f"pub enum A {{ None, Some {{ {', '.join(fields[:4])} }} }}"):
            path = self.put(f"use std::collections::BTreeMap;\n{declared}")
            self.assertEqual(self.run_command(path), (0, ""))
            self.assertIn("(alloc, part, deserializer) {", self.text(path))

    def test_deep_fields_of_long_structs(self):
        deep = ["[u8; 16]", "Option<(u32, String)>", "BTreeMap<String, u32>", "Vec<(String, u32)>"]
        for count, blocks in ((9, False), (16, True)):
            types = (deep * 4)[: count // 2] + ["u64"] * (count - count // 2)
            fields = ", ".join(f"f{i}: {type}" for i, type in enumerate(types))
            path = self.put(f"use std::collections::BTreeMap;\npub struct A {{ {fields} }}")
            self.assertEqual(self.run_command(path), (0, ""))
            self.assertEqual("struct ARest1;" in self.text(path), blocks)

    def test_a_block_has_as_many_fields_as_are_not_too_much(self):
        fields = ["u8", "Option<(u32, String)>"] + ["u8"] * 15
        path = self.put("pub struct A { " + ", ".join(f"f{i}: {type}" for i, type in enumerate(fields)) + " }")
        self.assertEqual(self.run_command(path), (0, ""))
        self.assertIn("/// The fields of `A` from `f12` on, as one type: it has no values.\npub struct ARest1;", self.text(path))

    def test_read_in_pieces_where_at_once_is_too_much(self):
        path = self.put("pub struct A { " + ", ".join(f"f{i}: Vec<u32>" for i in range(8)) + " }")
        self.assertEqual(self.run_command(path), (0, ""))
        written = self.text(path)
        self.assertIn("type AParts2 = (ArchivedVec<ArchivedU32>, (ArchivedVec<ArchivedU32>, ()));", written)
        self.assertIn("serialize_record_8::<", written)
        self.assertIn("match read_a(alloc, part, deserializer) {", written)
        self.assertIn("Ok(values) => Ok(a_of(values)),", written)
