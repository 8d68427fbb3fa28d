"""Enums of many variants: their nests are cut, and each variant is in one of them, in the order of the tags."""

import re
from unittest import mock

from derivation import variant_blocks
from derivation.loads import MOST_OF_VARIANTS, Loads
from derivation.read import MOST_BESIDE_FIELDS, MOST_WITH_FIELDS

from .repository import RepositoryTest


class VariantBlocks(RepositoryTest):
    def written(self, declared):
        path = self.put(declared)
        with mock.patch("derivation.read.MOST_WITH_FIELDS", 256):
            self.assertEqual(self.run_command(path), (0, ""))
        return self.text(path)

    def test_as_many_variants_have_fields_as_are_proved(self):
        for count, status in ((MOST_WITH_FIELDS, 0), (MOST_WITH_FIELDS + 1, 2)):
            path = self.put(f"pub enum A {{ {', '.join(f'V{i}(u8)' for i in range(count))} }}")
            self.assertEqual(self.run_command(path)[0], status)
        said = f"types.rt:1: `A` has {MOST_WITH_FIELDS + 1} variants with fields, and {MOST_WITH_FIELDS} are the most; put some into an enum of another file"
        self.assertIn(said, self.run_command(path)[1])

    def test_as_many_beside_any_number_of_others(self):
        for units in (1, MOST_BESIDE_FIELDS - MOST_WITH_FIELDS - 1):
            with self.subTest(units):
                declared = ", ".join([f"U{i}" for i in range(units)] + [f"V{i}(u8)" for i in range(MOST_WITH_FIELDS)])
                self.assertEqual(self.run_command(self.put(f"pub enum A {{ {declared} }}"))[0], 0)
                said = f"1: `A` has {MOST_WITH_FIELDS + 1} variants with fields, and {MOST_WITH_FIELDS} are the most; put some into an enum of another file"
                self.assertEqual(self.refusal(f"pub enum A {{ {declared}, W(u8) }}"), said)

    def test_as_many_of_what_is_shared_or_long_or_has_parameters(self):
        fields = [f"V{i}(u8)" for i in range(MOST_WITH_FIELDS - 1)]
        shared = "use archive_core::rc::SharedStr;\n#[derive(Drop)]\npub struct B { x: SharedStr }\n"
        for head, name, last, alias in (
            (shared, "A", "W(B)", ""),
            ("", "A", f"W({', '.join(['u8'] * 9)})", ""),
            ("", "E<T>", "W(T)", "\npub type A = E<u8>;"),
        ):
            for more, status in (([], 0), (["X(u8)"], 2)):
                with self.subTest(name + last, status=status):
                    path = self.put(f"{head}pub enum {name} {{ {', '.join(fields + [last] + more)} }}{alias}")
                    found, said = self.run_command(path)
                    self.assertEqual(found, status)
                    if more:
                        self.assertIn(f"has {MOST_WITH_FIELDS + 1} variants with fields, and {MOST_WITH_FIELDS} are the most; put some", said)

    def test_fewer_variants_where_one_has_fields(self):
        units = [f"U{i}" for i in range(MOST_BESIDE_FIELDS - 1)]
        self.assertEqual(self.run_command(self.put(f"pub enum A {{ {', '.join(['V(u8)'] + units)} }}"))[0], 0)
        said = f"1: `A` has {MOST_BESIDE_FIELDS + 1} variants, and {MOST_BESIDE_FIELDS} are the most where one has fields; put some into an enum of their own"
        self.assertEqual(self.refusal(f"pub enum A {{ {', '.join(['V(u8)'] + units + ['W'])} }}"), said)

    def test_each_variant_is_in_one_block(self):
        for count, type in ((40, "[u8; 4]"), (30, "Vec<u32>"), (70, "u32"), (6, "Vec<(String, u32)>, Option<u64>")):
            with self.subTest(type):
                text = self.written(f"pub enum A {{ {', '.join(f'V{i}({type})' for i in range(count))} }}")
                nests = re.findall(r"^type A(?:Variants|Block\d+) = (.*?);", text, re.S | re.M)
                self.assertGreater(len(nests), 1)
                named = [int(it) for nest in nests for it in re.findall(r"\bAV(\d+)Parts\b", nest)]
                self.assertEqual(named, list(range(count)))
                rests = re.findall(r"\bARest(\d+)\b", "".join(nests))
                self.assertEqual([int(it) for it in rests], list(range(1, len(nests))))

    def test_units_are_counted(self):
        variants = [f"U{i}" for i in range(20)] + [f"V{i}(Vec<u32>)" for i in range(14)] + [f"W{i}" for i in range(9)] + [f"X{i}(u64)" for i in range(5)]
        text = self.written(f"pub enum A {{ {', '.join(variants)} }}")
        nests = re.findall(r"^type A(?:Variants|Block\d+) = (.*?);", text, re.S | re.M)
        self.assertEqual(sum(int(it) for nest in nests for it in re.findall(r"UnitVariants<\s*(\d+)", nest)), 29)

    def test_few_are_one_block(self):
        text = self.written("pub enum A { X(u8), Y(Vec<u32>), Z(String, u64) }")
        self.assertNotIn("Rest1", text)

    def test_no_block_is_too_much(self):
        loads = Loads()
        for count, type in ((256, "u64"), (60, "Option<Box<u32>>"), (20, "BTreeMap<String, u32>")):
            with self.subTest(type):
                types = [[field.type] for field in self.declaration(f"use std::collections::BTreeMap;\nstruct A {{ x: {type} }}").fields] * count
                blocks = variant_blocks.blocks_of(types)
                self.assertEqual([end for _, end in blocks], [begin for begin, _ in blocks[1:]] + [count])
                for begin, end in blocks:
                    self.assertLessEqual(loads.of_variants(types[begin:end]), MOST_OF_VARIANTS)
                    self.assertLessEqual(end - begin, variant_blocks.MOST_IN_BLOCK)
