"""How long the evidence of an impl is: deeper in a nest it is there more often, and a nest is cut where that costs less."""

from derivation import evidence, variant_blocks

from .repository import RepositoryTest


class Evidence(RepositoryTest):
    def types(self, *those):
        fields = ", ".join(f"f{i}: {type}" for i, type in enumerate(those))
        return [field.type for field in self.declaration(f"use std::collections::BTreeMap;\nstruct A {{ {fields} }}").fields]

    def test_a_number_is_longer_than_a_text(self):
        number, text, list, map = self.types("u32", "String", "Vec<u32>", "BTreeMap<String, u32>")
        self.assertGreater(evidence.value(number), 10 * evidence.value(text))
        self.assertGreater(evidence.value(list), 6 * evidence.value(number))
        self.assertGreater(evidence.value(map), evidence.value(list))

    def test_four_fields_are_less_than_three(self):
        types = self.types("u32", "u32", "u32", "u32")
        self.assertLess(evidence.parts(types), evidence.parts(types[:3]))

    def test_each_variant_more_doubles_what_is_behind_it(self):
        one = [self.types("u32")]
        self.assertGreater(evidence.variants([[], *one]), 2 * evidence.variants(one))

    def test_a_nest_is_cut_where_that_costs_less(self):
        number, text, list = self.types("u32", "String", "Vec<u32>")
        self.assertEqual(variant_blocks.blocks_of([[], [number], [text], [number, number], [list]]), [(0, 3), (3, 5)])
        self.assertEqual(variant_blocks.blocks_of([[], [text], [text], [text]]), [(0, 4)])
