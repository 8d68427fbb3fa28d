"""Recursive enums of many variants: their nests are cut as those of other enums are, and the laws of a block speak of parts that lead back."""

import re

from .repository import RepositoryTest

SYNTAX = """#[derive(Drop)]
pub enum A {
    Unit, Number(i64), Text(String), Negate(Box<A>), Pair(Box<A>, Box<A>), Call { of: Box<A>, with: Vec<A> },
    Choice(Box<A>, Box<A>, Option<Box<A>>), Table(Vec<(String, A)>), Names(Vec<String>), End,
}
"""


class VariantRests(RepositoryTest):
    def written(self, declared):
        path = self.put(declared)
        self.assertEqual(self.run_command(path), (0, ""))
        return self.text(path)

    def test_each_variant_is_in_one_block(self):
        text = self.written(SYNTAX)
        nests = re.findall(r"^type A(?:Variants|Block\d+) = (.*?);", text, re.S | re.M)
        self.assertGreater(len(nests), 1)
        names = [name for nest in nests for name in re.findall(r"\bA(\w+)Parts\b|(\(\)),", nest)]
        self.assertEqual([part or unit for part, unit in names], ["()", "Number", "Text", "Negate", "Pair", "Call", "Choice", "Table", "Names", "()"])
        rests = re.findall(r"\bARest(\d+)\b", "".join(nests))
        self.assertEqual([int(it) for it in rests], list(range(1, len(nests))))
        for number in range(1, len(nests)):
            self.assertIn(f"impl PortableVariants for ARest{number} {{", text)

    def test_parts_that_lead_back_bring_the_definitions_of_the_enum(self):
        text = self.written(SYNTAX)
        for said in ("(one_reaches", "(vec_reaches", "(option_reached", "pair_string_a_no_others", "a_no_others"):
            self.assertIn(said, text)

    def test_of_shared_pointers_too(self):
        fields = "Shared<A>), W(WeakShared<A>), X(Vec<WeakShared<A>>), Y(Vec<Shared<A>>), Z(Option<Shared<A>>"
        text = self.written(f"use archive_core::rc::{{Shared, WeakShared}};\n#[derive(Drop)]\npub enum A {{ End, V({fields}) }}")
        for said in ("mentions_shared (mentions_one m)", "mentions_weak (mentions_one m)"):
            self.assertIn(said, text)

    def test_few_are_one_block(self):
        self.assertNotIn("Rest1", self.written("#[derive(Drop)]\npub enum A { Num(i64), Add(Box<A>, Box<A>), Call(String, Vec<A>) }"))

    def test_what_holds_a_recursive_type_too(self):
        text = self.written(f"{SYNTAX}#[derive(Drop)]\npub enum B {{ None, One(A), Two(A, A), Some(Vec<A>), Wide(u64, u64, u64), Long(Vec<u64>), Deep(Option<Box<A>>) }}")
        self.assertIn("impl PortableVariants for BRest1 {", text)
