"""Answers on how recursive types are resolved: what the call for the struct, or for each variant, says."""

import os

from .repository import RepositoryTest

OAK = "use archive_core::rc::Shared;\n#[derive(Drop)]\npub enum Oak { Leaf, Options(Vec<Option<Shared<Oak>>>) }\n"
MIX = """use archive_core::rc::Shared;
#[derive(Drop)]
pub enum Mix { Leaf(u8), All(Vec<Shared<Mix>>), Both(u8, Vec<Shared<Mix>>), One(Shared<Mix>) }
"""
TOWN = """use archive_core::rc::{Shared, WeakShared};
#[cycle(town)]
#[derive(Drop)]
pub struct Town { way: WeakShared<Way> }
#[cycle(town)]
#[derive(Drop)]
pub enum Way { Closed(u8), To(Shared<Town>) }
"""


class Resolved(RepositoryTest):
    def place(self, name):
        return os.path.join(self.top, "crates", "game", "proofs", "types", f"{name}Archive", "resolve", "Answers.antt")

    def answers(self, name):
        return self.text(self.place(name))

    def test_the_number_of_elements_and_the_place_are_told(self):
        path = self.put(OAK)
        self.assertEqual(self.run_command(path), (0, ""))
        answers = self.answers("Oak")
        for word in ("rw (w.in-Leaf.is, oak_leaf_opens, after, w.result-is)", "w.of-h0.result.len ≡ length w.in-Options.a0.items", "rw (same0, w.new-in-Options.ensures.position) at w.resolve_oak_1.ensures"):
            self.assertIn(word, answers)
        self.assertIn("rw (w.in-Options.is, w.in-Options-resolver.is, oak_options_opens w.in-Options.a0, after, w.result-is)", answers)
        self.assertEqual(self.run_command("--check", path), (0, ""))

    def test_calls_are_named_after_the_arms_before(self):
        self.assertEqual(self.run_command(self.put(MIX)), (0, ""))
        answers = self.answers("Mix")
        self.assertIn("w.of-h0.result.len ≡ length w.in-All.a0.items = grind (arith, w.of-h0.ensures, w.len.ensures)", answers)
        self.assertIn("w.of-h1.result.len ≡ length w.in-Both.a1.items = grind (arith, w.of-h1.ensures, w.len-in-Both.ensures)", answers)
        self.assertIn("w.resolve_mix_2.new.place.0", answers)
        self.assertIn("let there = rw (w.new-in-One.ensures.position) at w.resolve_mix_1-in-One.ensures", answers)

    def test_types_without_elements(self):
        self.assertEqual(self.run_command(self.put(TOWN)), (0, ""))
        self.assertNotIn("after", self.answers("Town"))
        self.assertIn("rw (w.in-To.is, w.in-To-resolver.is, way_to_opens w.in-To._a0, after, w.result-is)", self.answers("Way"))

    def test_no_array_where_a_variant_without_fields_lets_go_of_memory(self):
        oak = "use archive_core::core_impls::OwnedArray;\n" + OAK.replace("Leaf", "Leaf, Key(OwnedArray<u8, 2>)")
        said = "an array isn't proved in the recursive `Oak`, which has a vector of shared pointers and a variant without fields"
        self.assertEqual(self.refusal(oak), f"4: {said}; put it into a `Box`, in a struct of another file")
        self.assertEqual(self.run_command(self.put(oak.replace("Leaf,", "Leaf(u8),"))), (0, ""))

    def test_no_array_beside_a_shared_pointer(self):
        knot = "use archive_core::rc::Shared;\n#[derive(Drop)]\npub struct Knot { at: [i32; 2], next: Vec<Shared<Knot>> }\n"
        self.assertEqual(self.refusal(knot), "3: this field of the recursive `Knot` is of a type that tools/derive doesn't write there; put it into a struct of another file")
