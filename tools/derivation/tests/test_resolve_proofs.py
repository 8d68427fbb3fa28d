"""Answers on how a value is resolved: of a recursive enum an arm for each variant, of a struct what its call says."""

import os

from .repository import RepositoryTest


class ResolveProofs(RepositoryTest):
    def answers(self, declared, name):
        path = self.put(declared)
        self.assertEqual(self.run_command(path), (0, ""))
        file = path.replace("src/types.rt", f"proofs/types/{name}Archive/resolve/Answers.antt")
        return self.text(file) if os.path.exists(file) else None

    def test_each_variant_has_an_arm(self):
        text = self.answers("#[derive(Drop)]\npub enum A { Nil, Num(i64), Add(Box<A>, Box<A>), Call(String, Vec<A>) }", "A")
        self.assertIn("  | in-Nil w ↦ let after : g.match-self.bytes ≡ w.resolve_a_0.new.place.0 = search rules in", text)
        self.assertIn("rw (w.in-Nil.is, a_nil_opens, after, w.result-is)", text)
        self.assertIn("rw (w.in-Add.is, w.in-Add-resolver.is, a_add_opens w.in-Add._a0 w.in-Add._a1, after, w.result-is)", text)
        self.assertIn("rw (w.in-Call.is, w.in-Call-resolver.is, a_call_opens w.in-Call.a0 w.in-Call.a1, after, w.result-is)", text)
        self.assertIn("resolve.Goals.{in-Nil, in-Num+in-Num-resolver, in-Add+in-Add-resolver, in-Call+in-Call-resolver}", text)

    def test_a_map_is_left_to_the_search(self):
        text = self.answers("use std::collections::BTreeMap;\n#[derive(Drop)]\npub enum A { Num(i64), All(BTreeMap<String, A>) }", "A")
        self.assertIn("  | in-Num+in-Num-resolver w ↦ rw (w.in-Num.is, w.in-Num-resolver.is, a_num_opens w.in-Num.a0, w.bytes-is, w.result-is) (search rules)\n", text)

    def test_a_struct_has_one_call(self):
        text = self.answers("#[derive(Drop)]\npub struct A { x: u8, y: Vec<A>, z: Vec<A> }", "A")
        self.assertIn("let same2 : g.of-h2.result.len ≡ length (out-A g.args.self.now).z.items = grind (arith, g.of-h2.ensures, g.len-2.ensures) in", text)
        self.assertIn("let there = rw (same1, same2, g.new.ensures.position) at g.resolve_named_record_3.ensures in record { resolved = search (rules, there.resolved);", text)

    def test_a_long_struct_has_one_call(self):
        fields = ", ".join(f"a{i}: String" for i in range(9))
        self.assertIn("at g.resolve_record.ensures in", self.answers(f"#[derive(Drop)]\npub struct A {{ {fields} }}", "A"))
        self.assertIsNone(self.answers("#[derive(Drop)]\npub struct A { x: u8, y: String }", "A"))

    def test_a_struct_with_several_that_keep_memory_has_one_call(self):
        part = "#[derive(Drop)]\npub struct P { x: [u8; 3], y: String }\n"
        self.assertIn("at g.resolve_record_3.ensures in", self.answers(f"{part}#[derive(Drop)]\npub struct A {{ x: P, y: P, z: u8 }}", "A"))
        self.assertIsNone(self.answers(f"{part}#[derive(Drop)]\npub struct A {{ x: P, z: u8 }}", "A"))

    def test_a_struct_with_a_map_is_left_to_the_search(self):
        self.assertIsNone(self.answers("use std::collections::BTreeMap;\n#[derive(Drop)]\npub struct A { x: u8, y: BTreeMap<String, A> }", "A"))

    def test_none_where_what_is_kept_is_let_go_by_variants(self):
        head = "#[derive(Drop)]\npub struct P { x: [u8; 3] }\n#[derive(Drop)]\npub enum A {"
        for fields in ("Color([u8; 3])", "Part(P)", "Maybe(Option<[u8; 3]>)"):
            with self.subTest(fields):
                self.assertIsNone(self.answers(f"{head} {fields}, Both(Box<A>, Box<A>), Nil }}", "A"))
        self.assertIsNotNone(self.answers(f"{head} Color([u8; 3]), Both(Box<A>, Box<A>) }}", "A"))
