"""Functions that find the fields of a recursive enum's variants."""

from .repository import RepositoryTest


class Places(RepositoryTest):
    def test_a_function_for_each_field_of_a_variant_that_leads_back(self):
        path = self.put("#[derive(Drop)]\npub enum A { Nil, Num(i64), Add(Box<A>, u8), Call(String, Vec<A>) }")
        self.assertEqual(self.run_command(path), (0, ""))
        text = self.text(path)
        for word in ("fn part_0_of_a_add<'a>(part: RawView<'a>) -> RawView<'a>", "let p1 = part_1_of_a_add(part);", "let p0 = part_0_of_a_call(part);", "ensures position { result.pos ≡ part.entry.pos + 8 }"):
            self.assertIn(word, text)
        self.assertNotIn("part_0_of_a_num", text)
        self.assertIn("let p0 = part_of_variant::<ArchivedA, ArchivedI64>(part, 1, 0, 8);", text)
        self.assertIn("rw (c.part_0_of_a_add-p0.ensures.buffer, ", self.text(path.replace("src/types.rt", "proofs/types/+read_a/Answers.antt")))

    def test_a_list_is_read_by_its_loop(self):
        path = self.put("pub enum List { Nil, Cons(u32, Box<List>) }")
        self.assertEqual(self.run_command(path), (0, ""))
        self.assertNotIn("part_0_of_list_cons", self.text(path))
