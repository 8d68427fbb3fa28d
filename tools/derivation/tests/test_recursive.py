"""Types that hold themselves: which files are written for them."""

import os
import re

from derivation import write
from derivation.files import naming
from derivation.recursive.readers import MOST_OF_GRAPH

from .repository import RepositoryTest

LIST = "pub enum List { Nil, Cons(u32, Box<List>) }\n"
TREE = "#[derive(Drop)]\npub struct Tree { pub value: i64, pub children: Vec<Tree> }\n"
FAMILY = "#[cycle(dir)]\n#[derive(Drop)]\npub struct Dir { name: String, entries: Vec<Entry> }\n#[cycle(dir)]\n#[derive(Drop)]\npub enum Entry { File(u64), Sub(Box<Dir>) }\n"


class Recursive(RepositoryTest):
    def beside(self, *path):
        return self.text(os.path.join(self.top, "crates", "game", *path))

    def test_what_is_kept_is_seen_as_the_type_is(self):
        for seen in ("", "pub(crate) ", "pub "):
            text = write.written(self.module(f"#[derive(Drop)]\n{seen}struct P;\n{seen}enum L {{ N, C(P, Box<L>) }}\n#[derive(Drop)]\n{seen}enum T {{ U(P), V(Vec<T>) }}"))
            for name in ("LResolver", "LKept", "LFront", "TResolver"):
                self.assertIn(f"\n{seen}enum {name} {{", text)

    def test_the_files_of_a_list(self):
        path = self.put(LIST)
        self.assertEqual(self.run_command(path), (0, ""))
        self.assertEqual(self.beside("specs", "Lib.antt"), "pub mod ListMeaning\npub mod ListShape\n")
        self.assertIn("list_name = codes \"ArchivedList\"", self.beside("specs", "ListShape.antt"))
        self.assertIn("case 1 (value (number (pos a0)) (value (box (m a1.value)) no_value))", self.beside("specs", "ListMeaning.antt"))
        for method in ("ChainSource/serialize_head", "ChainBackArchivedList/around"):
            self.assertIn("pub ", self.beside("proofs", "types", f"List{method}", "Answers.antt"))
        self.assertEqual(self.run_command("--check", path), (0, ""))

    def test_a_list_goes_by_loops(self):
        path = self.put(LIST)
        self.assertEqual(self.run_command(path), (0, ""))
        text = self.text(path)
        for word in ("type Check = Self;", "impl SelfCheck for ArchivedList {", "serialize_chain(self, serializer)", "read_chain::<ArchivedList, List, D>", "impl Drop for List {"):
            self.assertIn(word, text)
        self.assertNotIn("#[cycle", text)

    def test_what_has_more_than_a_box_at_its_end_is_recursive(self):
        for declared in ("Cons(Box<List>, u32)", "Cons(Box<List>, Box<List>)", "Cons(u32, Option<Box<List>>)", "Cons(u32, Vec<List>)"):
            path = self.put(f"#[derive(Drop)]\npub enum List {{ Nil, {declared} }}\n")
            self.assertEqual(self.run_command(path), (0, ""))
            self.assertIn("#[cycle(serialize_list)]", self.text(path))

    def test_a_list_is_not_dropped_by_recursion(self):
        path = self.put("#[derive(Debug, Drop)]\n" + LIST)
        status, text = self.run_command(path)
        self.assertEqual(status, 2)
        self.assertIn("`List` is a list, which is dropped by a loop that tools/derive writes; leave `Drop` out of its derive", text)

    def test_a_list_has_few_fields(self):
        path = self.put(f"pub enum List {{ Nil, Cons({', '.join(['u8'] * 7)}, Box<List>) }}\n")
        status, text = self.run_command(path)
        self.assertEqual(status, 2)
        self.assertIn("`List` is a list, a variant of which has up to 7 fields; put some of them into a struct of another file", text)

    def test_what_boxes_of_a_vector_hold_is_written_where_they_are_gone_over(self):
        path = self.put("#[derive(Drop)]\npub enum Knot { Word(String), Others(Vec<Box<Knot>>) }\n")
        self.assertEqual(self.run_command(path), (0, ""))
        text = self.text(path)
        self.assertIn("fn serialize_each_box_knot<", text)
        self.assertNotIn("fn serialize_box_knot<", text)
        self.assertIn("fn read_box_knot<", text)
        self.assertIn("(list (each_meaning (λ y. (box (m y.value))) a0.items))", self.beside("specs", "KnotMeaning.antt"))

    def test_options_in_a_vector_are_told_by_what_is_in_them(self):
        path = self.put("#[derive(Drop)]\npub struct Bush { id: u8, sides: Vec<Option<Box<Bush>>> }\n")
        self.assertEqual(self.run_command(path), (0, ""))
        self.assertIn("resolvers.push(None).map_err(AllocError::from)?;", self.text(path))
        text = self.beside("specs", "BushMeaning.antt")
        self.assertIn("options_alike _ (λ (y : (Box Value Global)). (box (y.value))) (λ (y : (Box Bush-Source Global)). (box (bush_meaning y.value))) refl", text)
        self.assertIn("held_options_keyed _ ", text)

    def test_what_is_read_in_the_place_of_an_array_is_said_by_the_resolvers(self):
        path = self.put("#[derive(Drop)]\npub struct Quad { id: u8, parts: [Option<Box<Quad>>; 2] }\n")
        self.assertEqual(self.run_command(path), (0, ""))
        text = self.text(path)
        self.assertEqual(text.count("fn serialize_each_option_box_quad<"), 1)
        for word in ("struct Array2OptionBoxQuadAt;", "is_whole(&value.parts);", "ResolverAlloc<Alloc = Global>", "fn read_array2_option_box_quad<", "parts: array_of(a1),"):
            self.assertIn(word, text)
        text = self.beside("specs", "QuadMeaning.antt")
        self.assertIn("(list (each_meaning (λ s. (option_at (one quad_shape) s)) r.kept.1.0.items))", text)
        self.assertIn("(alike_array _ 2 (λ o. option_meaning", text)

    def test_a_vector_in_a_box_is_written_by_a_function_of_its_own(self):
        path = self.put("#[derive(Drop)]\npub struct Grove { id: u8, below: Box<Vec<Grove>> }\n")
        self.assertEqual(self.run_command(path), (0, ""))
        for word in ("fn serialize_box_vec_grove<", "fn serialize_vec_grove<", "BoxAt<ArchivedVec<ArchivedGrove>>"):
            self.assertIn(word, self.text(path))
        self.assertIn("(λ vs. product (value (number (pos t.id)) (value (box (list vs)) no_value)))", self.beside("specs", "GroveMeaning.antt"))

    def test_a_vector_with_no_elements_is_read_by_no_call(self):
        path = self.put(TREE)
        self.assertEqual(self.run_command(path), (0, ""))
        text = self.text(path)
        for word in (
            "    if view.is_empty() {\n        return Ok(Vec::new(alloc));\n    }\n    read_each_tree(alloc, part, deserializer)\n",
            "#[cycle(read_tree)]\n#[inline(never)]\nfn read_each_tree<",
            "#[cycle(read_tree)]\n#[inline(always)]\nfn read_tree<",
        ):
            self.assertIn(word, text)
        self.assertIn("read_vec_tree-returns-then-is_empty-clause-read", self.beside("proofs", "types", "+read_tree", "Answers.antt"))

    def test_what_shares_is_read_by_a_call_for_each_vector(self):
        path = self.put("use archive_core::rc::Shared;\n#[derive(Drop)]\npub struct Knot { id: u8, next: Vec<Knot>, other: Option<Shared<Knot>> }\n")
        self.assertEqual(self.run_command(path), (0, ""))
        self.assertNotIn("fn read_each_knot<", self.text(path))

    def test_plain_fields_are_told_by_what_they_are_made_of(self):
        fields = "due: Option<u16>, owner: Result<String, u8>, done: bool, hours: BTreeMap<String, u8>, parts: Vec<Task>"
        path = self.put(f"use std::collections::BTreeMap;\n#[derive(Drop)]\npub struct Task {{ {fields} }}\n")
        self.assertEqual(self.run_command(path), (0, ""))
        text = self.beside("specs", "TaskMeaning.antt")
        self.assertIn("(option_meaning (λ y. (number (pos y))) t.due)", text)
        self.assertIn("(result_meaning (λ y. (text_value (string_bytes y))) (λ y. (number (pos y))) t.owner)", text)
        self.assertIn("number (pos (bool_byte t.done))", text)
        self.assertIn("(list (each_meaning (pair_meaning (λ y. (text_value (string_bytes y))) (λ y. (number (pos y)))) t.hours.entries))", text)
        self.assertIn("(sorted_map str_key (leaf (number_kind unsigned w8)))", self.beside("specs", "TaskShape.antt"))

    def test_what_is_made_of_tuples_is_read_by_a_function_of_its_own(self):
        path = self.put("#[derive(Drop)]\npub enum Setting { Ranges(Vec<(i32, u8)>), Group(Vec<Setting>) }\n")
        self.assertEqual(self.run_command(path), (0, ""))
        text = self.text(path)
        self.assertIn("fn read_vec_pair_i32_u8_of_setting<D: Entries>(", text)
        self.assertIn("let a0 = match read_vec_pair_i32_u8_of_setting(alloc, p0, deserializer) {", text)
        self.assertIn("(vec (parts (part (leaf (number_kind signed w32)) (part (leaf (number_kind unsigned w8)) no_part))))", self.beside("specs", "SettingShape.antt"))
        path = self.put("#[derive(Drop)]\npub enum Setting { Names(Option<Vec<(bool, String)>>), Group(Vec<Setting>) }\n")
        self.assertEqual(self.run_command(path), (0, ""))
        self.assertEqual(self.text(path).count("fn read_option_vec_pair_bool_string_of_setting<"), 1)

    def test_many_fields_are_lent_to_be_resolved(self):
        few = ", ".join(f"f{i}: u16" for i in range(7))
        path = self.put(f"#[derive(Drop)]\npub struct Node {{ {few}, first: Option<Box<Node>>, below: Vec<Node> }}\n")
        self.assertEqual(self.run_command(path), (0, ""))
        text = self.text(path)
        for word in ("a7: &'a OptionAt<ArchivedNode>,", "a0: &self.f0,", "a8: &h8,", "resolve_record::<NodeLent<'_>, NodeFields, ArchivedNode>("):
            self.assertIn(word, text)
        self.assertIn("type NodeParts = FourParts<", text)
        self.assertNotIn("resolve_named_record", text)
        self.assertIn("let a8 = match read_vec_node(alloc, p8, deserializer) {", text)

    def test_expressions_are_made_by_calls_that_hand_on_what_fails(self):
        path = self.put("#[derive(Drop)]\npub enum Node { Leaf(u8), Sides(Option<Box<Node>>, Vec<(u8, Node)>) }\n")
        self.assertEqual(self.run_command(path), (0, ""))
        text = self.text(path)
        for word in (
            'let rest2 = no_expressions(alloc);\n    let rest1 = first_expression(vec_expression(alloc, record_expression(pair_u8_node_expressions(alloc))), rest2);\n',
            'first_expression(option_expression(alloc, boxed_expression(alloc, named_expression("ArchivedNode"))), rest1)',
            'define_choice("ArchivedNode", node_expressions(alloc), defs)',
        ):
            self.assertIn(re.sub(r"\s", "", word), re.sub(r"\s|,(?=\s*\))", "", text))
        answers = self.beside("proofs", "types", "node_sides_expressions", "Answers.antt")
        self.assertIn(
            "returns c = c.first_expression.ensures _ _ (c.option_expression.ensures _ (c.boxed_expression.ensures _ c.named_expression.ensures)) "
            "(c.first_expression-rest1.ensures _ _ (c.vec_expression.ensures _ (c.record_expression.ensures _ c.pair_u8_node_expressions.ensures)) c.no_expressions-rest2.ensures)\n",
            answers,
        )

    def test_an_option_beside_a_vector_is_told_with_its_type(self):
        path = self.put("#[derive(Drop)]\npub struct Node { first: Option<Box<Node>>, below: Vec<Node> }\n")
        self.assertEqual(self.run_command(path), (0, ""))
        self.assertIn("ap (λ vs. ((option_keys (λ (y : (Box Node-Source Global)). (node_keys y.value)) None) ++ (vs ++ []))) ", self.beside("specs", "NodeMeaning.antt"))

    def test_a_variant_of_many_fields_is_resolved_by_a_function_of_the_module(self):
        path = self.put(f"#[derive(Drop)]\npub enum Item {{ Number(u32), Items(Vec<Item>, {', '.join(['u8'] * 7)}) }}\n")
        self.assertEqual(self.run_command(path), (0, ""))
        text = self.text(path)
        for word in ("fn resolve_lent_item<T, P: SourceParts<T>>(", "resolve_item_1::<u32>(", "let lent = ItemItemsLent {", "a0: &h0,"):
            self.assertIn(word, text)
        self.assertIn("item_has_variants c.args.tag", self.beside("proofs", "types", "resolve_lent_item", "Answers.antt"))

    def test_a_tuple_that_leads_back_is_read_by_a_name(self):
        path = self.put("#[derive(Drop)]\npub enum Json { Null, Number(i64), Object(Vec<(String, Json)>) }\n")
        self.assertEqual(self.run_command(path), (0, ""))
        text, shape, meaning = self.text(path), self.beside("specs", "JsonShape.antt"), self.beside("specs", "JsonMeaning.antt")
        for word in ("Object(Ref<'a, ArchivedVec<ArchivedTuple2<ArchivedString, ArchivedJson>>>)", "type PairStringJsonParts = (ArchivedString, (ArchivedJson, ()));"):
            self.assertIn(word, text)
        for word in ("let a1 = match serialize_json(&value.1, serializer) {", "let p1 = part_of_record::<PairStringJson, ArchivedJson>(part, 1, 8);"):
            self.assertIn(word, text)
        self.assertIn("pair_string_json_parts = (part str (part json_shape no_part))", shape)
        self.assertIn("pair_string_json_definitions = (both no_definition (both json_definitions no_definition))", shape)
        self.assertIn("(each_meaning (λ y. (product (value (text_value (string_bytes y.0)) (value (m y.1) no_value)))) a0.items)", meaning)
        self.assertIn("(part_planned json_definitions json_shape (json_keys e.1.0) (json_meaning e.1.0) e.1.1 no_part_planned)", meaning)
        invariants = self.beside("proofs", "types", "+read_json", "Invariants.antt")
        self.assertIn("decreases-read_json g l = (l.part.pos + 16) * 6 + 4", invariants)
        self.assertIn("decreases-read_pair_string_json g l = (l.part.pos + 24) * 6 + 5", invariants)
        answers = self.beside("proofs", "types", "+serialize_json", "Answers.antt")
        self.assertIn("-serialize_json-requires g t c κs within = (omega (arith, c.decreases, no_deeper _ _ _ _ c.args.values.now ", answers)
        self.assertEqual(self.run_command("--check", path), (0, ""))

    def test_a_map_is_written_by_its_entries_and_made_of_those_that_were_read(self):
        path = self.put("use std::collections::BTreeMap;\n#[derive(Drop)]\npub enum Json { Null, Object(BTreeMap<String, Json>) }\n")
        self.assertEqual(self.run_command(path), (0, ""))
        text, shape, meaning = self.text(path), self.beside("specs", "JsonShape.antt"), self.beside("specs", "JsonMeaning.antt")
        for word in ("for (key, value) in values {", "match serialize_inner_map(value, kept, serializer) {", "let h0: MapAt<ArchivedString, ArchivedJson> = MapAt::of(a0.len());"):
            self.assertIn(word, text)
        self.assertIn("let list = before_map::<ArchivedString, ArchivedJson, PairStringJson>(part);", text)
        self.assertIn("Object(Ref<'a, ArchivedSortedMap<ArchivedString, ArchivedJson>>)", text)
        self.assertIn("(part (sorted_map str_key json_shape) no_part)", shape)
        self.assertIn("(list (each_meaning (λ y. (product (value (text_value (string_bytes y.0)) (value (m y.1) no_value)))) a0.entries))", meaning)
        self.assertIn("(value (map_flat str_key json_shape (btree_map_len a0) s.0) no_value)", meaning)
        self.assertEqual(self.run_command("--check", path), (0, ""))

    def test_what_a_map_looks_like_is_told_beside_the_module(self):
        path = self.put("use std::collections::BTreeMap;\n#[derive(Drop)]\npub struct Item { parts: BTreeMap<String, Item> }\n")
        self.assertEqual(self.run_command(path), (0, ""))
        self.assertIn("map_string_item_shape = sorted_map str_key item_shape", self.beside("specs", "ItemShape.antt"))
        self.assertIn("Serialized pair_string_item_definitions map_string_item_shape", self.text(path).replace("\n       ", ""))

    def test_a_struct_has_several_vectors_of_tuples_that_lead_back(self):
        path = self.put("#[derive(Drop)]\npub struct Dir { id: u32, entries: Vec<(String, Dir)>, marks: Vec<(i32, Dir, Option<String>)> }\n")
        self.assertEqual(self.run_command(path), (0, ""))
        text, meaning = self.text(path), self.beside("specs", "DirMeaning.antt")
        for word in ("pub struct PairStringDir;", "pub struct Tuple3I32DirOptionString;", "fn serialize_each_tuple3_i32_dir_option_string<"):
            self.assertIn(word, text)
        # what the second one means while the first is opened
        mapped = "(λ (y : (ℤ × Value × (Option (String Global)))). (product (value (number y.0) (value (y.1) (value (option_meaning (λ y. (text_value (string_bytes y))) y.2) no_value)))))"
        elements = "(map (λ (y : (ℤ × Dir-Source × (Option (String Global)))). (y.0, dir_meaning y.1, y.2)) t.marks.items)"
        self.assertIn(f"(list (each_meaning {mapped} {elements}))", meaning)
        invariants = self.beside("proofs", "types", "+read_dir", "Invariants.antt")
        self.assertIn("decreases-read_dir g l = (l.part.pos + 20) * 6 + 4", invariants)
        self.assertIn("decreases-read_tuple3_i32_dir_option_string g l = (l.part.pos + 36) * 6 + 5", invariants)
        self.assertEqual(self.run_command("--check", path), (0, ""))

    def test_a_weak_pointer_is_read_by_calls_of_the_module(self):
        path = self.put("use archive_core::rc::WeakShared;\n#[derive(Drop)]\npub struct Node { name: String, up: WeakShared<Node>, by: WeakShared<Node> }\n")
        self.assertEqual(self.run_command(path), (0, ""))
        text, meaning = self.text(path), self.beside("specs", "NodeMeaning.antt")
        for word in ("fn begin_target<T: Pooled, D: Pooling<T>>(", "struct WeakNodeAt;", "fn read_weak_shared_node<D: Pooling<Shared<Node>>>("):
            self.assertEqual(text.count(word), 1, word)
        self.assertIn("(weak_value (λ s. (shared_value s.key)) t.up.value)", meaning)
        # a layer that is mapped computes at nothing and at something alone
        for word in ("node_means_at a0 None (Some a2) = ", "node_planned_at a0 (Some a1) None = ", "node_means_roll x = node_means_at x.name x.up.value x.by.value"):
            self.assertIn(word, meaning)
        self.assertEqual(self.run_command("--check", path), (0, ""))

    def test_what_weak_pointers_in_vectors_lead_to_is_written_under_its_key(self):
        path = self.put("use archive_core::rc::WeakShared;\n#[derive(Drop)]\npub struct Place { name: String, before: Vec<WeakShared<Place>> }\n")
        self.assertEqual(self.run_command(path), (0, ""))
        text, meaning = self.text(path), self.beside("specs", "PlaceMeaning.antt")
        for word in ("fn serialize_keyed_place<", "match &value.value {", "match serialize_keyed_place(inner, whole.key, serializer) {"):
            self.assertEqual(text.count(word), 1, word)
        for word in ("struct WeakPlaceAt;", "fn serialize_weak_shared_place<"):
            self.assertNotIn(word, text)
        for word in ("(weaks_alike _ (λ (y : (Shared (Value × (List Naming)))). (shared_value y.key)) ", "(held_weaks_keyed _ "):
            self.assertIn(word, meaning)
        self.assertIn("(null_serialized place_definitions (one place_shape) _)", self.beside("proofs", "types", "+serialize_place", "Answers.antt"))
        self.assertEqual(self.run_command("--check", path), (0, ""))

    def test_parts_of_a_tuple_are_written_with_the_value(self):
        path = self.put("#[derive(Drop)]\npub struct Couple { id: u32, both: (Option<Box<Couple>>, u8) }\n")
        self.assertEqual(self.run_command(path), (0, ""))
        text = self.text(path)
        for word in ("struct PairOptionBoxCoupleU8At<'a> {", "serialize_option_box_couple(&value.both.0, serializer)", "let a1 = (a1_0, (a1_1, ()));"):
            self.assertIn(word, text)
        self.assertIn("couple_means_at a0 ((Some a1_0), a1_1) = ", self.beside("specs", "CoupleMeaning.antt"))

    def test_elements_of_shared_slices_are_written_for_their_key(self):
        path = self.put("use archive_core::rc::SharedSlice;\n#[derive(Drop)]\npub enum Twig { Leaf(u8), All(SharedSlice<Twig>) }\n")
        self.assertEqual(self.run_command(path), (0, ""))
        text = self.text(path)
        for word in ("fn begin_target<T: Pooled, D: Pooling<T>>(", "struct SharedSliceTwigAt {", "fn read_shared_slice_twig<D: Pooling<SharedSlice<Twig>>>(", "serialize_shared_slice_twig(a0.key, "):
            self.assertIn(word, text)
        self.assertIn("shared rc_flavor (run twig_shape)", self.beside("specs", "TwigShape.antt"))
        keys = "(rc_keys a0.key (run twig_shape) (length a0.value.items.value.items)"
        self.assertIn(keys, self.beside("specs", "TwigMeaning.antt"))
        self.assertIn("c.as_slice-items", self.beside("proofs", "types", "+serialize_twig", "Answers.antt"))

    def test_a_weak_pointer_leads_to_another_type_of_the_family(self):
        path = self.put("use archive_core::rc::{Shared, WeakShared};\n#[cycle(town)]\n#[derive(Drop)]\npub struct Town { places: Vec<Shared<Spot>> }\n#[cycle(town)]\n#[derive(Drop)]\npub struct Spot { on: WeakShared<Town>, next: Vec<Shared<Spot>> }\n")
        self.assertEqual(self.run_command(path), (0, ""))
        text, meaning = self.text(path), self.beside("specs", "TownMeaning.antt")
        for word in ("struct WeakTownAt;", "fn read_weak_shared_town<D: Pooling<Shared<Spot>> + Pooling<Shared<Town>>>(", "fn serialize_each_shared_spot<", "fn begin_target<"):
            self.assertEqual(text.count(word), 1, word)
        self.assertIn("(option_keys (λ s. (rc_keys s.key (one town_shape) 0 (m1 s.value.value) (k1 s.value.value))) t.on.value)", meaning)
        self.assertNotIn("weaks_alike", meaning)
        self.assertEqual(self.run_command("--check", path), (0, ""))

    def test_vectors_of_weak_pointers_and_of_options_lie_beside_each_other(self):
        path = self.put("use archive_core::rc::{Shared, WeakShared};\n#[derive(Drop)]\npub struct Place { before: Vec<WeakShared<Place>>, next: Vec<Option<Shared<Place>>> }\n")
        self.assertEqual(self.run_command(path), (0, ""))
        text, meaning = self.text(path), self.beside("specs", "PlaceMeaning.antt")
        # one function writes what both lead to
        self.assertEqual(text.count("fn serialize_keyed_place<"), 1)
        self.assertEqual(text.count("match serialize_keyed_place(inner, whole.key, serializer) {"), 2)
        for word in ("(weaks_alike _ (λ (y : (Shared (Value × (List Naming)))). (shared_value y.key)) ", "(held_options_planned _ ", "∙ alike_2 (λ vs0 vs1. product (value (list vs0) "):
            self.assertIn(word, meaning)
        self.assertEqual(self.run_command("--check", path), (0, ""))

    def test_a_variant_with_weak_pointers_is_looked_at_by_their_options(self):
        path = self.put("use archive_core::rc::{Shared, WeakShared};\n#[derive(Drop)]\npub enum Node { Leaf(u32), Link { next: Vec<Shared<Node>>, up: WeakShared<Node> }, By(Shared<Node>) }\n")
        self.assertEqual(self.run_command(path), (0, ""))
        text, meaning = self.text(path), self.beside("specs", "NodeMeaning.antt")
        for word in ("struct WeakNodeAt;", "fn serialize_weak_shared_node<", "fn begin_target<"):
            self.assertEqual(text.count(word), 1, word)
        # no clause matches on the record that a weak pointer is
        for word in ("node_link_means_at a0 None = ", "node_link_planned_at a0 (Some a1) = ", "node_means_roll (Layer.Link a0 a1) = node_link_means_at a0 a1.value"):
            self.assertIn(word, meaning)
        self.assertIn("node_link_opens : (a0 : (Vec (Shared Node-Source) Global)) (a1 : (WeakShared Node-Source)) → ", meaning)
        self.assertEqual(self.run_command("--check", path), (0, ""))

    def test_a_graph_with_an_enum_is_read_by_few_functions(self):
        uses = "use archive_core::rc::{Shared, WeakShared};\n#[derive(Drop)]\n"
        most = "All(Vec<Shared<Mix>>), Both(WeakShared<Mix>, Vec<Option<Shared<Mix>>>), One(Shared<Mix>), Old(Vec<WeakShared<Mix>>)"
        path = self.put(f"{uses}pub enum Mix {{ Leaf(u8), {most}, End(Shared<Mix>) }}\n")
        self.assertEqual(self.run_command(path), (0, ""))
        self.assertEqual(self.text(path).count("#[cycle(read_mix)]"), MOST_OF_GRAPH)
        said = self.run_command(self.put(f"{uses}pub enum Mix {{ Leaf(u8), {most}, End(Shared<Mix>, Box<Mix>) }}\n"))[1]
        self.assertIn("functions would read its values, and 12 are the most", said)
        # a struct isn't limited
        path = self.put("use archive_core::rc::{Shared, WeakShared};\n#[derive(Drop)]\npub struct All { a: Vec<Shared<All>>, b: WeakShared<All>, c: Vec<Option<Shared<All>>>, d: Vec<Box<All>>, e: Option<Box<All>> }\n")
        self.assertEqual(self.run_command(path), (0, ""))
        self.assertEqual(self.text(path).count("#[cycle(read_all_type)]"), 9)

    def test_a_shared_slice_lies_beside_a_box(self):
        path = self.put("use archive_core::rc::SharedSlice;\n#[derive(Drop)]\npub struct Sack { first: Option<Box<Sack>>, parts: SharedSlice<Sack> }\n")
        self.assertEqual(self.run_command(path), (0, ""))
        self.assertIn("let items = value.parts.value.as_slice();", self.text(path))
        self.assertIn("sack_has_keys_at (Some a0) a1 = ", self.beside("specs", "SackMeaning.antt"))
        self.assertEqual(self.run_command("--check", path), (0, ""))

    def test_calls_of_one_name_in_a_loop_are_named_after_it(self):
        path = self.put("#[derive(Drop)]\npub enum Page { None, Some(Vec<(Page, u8, Page)>) }\n")
        self.assertEqual(self.run_command(path), (0, ""))
        answers = self.beside("proofs", "types", "+serialize_page", "Answers.antt")
        self.assertIn("-serialize_page-requires-in-loop-value g t c κs within = ", answers)
        self.assertIn("c.serialize_page-in-loop-value.ensures.goes_on", answers)

    def test_types_of_boxed_texts_and_slices_are_left_to_the_check(self):
        path = self.put("use archive_core::boxed::{BoxSlice, BoxStr};\n#[derive(Drop)]\npub enum Sheet { Text(BoxStr), Bytes(BoxSlice<u8>, u8), Group(Vec<Sheet>) }\n")
        self.assertEqual(self.run_command(path), (0, ""))
        meaning = self.beside("specs", "SheetMeaning.antt")
        self.assertIn("sheet_text_means : (a0 : _) → ", meaning)
        self.assertIn("sheet_bytes_means : (a0 : _) (a1 : ℕ) → ", meaning)
        self.assertNotIn("Box", meaning)

    def test_a_graph_is_keyed_by_what_its_values_mean(self):
        path = self.put("use archive_core::rc::Shared;\n#[derive(Drop)]\npub struct Place { id: u32, next: Vec<Shared<Place>> }\n#[derive(Drop)]\npub struct Way { places: Vec<Shared<Place>> }\n")
        self.assertEqual(self.run_command(path), (0, ""))
        text, meaning = self.text(path), self.beside("specs", "PlaceMeaning.antt")
        self.assertIn("(rc_keys y.key (one place_shape) 0 (m y.value.value) (k y.value.value))", meaning)
        self.assertIn("fold-Place (Value × (List Naming)) (place_both_layer (λ v. v))", meaning)
        self.assertIn("fn serialize_place<S: Sharing + Writer + ResolverAlloc>", text)
        self.assertIn("fn read_place<D: Pooling<Shared<Place>>>", text)
        self.assertIn("impl FromParts for Way", text)

    def test_a_boxed_slice_is_written_as_a_vector_with_calls_of_the_module(self):
        path = self.put("use archive_core::boxed::BoxSlice;\n#[derive(Drop)]\npub enum Grove { Seed(u8), Side(Vec<Grove>), Below(u8, BoxSlice<Grove>) }\n")
        self.assertEqual(self.run_command(path), (0, ""))
        text, meaning = self.text(path), self.beside("specs", "GroveMeaning.antt")
        for word in ("struct BoxSliceAt<X> {", "fn serialize_inner_box_slice<", "fn before_box_slice<", "BoxSliceAt::of(a1.items.len())", "Ok(BoxSlice { items })"):
            self.assertEqual(text.count(word), 1)
        self.assertEqual(text.count("fn serialize_each_grove<"), 1)
        self.assertIn("(box (list (each_meaning m a1.items.items)))", meaning)
        self.assertIn("grove_below_means : (a0 : ℕ) (a1 : _) → ", meaning)
        self.assertIn("unique_before.ensures", self.beside("proofs", "types", "before_box_slice", "Answers.antt"))
        self.assertEqual(self.run_command("--check", path), (0, ""))

    def test_a_shared_pointer_may_be_a_field_or_in_an_option(self):
        path = self.put("use archive_core::rc::Shared;\n#[derive(Drop)]\npub enum Road { Way(u32, Option<Shared<Road>>), Detour(Shared<Road>) }\n")
        self.assertEqual(self.run_command(path), (0, ""))
        text = self.text(path)
        for word in ("struct SharedRoadAt;", "struct OptionSharedRoadAt;", "fn serialize_shared_road<", "fn serialize_option_shared_road<", "Detour((RcResolver, ())),"):
            self.assertEqual(text.count(word), 1)
        self.assertIn("(option_flat (λ y s. (rc_flat s (one road_shape) 0)) s.1.0 s.1.0)", self.beside("specs", "RoadMeaning.antt"))
        self.assertEqual(self.run_command("--check", path), (0, ""))

    def test_two_files_of_one_run_are_both_named(self):
        paths = [self.put(LIST, "list"), self.put(TREE, "tree")]
        self.assertEqual(self.run_command(*paths), (0, ""))
        self.assertEqual(self.beside("specs", "Lib.antt").splitlines(), [f"pub mod {name}{part}" for name in ("List", "Tree") for part in ("Meaning", "Shape")])
        self.assertEqual(self.run_command("--check", *paths), (0, ""))

    def test_a_family_has_its_files_together(self):
        path = self.put(FAMILY)
        self.assertEqual(self.run_command(path), (0, ""))
        self.assertEqual(self.beside("specs", "Lib.antt"), "pub mod DirMeaning\npub mod DirShape\n")
        self.assertIn("dir_definitions = both (defines dir_name dir_stands_for) (defines entry_name entry_stands_for)", self.beside("specs", "DirShape.antt"))
        self.assertIn("fold-Dir Value Value (entry_meaning_layer", self.beside("specs", "DirMeaning.antt"))
        self.assertIn("decreases-read_entry ", self.beside("proofs", "types", "+read_dir", "Invariants.antt"))
        self.assertEqual(self.text(path).count("fn define_dir_family("), 1)
        self.assertEqual(self.run_command("--check", path), (0, ""))

    def test_a_type_of_the_family_may_be_in_another_behind_no_pointer(self):
        path = self.put("#[cycle(json)]\n#[derive(Drop)]\npub struct Member { name: String, value: Json }\n#[cycle(json)]\n#[derive(Drop)]\npub enum Json { Null, Object(Vec<Member>) }\n")
        self.assertEqual(self.run_command(path), (0, ""))
        text, shape = self.text(path), self.beside("specs", "MemberShape.antt")
        self.assertIn("kept: (<String as Archive>::Resolver, (JsonResolver, ()))", text)
        self.assertIn("resolve_named_record_2::<String, Json, ArchivedMember>(", text)
        self.assertIn("let a1 = match read_json(alloc, p1, deserializer) {", text)
        self.assertLess(shape.index("pub json_has_layout"), shape.index("pub member_type_has_layout"))
        self.assertIn("(part_laid_out member_type_definitions no_definition json_shape (record { size = 12; align = 4 }) json_has_layout no_part", shape)
        invariants = self.beside("proofs", "types", "+read_member_type", "Invariants.antt")
        self.assertIn("decreases-read_json g l = (l.part.pos + 12) * 6 + 3", invariants)
        self.assertIn("decreases-read_member_type g l = (l.part.pos + 20) * 6 + 5", invariants)
        self.assertEqual(self.run_command("--check", path), (0, ""))

    def test_a_recursive_type_of_another_family_is_defined_with_what_holds_it(self):
        exprs = "#[derive(Drop)]\npub enum Expr { Num(i64), Add(Box<Expr>, Box<Expr>) }\n"
        path = self.put(f"{exprs}#[derive(Drop)]\npub enum Stmt {{ Let(String, Expr), All(Vec<Stmt>), Try(Option<Expr>) }}\n")
        self.assertEqual(self.run_command(path), (0, ""))
        self.assertIn("<ArchivedExpr as Portable>::define(alloc, defs)", self.text(path))
        shape = self.beside("specs", "StmtShape.antt")
        for word in ("both (defines stmt_name stmt_stands_for) definitions_of_expr", "stmt_reaches_expr : NoOthers", "knows_right s _ _ k"):
            self.assertIn(word, shape)
        block, stmt = "pub struct Block { pub last: Option<Expr>, pub all: Vec<Stmt> }", "pub enum Stmt { Do(Block), Say(Expr) }"
        path = self.put(f"{exprs}#[cycle(block)]\n#[derive(Drop)]\n{block}\n#[cycle(block)]\n#[derive(Drop)]\n{stmt}\n")
        self.assertEqual(self.run_command(path), (0, ""))
        self.assertIn("both (defines block_name block_stands_for) (both (defines stmt_name stmt_stands_for) definitions_of_expr)", self.beside("specs", "BlockShape.antt"))

    def test_names_of_the_library_stay_its_own(self):
        path = self.put("#[derive(Drop)]\npub struct Part { value: u8, parts: Vec<Part> }\n")
        self.assertEqual(self.run_command(path), (0, ""))
        self.assertIn("pub part_type_planned : ", self.beside("specs", "PartMeaning.antt"))

    def test_an_option_is_told_by_cases(self):
        path = self.put("#[derive(Drop)]\npub struct Search { left: Option<Box<Search>>, value: u8, right: Option<Box<Search>> }\n")
        self.assertEqual(self.run_command(path), (0, ""))
        self.assertEqual(self.beside("specs", "SearchMeaning.antt").count("\nsearch_keyed_at "), 5)
        self.assertNotIn("serialize_box_search", self.text(path))
        self.assertIn("read_box_search", self.text(path))

    def test_boxes_in_a_vector_behind_another_are_mapped_with_it_at_once(self):
        path = self.put("#[derive(Drop)]\npub struct Fork { all: Vec<Fork>, each: Vec<Box<Fork>> }\n")
        self.assertEqual(self.run_command(path), (0, ""))
        self.assertIn("alike_2 (λ vs0 vs1. product (value (list vs0) (value (list vs1) no_value))) _ _ _ _ (each_mapped fork_meaning", self.beside("specs", "ForkMeaning.antt"))

    def test_an_option_that_is_nothing_beside_a_vector_has_a_type(self):
        path = self.put("#[derive(Drop)]\npub struct Fork { one: Option<Box<Fork>>, all: Vec<Fork> }\n")
        self.assertEqual(self.run_command(path), (0, ""))
        self.assertIn("ap (λ vs. product (value (option_meaning (λ (y : (Box Fork-Source Global)). (box (fork_meaning y.value))) None)", self.beside("specs", "ForkMeaning.antt"))

    def test_several_fields_that_lead_back_are_written_where_the_value_is_matched(self):
        path = self.put("#[derive(Drop)]\npub enum Sum { One(u8), Add(Box<Sum>, Box<Sum>) }\n")
        self.assertEqual(self.run_command(path), (0, ""))
        self.assertNotIn("fn serialize_sum_add", self.text(path))
        self.assertIn("fn read_sum_add", self.text(path))

    def test_a_struct_around_a_recursive_type_brings_its_definitions(self):
        path = self.put(TREE + "#[derive(Drop)]\npub struct Forest { pub name: String, pub trees: Vec<Tree> }\n")
        self.assertEqual(self.run_command(path), (0, ""))
        self.assertIn("pub struct ArchivedForest;", self.text(path))
        self.assertNotIn("#[cycle(serialize_forest)]", self.text(path))
        self.assertIn("forest_definitions = (both no_definition (both definitions_of_tree no_definition))", self.beside("specs", "ForestShape.antt"))
        self.assertEqual(self.run_command("--check", path), (0, ""))

    def test_what_holds_a_recursive_type_is_held_in_turn(self):
        held = "#[derive(Drop)]\npub enum Post { Text(String), Of(Tree, Option<Tree>) }\n#[derive(Drop)]\npub struct Page { pub post: Post, pub next: Vec<Post> }\n"
        path = self.put(TREE + held)
        self.assertEqual(self.run_command(path), (0, ""))
        self.assertIn("(both definitions_of_post (both definitions_of_post no_definition))", self.beside("specs", "PageShape.antt"))
        self.assertIn("(option_has_layout definitions_of_tree shape_of_tree (record { size = 16; align = 8 }) (inr (inr (inr (inl refl)))) has_layout_of_tree)", self.beside("specs", "PostShape.antt"))
        self.assertIn("post_meaning (Its.Of a0 a1) = case 1 ", self.beside("specs", "PostMeaning.antt"))
        self.assertEqual(self.run_command("--check", path), (0, ""))

    def test_a_struct_that_shares_around_a_recursive_type_is_a_tuple_with_names(self):
        path = self.put("use archive_core::rc::Shared;\n" + TREE + "#[derive(Drop)]\npub struct Forest { pub by: Shared<String>, pub trees: Vec<Tree> }\n")
        self.assertEqual(self.run_command(path), (0, ""))
        self.assertIn("pub type ArchivedForest = ArchivedTuple< ( ArchivedRc<ArchivedString, RcFlavor>, (ArchivedVec<ArchivedTree>, ()), ), >;", " ".join(self.text(path).split()))

    def test_a_plain_type_of_the_same_file_is_told_by_what_it_is_made_of(self):
        path = self.put("#[derive(Drop)]\npub enum Kind { One, Two(u8) }\n#[derive(Drop)]\npub struct Tree { pub kind: Kind, pub children: Vec<Tree> }\n")
        self.assertEqual(self.run_command(path), (0, ""))
        self.assertIn('(choice (codes "ArchivedKind") (variant no_part (variant (part (leaf (number_kind unsigned w8)) no_part) no_variant)))', self.beside("specs", "TreeShape.antt"))

    def test_names_that_are_there_stay(self):
        self.assertEqual(naming("pub mod Other\n", ["ListShape", "Other"]), "pub mod Other\npub mod ListShape\n")

    def test_sizes(self):
        self.run_command(self.put(TREE))
        self.assertIn("record { size = 16; align = 8 }", self.beside("specs", "TreeShape.antt"))
        self.assertIn("part_of_record::<ArchivedTree, ArchivedVec<ArchivedTree>>(part, 1, 8)", self.text(self.path("game", "types")))

    def test_a_number_with_a_sign_is_read_as_it_was(self):
        self.run_command(self.put(TREE))
        self.assertIn("to_z-of_z w64 c.in-Ok.a0", self.beside("proofs", "types", "+read_tree", "Answers.antt"))
