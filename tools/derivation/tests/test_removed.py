"""Recursive types that are removed: what was written beside the module for them goes, too."""

import os

from .repository import RepositoryTest

LIST = "pub enum List { Nil, Cons(u32, Box<List>) }\n"
TREE = "#[derive(Drop)]\npub struct Tree { pub value: i64, pub children: Vec<Tree> }\n"
POINT = "#[derive(Drop)]\npub struct Point { pub x: i32 }\n"


class Removed(RepositoryTest):
    def specs(self):
        """The files of definitions, but for their list, and its lines."""
        folder = os.path.join(self.top, "crates", "game", "specs")
        names = sorted(os.listdir(folder))
        lines = self.text(os.path.join(folder, "Lib.antt")).splitlines() if "Lib.antt" in names else []
        return [it[:-len(".antt")] for it in names if it != "Lib.antt"], lines

    def changed(self, path, old, new):
        """The module with another declaration."""
        text = self.text(path)
        with open(path, "w", encoding="utf-8") as file:
            file.write(text.replace(old, new))

    def test_the_files_of_a_type_go_with_it(self):
        path = self.put(LIST + TREE)
        self.assertEqual(self.run_command(path), (0, ""))
        self.changed(path, TREE, "")
        status, said = self.run_command("--check", path)
        self.assertEqual(status, 1)
        self.assertIn("TreeMeaning.antt", said)
        self.assertEqual(self.run_command(path), (0, ""))
        self.assertEqual(self.specs(), (["ListMeaning", "ListShape"], ["pub mod ListMeaning", "pub mod ListShape"]))
        self.assertEqual(self.run_command("--check", path), (0, ""))

    def test_a_type_with_another_name_has_other_files(self):
        path = self.put(TREE)
        self.assertEqual(self.run_command(path), (0, ""))
        self.changed(path, TREE, TREE.replace("Tree", "Rose"))
        self.assertEqual(self.run_command(path), (0, ""))
        self.assertEqual(self.specs(), (["RoseMeaning", "RoseShape"], ["pub mod RoseMeaning", "pub mod RoseShape"]))
        self.assertEqual(self.run_command("--check", path), (0, ""))

    def test_no_list_is_left_where_nothing_is(self):
        path = self.put(TREE + POINT)
        self.assertEqual(self.run_command(path), (0, ""))
        self.changed(path, TREE, "")
        self.assertEqual(self.run_command(path), (0, ""))
        self.assertEqual(self.specs(), ([], []))
        self.assertEqual(self.run_command("--check", path), (0, ""))

    def test_what_others_wrote_stays(self):
        paths = [self.put(LIST, "list"), self.put(TREE, "tree")]
        self.assertEqual(self.run_command(*paths), (0, ""))
        own = os.path.join(self.top, "crates", "game", "specs", "OwnMeaning.antt")
        with open(own, "w", encoding="utf-8") as file:
            file.write("-- Written by hand.\nuse Rattle.game.specs.declared.tree.OwnResolver.{OwnResolver}\n")
        with open(os.path.join(os.path.dirname(own), "Lib.antt"), "a", encoding="utf-8") as file:
            file.write("pub mod OwnMeaning\n")
        self.changed(paths[1], TREE, POINT)
        self.assertEqual(self.run_command(*paths), (0, ""))
        self.assertEqual(self.specs()[1], ["pub mod ListMeaning", "pub mod ListShape", "pub mod OwnMeaning"])
        self.assertEqual(self.run_command("--check", *paths), (0, ""))

    def test_a_type_that_moves_to_another_file_keeps_its_files(self):
        one, other = self.put(TREE, "one"), self.put(POINT, "other")
        self.assertEqual(self.run_command(one, other), (0, ""))
        self.changed(one, TREE, POINT.replace("Point", "Spot"))
        self.changed(other, POINT, TREE)
        self.assertEqual(self.run_command(one, other), (0, ""))
        self.assertEqual(self.specs(), (["TreeMeaning", "TreeShape"], ["pub mod TreeMeaning", "pub mod TreeShape"]))
        self.assertEqual(self.run_command("--check", one, other), (0, ""))

    def test_definitions_of_one_name_are_not_written_over_others(self):
        path, other = self.put(TREE), self.put(TREE, "other")
        self.assertEqual(self.run_command(path), (0, ""))
        said = "crates/game/src/other.rt:2: the definitions of `Tree` would be written over those of crates/game/src/types.rt; give one of the types another name\n"
        self.assertEqual(self.run_command(other), (2, said))
        self.assertEqual(self.run_command(path, other), (2, said))
        self.assertEqual(self.run_command("--check", path), (0, ""))
        os.rename(path, self.path("game", "moved"))
        self.assertEqual(self.run_command(other), (0, ""))
        self.assertIn("declared.other.TreeResolver", self.text(os.path.join(self.top, "crates/game/specs/TreeMeaning.antt")))

    def test_definitions_by_hand_are_not_written_over(self):
        hand = os.path.join(self.top, "crates", "game", "specs", "TreeMeaning.antt")
        os.makedirs(os.path.dirname(hand))
        with open(hand, "w", encoding="utf-8") as file:
            file.write("use x\n")
        status, said = self.run_command(self.put(TREE))
        self.assertEqual((status, said), (2, "crates/game/src/types.rt:2: the definitions of `Tree` would be written over those of crates/game/specs/TreeMeaning.antt; give one of the types another name\n"))

    def test_a_type_at_the_root_has_files_of_its_own(self):
        variants = ", ".join(f"V{i}" for i in range(12))
        knot = "#[derive(Drop)]\npub struct Knot { id: u32, next: Vec<Shared<Knot>> }\n"
        path = self.put(f"use archive_core::rc::Shared;\n#[derive(Drop)]\npub enum Many {{ {variants}, Of(u8) }}\n{LIST}{TREE}{knot}", "lib")
        self.assertEqual(self.run_command(path), (0, ""))
        for folder, _, names in os.walk(os.path.join(self.top, "crates", "game")):
            for name in names:
                self.assertNotRegex(self.text(os.path.join(folder, name)), r"(declared|contracts|proofs)\.\.")
        self.changed(path, TREE, "")
        self.assertEqual(self.run_command(path), (0, ""))
        self.assertEqual(self.specs()[0], ["KnotMeaning", "KnotShape", "ListMeaning", "ListShape"])
