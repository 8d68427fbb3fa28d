"""Types that have to be dropped: those in a type."""

from .repository import RepositoryTest

USES = "use archive_core::rc::Shared;\nuse std::collections::BTreeMap;\nuse std::marker::PhantomData;\n"


class Drops(RepositoryTest):
    def said(self, held, holder):
        return f"`{held}` is held by {holder}, so what was read of it is dropped where reading fails; derive `Drop`, or `Copy`"

    def test_what_another_type_holds(self):
        for declared in ("struct P { x: u8 }", "struct P;", "enum P { X, Y }", "enum P { X, Y(String) }"):
            for type in ("P", "Vec<P>", "Option<P>", "Box<P>", "[P; 2]", "(u8, P)", "Result<u8, P>", "Shared<P>", "BTreeMap<u8, P>"):
                with self.subTest(declared, type=type):
                    holders = f"{USES}#[derive(Drop)]\nstruct A {{ x: {type} }}\n"
                    self.assertEqual(self.refusal(f"{holders}{declared}\n"), f"6: {self.said('P', '`A`')}")
                    for derived in ("Drop", "Debug, Drop", "Clone, Copy"):
                        self.module(f"{holders}#[derive({derived})]\n{declared}\n")

    def test_in_a_variant_and_among_arguments(self):
        self.assertEqual(self.refusal("struct P;\nenum A { X, Y(P) }\n"), f"1: {self.said('P', '`A`')}")
        pair = "#[derive(Drop)]\nstruct Pair<A, B> { x: A, y: B }\n"
        self.assertEqual(self.refusal(f"{pair}struct P;\nstruct A {{ x: Pair<P, u8> }}\n"), f"3: {self.said('P', '`A`')}")
        maybe = "enum Maybe<T> { X(T), Y }\npub type MaybeByte = Maybe<u8>;\nstruct A { x: MaybeByte }\n"
        self.assertEqual(self.refusal(maybe), f"2: {self.said('Maybe', '`A`')}")
        self.module(f"#[derive(Drop)]\n{maybe}")

    def test_an_impl_by_hand(self):
        held = "struct P;\nstruct A { x: P }\n"
        for trait in ("Drop", "Copy"):
            self.module(f"{held}impl {trait} for P {{}}\n")
        self.assertEqual(self.refusal(f"{held}impl Drop for A {{}}\n"), f"1: {self.said('P', '`A`')}")

    def test_what_no_other_type_holds(self):
        self.module(f"{USES}struct A {{ x: String, y: PhantomData<A2> }}\nstruct A2;\nenum B {{ X, Y(u8) }}\nstruct C<T> {{ x: T }}\nstruct E {{ x: Vec<[u8; 4]> }}\n")

    def test_of_another_file(self):
        held = self.put("pub struct P;\n", "held")
        path = self.put("use crate::held::P;\npub struct A { x: P }\n")
        said = f"crates/game/src/held.rt:1: {self.said('P', '`A`')}\n"
        self.assertEqual(self.run_command(held, path), (2, said))
        self.assertEqual(self.run_command(held), (0, ""))
        self.assertEqual(self.run_command(path), (2, said))

    def test_recursive_types_but_lists(self):
        for declared in ("struct Tree { x: u8, below: Vec<Tree> }", "enum Tree { X(u8), Y(Box<Tree>, Box<Tree>) }"):
            self.assertEqual(self.refusal(declared), f"1: {self.said('Tree', 'itself')}")
            self.module(f"#[derive(Drop)]\n{declared}")
        self.module("enum List { Nil, Cons(u32, Box<List>) }\nstruct A { x: List }\n")
        self.assertEqual(self.refusal("struct P;\nenum List { Nil, Cons(P, Box<List>) }\n"), f"1: {self.said('P', '`List`')}")

    def test_a_list_that_holds_another_recursive_type(self):
        text = "#[derive(Drop)]\nenum Expr { X(u8), Y(Box<Expr>, Box<Expr>) }\nenum Lined { Nil, Cons(Expr, Box<Lined>) }\n"
        self.assertEqual(self.refusal(text), f"3: {self.said('Lined', 'itself')}")
        self.module(text.replace("enum Lined", "#[derive(Drop)]\nenum Lined"))
