"""What is read of declarations."""

from derivation import read
from derivation.model import MARK

from .repository import RepositoryTest


def shown(it):
    return [(field.name, field.type.text) for field in it.all_fields()]


class Declarations(RepositoryTest):
    def test_a_struct_with_named_fields(self):
        it = self.declaration("/// A point.\n#[derive(Debug, Drop)]\npub struct Point { pub x: i32, /// Up.\n pub(crate) y: Vec<Option<u8>>, }\n")
        self.assertEqual((it.kind, it.form, it.name, it.archived, it.visibility), ("struct", "struct", "Point", "ArchivedPoint", "pub"))
        self.assertEqual((it.docs, it.derives), (["A point."], ["Debug", "Drop"]))
        self.assertEqual(shown(it), [("x", "i32"), ("y", "Vec<Option<u8>>")])
        self.assertEqual([(f.visibility, f.docs) for f in it.fields], [("pub", []), ("pub(crate)", ["Up."])])

    def test_tuple_and_unit_structs(self):
        made = self.module("struct Nothing;\nstruct Pair(u8, pub String,);\nstruct Empty {}\n").declarations
        self.assertEqual([(it.name, it.form, len(it.fields)) for it in made], [("Nothing", "unit", 0), ("Pair", "tuple", 2), ("Empty", "struct", 0)])
        self.assertEqual([f.accessor for f in made[1].fields], ["field_0", "field_1"])

    def test_an_enum(self):
        it = self.declaration("enum Event { Quit, /** A key. */ Key(char), Move { x: i32, y: i32, }, #[deprecated] Batch(Vec<u32>,), }")
        self.assertEqual([(v.name, v.form, len(v.fields)) for v in it.variants], [("Quit", "unit", 0), ("Key", "tuple", 1), ("Move", "struct", 2), ("Batch", "tuple", 1)])
        self.assertEqual(it.variants[1].docs, ["A key."])

    def test_comments_among_words(self):
        text = """#[derive(Debug, Drop)] // behind
/* before */ pub /* a */ struct /* b */ Point<T /* c */ : /* d */ Clone /* e */> where T: /* f
*/ Debug, // g
{ pub(crate) /* h */ x: /* i */ Vec<T>, y: u8 } // j
struct Four { y: [u8; 4 /* four */] }
#[cfg(test)] // tests alone
struct OfTests { x: f64 }
"""
        it, four = self.module(text).declarations
        self.assertEqual((it.derives, it.visibility, it.where, it.parameters[0].bounds), (["Debug", "Drop"], "pub", "T: Debug,", "Clone"))
        self.assertEqual(([f.visibility for f in it.fields], four.fields[0].type.length), (["pub(crate)", ""], "4"))

    def test_60_variants(self):
        it = self.declaration(f"enum Many {{ {', '.join(f'V{i}' for i in range(60))} }}")
        self.assertEqual(len(it.variants), 60)

    def test_parameters_bounds_and_where(self):
        it = self.declaration("pub struct Pair<A: Clone + Into<Vec<u8>>, B>(pub A, Box<B>) where B: Debug, A: PartialEq;")
        self.assertEqual([(p.name, p.bounds) for p in it.parameters], [("A", "Clone + Into<Vec<u8>>"), ("B", "")])
        self.assertEqual(it.where, "B: Debug, A: PartialEq")
        self.assertTrue(it.fields[0].type.parameter)

    def test_a_name_on_demand(self):
        made = self.module("// name: ArchivedTest\n/// A test.\nstruct TestOf { x: u8 }\nstruct Other;\n").declarations
        self.assertEqual([(it.archived, it.named) for it in made], [("ArchivedTest", True), ("ArchivedOther", False)])

    def test_other_items_are_passed_over(self):
        text = """//! Words.
#![tactic(auto)]
ghost use Rattle.std.specs.Prelude.{◌≡◌, ℕ};
use std::alloc::Global;
const COUNT: usize = 3;
static TABLE: [u8; 2] = [1, 2];
fn first(x: u8) -> u8
    requires below { x < 3 }
    ensures { result ≡ x }
{ struct Inner { x: f64 } x }
trait Shape<'a> { ghost area: { Self → ℕ }; fn area(&self) -> u16 ensures { result ≡ area self.now }; }
impl<'a> Shape<'a> for Item { ghost area = { λ s. 4 }; fn area(&self) -> u16 { 4 } }
impl Item { pub const FULL: u8 = 100; pub fn new() -> Self { Item { text: '}', more: "{", raw: r#"}"#, } } }
macro_rules! twice { ($x:expr) => { $x; $x } }
twice!(3);
mod inner { pub struct Hidden { x: f32 } }
type Text = String;
/* pub struct Not { x: /* nested */ f64 } */
pub struct Item { x: Text }
#[cfg(test)]
struct OfTests { x: f64 }
"""
        made = self.module(text)
        self.assertEqual([it.name for it in made.declarations], ["Item"])
        self.assertEqual(made.declarations[0].fields[0].type.name, "String")
        self.assertEqual(made.declarations[0].fields[0].type.text, "Text")
        self.assertEqual(made.ghost_uses, {"◌≡◌": ("Rattle", "std", "specs", "Prelude", "◌≡◌"), "ℕ": ("Rattle", "std", "specs", "Prelude", "ℕ")})
        for name in ("COUNT", "TABLE", "first", "Shape", "twice", "inner", "Text", "Item"):
            if name != "twice":
                self.assertIn(name, made.names)

    def test_every_type_of_a_field(self):
        text = """use archive_core::array::OwnedArray;
use archive_core::boxed::{BoxSlice, BoxStr as Line};
use archive_core::primitive::{ArchivedNonZeroU16, NonZero};
use archive_core::rc::{self, Shared, SharedSlice, WeakShared};
use std::marker::PhantomData;
const LENGTH: usize = 0x10;
enum All {
    A { a: (), b: bool, c: char, d: usize, e: i128, f: String, g: std::string::String, h: Option<Result<u8, i8>> },
    B { i: Box<(u8, u16)>, j: BoxSlice<u8>, k: Line, l: Option<OwnedArray<u8, 4>>, m: [u8; LENGTH], n: OwnedArray<u8, 3>, o: PhantomData<u64> },
    C { p: Shared<u8>, q: SharedSlice<u8>, r: rc::SharedStr, s: WeakShared<u8>, t: NonZero<i64>, u: ArchivedNonZeroU16, v: (u8), w: (u8,) },
}
"""
        it = self.declaration(text)
        names = {f.name: f.type.name for f in it.all_fields()}
        self.assertEqual("".join(sorted(names)), "abcdefghijklmnopqrstuvw")
        self.assertEqual((names["k"], names["r"], names["u"], names["v"], names["w"]), ("BoxStr", "SharedStr", "NonZero", "u8", "tuple"))
        fields = {f.name: f.type for f in it.all_fields()}
        self.assertEqual((fields["m"].length, fields["m"].text), ("16", "[u8; 16]"))
        self.assertEqual((fields["n"].length, fields["n"].text), ("3", "OwnedArray<u8, 3>"))
        self.assertEqual((fields["u"].args[0].name, fields["u"].text), ("u16", "ArchivedNonZeroU16"))
        self.assertEqual((fields["k"].text, fields["r"].text, fields["w"].text), ("Line", "rc::SharedStr", "(u8,)"))

    def test_accessors_beside_the_calls_of_views(self):
        it = self.declaration("struct A { pos: u8, len: u8, data: u8, hash: u8 }")
        self.assertEqual([f.accessor for f in it.fields], ["pos_field", "len", "data", "hash_field"])


class Names(RepositoryTest):
    def test_types_of_other_modules_and_crates(self):
        self.put(f"#[derive(Drop)]\npub struct Line {{ a: u8 }}\n\n{MARK}\n", "shapes", "other")
        self.put("pub use shapes::Line as Stroke;\nmod shapes;\n", "lib", "other")
        self.put(f"#[derive(Drop)]\npub struct Spot {{ a: u8 }}\n\n{MARK}\n", "deep/spot")
        text = """use other::Stroke;
use other::shapes::{self, Line};
use crate::deep::spot::*;
struct A { a: Stroke, b: shapes::Line, c: Vec<Line>, d: Spot, e: other::shapes::Line, f: super::deep::spot::Spot, g: B }
#[derive(Drop)]
struct B;
"""
        it = self.declaration(text)
        owns = [(f.type.args or [f.type])[0].own for f in it.fields]
        self.assertEqual([(x.crate, x.module, x.name) for x in owns[:4]], [("other", ("shapes",), "Line")] * 3 + [("game", ("deep", "spot"), "Spot")])
        self.assertIs(owns[0], owns[4])
        self.assertIs(owns[3], owns[5])
        self.assertEqual(owns[6].name, "B")

    def test_files_that_bring_in_all_of_each_other(self):
        names = [f"m{i}" for i in range(8)]
        all_of = "".join(f"use crate::{it}::*;\n" for it in names)
        paths = [self.put(f"{all_of}#[derive(Drop)]\npub struct S{it} {{ x: Vec<S{names[i - 1]}> }}\n" if i else f"{all_of}#[derive(Drop)]\npub struct S{it};\n", it) for i, it in enumerate(names)]
        self.assertEqual(read.modules(paths)[7].declarations[0].fields[0].type.args[0].own.name, "Sm6")
        self.put(f"{all_of}pub struct A {{ x: Nowhere }}\n", "m0")
        self.assertIn("`Nowhere` has no format here", self.refusal_of_other(paths[0]))

    def test_a_name_that_leads_to_itself(self):
        path = self.put("use self::a::b as a;\nuse crate::types::c::d as c;\npub struct A { x: a::B, y: c }\n")
        self.assertIn("`a::B` has no format here", self.refusal_of_other(path))

    def test_a_root_file_is_no_module_of_its_own(self):
        it = read.modules([self.put("pub struct A;", "lib")])[0]
        self.assertEqual((it.crate, it.module), ("game", ()))

    def test_an_alias_with_a_parameter(self):
        it = self.declaration("type Pairs<T> = Vec<(T, u8)>;\nstruct A { a: Pairs<char> }")
        self.assertEqual((it.fields[0].type.name, it.fields[0].type.args[0].text, it.fields[0].type.text), ("Vec", "(char, u8)", "Pairs<char>"))

    def test_two_files_of_one_run_hold_each_others_types(self):
        first = self.put("use crate::second::B;\npub struct A { b: B }\n#[derive(Drop)]\npub struct C;\n", "first")
        second = self.put("use crate::first::C;\n#[derive(Drop)]\npub struct B { c: C }\n", "second")
        modules = read.modules([first, second])
        self.assertIs(modules[0].declarations[0].fields[0].type.own, modules[1].declarations[0])
        self.assertIn("isn't archived yet", self.refusal_of_other(first))

    def refusal_of_other(self, path):
        from derivation.model import Refused

        with self.assertRaises(Refused) as refused:
            read.modules([path])
        return refused.exception.text
