"""What is refused, with the line and what to write instead."""

from derivation.model import MARK
from derivation.read import MOST_FIELDS as MOST
from derivation.read import MOST_FEW as FEW
from derivation.read import MOST_OF_VARIANT

from .repository import RepositoryTest

LIST = ",\n"
SLICE = "a `SharedSlice` that leads back to `A` is written with elements of `A`; write a `Shared` of a struct of this file with a `Vec`"
WEAK = "this `WeakShared` around `A` isn't written; write a `WeakShared<A>` or a `Vec` of it"
ARRAY = "an array that leads back to `A` is written in a struct of up to 7 fields, of 1 to 8 options of boxes, if no other field leads back and no other type is recursive with it; write a `Vec`"
# A type of a field, and how its refusal begins.
FIELDS = [
    ("f64", "a float has no format; write its bits, a `u64` of `to_bits`"),
    ("Vec<f32>", "a float has no format; write its bits, a `u32` of `to_bits`"),
    ("&'static str", "a reference has no format; write a type that owns what it holds, as a `String`, a `Vec` or a `Box`"),
    ("Option<&u8>", "a reference has no format; write a type that owns"),
    ("*const u8", "a raw pointer has no format; write"),
    ("[u8]", "a slice has no length of its own; write a `Vec`, or a `BoxSlice`"),
    ("Box<[u8]>", "a boxed slice is a type of the library; write `BoxSlice`, of `archive_core::boxed`"),
    ("Box<str>", "a boxed text is a type of the library; write `BoxStr`, of `archive_core::boxed`"),
    ("Box<dyn Fn(u8) -> u8>", "`dyn` has no format; write an enum of what it may be"),
    ("fn(u8) -> u8", "a function has no format; write"),
    ("impl Copy", "`impl` names no one type; write the type"),
    ("!", "`!` has no value; remove the field"),
    ("_", "write the type in place of `_`"),
    ("<u8 as Copy>::X", "only a type's own name is looked up; write the type"),
    ("vec![u8]", "a macro's type isn't looked up; write the type"),
    ("std::collections::HashMap<u8, u8>", "`HashMap` has no format; write a `BTreeMap`, or a `Vec` of pairs, as `Vec<(K, V)>`"),
    ("std::collections::BTreeMap<bool, u8>", "`bool` is no key of a map in an archive; write a whole number, a `char` or a `String`"),
    ("std::collections::BTreeMap<u8, (u8, u8)>", "a tuple in a tuple or a map is too deep for the toolchain; write a struct without parameters in place of the inner one"),
    ("std::collections::BTreeMap<u8, u8, u8>", "`BTreeMap` takes two arguments, not 3; write two"),
    ("std::collections::BTreeSet<u8>", "`BTreeSet` has no format; write a `Vec`"),
    ("std::cell::Cell<u8>", "`Cell` has no format; write what it holds"),
    ("std::rc::Rc<u8>", "`Rc` has no format; write a `Shared`, of `archive_core::rc`"),
    ("std::sync::Arc<u8>", "`Arc` has no format; write a `Shared`, of `archive_core::rc`"),
    ("std::num::NonZeroU16", "`NonZeroU16` has no format; write an `ArchivedNonZeroU16`, of `archive_core::primitive`"),
    ("str", "`str` has no format; write a `String`"),
    ("BoxSlice<u8>", "`BoxSlice` isn't brought in; write `use archive_core::boxed::BoxSlice;`"),
    ("PhantomData<u8>", "`PhantomData` isn't brought in; write `use std::marker::PhantomData;`"),
    ("ArchivedNonZeroU8", "`ArchivedNonZeroU8` isn't brought in; write `use archive_core::primitive::ArchivedNonZeroU8;`"),
    ("Nowhere", "`Nowhere` has no format here; declare it in a file of its own"),
    ("nowhere::Point", "`nowhere::Point` has no format here; declare it"),
    ("Vec<u8, Global>", "`Vec` takes one argument, not 2; write one"),
    ("u8<u8>", "`u8` takes no arguments, not 1; write none"),
    ("[u8; COUNT]", "the number of items `COUNT` isn't known; write a number, or a constant of this file whose value is one"),
    ("[u8; 5000000000]", "an array of 5000000000 items is too long; write at most 4294967295"),
    ("archive_core::primitive::NonZero<bool>", "`NonZero` is of a number of one size; write `NonZero<u32>`"),
    ("archive_core::string::ArchivedString", "`ArchivedString` is an archived type; write the type of its values, as `String` for `ArchivedString`"),
    ("Option<ArchivedU32>", "`ArchivedU32` is an archived type; write the type of its values"),
    ("Vec<(u8, Option<(u8, u8)>)>", "a tuple in a tuple or a map is too deep for the toolchain; write a struct without parameters in place of the inner one"),
    ("archive_core::core_impls::OwnedArray<[String; 4], 2>", "an array of `String` in `OwnedArray` is read back as an `OwnedArray`; write `OwnedArray<String, 4>`"),
    ("Vec<[String; 4]>", "an array of `String` in `Vec` is read back as an `OwnedArray`; write `OwnedArray<String, 4>`"),
    ("Option<Box<Option<[[u8; 2]; 4]>>>", "an array of `[u8; 2]` in `Box` is read back as an `OwnedArray`; write `OwnedArray<[u8; 2], 4>`"),
    ("std::collections::BTreeMap<u8, [Option<u8>; 4]>", "an array of `Option<u8>` in `BTreeMap` is read back as an `OwnedArray`; write `OwnedArray<Option<u8>, 4>`"),
    (f"({', '.join(['u8'] * 14)})", "a tuple of 14 has no format, only up to 13; write a struct"),
    (f"{'Option<' * 200}u8{'>' * 200}", "this type is nested more than 100 deep; give a part of it a name"),
]
# A declaration, and what its refusal has.
DECLARATIONS = [
    ("enum Never {}", "1: `Never` has no variant, so no value; give it one"),
    ("\nunion Either { a: u8 }", "2: a union has no format; write an enum in place of `Either`"),
    ("enum Op { Push = 1 }", "1: `Push` has a number of its own, and tags count from 0; remove `= ..`"),
    (f"enum Many {{\n{LIST.join(f'V{i}' for i in range(257))} }}", "258: `Many` has 257 variants, and a tag of one byte counts 256; put some into an enum of their own"),
    ("struct A<'a> { x: &'a u8 }", "1: a lifetime has no place in an archived type; remove 'a and own what it borrows"),
    ("struct A<const N: usize> { x: [u8; N] }", "1: a const parameter has no archived type; in place of `N` write one type for each number"),
    ("struct A<T> { x: u8,\ny: [T; 2] }", "2: an array of a type parameter isn't read back; write a `Vec` in place of `[T; 2]`"),
    ("struct A<T> { x: T,\ny: (u8, T) }", "2: a tuple in a struct with type parameters is too deep for the toolchain; write a struct without parameters"),
    ("struct W<T>(T);\nstruct A { x: Vec<W<Option<W<u8>>>> }", "2: `W<u8>` in a tuple or a struct with type parameters is too deep for the toolchain; write a struct without"),
    (f"struct A<T> {{ t: T, {LIST.join(f'f{i}: u8' for i in range(FEW))} }}", f"1: `A` has type parameters and more than {FEW} fields: name the types that it is used with, each by an alias in this file, as `pub type AOf.. = A<..>;`"),
    (f"enum A {{ X({LIST.join('u8' for _ in range(FEW + 1))}) }}", f"1: `A` has one variant, of more than {FEW} fields; write a struct"),
    (
        f"enum A {{ X, Y({LIST.join('u8' for _ in range(MOST_OF_VARIANT + 1))}) }}",
        f"{MOST_OF_VARIANT + 1}: `A::Y` has {MOST_OF_VARIANT + 1} fields, and {MOST_OF_VARIANT} are the most; put some into a struct of their own",
    ),
    (f"enum A {{ X, Y({LIST.join('u8' for _ in range(FEW))},\nisize) }}", f"{FEW + 1}: an `isize` beside so many fields of a variant isn't proved; write an `i32` or an `i64`"),
    (f"enum A {{ X, Y {{ {LIST.join(f'f{i}: u8' for i in range(FEW))},\nx: (u8, u8) }} }}", f"{FEW + 1}: `(u8, u8)` is too much for the toolchain beside so many fields; put it into a struct of its own"),
    (f"enum A {{ X, Y {{ {LIST.join(f'f{i}: Vec<u32>' for i in range(16))} }} }}", "11: `Vec<u32>` is too deep for the toolchain beside the fields before it; put some of them into a struct"),
    ("struct A { x: Vec<Option<Vec<Option<Vec<Option<u8>>>>>> }", "1: `Vec<Option<Vec<Option<Vec<Option<u8>>>>>>` is too deep for the toolchain; put a part of it into a struct"),
    (f"struct A {{ {LIST.join(f'f{i}: Vec<Option<Vec<u32>>>' for i in range(16))},\nx: Vec<Option<Vec<Option<Vec<Option<u8>>>>>> }}", "17: `Vec<Option<Vec<Option<Vec<Option<u8>>>>>>` is too deep for the toolchain; put a part of it into a struct"),
    (f"enum A {{ X, Y {{ {LIST.join(f'f{i}: Vec<Option<Vec<u32>>>' for i in range(9))} }} }}", "9: `Vec<Option<Vec<u32>>>` is too deep for the toolchain beside the fields before it; put some of them into a struct"),
    ("struct B;\npub(crate) struct A<T> { x: T,\ny: Vec<B> }", "3: `A` is seen farther than `B`, which it is archived with; declare `B` as `pub(crate)`, too"),
    ("struct A<T, U> { x: Vec<T> }", "1: `A` has no field of its parameter `U`; remove it"),
    ("struct A<T = u8>(T);", "1: `T` has a default; write the type at each use instead"),
    (f"struct A {{\n{LIST.join(f'f{i}: u8' for i in range(MOST + 1))} }}", f"{MOST + 2}: `A` has {MOST + 1} fields, and {MOST} are the most; put some into a struct of their own"),
    ("struct D { x: u8 }", "1: the written part has a type parameter `D`; choose another name"),
    ("struct A<S> { x: S }", "1: the written part has a type parameter `S`; choose another name"),
    ("type S = u8;\nstruct A { x: S }", "2: the written part has a type parameter `S`; give this type another name, or bring it in under one"),
    ("struct A { x: u8, X: u8 }", "1: the fields `X` and `x` differ only in case; give one of them another name"),
    ("struct A { x: u8,\nx: u8 }", "2: the fields `x` are two; give one of them another name"),
    ("enum A { One, one }", "1: the variants `one` and `One` differ only in case; give one of them another name"),
    ("struct A { pos: u8, pos_field: u8 }", "1: `pos_field` and `pos` are both shown by `pos_field`; give one of them another name"),
    ("struct A { x: u8, x_mut: u8 }", "1: `x_mut` and `x` are both shown by `x_mut`; give one of them another name"),
    ("enum A { Key { x_y: u8 }, KeyX { y: u8 } }", "1: `y` and `x_y` are both shown by `key_x_y_mut`; give one of them another name"),
    ("struct A { now: u8 }", "1: `now` has a meaning in contracts; choose another name for the field"),
    ("struct A { r#type: u8 }", "1: `r#type` is a keyword; choose another name"),
    ("struct A { é: u8 }", "1: `é` isn't written in ASCII; choose another name"),
    ("struct deriving;", "1: the toolchain has a meaning for `deriving`; choose another name"),
    ("struct __A;", "1: `__A` begins with two underscores; choose another name"),
    ("struct A { value: u8, ghost small: { value ≤ 100 } }", "1: `A` has a ghost field, which bytes can't promise; archive a struct without it"),
    ("struct A { #[cfg(test)] x: u8 }", "1: a field of `A` that is there only sometimes has no place; remove its `cfg`"),
    ("struct A;\nstruct A;", "2: `A` is declared twice; give one of them another name"),
    ("struct A;\nimpl Archive for A {}", "1: `A` has an `Archive` impl above the marker; remove it, or move both to a file of their own"),
    ("// name: a-b\nstruct A;", "1: `a-b` is no name; write `// name: ArchivedA`, or remove the line"),
    ("fn f() {}", "1: no struct and no enum is declared here; declare one"),
    (f"fn f() {{}}\n\n{MARK}\n", "1: no struct and no enum is declared here; declare one above the line that tools/derive wrote"),
    ("", "1: no struct and no enum is declared here"),
    (f"{MARK}\nstruct A;", "1: no struct and no enum is declared here"),
    ("type T = U;\ntype U = T;\nstruct A(T);", "the type `T` is an alias of itself; write what it stands for"),
]
# A text that ends too soon, or has something too much, and how its refusal begins.
HALVES = [
    ("struct", "1: found the end; write the name of the struct here"),
    ("struct A", "1: found the end behind the struct `A`; write `;` here"),
    ("struct A(u8)", "1: found the end behind the struct `A`; write `;` here"),
    ("struct A {\n x: u8", "2: found the end behind the field `x` of `A`; write `}` here"),
    ("struct A { x }", "1: found `}` behind the field `x`; write `:` here"),
    ("struct A { x: }", "1: found `}`; write a type here"),
    ("struct A { x: Vec<u8 }", "1: found `}`; write `>` here"),
    ("struct A { x: (u8, }", "1: found `}`; write a type here"),
    ('struct "one\ntwo" {}', '1: found `"one..`; write the name of the struct here'),
    ("struct A { x: u8 y: u8 }", "1: found `y` behind the field `x` of `A`; write `,` or `}` here"),
    ("enum A { B(u8) C }", "1: found `C` behind the variant `B`; write `,` or `}` here"),
    ("struct A; }", "1: found `}`; write an item here, as `struct Point { .. }`"),
    ("enum A { B", "1: found the end behind the variant `B`; write `}` here"),
    ("enum A { B(u8 }", "1: found `}` behind the field `0` of `A::B`; write `)` here"),
    ("fn f() {", "1: `{` is never closed; write `}` where it ends"),
    ("fn f() { ( }", "1: found `}`; write `)` here, which closes what is open"),
    ("/* struct A;", "1: this comment has no `*/`; write it where the comment ends"),
    ('const A: &str = "x;', "1: this text has no end; close it by `\"`"),
    ('const A: &str = r#"x";', '1: this text has no end; close it by `"#`'),
    ("use std::{vec", "1: found the end in a `use` item; write `}` here"),
    ("pub", "1: found the end; write an item here, as `struct Point { .. }`"),
    ("#", "1: `#` begins an attribute; write `[` behind it"),
    (f"struct A;\n{MARK[:-1]}\n", "2: this is nearly the line that tools/derive looks for; write it as"),
]


class Refusals(RepositoryTest):
    def test_types_of_fields(self):
        for type, why in FIELDS:
            with self.subTest(type):
                said = self.refusal(f"\nstruct A {{\n x: u8, y:\n {type} }}\n")
                self.assertTrue(said.startswith(f"4: {why}"), said)

    def test_declarations(self):
        for text, why in DECLARATIONS:
            with self.subTest(text[:60]):
                said = self.refusal(text)
                self.assertIn(why, said)

    def test_halves(self):
        for text, why in HALVES:
            with self.subTest(text):
                said = self.refusal(text)
                self.assertTrue(said.startswith(why), said)

    def test_characters(self):
        for character, why in [
            ("\r", "the toolchain rejects the character U+000D; save the file with line ends of `\\n` alone"),
            ("\t", "the toolchain rejects the character U+0009; write spaces in place of this tab"),
            ("\u2028", "the toolchain rejects the character U+2028; remove it"),
        ]:
            self.assertEqual(self.refusal(f"struct A;\n// x{character}\n"), f"2: {why}")

    def test_files(self):
        missing = self.path("game", "missing")
        self.assertEqual(self.refusal("", missing), "1: this can't be read (No such file or directory); name a file that can")
        self.assertEqual(self.refusal("", self.put(b"struct A;\n\xff\n")), "2: this isn't UTF-8; save the file as UTF-8")
        self.assertIn("this is no file of a crate", self.refusal("", "/tmp/types.rs"))
        self.assertIn("this is in no crate", self.refusal("", "/tmp/types.rt"))


class Slices(RepositoryTest):
    USES = "use archive_core::boxed::{BoxSlice, BoxStr};\nuse archive_core::rc::{Shared, SharedSlice, SharedStr};\nuse std::collections::BTreeMap;\n"

    def test_in_other_types(self):
        for type, found, other in (
            ("Option<BoxStr>", "BoxStr", "String"),
            ("Vec<BoxSlice<u8>>", "BoxSlice<u8>", "Vec<u8>"),
            ("(u8, SharedStr)", "SharedStr", "Shared<String>"),
            ("Box<Result<u8, SharedSlice<u16>>>", "SharedSlice<u16>", "Shared<Vec<u16>>"),
            ("BoxSlice<BoxStr>", "BoxStr", "String"),
            ("BTreeMap<u8, BoxStr>", "BoxStr", "String"),
        ):
            with self.subTest(type):
                said = f"4: `{found}` in another type isn't covered by the toolchain's borrow checker; write `{other}`, or put it into a struct"
                self.assertEqual(self.refusal(f"{self.USES}#[derive(Drop)]pub struct A {{ pub x: {type} }}"), said)

    def test_alone_in_a_box_and_in_a_struct(self):
        for type in ("Box<BoxStr>", "Shared<BoxStr>", "BoxSlice<u8>", "Box<SharedStr>", "Option<B>"):
            with self.subTest(type):
                self.assertEqual(self.run_command(self.put(f"{self.USES}#[derive(Drop)]\npub struct B {{ pub x: BoxStr }}\n#[derive(Drop)]\npub struct A {{ pub x: {type} }}\n")), (0, ""))


class Circles(RepositoryTest):
    def test_behind_no_pointer(self):
        for text, names in [
            ("struct A { a: Option<A> }", "A > A"),
            ("struct A { b: B }\nenum B { C([E; 2]) }\nstruct E { a: (u8, A) }", "A > B > E > A"),
            ("struct W<T>(T);\nstruct A { x: W<A> }", "A > A"),
            ("struct A(Result<u8, Self>);", "A > A"),
        ]:
            with self.subTest(text):
                self.assertIn(f"contains itself with no pointer between ({names}); put a `Box`, a `Vec` or a `Shared` between", self.refusal(text))

    def test_behind_a_pointer(self):
        for text, said in [
            ("struct A { b: Option<B> }\nstruct B { a: Vec<A> }", "1: this option to `A` isn't written yet; a `Box<A>`, a `Shared<A>`, an `Option` of one, a `Vec` or a `BoxSlice` of `A`, of `Box<A>`, `Option<Box<A>>` or `Shared<A>`, a `Vec` of tuples or of `Option<Shared<A>>`, a `Box` of a `Vec` of others, a `SharedSlice` or a `BTreeMap` of `A` is"),
            ("struct W<T>(Vec<T>);\nstruct A { x: W<A> }", "2: `W` around `A` isn't written yet; a `Box<A>`, a `Shared<A>`, an `Option` of one, a `Vec` or a `BoxSlice` of `A`, of `Box<A>`, `Option<Box<A>>` or `Shared<A>`, a `Vec` of tuples or of `Option<Shared<A>>`, a `Box` of a `Vec` of others, a `SharedSlice` or a `BTreeMap` of `A` is"),
            ("\nstruct A { a: Box<A> }", "2: each value of `A` holds another, with no end; write an `Option` or a `Vec` around it"),
            ("enum A { X(Box<B>), Y(u8, Box<A>) }\nstruct B { a: Result<Box<A>, Box<B>> }", "1: each value of `A` holds another, with no end; add a variant that holds none"),
            ("struct A<T> { x: T, a: Vec<A<T>> }", "1: `A` is recursive (A > A) and has type parameters; name its arguments, one type for each"),
            ("struct A { a: Option<Vec<A>> }", "1: this option to `A` isn't written yet; a `Box<A>`, a `Shared<A>`, an `Option` of one, a `Vec` or a `BoxSlice` of `A`, of `Box<A>`, `Option<Box<A>>` or `Shared<A>`, a `Vec` of tuples or of `Option<Shared<A>>`, a `Box` of a `Vec` of others, a `SharedSlice` or a `BTreeMap` of `A` is"),
            ("struct A { a: Vec<Vec<A>> }", "1: this `Vec` of pointers to `A` isn't written yet; a `Box<A>`, a `Shared<A>`, an `Option` of one, a `Vec` or a `BoxSlice` of `A`, of `Box<A>`, `Option<Box<A>>` or `Shared<A>`, a `Vec` of tuples or of `Option<Shared<A>>`, a `Box` of a `Vec` of others, a `SharedSlice` or a `BTreeMap` of `A` is"),
            ("use archive_core::rc::WeakShared;\nstruct A { a: Option<WeakShared<A>> }", "2: an `Option` of a `WeakShared` around `A` isn't written; write the `WeakShared`, which may be a null itself"),
            ("use archive_core::boxed::BoxSlice;\nuse archive_core::rc::Shared;\nstruct A { a: BoxSlice<Option<Shared<A>>> }", "3: this `BoxSlice` of pointers to `A` isn't written yet; a `Box<A>`, a `Shared<A>`, an `Option` of one, a `Vec` or a `BoxSlice` of `A`, of `Box<A>`, `Option<Box<A>>` or `Shared<A>`, a `Vec` of tuples or of `Option<Shared<A>>`, a `Box` of a `Vec` of others, a `SharedSlice` or a `BTreeMap` of `A` is"),
            ("use archive_core::boxed::BoxSlice;\nuse archive_core::rc::WeakShared;\nstruct A { a: BoxSlice<WeakShared<A>> }", f"3: {WEAK}"),
            ("use archive_core::rc::SharedSlice;\nstruct A { a: SharedSlice<A> }\nstruct B { b: SharedSlice<A> }", "3: a `SharedSlice` of the recursive `A` isn't written in another type; write a `Vec` of `Shared`s"),
            ("use archive_core::rc::SharedSlice;\nstruct A { a: SharedSlice<Box<A>> }", f"2: {SLICE}"),
            ("use archive_core::rc::WeakShared;\nstruct A { a: Vec<(u8, A)>, b: WeakShared<A> }", "2: `A` leads to itself behind a shared pointer, and a tuple around it isn't written yet; write a struct of this file"),
            ("use archive_core::rc::SharedSlice;\nstruct A { a: Vec<SharedSlice<A>> }", "2: this `Vec` of pointers to `A` isn't written yet; a `Box<A>`, a `Shared<A>`, an `Option` of one, a `Vec` or a `BoxSlice` of `A`, of `Box<A>`, `Option<Box<A>>` or `Shared<A>`, a `Vec` of tuples or of `Option<Shared<A>>`, a `Box` of a `Vec` of others, a `SharedSlice` or a `BTreeMap` of `A` is"),
            ("use std::collections::BTreeMap;\nstruct A { a: BTreeMap<u8, A> }", "2: a `BTreeMap` that leads back to `A` is written with keys that are a `String`; write a `Vec` of a struct of this file"),
            ("use std::collections::BTreeMap;\nstruct A { a: BTreeMap<u8, B> }\nstruct B { a: Vec<A> }", "2: a `BTreeMap` that leads back to `A` is written if no other type is recursive with it and it shares nothing; write a `Vec` of a struct of this file"),
            ("use std::collections::BTreeMap;\nuse archive_core::rc::Shared;\nstruct A { a: Vec<Shared<A>>,\n b: BTreeMap<u8, A> }", "4: a `BTreeMap` that leads back to `A` is written if no other type is recursive with it and it shares nothing; write a `Vec` of a struct of this file"),
            ("struct A { a: Result<Box<A>, u8> }", "1: `Result` around `A` isn't written yet; a `Box<A>`, a `Shared<A>`, an `Option` of one, a `Vec` or a `BoxSlice` of `A`, of `Box<A>`, `Option<Box<A>>` or `Shared<A>`, a `Vec` of tuples or of `Option<Shared<A>>`, a `Box` of a `Vec` of others, a `SharedSlice` or a `BTreeMap` of `A` is"),
            (f"enum A {{ X(Vec<A>),\n{LIST.join(f'V{i}' for i in range(70))} }}", "25: `A` has 71 variants, and 24 are the most of an enum that is recursive or holds a recursive type; put some into an enum of another file"),
            ("struct A { a: Vec<A>,\n b: archive_core::rc::SharedStr }", "2: this field of the recursive `A` is of a type that tools/derive doesn't write there; put it into a struct of another file"),
            ("struct A { a: Vec<A>,\n b: Option<(u8, u8)> }", "2: a plain tuple in the recursive `A` is written in a `Vec` alone; write a struct of another file, or its parts as fields"),
            ("struct A { a: Vec<A>,\n b: Vec<(archive_core::rc::SharedStr, u8)> }", "2: this field of the recursive `A` is of a type that tools/derive doesn't write there; put it into a struct of another file"),
            ("struct A { a: Vec<A>,\n b: Box<(u8, u8)> }", "2: a plain tuple in the recursive `A` is written in a `Vec` alone; write a struct of another file, or its parts as fields"),
            ("struct A { b: B, a: Vec<(u8, A)> }\nstruct B { a: Vec<A> }", "1: a tuple that leads back to `A` is written in a `Vec` of a struct, or in one of an enum, if no other type is recursive with it; write a struct of this file"),
            ("enum A { X,\n Y(Vec<(u8, A)>),\n Z(Vec<(u16, A)>) }", "3: a tuple that leads back to `A` is written in a `Vec` of a struct, or in one of an enum, if no other type is recursive with it; write a struct of this file"),
            ("enum A { X, Y(Box<Vec<(u8, A)>>) }", "1: a tuple that leads back to `A` is written in a `Vec` of a struct, or in one of an enum, if no other type is recursive with it; write a struct of this file"),
            ("enum A { X, Y(Vec<(u8, A)>), B(Box<B>) }\nstruct B { a: Vec<A> }", "1: a tuple that leads back to `A` is written in a `Vec` of a struct, or in one of an enum, if no other type is recursive with it; write a struct of this file"),
            ("struct A { a: (Option<Box<A>>, String) }", "1: a tuple that leads back to `A` outside a `Vec` is written in a struct, of an option of a box and a number, if no other field leads back and no other type is recursive with it; write a struct of this file"),
            ("struct A { a: (Vec<A>, u8) }", "1: a tuple that leads back to `A` outside a `Vec` is written in a struct, of an option of a box and a number, if no other field leads back and no other type is recursive with it; write a struct of this file"),
            ("struct A { a: (Option<Box<A>>, u8), b: Vec<A> }", "1: a tuple that leads back to `A` outside a `Vec` is written in a struct, of an option of a box and a number, if no other field leads back and no other type is recursive with it; write a struct of this file"),
            ("enum A { X, Y((Option<Box<A>>, u8)) }", "1: a tuple that leads back to `A` outside a `Vec` is written in a struct, of an option of a box and a number, if no other field leads back and no other type is recursive with it; write a struct of this file"),
            ("struct A { a: Vec<(u8, Box<A>)> }", "1: `Box` around `A` isn't written yet in a tuple; write a struct of this file"),
            ("struct A { a: Vec<(u8, A, u8, u8)> }", "1: a tuple that leads back to `A` has up to 3 parts; write a struct of this file"),
            ("use archive_core::boxed::BoxStr;\nstruct A { a: Vec<(Option<BoxStr>, A)> }", "2: a `BoxStr` or `BoxSlice` in a tuple that leads back to `A` isn't written yet; write a `String` or a `Vec`"),
            ("enum A { X, Y(Box<(u8, A)>) }", "1: this `Box` of pointers to `A` isn't written yet; a `Box<A>`"),
            ("use archive_core::rc::Shared;\nstruct A { a: Vec<(u8, A)>, b: Vec<Shared<A>> }", "2: `A` leads to itself behind a shared pointer, and a tuple around it isn't written yet; write a struct of this file"),
            ("struct A {\n a: [Vec<A>; 2] }", f"2: {ARRAY}"),
            ("struct A {\n a: [Box<A>; 0] }", f"2: {ARRAY}"),
            ("struct A {\n a: [Option<Box<A>>; 9] }", f"2: {ARRAY}"),
            ("struct A {\n a: [Box<B>; 2] }\nstruct B { a: Vec<A> }", f"2: {ARRAY}"),
            ("enum A {\n X, Y([Box<A>; 2]) }", f"2: {ARRAY}"),
            ("struct A { a: Vec<A>,\n b: [Option<Box<A>>; 2] }", f"2: {ARRAY}"),
            (f"struct A {{ {', '.join(f'a{i}: u8' for i in range(7))},\n b: [Option<Box<A>>; 2] }}", f"2: {ARRAY}"),
            ("use archive_core::rc::SharedStr;\nstruct B { x: SharedStr }\nstruct A { a: Vec<A>,\n b: B }", "4: `B` has fields that tools/derive doesn't write beside the recursive `A`; move it to another file"),
            ("enum A { X,\n Y(Box<B>) }\nenum B { X, Z(Box<A>) }", "1: `X` is a variant of `A` and of `B`, which hold each other; give one of them another name"),
            ("struct A { a: Vec<A> }\nenum B { C(A,\n (u8, u8)) }", "3: this field of `B` isn't written yet in an enum that holds a recursive type; put it into a struct of another file"),
            (f"struct A {{ a: Vec<A>,\n{LIST.join(f'a{i}: u8' for i in range(12))} }}", "13: a variant or a struct of the recursive `A` has up to 12 fields; put some of them into a struct of another file"),
            (f"struct A {{ a: Vec<A>, b: Option<u8>,\n{LIST.join(f'a{i}: u8' for i in range(8))} }}", "9: a variant or a struct of the recursive `A` has up to 9 fields; put some of them into a struct of another file"),
            (f"enum A {{ Y, X(Vec<A>,\n{LIST.join('u8' for _ in range(9))}) }}", "10: a variant or a struct of the recursive `A` has up to 9 fields; put some of them into a struct of another file"),
            (f"struct A {{ a: Vec<A>,\n{LIST.join(f'a{i}: Option<Box<Vec<Option<u32>>>>' for i in range(8))} }}", "too deep for the toolchain beside the fields before it; put some of them into a struct"),
            (f"struct A {{ a: Vec<A> }}\nstruct B {{ a: A,\n{LIST.join(f'a{i}: Option<u8>' for i in range(8))} }}", "10: `B` has 9 fields, and 8 are the most of a struct that holds a recursive type; put those without it into a struct of their own"),
            ("use archive_core::rc::Shared;\nstruct A { a: Vec<Shared<A>> }\nenum B { C(A) }", "3: `A` leads to itself behind a shared pointer, and an enum around it isn't written yet; put it into a struct"),
            ("use archive_core::rc::SharedStr;\nstruct A { a: Vec<A> }\nstruct B { x: SharedStr }\nenum C { D(A, B) }", "4: `B` has fields that tools/derive doesn't write beside `C`, which holds a recursive type; move it to another file"),
            ("use archive_core::rc::SharedStr;\nstruct A { a: Vec<A> }\nstruct B { a: A, b: SharedStr }\nenum C { D(B) }", "4: `B` isn't written yet in an enum that holds a recursive type; put it into a struct of another file"),
            ("use archive_core::rc::SharedStr;\nstruct A { a: Vec<A> }\nstruct B { a: A, b: SharedStr }\nstruct C { b: Vec<B> }", "4: `B` in a struct that holds a recursive type is too deep for the toolchain; write a struct without parameters in place"),
            ("struct B { x: u8 }\nenum A { X(B),\n Y(Vec<(u8, A)>) }", "2: `B` and the recursive `A`, in which a tuple or a map leads back, aren't written in one file; move `B` to another one"),
            ("use std::collections::BTreeMap;\nenum B { X, Y }\nstruct A { a: BTreeMap<String, A>,\n b: Option<B> }", "4: `B` and the recursive `A`, in which a tuple or a map leads back, aren't written in one file; move `B` to another one"),
            ("struct A { b: Vec<B> }\nstruct B { a: Vec<A> }", "1: `A` and `B` hold each other (A > B > A), and the toolchain wants a name for the circle; write `#[cycle(a)]` above each"),
            ("#[cycle(a)]\nstruct A { b: Vec<B> }\n#[cycle(b)]\nstruct B { a: Vec<A> }", "2: `A` and `B` hold each other (A > B > A), and the toolchain wants a name for the circle; write `#[cycle(a)]` above each"),
            ("struct A { a: Vec<A> }\nstruct B { b: Vec<B>, a: Vec<(u8, A)> }", "2: `A` is recursive or holds a type that is, and isn't written yet in the recursive `B`; archive the two beside each other"),
        ]:
            with self.subTest(text):
                self.assertIn(said, self.refusal(text))


class Others(RepositoryTest):
    """Types of other files."""

    def refusal_with(self, other):
        self.put(other, "other")
        path = self.put("use crate::other::B;\nstruct A { b: B }")
        from derivation import read
        from derivation.model import Refused

        with self.assertRaises(Refused) as refused:
            read.modules([path])
        return str(refused.exception).replace(self.top, "")

    def test_not_written_yet(self):
        self.assertEqual(self.refusal_with("pub struct B;"), "/crates/game/src/other.rt:1: `B` isn't archived yet; run tools/derive on both files together")

    def test_by_hand(self):
        said = self.refusal_with("pub struct B;\nimpl Archive for B {}")
        self.assertEqual(said, "/crates/game/src/other.rt:1: `B` is archived by hand, so its format isn't known; hold what it holds, or let tools/derive write it")

    def test_a_fault_is_told_where_it_is(self):
        self.assertIn("/crates/game/src/other.rt:2: a float has no format", self.refusal_with(f"\npub struct B(f32);\n\n{MARK}\n"))

    def test_two_types_of_one_name(self):
        self.put(f"pub struct B;\n\n{MARK}\n", "other")
        said = self.refusal("struct B;\nstruct A { a: B,\n b: crate::other::B }")
        self.assertIn("3: `B` is also the type of", said)
