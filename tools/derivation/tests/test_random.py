"""Any text gets a module, or one line that says why not."""

import random
import re

from .repository import RepositoryTest

WHOLE = """//! Words of a game.
use archive_core::boxed::BoxSlice;
use std::marker::PhantomData;
/// A point.
#[derive(Debug, PartialEq, Drop)]
pub struct Point { pub x: i32, pub(crate) y: Option<Box<u8>>, z: [u8; 4] }
pub struct Pair<A: Clone, B>(pub A, Vec<B>) where B: Clone;
/* A /* nested */ one. */
// name: Spot
pub struct Unit;
pub enum Event { Quit, Key(char, 'x'), Move { x: i32, y: Point }, Batch(Vec<(u32, String)>), More(BoxSlice<Event2>, PhantomData<u8>) }
#[derive(Drop)]
pub enum Event2 { A = 1, B(Result<u8, f64>) }
fn f(x: u8) -> u8 requires { x < 3 } ensures a { result ≡ x } { let y = "}\\""; x }
type Same<T> = Vec<T>;
""".replace(", 'x'", "").replace("A = 1", "A").replace("f64", "i8")
WORDS = ["{", "}", "(", ")", "<", ">", "[", "]", ",", ";", ":", "::", "&", "'a", "'", '"', "#", "!", "=", "->", "*", "|", "struct", "enum", "union"]
WORDS += ["pub", "where", "const", "fn", "dyn", "impl", "for", "use", "ghost", "Self", "u8", "f64", "Vec", "Box", "Event", "Point", "/*", "*/", "//", "r#", "\\"]
WORDS += ["0", "1.5", "257", "≡", "\u2028", "\0", "\r\n", "// name: A", "#[cfg(test)]", "self", "super", "crate", "as", "_", "..", "macro!", "type", "mod"]


class AnyText(RepositoryTest):
    def said(self, text):
        path = self.put(text)
        status, said = self.run_command("--check", path)
        self.assertIn(status, (0, 1, 2))
        if status == 2:
            self.assertRegex(said, r"\Acrates/game/src/types\.rt:\d+: [^\n]*[^\n]\n\Z")
            self.assertIn("; ", said)
        return status

    def test_the_text_itself(self):
        self.assertEqual(self.said(WHOLE), 1)

    def test_texts_cut_off(self):
        for end in range(0, len(WHOLE), 11):
            self.said(WHOLE[:end])

    def test_words_changed_about(self):
        chance = random.Random(1)
        words = re.findall(r"\s+|\w+|.", WHOLE, re.S)
        for _ in range(80):
            changed = list(words)
            for _ in range(chance.randint(1, 4)):
                at = chance.randrange(len(changed))
                what = chance.randrange(4)
                if what == 0:
                    changed[at:at + chance.randint(1, 6)] = []
                elif what == 1:
                    changed[at] = chance.choice(WORDS)
                elif what == 2:
                    changed.insert(at, chance.choice(WORDS))
                else:
                    other = chance.randrange(len(changed))
                    changed[at], changed[other] = changed[other], changed[at]
                changed = changed or [""]
            self.said("".join(changed))

    def test_any_words(self):
        chance = random.Random(2)
        for _ in range(150):
            self.said(chance.choice(["", "struct A {", "enum A {", "struct A("]) + " ".join(chance.choices(WORDS, k=chance.randint(0, 30))))

    def test_any_bytes(self):
        chance = random.Random(3)
        for _ in range(60):
            self.said(bytes(chance.choices(range(256), k=chance.randint(0, 40))))

    def test_deep_texts(self):
        for text in ("(" * 5000, "struct A(" + "(" * 5000, "struct A(" + "Vec<" * 5000, "use " + "{" * 5000, "struct A(" + "&" * 5000, "/*" * 5000, "<" * 5000):
            self.assertEqual(self.said(text), 2)
