//! The archives of the project's format, written by hand: what is owned before its owner, offsets from their own position.

use crate::format::Set;
use crate::sets::{self, Event};

fn pad(out: &mut Vec<u8>, align: usize) {
    while out.len() % align != 0 {
        out.push(0);
    }
}

fn word(out: &mut Vec<u8>, number: u32) {
    out.extend_from_slice(&number.to_le_bytes());
}

// The offset from a position to an earlier one.
fn offset(out: &mut Vec<u8>, from: usize, to: usize) {
    word(out, (to as i64 - from as i64) as i32 as u32);
}

// A string whose text stands at a position, or in it where it is short.
fn string(out: &mut Vec<u8>, text: &str, at: usize) {
    let here = out.len();
    if text.len() <= 8 {
        out.extend_from_slice(text.as_bytes());
        out.resize(here + 8, 0xff);
        return;
    }
    let len = text.len() as u32;
    word(out, (len & 0x3f) | 0x80 | ((len & !0x3f) << 2));
    offset(out, here, at);
}

// A list of `len` elements that stand at a position.
fn list(out: &mut Vec<u8>, at: usize, len: usize) {
    let here = out.len();
    offset(out, here, at);
    word(out, len as u32);
}

// A text in a region of its own, where it needs one.
fn region(out: &mut Vec<u8>, text: &str) -> usize {
    let at = out.len();
    if text.len() > 8 {
        out.extend_from_slice(text.as_bytes());
    }
    at
}

fn of_text(text: &str) -> Vec<u8> {
    let mut out = Vec::new();
    let at = region(&mut out, text);
    pad(&mut out, 4);
    string(&mut out, text, at);
    out
}

fn of_record() -> Vec<u8> {
    let mut out = Vec::new();
    let text = region(&mut out, "hello world");
    pad(&mut out, 4);
    let values = out.len();
    (1..5).for_each(|n| word(&mut out, n));
    word(&mut out, 42);
    string(&mut out, "hello world", text);
    word(&mut out, 1);
    list(&mut out, values, 4);
    out
}

fn of_plain() -> Vec<u8> {
    let mut out = Vec::new();
    let text = region(&mut out, "hello world");
    pad(&mut out, 4);
    let values = out.len();
    (1..5).for_each(|n| word(&mut out, n));
    word(&mut out, 42);
    string(&mut out, "hello world", text);
    list(&mut out, values, 4);
    out
}

fn of_numbers(n: usize) -> Vec<u8> {
    let mut out = Vec::new();
    sets::numbers(n)
        .into_iter()
        .for_each(|it| word(&mut out, it));
    list(&mut out, 0, n);
    out
}

fn of_rows(n: usize) -> Vec<u8> {
    let mut out = Vec::new();
    let mut places = Vec::new();
    for i in 0..n {
        let (_, name, values) = sets::row(i);
        let text = region(&mut out, &name);
        pad(&mut out, 4);
        places.push((text, out.len()));
        values.into_iter().for_each(|it| word(&mut out, it));
    }
    pad(&mut out, 8);
    let rows = out.len();
    for (i, (text, values)) in places.into_iter().enumerate() {
        let (id, name, _) = sets::row(i);
        out.extend_from_slice(&id.to_le_bytes());
        string(&mut out, &name, text);
        list(&mut out, values, 8);
    }
    list(&mut out, rows, n);
    out
}

fn signed(out: &mut Vec<u8>, number: i32) {
    word(out, number as u32);
}

// What an enum owns.
fn owned(out: &mut Vec<u8>, event: &Event) -> usize {
    match event {
        Event::Text(text) => region(out, text),
        Event::Batch(numbers) => {
            pad(out, 4);
            let at = out.len();
            numbers.iter().for_each(|it| word(out, *it));
            at
        }
        _ => 0,
    }
}

// An enum, and what it owns at a position.
fn enumerated(out: &mut Vec<u8>, event: &Event, at: usize) {
    let here = out.len();
    let tag = match event {
        Event::Quit => 0,
        Event::Key(_) => 1,
        Event::Text(_) => 2,
        Event::Move(..) => 3,
        Event::Batch(_) => 4,
    };
    word(out, tag);
    match event {
        Event::Quit => {}
        Event::Key(key) => word(out, *key as u32),
        Event::Text(text) => string(out, text, at),
        Event::Move(x, y) => [x, y].into_iter().for_each(|it| signed(out, *it)),
        Event::Batch(numbers) => list(out, at, numbers.len()),
    }
    out.resize(here + 12, 0);
}

fn of_events(n: usize) -> Vec<u8> {
    let mut out = Vec::new();
    let events: Vec<Event> = (0..n).map(sets::event).collect();
    let places: Vec<usize> = events.iter().map(|it| owned(&mut out, it)).collect();
    pad(&mut out, 4);
    let begin = out.len();
    for (event, place) in events.iter().zip(places) {
        enumerated(&mut out, event, place);
    }
    list(&mut out, begin, n);
    out
}

fn line(out: &mut Vec<u8>, index: usize) {
    for (right, up) in sets::line(index) {
        out.extend_from_slice(&right.to_le_bytes());
        out.extend_from_slice(&up.to_le_bytes());
    }
}

// What a struct of structs owns: its lines, its last line if it has one, and what its enum owns.
fn parts_of_frame(out: &mut Vec<u8>, i: usize) -> [usize; 3] {
    pad(out, 2);
    let lines = out.len();
    (i..i + 3).for_each(|it| line(out, it));
    let last = out.len();
    if i % 2 == 0 {
        line(out, i);
    }
    [lines, last, owned(out, &sets::event(i))]
}

fn of_frames(n: usize) -> Vec<u8> {
    let mut out = Vec::new();
    let places: Vec<[usize; 3]> = (0..n).map(|i| parts_of_frame(&mut out, i)).collect();
    pad(&mut out, 4);
    let frames = out.len();
    for (i, [lines, last, event]) in places.into_iter().enumerate() {
        line(&mut out, i);
        list(&mut out, lines, 3);
        let here = out.len();
        if i % 2 == 0 {
            word(&mut out, 1);
            offset(&mut out, here + 4, last);
        }
        out.resize(here + 8, 0);
        enumerated(&mut out, &sets::event(i), event);
    }
    list(&mut out, frames, n);
    out
}

fn of_own() -> Vec<u8> {
    let mut out = Vec::new();
    let name = region(&mut out, "hello world");
    let places = sets::TAGS.map(|it| region(&mut out, it));
    pad(&mut out, 4);
    let tags = out.len();
    for (tag, place) in sets::TAGS.into_iter().zip(places) {
        string(&mut out, tag, place);
    }
    signed(&mut out, 3);
    signed(&mut out, -4);
    string(&mut out, "hello world", name);
    list(&mut out, tags, sets::TAGS.len());
    out
}

// A list whose elements own nothing: each by what writes it.
fn of_elements(n: usize, align: usize, element: impl Fn(&mut Vec<u8>, usize)) -> Vec<u8> {
    let mut out = Vec::new();
    (0..n).for_each(|i| element(&mut out, i));
    pad(&mut out, align);
    list(&mut out, 0, n);
    out
}

fn pair(out: &mut Vec<u8>, i: usize) {
    word(out, u32::from(sets::bit(i)));
    word(out, sets::number(i));
}

fn entry(out: &mut Vec<u8>, i: usize) {
    word(out, sets::key(i));
    word(out, sets::number(i));
}

fn of_text_pairs(n: usize) -> Vec<u8> {
    let mut out = Vec::new();
    let places: Vec<usize> = (0..n).map(|i| region(&mut out, &sets::name(i))).collect();
    pad(&mut out, 4);
    let pairs = out.len();
    for (i, place) in places.into_iter().enumerate() {
        string(&mut out, &sets::name(i), place);
        word(&mut out, sets::number(i));
    }
    list(&mut out, pairs, n);
    out
}

/// A list of numbers in boxes: the innermost, empty one first.
pub fn of_records(n: usize) -> Vec<u8> {
    let mut out = vec![0; 12];
    for i in 0..n {
        word(&mut out, 1);
        word(&mut out, sets::number(i));
        let here = out.len();
        offset(&mut out, here, here - 20);
    }
    out
}

// What is below the nodes of a level, of the trees with these numbers of nodes in each level.
fn below(out: &mut Vec<u8>, index: usize, height: usize) -> usize {
    if height == 0 {
        return out.len();
    }
    let children = index * 10..index * 10 + 10;
    let places: Vec<usize> = children
        .clone()
        .map(|it| below(out, it, height - 1))
        .collect();
    let at = out.len();
    for (child, place) in children.zip(places) {
        node(out, child, place, height - 1);
    }
    at
}

fn node(out: &mut Vec<u8>, index: usize, children: usize, height: usize) {
    word(out, sets::number(index));
    list(out, children, if height == 0 { 0 } else { 10 });
}

fn of_tree(leaves: usize) -> Vec<u8> {
    let mut out = Vec::new();
    let height = leaves.ilog10() as usize;
    let children = below(&mut out, 0, height);
    node(&mut out, 0, children, height);
    out
}

// Each string stands where the first pointer to it is met.
fn of_shared(n: usize) -> Vec<u8> {
    let mut out = Vec::new();
    let mut places = Vec::new();
    for key in 0..sets::shared_strings(n).min(n) {
        let text = region(&mut out, &sets::shared_string(key));
        pad(&mut out, 4);
        places.push(out.len());
        string(&mut out, &sets::shared_string(key), text);
    }
    let pointers = out.len();
    for i in 0..n {
        let here = out.len();
        offset(&mut out, here, places[i % places.len()]);
    }
    list(&mut out, pointers, n);
    out
}

fn of_names(n: usize) -> Vec<u8> {
    let names = sets::names(n);
    let mut out = Vec::new();
    let places: Vec<usize> = names.iter().map(|it| region(&mut out, it)).collect();
    pad(&mut out, 4);
    let strings = out.len();
    for (name, place) in names.iter().zip(places) {
        string(&mut out, name, place);
    }
    list(&mut out, strings, names.len());
    out
}

/// A chain: the innermost, empty one first.
pub fn of_list(n: usize) -> Vec<u8> {
    let mut out = vec![0; 8];
    for _ in 0..n {
        word(&mut out, 1);
        let here = out.len();
        offset(&mut out, here, here - 12);
    }
    out
}

/// The archive of a set.
pub fn archive(set: Set) -> Vec<u8> {
    match set {
        Set::Number => 42u32.to_le_bytes().to_vec(),
        Set::Text(n) => of_text(&sets::text(n)),
        Set::Record => of_record(),
        Set::Plain => of_plain(),
        Set::Own => of_own(),
        Set::Frames(n) => of_frames(n),
        Set::Events(n) => of_events(n),
        Set::Numbers(n) => of_numbers(n),
        Set::Bools(n) => of_elements(n, 4, |out, i| out.push(u8::from(sets::bit(i)))),
        Set::Chars(n) => of_elements(n, 4, |out, i| word(out, sets::letter(i) as u32)),
        Set::Shorts(n) => of_elements(n, 4, |out, i| string(out, &sets::short(i), 0)),
        Set::Rows(n) => of_rows(n),
        Set::List(n) => of_list(n),
        Set::Records(n) => of_records(n),
        Set::Tree(n) => of_tree(n),
        Set::Shared(n) => of_shared(n),
        Set::Pairs(n) => of_elements(n, 4, pair),
        Set::Map(n) => of_elements(n, 4, entry),
        Set::TextPairs(n) | Set::TextMap(n) => of_text_pairs(n),
        Set::Names(n) => of_names(n),
    }
}

/// Stops where the archives by hand aren't those of the format's own examples, or of rkyv where the two agree (lists of numbers, chains, lists in
/// boxes).
pub fn verify() {
    let record = b"hello world\0\x01\0\0\0\x02\0\0\0\x03\0\0\0\x04\0\0\0\x2a\0\0\0\x8b\0\0\0\xe0\xff\xff\xff\x01\0\0\0\xe0\xff\xff\xff\x04\0\0\0";
    assert_eq!(archive(Set::Record), record);
    assert_eq!(
        archive(Set::Text(11)),
        b"hello world\0\x8b\0\0\0\xf4\xff\xff\xff"
    );
    assert_eq!(archive(Set::Text(2)), b"ab\xff\xff\xff\xff\xff\xff");
    assert_eq!(
        archive(Set::Text(64))[64..],
        *b"\x80\x01\0\0\xc0\xff\xff\xff"
    );
    assert_eq!(
        archive(Set::List(1)),
        b"\0\0\0\0\0\0\0\0\x01\0\0\0\xf4\xff\xff\xff"
    );
    assert_eq!(
        archive(Set::Numbers(3)),
        crate::rkyv_peer::written(Set::Numbers(3))
    );
    assert_eq!(
        archive(Set::List(100)),
        crate::rkyv_peer::written(Set::List(100))
    );
    assert_eq!(archive(Set::Rows(3)).len(), 3 * (20 + 32) + 4 + 3 * 24 + 8);
    assert_eq!(archive(Set::Events(5)).len(), 20 + 32 + 5 * 12 + 8);
    // Between the regions of a struct of structs are zeros only where an alignment asks for them.
    assert_eq!(archive(Set::Frames(2)).len(), 24 + 8 + 24 + 2 * 36 + 8);
    assert_eq!(
        archive(Set::Records(100)),
        crate::rkyv_peer::written(Set::Records(100))
    );
    // Rust orders the fields of rkyv's nodes otherwise.
    let of_rkyv = crate::rkyv_peer::written(Set::Tree(100));
    assert_eq!(archive(Set::Tree(100)).len(), of_rkyv.len());
    let shared = b"record-name-00000000\x94\0\0\0\xec\xff\xff\xff\xf8\xff\xff\xff\xf4\xff\xff\xff\xf8\xff\xff\xff\x02\0\0\0";
    assert_eq!(archive(Set::Shared(2)), shared);
}
