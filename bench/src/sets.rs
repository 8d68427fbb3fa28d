//! What the values of the sets are made of, in each format.

/// The number with this index.
pub fn number(i: usize) -> u32 {
    (i as u32).wrapping_mul(2_654_435_761)
}

/// The numbers of the sets.
pub fn numbers(n: usize) -> Vec<u32> {
    (0..n).map(number).collect()
}

/// The bool with this index.
pub fn bit(i: usize) -> bool {
    number(i) & 0x1_0000 != 0
}

/// The char with this index.
pub fn letter(i: usize) -> char {
    char::from_u32(number(i) & 0x3fff).unwrap_or('a')
}

/// The text of 5 bytes with this index.
pub fn short(i: usize) -> String {
    format!("{:05}", i % 100_000)
}

/// The text of 20 bytes with this index.
pub fn name(i: usize) -> String {
    format!("record-name-{i:08}")
}

/// The key of an entry of numbers.
pub fn key(i: usize) -> u32 {
    (i as u32).wrapping_mul(3)
}

/// How far apart in the list of keys two look-ups are.
pub const STRIDE: usize = 7919;

/// The text of so many bytes.
pub fn text(n: usize) -> String {
    if n == 11 {
        return "hello world".into();
    }
    (0..n).map(|i| char::from(b'a' + (i % 26) as u8)).collect()
}

/// A row's name and numbers.
pub fn row(i: usize) -> (u64, String, Vec<u32>) {
    (
        i as u64 * 7919,
        name(i),
        (0..8).map(|k| i as u32 ^ (k * 77)).collect(),
    )
}

/// A place: to the right, and up.
pub type Spot = (u16, i16);

/// The line with this index, from one place to another.
pub fn line(i: usize) -> [Spot; 2] {
    [i, i + 1].map(|it| ((it & 0xffff) as u16, (it & 0x7fff) as i16))
}

/// An enum's variants.
pub enum Event {
    Quit,
    Key(char),
    Text(String),
    Move(i32, i32),
    Batch(Vec<u32>),
}

/// The enum with this index: the variants in turns.
pub fn event(i: usize) -> Event {
    match i % 5 {
        0 => Event::Quit,
        1 => Event::Key('é'),
        2 => Event::Text(name(i)),
        3 => Event::Move((i & 0xffff) as i32, -7),
        _ => Event::Batch((i..i + 8).map(number).collect()),
    }
}

/// The texts of the struct of two i32, a string and strings.
pub const TAGS: [&str; 2] = ["first", "another text"];

/// How many strings so many pointers lead to.
pub fn shared_strings(pointers: usize) -> usize {
    (pointers / 100).max(1)
}

/// The string that shared pointers with this number lead to.
pub fn shared_string(key: usize) -> String {
    name(key)
}

/// So many strings of 20 bytes and one, in no order.
pub fn names(n: usize) -> Vec<String> {
    let numbers = numbers(n + 1).into_iter().map(|it| it % 100_000_000);
    numbers.map(|it| format!("record-name-{it:08}")).collect()
}

/// The sum of the values of so many keys that are looked up, among so many entries.
pub fn sum_of_values(entries: usize, count: usize) -> u64 {
    let indices = (0..count).map(|round| (round * STRIDE) % entries);
    indices.map(|it| u64::from(number(it))).sum()
}

/// The lengths of the names and lists of so many rows, so many times over.
pub fn sum_of_lengths(rows: usize, count: usize) -> u64 {
    ((name(0).len() + row(0).2.len()) * rows * count) as u64
}
