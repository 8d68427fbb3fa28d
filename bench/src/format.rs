//! What is measured: sets of data, operations, and what a format makes of them.

/// A set of data.
#[derive(Clone, Copy, PartialEq, Eq, Debug)]
pub enum Set {
    /// One u32.
    Number,
    /// One string of so many bytes.
    Text(usize),
    /// A record of a u8, a string and an optional list: 42, "hello world", Some([1, 2, 3, 4]).
    Record,
    /// The same without the option.
    Plain,
    /// A struct of two i32, a string and two strings, which the project's and rkyv's derive archive. So are the next two.
    Own,
    /// So many structs of structs: a line of two places, three lines, perhaps a boxed line, and an enum.
    Frames(usize),
    /// So many enums of five variants, in turns: nothing, a char, a string of 20 bytes, two i32, 8 u32.
    Events(usize),
    /// So many u32.
    Numbers(usize),
    /// So many bools.
    Bools(usize),
    /// So many chars.
    Chars(usize),
    /// So many strings of 5 bytes.
    Shorts(usize),
    /// So many rows of a u64, a string of 20 bytes and 8 u32.
    Rows(usize),
    /// A chain of so many boxes, each within the one before it.
    List(usize),
    /// The same with a u32 in each box.
    Records(usize),
    /// A tree with so many leaves, a power of ten: a u32 at each node, and ten trees below each that is no leaf.
    Tree(usize),
    /// So many pointers, in turns, to a hundredth as many strings of 20 bytes.
    Shared(usize),
    /// So many pairs of a bool and a u32.
    Pairs(usize),
    /// A sorted map of so many u32 to u32.
    Map(usize),
    /// So many pairs of a string of 20 bytes and a u32.
    TextPairs(usize),
    /// A sorted map of so many strings of 20 bytes to u32.
    TextMap(usize),
    /// So many strings of 20 bytes and one, each of which is compared with the next one.
    Names(usize),
}

impl Set {
    /// Its name in the project's exports.
    pub fn export(self) -> &'static str {
        match self {
            Set::Number => "u32",
            Set::Text(_) => "string",
            Set::Record => "record",
            Set::Plain => "plain",
            Set::Own => "own",
            Set::Frames(_) => "frames",
            Set::Events(_) => "events",
            Set::Numbers(_) => "numbers",
            Set::Bools(_) => "bools",
            Set::Chars(_) => "chars",
            Set::Shorts(_) => "shorts",
            Set::Rows(_) => "rows",
            Set::List(_) => "list",
            Set::Records(_) => "records",
            Set::Tree(_) => "tree",
            Set::Shared(_) => "shared",
            Set::Pairs(_) => "pairs",
            Set::Map(_) => "map",
            Set::TextPairs(_) => "text_pairs",
            Set::TextMap(_) => "text_map",
            Set::Names(_) => "names",
        }
    }

    /// Its number among the C++ peers' sets, if they have it. To them any list is an option.
    pub fn number(self) -> Option<i32> {
        match self {
            Set::Number => Some(0),
            Set::Text(_) => Some(1),
            Set::Record | Set::Plain => Some(2),
            Set::Numbers(_) => Some(3),
            Set::Rows(_) => Some(4),
            Set::List(_) => Some(5),
            Set::Map(_) => Some(6),
            Set::TextMap(_) => Some(7),
            _ => None,
        }
    }

    /// What is done with it.
    pub fn operations(self) -> Vec<Operation> {
        match self {
            Set::Names(_) => vec![Operation::Compare],
            Set::Record => [&Operation::ALL[..], &[Operation::Seal]].concat(),
            Set::Map(_) | Set::TextMap(_) => [&Operation::ALL[..], &[Operation::Get]].concat(),
            Set::Rows(_) => [&Operation::ALL[..], &[Operation::View]].concat(),
            _ => Operation::ALL.to_vec(),
        }
    }

    /// How many elements or bytes it has.
    pub fn size(self) -> usize {
        match self {
            Set::Number | Set::Record | Set::Plain | Set::Own => 1,
            Set::Text(n) | Set::Numbers(n) | Set::Rows(n) | Set::List(n) => n,
            Set::Frames(n) | Set::Events(n) | Set::Shared(n) | Set::Names(n) => n,
            Set::Bools(n) | Set::Chars(n) | Set::Shorts(n) | Set::Records(n) => n,
            Set::Pairs(n) | Set::Map(n) | Set::TextPairs(n) | Set::TextMap(n) | Set::Tree(n) => n,
        }
    }

    /// Its name in the table of growth, with what an element of it is.
    pub fn family(self) -> &'static str {
        match self {
            Set::Text(_) => "string, for a byte",
            Set::Numbers(_) => "u32, for one",
            Set::Rows(_) => "rows, for one",
            Set::List(_) => "chain, for a box",
            Set::Shared(_) => "shared pointers, for one",
            Set::Map(_) => "sorted map, for an entry",
            _ => "one",
        }
    }

    /// Its name in tables.
    pub fn title(self) -> String {
        match self {
            Set::Number => "one u32".into(),
            Set::Text(n) => format!("string of {} bytes", grouped(n as f64)),
            Set::Record => "small record".into(),
            Set::Plain => "small record without its option".into(),
            Set::Own => "struct, derived".into(),
            Set::Shared(n) => pointers(n),
            Set::Names(n) => counted(n, "comparisons of strings"),
            Set::Frames(n) => counted(n, "structs of structs, derived"),
            Set::Events(n) => counted(n, "enums, derived"),
            Set::Numbers(n) => counted(n, "u32"),
            Set::Bools(n) => counted(n, "bools"),
            Set::Chars(n) => counted(n, "chars"),
            Set::Shorts(n) => counted(n, "strings of 5 bytes"),
            Set::Rows(n) => counted(n, "rows"),
            Set::List(n) => format!("chain of {}", counted(n, "boxes")),
            Set::Records(n) => format!("list of {}", counted(n, "u32, derived")),
            Set::Tree(n) => format!("tree of {}", counted(nodes(n), "nodes, derived")),
            Set::Pairs(n) => counted(n, "pairs of bool and u32"),
            Set::Map(n) => format!("sorted map of {}", counted(n, "u32 to u32")),
            Set::TextPairs(n) => counted(n, "pairs of string and u32"),
            Set::TextMap(n) => format!("sorted map of {}", counted(n, "strings to u32")),
        }
    }
}

fn counted(count: usize, what: &str) -> String {
    format!("{} {what}", grouped(count as f64))
}

fn pointers(count: usize) -> String {
    let to = match crate::sets::shared_strings(count) {
        1 => "1 string".into(),
        strings => counted(strings, "strings"),
    };
    let what = if count == 1 { "pointer" } else { "pointers" };
    format!("{} to {to}", counted(count, what))
}

/// How many nodes a tree with so many leaves has.
pub fn nodes(leaves: usize) -> usize {
    std::iter::successors(Some(leaves), |it| Some(it / 10).filter(|it| *it > 0)).sum()
}

/// What is done with a set.
#[derive(Clone, Copy, PartialEq, Eq, Debug)]
pub enum Operation {
    WriteNew,
    WriteReused,
    Check,
    Access,
    Read,
    /// A number of the record's list is written over where it lies.
    Seal,
    /// Each string is compared with the next one.
    Compare,
    /// A value is looked up by its key.
    Get,
    /// The lengths of each row's name and list are added up.
    View,
}

impl Operation {
    /// What is done with most sets: the columns of the table of ratios.
    pub const ALL: [Operation; 5] = [
        Operation::WriteNew,
        Operation::WriteReused,
        Operation::Check,
        Operation::Access,
        Operation::Read,
    ];

    /// Its name as a heading.
    pub fn heading(self) -> &'static str {
        match self {
            Operation::WriteNew => "Write a value into new memory",
            Operation::WriteReused => "Write a value into memory that is used again",
            Operation::Check => {
                "Check bytes for access where they lie (archive-core: by an `Access` that is kept)"
            }
            Operation::Access => "Check bytes for access where they lie (archive-core: by access)",
            Operation::Read => "Check bytes and read the value back",
            Operation::Seal => "Write a number over where it lies",
            Operation::Compare => "Compare strings where they lie",
            Operation::Get => "Look up a value by its key where it lies",
            Operation::View => "View each row where it lies",
        }
    }

    /// Its name in tables.
    pub fn title(self) -> &'static str {
        match self {
            Operation::WriteNew => "write, new buffer",
            Operation::WriteReused => "write, buffer reused",
            Operation::Check => "checked access, `Access` kept",
            Operation::Access => "checked access, `access`",
            Operation::Read => "check and read back",
            Operation::Seal => "sealed write",
            Operation::Compare => "compare",
            Operation::Get => "look up one key",
            Operation::View => "view each row",
        }
    }
}

/// The formats, in the order of the tables' columns.
#[derive(Clone, Copy, PartialEq, Eq, Debug)]
pub enum Format {
    Project,
    Rkyv,
    Flat,
    Proto,
    Copy,
}

impl Format {
    pub const ALL: [Format; 5] = [
        Format::Project,
        Format::Rkyv,
        Format::Flat,
        Format::Proto,
        Format::Copy,
    ];

    /// Those that the project is compared with.
    pub const PEERS: [Format; 3] = [Format::Rkyv, Format::Flat, Format::Proto];

    /// Its name in a column.
    pub fn title(self) -> &'static str {
        match self {
            Format::Project => "archive-core",
            Format::Rkyv => "rkyv",
            Format::Flat => "FlatBuffers",
            Format::Proto => "Cap'n Proto",
            Format::Copy => "memcpy",
        }
    }

    /// Its name in a column of a set's own table.
    pub fn title_in(self, set: Set) -> &'static str {
        match (self, set) {
            (Format::Copy, Set::Names(_)) => "Rust's `cmp`",
            _ => self.title(),
        }
    }

    /// What it does of an operation on a set. `limited` leaves a peer its own limits of depth and size; else they are lifted.
    pub fn task(self, set: Set, operation: Operation, limited: bool) -> Task {
        match self {
            Format::Project => crate::project::task(set, operation),
            Format::Rkyv => crate::rkyv_peer::task(set, operation),
            Format::Flat | Format::Proto => crate::cpp_peers::task(self, set, operation, limited),
            Format::Copy => crate::copy::task(set, operation),
        }
    }
}

/// What a run answers where bytes are refused.
pub const REFUSED: u64 = u64::MAX;

/// An operation that can be timed.
pub struct Ready {
    /// Carries it out so many times and answers a number that depends on each result.
    pub run: Box<dyn FnMut(usize) -> u64>,
    /// What it is to answer, where that is known.
    pub expected: Option<Box<dyn Fn(usize) -> u64>>,
    /// The archive's bytes.
    pub bytes: usize,
    /// Whether a run makes values first, whose time is taken off.
    pub prepares: bool,
}

/// What a format does of an operation.
pub enum Task {
    Ready(Ready),
    /// It isn't measured in this format.
    Absent,
}

/// A number with commas between thousands; a small one with a digit after the point.
pub fn grouped(number: f64) -> String {
    if number < 99.95 && number.fract() != 0.0 {
        return format!("{number:.1}");
    }
    let digits = format!("{number:.0}");
    let mut text = String::new();
    for (i, digit) in digits.chars().enumerate() {
        if i > 0 && (digits.len() - i) % 3 == 0 {
            text.push(',');
        }
        text.push(digit);
    }
    text
}
