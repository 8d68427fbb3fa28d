//! The tables' rows: each operation on each set, and how times and the heap grow.

use crate::format::{Format, Operation, Ready, Set, Task};
use crate::timing::{self, Least};
use std::process::Command;

/// What stands for a format in a row.
pub enum Cell {
    /// Its time in nanoseconds and its archive's bytes.
    Time { ns: f64, bytes: usize },
    /// Why there is no time.
    Word(String),
}

impl Cell {
    // What one layout of the program told, and the times of others.
    fn of(own: Result<(Least, usize), String>, others: impl Iterator<Item = Least>) -> Cell {
        match own {
            Ok((own, bytes)) => {
                let layouts: Vec<Least> = others.chain([own]).collect();
                Cell::Time {
                    ns: timing::least_of(&layouts),
                    bytes,
                }
            }
            Err(why) => Cell::Word(why),
        }
    }

    pub fn ns(&self) -> Option<f64> {
        match self {
            Cell::Time { ns, .. } => Some(*ns),
            Cell::Word(_) => None,
        }
    }
}

/// One operation on one set, in each format.
pub struct Row {
    pub set: Set,
    pub operation: Operation,
    pub cells: Vec<Cell>,
}

impl Row {
    /// The time in a format.
    pub fn ns(&self, format: Format) -> Option<f64> {
        self.cells.get(format as usize).and_then(Cell::ns)
    }

    /// The project's time as a ratio to that of a format.
    pub fn ratio(&self, format: Format) -> Option<f64> {
        Some(self.ns(Format::Project)? / self.ns(format)?)
    }

    /// The project's time as a ratio to the least of the peers'.
    pub fn of_least(&self) -> Option<f64> {
        let ratios = Format::PEERS.into_iter().filter_map(|it| self.ratio(it));
        ratios.reduce(f64::max)
    }
}

/// The most heap that an operation on a set held, in each format whose growth is shown.
pub struct HeapRow {
    pub set: Set,
    pub operation: Operation,
    pub peaks: Vec<Option<usize>>,
}

impl HeapRow {
    /// The project's heap as a ratio to the least of the peers': 0 where it holds none.
    pub fn of_least(&self) -> Option<f64> {
        let (own, peers) = self.peaks.split_first()?;
        let least = peers.iter().flatten().min()?;
        match ((*own)?, *least) {
            (0, _) => Some(0.0),
            (own, least) => Some(own as f64 / least as f64),
        }
    }
}

/// The sets of the table, and whether a peer keeps its own limits of depth and size.
pub const SETS: [(Set, bool); 26] = [
    (Set::Number, false),
    (Set::Text(11), false),
    (Set::Text(65_536), false),
    (Set::Record, false),
    (Set::Plain, false),
    (Set::Own, false),
    (Set::Frames(10_000), false),
    (Set::Events(10_000), false),
    (Set::Numbers(100_000), false),
    (Set::Bools(100_000), false),
    (Set::Chars(100_000), false),
    (Set::Shorts(10_000), false),
    (Set::Rows(10_000), false),
    (Set::List(1_000), false),
    (Set::List(100_000), false),
    (DEEP, true),
    (Set::Records(100_000), false),
    (Set::Tree(100_000), false),
    (Set::Shared(1), false),
    (Set::Shared(10), false),
    (Set::Shared(10_000), false),
    (Set::Pairs(10_000), false),
    (Set::Map(10_000), false),
    (Set::TextPairs(10_000), false),
    (Set::TextMap(10_000), false),
    (Set::Names(10_000), false),
];

/// The operations of the table, set by set, and whether a peer keeps its own limits.
pub fn rows() -> Vec<(Set, Operation, bool)> {
    let of_set = |(set, limited): (Set, bool)| {
        let operations = set.operations().into_iter();
        operations.map(move |it| (set, it, limited))
    };
    SETS.into_iter().flat_map(of_set).collect()
}

/// The deep set, which is run on the machine's own stack too.
pub const DEEP: Set = Set::List(1_000_000);

// What a child of this program says of an operation on the deep set, on the stack that a program gets. None where it is carried out.
fn stopped(format: Format, operation: Operation) -> Option<String> {
    let child = std::env::current_exe().expect("the program's path");
    let place = Operation::ALL
        .iter()
        .position(|it| *it == operation)
        .expect("an operation");
    let done = Command::new(child)
        .args(["deep", &(format as usize).to_string(), &place.to_string()])
        .output()
        .expect("a child");
    match done.status.code() {
        Some(0) => None,
        Some(3) => Some("refuses".into()),
        Some(_) => Some("fails".into()),
        None => Some("stops: stack".into()),
    }
}

/// Carries an operation on the deep set out once; answers the status for `stopped`.
pub fn deep(format: usize, operation: usize) -> i32 {
    match Format::ALL[format].task(DEEP, Operation::ALL[operation], true) {
        Task::Ready(mut ready) => {
            let answer = (ready.run)(1);
            let is_wrong = ready.expected.is_some_and(|it| answer != it(1));
            let refused = answer == crate::format::REFUSED || is_wrong;
            // Nothing is freed: that may need a deep stack, too.
            std::process::exit(if refused { 3 } else { 0 })
        }
        Task::Absent => 0,
    }
}

/// Carries one operation on one set out so often, for whoever counts its instructions: the set and the operation by their places in the tables.
pub fn one(format: usize, set: usize, operation: usize, count: usize) {
    let (set, limited) = SETS[set];
    let operation = set.operations()[operation];
    if let Task::Ready(mut ready) = Format::ALL[format].task(set, operation, limited) {
        let answer = (ready.run)(count);
        println!("{}, {}: {answer}", set.title(), operation.title());
    }
}

// The executables of the same program whose functions lie elsewhere, which `bench/run` names.
fn layouts() -> Vec<String> {
    let named = std::env::var("BENCH_LAYOUTS").unwrap_or_default();
    named.split_whitespace().map(String::from).collect()
}

/// Prints the times of one of the table's rows, by its place there, for the program that started this one. A dash where there is none.
pub fn print_times(index: usize, rounds: usize) {
    let (set, operation, limited) = rows()[index];
    let shown = |it: Result<(Least, usize), String>| match it {
        Ok((it, _)) => format!("{},{},{}", it.whole, it.prepared, it.count),
        Err(_) => "-".into(),
    };
    let times = timed(set, operation, limited, &Format::ALL, rounds).into_iter();
    println!("{}", times.map(shown).collect::<Vec<_>>().join(" "));
}

// What a child prints of one format.
fn read(said: &str) -> Option<Least> {
    let mut numbers = said.split(',');
    Some(Least {
        whole: numbers.next()?.parse().ok()?,
        prepared: numbers.next()?.parse().ok()?,
        count: numbers.next()?.parse().ok()?,
    })
}

// The times that a child prints, by format.
fn times_in(layout: &str, index: usize, rounds: usize) -> Vec<Option<Least>> {
    let done = Command::new(layout)
        .args(["row", &index.to_string(), &rounds.to_string()])
        .output()
        .expect("a child");
    let why = String::from_utf8_lossy(&done.stderr);
    assert!(done.status.success(), "{layout}: {why}");
    let said = String::from_utf8_lossy(&done.stdout);
    said.trim().split(' ').map(read).collect()
}

/// One of the table's rows, by its place there: of each format the least time over the layouts, which share the rounds.
pub fn row_of_table(index: usize, rounds: usize) -> Row {
    let (set, operation, limited) = rows()[index];
    let layouts = layouts();
    let share = (rounds / (layouts.len() + 1)).max(2);
    let own = timed(set, operation, limited, &Format::ALL, share);
    let others: Vec<_> = layouts
        .iter()
        .map(|layout| times_in(layout, index, share))
        .collect();
    let cells = own.into_iter().enumerate().map(|(format, own)| {
        let others = others.iter().filter_map(|it| it[format]);
        Cell::of(own, others)
    });
    Row {
        set,
        operation,
        cells: cells.collect(),
    }
}

// The times of one operation on one set in these formats, in turns, with the archives' bytes; or why there are none.
fn timed(
    set: Set,
    operation: Operation,
    limited: bool,
    formats: &[Format],
    rounds: usize,
) -> Vec<Result<(Least, usize), String>> {
    let mut held: Vec<Result<Ready, String>> = Vec::new();
    for format in formats {
        let stops = if set == DEEP && limited {
            stopped(*format, operation)
        } else {
            None
        };
        held.push(
            match stops.map_or_else(|| Ok(format.task(set, operation, limited)), Err) {
                Ok(Task::Ready(ready)) => Ok(ready),
                Ok(Task::Absent) => Err("–".into()),
                Err(why) => Err(why),
            },
        );
    }
    let mut tasks: Vec<&mut Ready> = held.iter_mut().filter_map(|it| it.as_mut().ok()).collect();
    tasks.iter_mut().for_each(|it| timing::verify(it));
    let mut times = timing::least(&mut tasks, rounds).into_iter();
    let with_bytes = |it: Result<Ready, String>| {
        it.map(|ready| (times.next().expect("a time for each"), ready.bytes))
    };
    held.into_iter().map(with_bytes).collect()
}

/// Times one operation on one set in these formats, in turns.
pub fn row(
    set: Set,
    operation: Operation,
    limited: bool,
    formats: &[Format],
    rounds: usize,
) -> Row {
    let times = timed(set, operation, limited, formats, rounds).into_iter();
    Row {
        set,
        operation,
        cells: times.map(|it| Cell::of(it, [].into_iter())).collect(),
    }
}

/// The formats whose growth is shown.
pub const GROWING: [Format; 4] = [Format::Project, Format::Rkyv, Format::Flat, Format::Proto];

/// The operations whose growth is shown.
pub const GROWTH: [Operation; 3] = [Operation::WriteNew, Operation::Check, Operation::Read];

/// The sizes whose growth is shown.
pub const SIZES: [usize; 7] = [1, 10, 100, 1_000, 10_000, 100_000, 1_000_000];

/// The sets whose growth is shown, of each size.
pub fn growing() -> Vec<Set> {
    let of = |make: fn(usize) -> Set| SIZES.map(make);
    [
        of(Set::Text),
        of(Set::Numbers),
        of(Set::Rows),
        of(Set::List),
        of(Set::Shared),
        of(Set::Map),
    ]
    .concat()
}

extern "C" {
    fn dlsym(library: *mut u8, name: *const u8) -> *mut u8;
}

// A function of the counter of the heap, which is loaded before the C library.
fn heap_call<F>(name: &[u8]) -> F {
    let found = unsafe { dlsym(std::ptr::null_mut(), name.as_ptr()) };
    assert!(!found.is_null(), "the counter of the heap isn't loaded");
    unsafe { std::mem::transmute_copy(&found) }
}

/// The most of the heap that an operation held beyond what it found, in bytes. What a run prepares is made first, and isn't counted; nor is the first
/// growth of a buffer that is used again.
pub fn peak(ready: &mut Ready, operation: Operation) -> usize {
    let restart: extern "C" fn(usize) = heap_call(b"heap_restart\0");
    let most: extern "C" fn() -> usize = heap_call(b"heap_most\0");
    let made: extern "C" fn() -> usize = heap_call(b"heap_made\0");
    let earlier = match operation {
        Operation::WriteReused => 1,
        _ => 0,
    };
    // A buffer that is kept from run to run grows here.
    let _ = (ready.run)(earlier);
    let before = made();
    let _ = (ready.run)(earlier);
    restart(made() - before);
    let _ = (ready.run)(earlier + 1);
    most()
}

// What the heap is counted of: the rows of the table, then those of growth.
fn counted() -> Vec<(Set, Operation)> {
    let of_table = rows()
        .into_iter()
        .map(|(set, operation, _)| (set, operation));
    let of_growth = growing()
        .into_iter()
        .flat_map(|set| GROWTH.map(|it| (set, it)));
    of_table.chain(of_growth).collect()
}

/// Prints the heap's peak of each row of the table and of growth, one line for each: in bytes, or a dash.
pub fn heap() {
    for (set, operation) in counted() {
        let peaks = GROWING.map(|format| match format.task(set, operation, false) {
            Task::Ready(mut ready) => peak(&mut ready, operation).to_string(),
            Task::Absent => "-".into(),
        });
        println!("{}", peaks.join(" "));
    }
}

/// What this program prints in a child that counts its heap.
pub fn said_by_child(words: &[&str]) -> String {
    let child = std::env::current_exe().expect("the program's path");
    let done = Command::new(child)
        .args(words)
        .env("LD_PRELOAD", env!("HEAP_LIBRARY"))
        .output()
        .expect("a child");
    let why = String::from_utf8_lossy(&done.stderr);
    assert!(done.status.success(), "counting the heap: {why}");
    String::from_utf8_lossy(&done.stdout).into_owned()
}

/// The lines of `heap`: the rows of the table, then those of growth.
pub fn heap_of_child() -> (Vec<HeapRow>, Vec<HeapRow>) {
    let said = said_by_child(&["heap"]);
    let peaks_of = |line: &str| line.split(' ').map(|it| it.parse().ok()).collect();
    let counted = counted().into_iter().zip(said.lines());
    let mut rows_of_table: Vec<HeapRow> = counted
        .map(|((set, operation), line)| HeapRow {
            set,
            operation,
            peaks: peaks_of(line),
        })
        .collect();
    let growth = rows_of_table.split_off(rows().len());
    (rows_of_table, growth)
}
