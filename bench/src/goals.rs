//! What is wanted of the project's time and memory, as ratios to those of other formats.

use crate::format::{Format, Operation, Set};
use crate::measure::{HeapRow, Row};
use crate::report::ratio;
use std::fmt::Write;

// What a time is set beside: that of a format, the least of all peers', or the project's own of another row.
#[derive(Clone, Copy)]
enum Beside {
    Peer(Format),
    Least,
    Own(Set, Operation),
}

enum Goal {
    /// An operation takes at most so many times what another one takes.
    Time(Set, Operation, Beside, f64),
    /// All operations on a set are carried out.
    Done(Set),
    /// A look-up compares at most so many keys.
    Compared(Set, usize),
    /// Each operation holds at most so many times the heap of the peer that holds least.
    Memory(f64),
}

// A line of the table: what the goal is of, what it is set beside, what is wanted, what was measured, and whether it holds.
struct Line {
    what: String,
    beside: String,
    wanted: String,
    measured: String,
    holds: bool,
}

const RKYV: Beside = Beside::Peer(Format::Rkyv);
const WRITES: [Operation; 2] = [Operation::WriteNew, Operation::WriteReused];
const CHECKS: [Operation; 2] = [Operation::Check, Operation::Access];
const NEW: [Operation; 1] = [Operation::WriteNew];
const REUSED: [Operation; 1] = [Operation::WriteReused];
const ACCESS: [Operation; 1] = [Operation::Access];
const READ: [Operation; 1] = [Operation::Read];

fn times() -> Vec<Goal> {
    let mut goals = Vec::new();
    let mut add = |set: Set, operations: &[Operation], beside: Beside, most: f64| {
        let goal = |it: &Operation| Goal::Time(set, *it, beside, most);
        goals.extend(operations.iter().map(goal));
    };
    let numbers = Set::Numbers(100_000);
    let rows = Set::Rows(10_000);
    let shared = Set::Shared(10_000);
    add(Set::Number, &REUSED, Beside::Least, 1.3);
    add(Set::Number, &CHECKS, Beside::Least, 1.1);
    add(Set::Text(11), &ACCESS, RKYV, 1.3);
    add(Set::Text(65_536), &NEW, Beside::Least, 1.0);
    add(Set::Text(65_536), &ACCESS, RKYV, 0.6);
    add(numbers, &NEW, Beside::Least, 0.6);
    add(numbers, &REUSED, Beside::Peer(Format::Copy), 1.3);
    add(numbers, &REUSED, Beside::Peer(Format::Flat), 1.0);
    add(numbers, &ACCESS, Beside::Least, 0.9);
    add(numbers, &READ, Beside::Peer(Format::Copy), 1.3);
    add(Set::Bools(100_000), &CHECKS, RKYV, 0.1);
    add(Set::Chars(100_000), &CHECKS, RKYV, 0.5);
    add(rows, &NEW, Beside::Least, 0.9);
    add(rows, &REUSED, Beside::Least, 0.85);
    add(rows, &CHECKS, Beside::Least, 0.6);
    add(rows, &READ, Beside::Least, 0.95);
    add(Set::Record, &NEW, RKYV, 0.8);
    add(Set::Record, &REUSED, Beside::Least, 0.85);
    add(Set::Record, &CHECKS, Beside::Least, 0.5);
    add(Set::Record, &READ, RKYV, 1.0);
    add(Set::Record, &[Operation::Seal], RKYV, 1.2);
    for set in [Set::Own, Set::Frames(10_000), Set::Events(10_000)] {
        add(set, &WRITES, RKYV, 0.9);
        add(set, &ACCESS, RKYV, 0.7);
        add(set, &READ, RKYV, 0.9);
    }
    for set in [Set::Records(100_000), Set::Tree(100_000)] {
        add(set, &WRITES, RKYV, 0.8);
        add(set, &CHECKS, RKYV, 0.7);
        add(set, &READ, RKYV, 0.9);
    }
    add(Set::List(1_000), &NEW, Beside::Least, 0.95);
    add(Set::List(1_000), &REUSED, Beside::Least, 0.6);
    add(Set::List(1_000), &CHECKS, Beside::Least, 0.5);
    add(Set::List(1_000), &READ, Beside::Least, 0.7);
    add(Set::List(100_000), &WRITES, Beside::Least, 0.7);
    add(Set::List(100_000), &CHECKS, Beside::Least, 0.35);
    add(Set::List(100_000), &READ, Beside::Least, 1.0);
    add(Set::Shared(1), &CHECKS, RKYV, 1.0);
    add(Set::Shared(10), &CHECKS, RKYV, 1.0);
    add(shared, &WRITES, RKYV, 0.6);
    add(shared, &CHECKS, RKYV, 0.5);
    let access = Beside::Own(shared, Operation::Access);
    add(shared, &[Operation::Check], access, 1.05);
    add(shared, &READ, RKYV, 0.6);
    for (map, pairs, most) in [
        (Set::Map(10_000), Set::Pairs(10_000), 2.0),
        (Set::TextMap(10_000), Set::TextPairs(10_000), 1.35),
    ] {
        for operation in Operation::ALL {
            let most = if CHECKS.contains(&operation) {
                most
            } else {
                1.3
            };
            add(map, &[operation], Beside::Own(pairs, operation), most);
        }
        add(map, &[Operation::Get], Beside::Peer(Format::Flat), 1.0);
    }
    let compare = [Operation::Compare];
    add(
        Set::Names(10_000),
        &compare,
        Beside::Peer(Format::Copy),
        1.3,
    );
    goals
}

fn goals() -> Vec<Goal> {
    let others = [
        Goal::Done(crate::measure::DEEP),
        Goal::Compared(Set::Map(10_000), 14),
        Goal::Compared(Set::TextMap(10_000), 14),
        Goal::Memory(1.5),
    ];
    times().into_iter().chain(others).collect()
}

fn row_of(rows: &[Row], set: Set, operation: Operation) -> Option<&Row> {
    let mut of_set = rows.iter().filter(|it| it.set == set);
    of_set.find(|it| it.operation == operation)
}

fn measured(rows: &[Row], set: Set, operation: Operation, beside: Beside) -> Option<f64> {
    let row = row_of(rows, set, operation)?;
    match beside {
        Beside::Peer(format) => row.ratio(format),
        Beside::Least => row.of_least(),
        Beside::Own(set, operation) => {
            let other = row_of(rows, set, operation)?;
            Some(row.ns(Format::Project)? / other.ns(Format::Project)?)
        }
    }
}

fn time_line(rows: &[Row], set: Set, operation: Operation, beside: Beside, most: f64) -> Line {
    let measured = measured(rows, set, operation, beside);
    let beside = match beside {
        Beside::Peer(format) => format.title_in(set).to_string(),
        Beside::Least => "the fastest peer".to_string(),
        Beside::Own(other, _) if other == set => "`access`".to_string(),
        Beside::Own(other, _) => other.title(),
    };
    Line {
        what: format!("{} | {}", set.title(), operation.title()),
        beside,
        wanted: format!("{most}"),
        measured: measured.map_or("–".into(), ratio),
        holds: measured.is_some_and(|it| it <= most),
    }
}

fn done_line(rows: &[Row], set: Set) -> Line {
    let of_set = rows.iter().filter(|it| it.set == set);
    let done = of_set.filter(|it| it.ns(Format::Project).is_some()).count();
    let all = set.operations().len();
    Line {
        what: format!("{} | each, on a stack of 8 MiB", set.title()),
        beside: "–".into(),
        wanted: "done".into(),
        measured: format!("{done} of {all}"),
        holds: done == all,
    }
}

fn compared_line(set: Set, most: usize) -> Line {
    let measured = crate::project::most_compared(set);
    Line {
        what: format!("{} | keys compared in a look-up", set.title()),
        beside: "–".into(),
        wanted: format!("{most}"),
        measured: measured.map_or("–".into(), |it| it.to_string()),
        holds: measured.is_some_and(|it| it <= most),
    }
}

fn memory_line(heap: &[HeapRow], most: f64) -> Line {
    let known: Vec<f64> = heap.iter().filter_map(HeapRow::of_least).collect();
    let held = known.iter().filter(|it| **it <= most).count();
    Line {
        what: "all sets | heap of each operation".into(),
        beside: "the peer with the least".into(),
        wanted: format!("{most}"),
        measured: format!("{held} of {} rows", known.len()),
        holds: held == known.len() && held > 0,
    }
}

impl Goal {
    fn line(&self, rows: &[Row], heap: &[HeapRow]) -> Line {
        match self {
            Goal::Time(set, operation, beside, most) => {
                time_line(rows, *set, *operation, *beside, *most)
            }
            Goal::Done(set) => done_line(rows, *set),
            Goal::Compared(set, most) => compared_line(*set, *most),
            Goal::Memory(most) => memory_line(heap, *most),
        }
    }
}

/// What the goals speak of: each operation on a set once.
pub fn wanted() -> Vec<(Set, Operation)> {
    let mut rows: Vec<(Set, Operation)> = Vec::new();
    for goal in goals() {
        let of_goal = match goal {
            Goal::Time(set, operation, Beside::Own(other, of_other), _) => {
                vec![(set, operation), (other, of_other)]
            }
            Goal::Time(set, operation, ..) => vec![(set, operation)],
            Goal::Done(set) => set.operations().into_iter().map(|it| (set, it)).collect(),
            Goal::Compared(..) | Goal::Memory(_) => Vec::new(),
        };
        rows.extend(of_goal);
    }
    let mut seen = Vec::new();
    rows.retain(|it| {
        !seen.contains(it) && {
            seen.push(*it);
            true
        }
    });
    rows
}

/// The goals as a table, with what was measured and whether each holds; and how many hold.
pub fn table(rows: &[Row], heap: &[HeapRow]) -> String {
    let mut out = String::new();
    out.push_str("| set | operation | beside | wanted, at most | measured | holds |\n");
    out.push_str("|---|---|---|---:|---:|---|\n");
    let goals = goals();
    let mut held = 0;
    for goal in &goals {
        let line = goal.line(rows, heap);
        held += usize::from(line.holds);
        let word = if line.holds { "yes" } else { "**no**" };
        let Line {
            what,
            beside,
            wanted,
            measured,
            ..
        } = line;
        writeln!(
            out,
            "| {what} | {beside} | {wanted} | {measured} | {word} |"
        )
        .unwrap();
    }
    writeln!(out, "\n{held} of {} hold.", goals.len()).unwrap();
    out
}
