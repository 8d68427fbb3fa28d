//! One archive of many rows: what it takes to write, to check and to read back, in time and heap.

use crate::format::{grouped, Format, Operation, Set, Task};
use crate::measure;
use std::time::Instant;

const OPERATIONS: [Operation; 5] = [
    Operation::WriteNew,
    Operation::Check,
    Operation::Access,
    Operation::View,
    Operation::Read,
];

// Carries an operation out once, behind what it needs; the seconds and the heap's peak.
fn once(set: Set, operation: Operation) -> Option<(usize, f64, usize)> {
    let Task::Ready(mut ready) = Format::Project.task(set, operation, false) else {
        return None;
    };
    let start = Instant::now();
    let _ = (ready.run)(0);
    let prepared = start.elapsed();
    let peak = measure::peak(&mut ready, operation);
    let start = Instant::now();
    assert!((ready.run)(1) != 0, "it is refused");
    let taken = start.elapsed().saturating_sub(prepared);
    Some((ready.bytes, taken.as_secs_f64(), peak))
}

/// Prints a line for each operation on so many rows. Run in a child that counts its heap.
pub fn print(rows: usize) {
    for operation in OPERATIONS {
        let Some((bytes, seconds, peak)) = once(Set::Rows(rows), operation) else {
            continue;
        };
        let (bytes, peak) = (grouped(bytes as f64), grouped(peak as f64));
        let title = operation.title();
        println!("{title}: {bytes} bytes, {seconds:.2} s, {peak} bytes of heap");
    }
}
