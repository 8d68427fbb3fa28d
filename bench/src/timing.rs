//! Least times of operations that are run in turns.

use crate::format::{Ready, REFUSED};
use std::time::Instant;

// What one round of one operation takes at the least, in nanoseconds.
const ROUND: f64 = 2e6;

// The time of so many, in nanoseconds.
fn time(ready: &mut Ready, count: usize) -> f64 {
    let start = Instant::now();
    let answer = (ready.run)(count);
    let taken = start.elapsed().as_nanos() as f64;
    assert!(answer != REFUSED, "an operation is refused");
    taken
}

// How many to carry out in a round, so that it takes long enough, also beside what a run prepares.
fn count_of(ready: &mut Ready) -> usize {
    let mut count = 1;
    loop {
        let prepared = if ready.prepares { time(ready, 0) } else { 0.0 };
        let taken = time(ready, count) - prepared;
        let wanted = ROUND.max(prepared.min(5.0 * ROUND));
        if taken >= 0.7 * wanted || count >= 1 << 24 {
            return count;
        }
        let factor = (wanted / taken.max(wanted / 16.0)).max(1.5);
        count = (count as f64 * factor).ceil() as usize;
    }
}

/// Whether an operation answers what it is to answer.
pub fn verify(ready: &mut Ready) {
    let counts: &[usize] = if ready.bytes <= 1 << 12 {
        &[1, 3, 300, 2000]
    } else {
        &[1, 3]
    };
    for count in counts {
        let answer = (ready.run)(*count);
        assert!(answer != REFUSED, "an operation is refused");
        if let Some(expected) = &ready.expected {
            assert_eq!(
                answer,
                expected(*count),
                "{count} operations answer otherwise"
            );
        }
    }
}

/// What a round of one operation took at the least, in nanoseconds: with what it prepares, and that alone; and how often a round carries the operation out.
#[derive(Clone, Copy)]
pub struct Least {
    pub whole: f64,
    pub prepared: f64,
    pub count: usize,
}

/// The time of one operation, in nanoseconds: the least over layouts of the program. They prepare alike, so the least preparation is taken off from each: that
/// of a round that was disturbed would make the operation too quick.
pub fn least_of(layouts: &[Least]) -> f64 {
    let least = |times: &mut dyn Iterator<Item = f64>| times.fold(f64::MAX, f64::min);
    let prepared = least(&mut layouts.iter().map(|it| it.prepared));
    least(
        &mut layouts
            .iter()
            .map(|it| (it.whole - prepared).max(0.0) / it.count as f64),
    )
}

/// The least times of each over so many rounds. Each round runs all of them, one after another, so that what else the
/// machine does hits all alike.
pub fn least(tasks: &mut [&mut Ready], rounds: usize) -> Vec<Least> {
    let counts: Vec<usize> = tasks.iter_mut().map(|it| count_of(it)).collect();
    let mut prepared = vec![f64::MAX; tasks.len()];
    let mut whole = vec![f64::MAX; tasks.len()];
    for _ in 0..rounds {
        for (i, task) in tasks.iter_mut().enumerate() {
            prepared[i] = prepared[i].min(if task.prepares { time(task, 0) } else { 0.0 });
            whole[i] = whole[i].min(time(task, counts[i]));
        }
    }
    (0..tasks.len())
        .map(|i| Least {
            whole: whole[i],
            prepared: prepared[i],
            count: counts[i],
        })
        .collect()
}
