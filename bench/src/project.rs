//! The project's exports, on archives made by hand. An export that its static library hasn't is a row with a dash.

use crate::archives;
use crate::format::{Operation, Ready, Set, Task};
use crate::sets;
use std::cell::OnceCell;

include!(concat!(env!("OUT_DIR"), "/exports.rs"));

// How many numbers are written in turns.
const NUMBERS: usize = 1024;

// Archives of one length, one after another, so that a small one differs from round to round; a large one is alone.
fn archives(set: Set) -> (Vec<u8>, usize) {
    if set == Set::Number {
        let numbers = sets::numbers(NUMBERS);
        return (numbers.iter().flat_map(|n| n.to_le_bytes()).collect(), 4);
    }
    let one = archives::archive(set);
    let copies = if one.len() <= 64 { 64 } else { 1 };
    (one.repeat(copies), one.len())
}

// The number of an operation, as exports take it.
fn number(operation: Operation) -> u32 {
    match operation {
        Operation::Access => 1,
        Operation::Read => 2,
        Operation::WriteNew => 3,
        Operation::WriteReused => 4,
        Operation::Check | Operation::Seal => 0,
        Operation::Compare | Operation::Get | Operation::View => 0,
    }
}

// What a round of reading back is told by.
fn told(set: Set) -> usize {
    match set {
        Set::Record | Set::Plain => "hello world".len() + 4,
        Set::Own => "hello world".len() + sets::TAGS.len(),
        Set::List(n) | Set::Records(n) => n.min(1),
        Set::Tree(n) => n.min(10),
        _ => set.size(),
    }
}

// The sum of the lengths of what is written and of a byte of each, a later one each round and then the first again.
fn sum_of_written(archives: &[Vec<u8>], count: usize) -> u64 {
    let byte = |archive: &Vec<u8>, round| archive.get(round & 0xff).map_or(0, |it| u64::from(*it));
    let one = |round: usize| {
        let archive = &archives[round % archives.len()];
        archive.len() as u64 + byte(archive, round)
    };
    (0..count).map(one).sum()
}

// What is written, round by round.
fn written(set: Set) -> Vec<Vec<u8>> {
    if set == Set::Number {
        let numbers = sets::numbers(NUMBERS);
        return numbers.iter().map(|n| n.to_le_bytes().to_vec()).collect();
    }
    vec![archives::archive(set)]
}

// How many strings are less than the next one.
fn lesser(size: usize) -> usize {
    let names = sets::names(size);
    names.windows(2).filter(|it| it[0] < it[1]).count()
}

// What an operation returns.
fn expected(set: Set, operation: Operation) -> Box<dyn Fn(usize) -> u64> {
    match operation {
        Operation::Check | Operation::Access | Operation::Seal => Box::new(|count| count as u64),
        Operation::WriteNew | Operation::WriteReused => {
            // Made when it is asked for: beside the largest value there is no room for it.
            let archives = OnceCell::new();
            Box::new(move |count| sum_of_written(archives.get_or_init(|| written(set)), count))
        }
        Operation::Read if set == Set::Number => {
            let numbers = sets::numbers(NUMBERS);
            Box::new(move |count| (0..count).map(|i| u64::from(numbers[i % NUMBERS])).sum())
        }
        Operation::Read => Box::new(move |count| (told(set) * count) as u64),
        Operation::Compare => {
            let lesser = lesser(set.size());
            Box::new(move |count| (lesser * count) as u64)
        }
        Operation::Get => Box::new(move |count| sets::sum_of_values(set.size(), count)),
        Operation::View => Box::new(move |count| sets::sum_of_lengths(set.size(), count)),
    }
}

fn on_bytes(set: Set, operation: Operation, call: Run) -> Ready {
    let (bytes, step) = match operation {
        Operation::WriteNew | Operation::WriteReused => (Vec::new(), written(set)[0].len()),
        _ => archives(set),
    };
    let size = if set == Set::Number {
        NUMBERS
    } else {
        set.size()
    };
    let number = number(operation);
    let run = Box::new(move |count| {
        let answer = unsafe { call(bytes.as_ptr(), bytes.len(), step, size, count, number) };
        answer as u64
    });
    Ready {
        run,
        expected: Some(expected(set, operation)),
        bytes: step,
        prepares: true,
    }
}

fn seal(set: Set, call: Edit) -> Ready {
    let mut bytes = archives::archive(set);
    Ready {
        bytes: bytes.len(),
        run: Box::new(move |count| unsafe { call(bytes.as_mut_ptr(), bytes.len(), count) } as u64),
        expected: Some(expected(set, Operation::Seal)),
        prepares: true,
    }
}

pub fn task(set: Set, operation: Operation) -> Task {
    let export = set.export();
    let ready = match operation {
        Operation::Seal => edit(&format!("seal_{export}")).map(|call| seal(set, call)),
        _ => {
            let name = match operation {
                Operation::Compare => format!("compare_{export}"),
                Operation::Get => format!("get_{export}"),
                Operation::View => format!("view_{export}"),
                _ => export.to_string(),
            };
            run(&name).map(|call| on_bytes(set, operation, call))
        }
    };
    ready.map_or(Task::Absent, Task::Ready)
}

/// The most keys that one look-up compares in a sorted map, if the export is there.
pub fn most_compared(set: Set) -> Option<usize> {
    let call = run(&format!("get_{}", set.export()))?;
    let (bytes, step) = archives(set);
    Some(unsafe { call(bytes.as_ptr(), bytes.len(), step, set.size(), 0, 1) })
}
