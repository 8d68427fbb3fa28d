//! memcpy of as many bytes as the project's archive has: into new memory for what makes something new, else into memory that is kept. Beside
//! comparisons of archived strings stand those of Rust's own.

use crate::format::{Operation, Ready, Set, Task};
use std::hint::black_box;

// How many strings are less than the next one.
fn lesser(names: &[String]) -> u64 {
    let pairs = black_box(names).windows(2);
    pairs.filter(|it| it[0].cmp(&it[1]).is_lt()).count() as u64
}

fn compare(set: Set) -> Task {
    let names = crate::sets::names(set.size());
    let wanted = lesser(&names);
    Task::Ready(Ready {
        bytes: crate::archives::archive(set).len(),
        run: Box::new(move |count| (0..count).map(|_| lesser(&names)).sum()),
        expected: Some(Box::new(move |count| wanted * count as u64)),
        prepares: false,
    })
}

pub fn task(set: Set, operation: Operation) -> Task {
    match operation {
        Operation::Compare => return compare(set),
        Operation::Seal | Operation::Get | Operation::View => return Task::Absent,
        _ => {}
    }
    let from = crate::archives::archive(set);
    let bytes = from.len();
    let mut kept = vec![0u8; bytes];
    let run: Box<dyn FnMut(usize) -> u64> = match operation {
        Operation::WriteNew | Operation::Read => Box::new(move |count| {
            for _ in 0..count {
                black_box(black_box(&from).to_vec());
            }
            count as u64
        }),
        _ => Box::new(move |count| {
            for _ in 0..count {
                black_box(&mut kept).copy_from_slice(black_box(&from));
            }
            count as u64
        }),
    };
    Task::Ready(Ready {
        run,
        expected: None,
        bytes,
        prepares: false,
    })
}
