//! Times the project beside its peers, in one process and in turns, and writes RESULTS.md, results.svg and the table in the README, unless the tree has
//! changes that aren't committed. The executables that BENCH_LAYOUTS names, of the same program laid out otherwise, time each row of the table too.
//! `driver` does all; `driver goals` times what the goals speak of and prints their table alone; `driver large ROWS` says what one archive of so many
//! rows takes; `driver one FORMAT SET OPERATION COUNT`, by their places in the tables, carries one operation out so often, for callgrind. `driver deep
//! FORMAT OPERATION`, `driver heap`, `driver row ROW ROUNDS` and `driver large-child ROWS` are what it starts as children.

mod archives;
mod chart;
mod copy;
mod cpp_peers;
mod format;
mod goals;
mod large;
mod measure;
mod project;
mod report;
mod rkyv_peer;
mod rkyv_types;
mod sets;
mod timing;

use format::Set;

// Chains are written, checked and freed by calls within calls in some formats: the stack for those, in bytes.
const STACK: usize = 8 << 30;

fn rounds() -> usize {
    std::env::var("BENCH_ROUNDS")
        .ok()
        .and_then(|it| it.parse().ok())
        .unwrap_or(40)
}

// The largest sets take long, and what a round of one says changes little from round to round.
fn rounds_of(set: Set) -> usize {
    if set.size() < 1_000_000 {
        return rounds();
    }
    (rounds() / 4).max(2)
}

fn rounds_of_growth(set: Set) -> usize {
    if set.size() < 100_000 {
        return (rounds() / 2).max(2);
    }
    (rounds() / 10).max(2)
}

fn all() {
    archives::verify();
    let is_changed = report::is_changed();
    if is_changed {
        eprintln!("The tree has changes that aren't committed: only the goals are printed, and nothing is written.");
    }
    let machine = report::Machine::now();
    let mut rows = Vec::new();
    let mut beside = Vec::new();
    for (index, (set, operation, _)) in measure::rows().into_iter().enumerate() {
        eprintln!("{}: {}", set.title(), operation.title());
        beside.push(report::others());
        rows.push(measure::row_of_table(index, rounds_of(set)));
    }
    let mut growth = Vec::new();
    for set in measure::growing() {
        eprintln!("growth: {}", set.title());
        for operation in measure::GROWTH {
            growth.push(measure::row(
                set,
                operation,
                false,
                &measure::GROWING,
                rounds_of_growth(set),
            ));
        }
    }
    eprintln!("the heap");
    let (heap, heap_growth) = measure::heap_of_child();
    let others = beside.iter().sum::<f64>() / beside.len() as f64;
    let taken = report::Taken {
        machine,
        rounds: rounds(),
        others,
        rows,
        heap,
        growth,
        heap_growth,
    };
    if !is_changed {
        report::write(&taken);
        chart::write(&taken.rows);
    }
    print!("{}", goals::table(&taken.rows, &taken.heap));
}

// The goals' table, of their rows alone; nothing is written.
fn goals_alone() {
    archives::verify();
    let wanted = goals::wanted();
    let of_goals = measure::rows()
        .into_iter()
        .enumerate()
        .filter(|(_, (set, operation, _))| wanted.contains(&(*set, *operation)));
    let rows: Vec<measure::Row> = of_goals
        .map(|(index, (set, ..))| measure::row_of_table(index, rounds_of(set)))
        .collect();
    let (heap, _) = measure::heap_of_child();
    print!("{}", goals::table(&rows, &heap));
}

fn on_a_large_stack(work: impl FnOnce() + Send + 'static) {
    let thread = std::thread::Builder::new()
        .stack_size(STACK)
        .spawn(work)
        .expect("a thread");
    thread.join().expect("the thread ends");
}

fn main() {
    let words: Vec<String> = std::env::args().skip(1).collect();
    match words.iter().map(String::as_str).collect::<Vec<_>>()[..] {
        ["deep", format, operation] => {
            let number = |it: &str| it.parse().expect("a number");
            std::process::exit(measure::deep(number(format), number(operation)))
        }
        ["one", format, set, operation, count] => {
            let number = |it: &str| it.parse().expect("a number");
            measure::one(
                number(format),
                number(set),
                number(operation),
                number(count),
            )
        }
        ["row", index, rounds] => {
            let number = |it: &str| it.parse().expect("a number");
            let (index, rounds) = (number(index), number(rounds));
            on_a_large_stack(move || measure::print_times(index, rounds))
        }
        ["heap"] => on_a_large_stack(measure::heap),
        ["large", rows] => print!("{}", measure::said_by_child(&["large-child", rows])),
        ["large-child", rows] => large::print(rows.parse().expect("a number")),
        ["goals"] => on_a_large_stack(goals_alone),
        _ => on_a_large_stack(all),
    }
}
