//! RESULTS.md, and the short table in the README.

use crate::format::{grouped, Format, Operation, Set};
use crate::goals;
use crate::measure::{self, Cell, HeapRow, Row, GROWING, GROWTH, SETS};
use std::fmt::Write;
use std::fs;
use std::process::Command;

/// What the figures were taken with.
pub struct Machine {
    lines: Vec<String>,
    load: String,
}

// What a command prints, on one line.
fn said(program: &str, words: &[&str]) -> String {
    let done = Command::new(program).args(words).output();
    done.map(|it| {
        String::from_utf8_lossy(&it.stdout)
            .trim()
            .replace('\n', ", ")
    })
    .unwrap_or_default()
}

// The loads of the last 1, 5 and 15 minutes.
fn load() -> String {
    let text = fs::read_to_string("/proc/loadavg").unwrap_or_default();
    text.split(' ').take(3).collect::<Vec<_>>().join(" ")
}

/// Whether the tree has changes that aren't committed, other than those that a run makes: nobody could take the figures anew.
pub fn is_changed() -> bool {
    let made = [":!RESULTS.md", ":!results.svg", ":!../README.md"];
    let words = [&["status", "--porcelain", "--", ".."], &made[..]].concat();
    !said("git", &words).is_empty()
}

/// How many others run or wait for a processor just now, but this program itself.
pub fn others() -> f64 {
    let text = fs::read_to_string("/proc/loadavg").unwrap_or_default();
    let running = text.split(' ').nth(3).and_then(|it| it.split('/').next());
    let running: f64 = running.and_then(|it| it.parse().ok()).unwrap_or(1.0);
    (running - 1.0).max(0.0)
}

// What is said of a run beside which others ran; nothing on a quiet machine.
fn warning(others: f64) -> String {
    if others < 0.5 {
        return String::new();
    }
    format!("**This run was not on a quiet machine**: {others:.1} others ran beside it on average, so its figures are to be taken anew.\n\n")
}

fn processor() -> String {
    let text = fs::read_to_string("/proc/cpuinfo").unwrap_or_default();
    let model = text
        .lines()
        .find(|it| it.starts_with("model name"))
        .and_then(|it| it.split(": ").nth(1))
        .unwrap_or("unknown")
        .to_string();
    format!(
        "{model}, {} processors",
        text.lines()
            .filter(|it| it.starts_with("processor"))
            .count()
    )
}

impl Machine {
    pub fn now() -> Machine {
        let package = |name: &str| said("dpkg-query", &["-W", "-f=${Version}", name]);
        let commit = said("git", &["describe", "--always"]);
        let lines = vec![
            format!(
                "Date: {}. Commit: {commit}.",
                said("date", &["-u", "+%Y-%m-%d %H:%M UTC"])
            ),
            format!("Machine: {}, {}.", processor(), said("uname", &["-sr"])),
            format!(
                "archive-core: `{}`, for x86-64-v2.",
                said("rt", &["version"])
            ),
            format!(
                "rkyv {} with {}, optimized (`opt-level` 3, fat LTO), for x86-64-v2.",
                package("librust-rkyv-dev"),
                said("rustc", &["--version"])
            ),
            format!(
                "FlatBuffers {} and Cap'n Proto {} with {}, `-O3`, for x86-64-v2.",
                package("libflatbuffers-dev"),
                package("libcapnp-dev"),
                said("g++", &["--version"])
                    .split(", ")
                    .next()
                    .unwrap_or_default()
            ),
        ];
        Machine {
            lines,
            load: load(),
        }
    }
}

/// A ratio with two digits that say something.
pub fn ratio(number: f64) -> String {
    match number {
        n if n >= 99.5 => grouped(n.round()),
        n if n >= 9.95 => format!("{n:.0}"),
        n if n >= 0.995 => format!("{n:.1}"),
        n if n >= 0.00995 => format!("{n:.2}"),
        n => format!("{n:.4}"),
    }
}

// No memory is read so fast, in MB/s: what is faster doesn't look at each byte.
const FASTEST: f64 = 300_000.0;

fn shown(row: &Row, format: Format) -> String {
    match &row.cells[format as usize] {
        Cell::Word(why) => why.clone(),
        Cell::Time { ns, bytes } => {
            let speed = *bytes as f64 * 1000.0 / ns.max(0.01);
            let time = if speed < FASTEST {
                format!("{} ns, {} MB/s", grouped(*ns), grouped(speed.round()))
            } else {
                format!("{} ns", grouped(*ns))
            };
            match row.ratio(format) {
                Some(it) if format != Format::Project => format!("{time}, **{}**", ratio(it)),
                _ => time,
            }
        }
    }
}

const INTRODUCTION: &str = include_str!("introduction.md");

fn tables(out: &mut String, rows: &[Row]) {
    for (set, limited) in SETS {
        let limits = if limited {
            ", each with its own limits"
        } else {
            ""
        };
        writeln!(out, "\n### {}{limits}\n", capital(&set.title())).unwrap();
        let sizes = rows.iter().find(|it| it.set == set).map(|row| {
            let of = |format: Format| match &row.cells[format as usize] {
                Cell::Time { bytes, .. } => {
                    Some(format!("{} {}", format.title(), grouped(*bytes as f64)))
                }
                Cell::Word(_) => None,
            };
            let copied = of(Format::Copy).map(|it| it.replace("memcpy", "archive-core"));
            copied
                .into_iter()
                .chain(
                    [Format::Rkyv, Format::Flat, Format::Proto]
                        .into_iter()
                        .filter_map(of),
                )
                .collect::<Vec<_>>()
                .join(", ")
        });
        writeln!(out, "Archives in bytes: {}.\n", sizes.unwrap_or_default()).unwrap();
        writeln!(
            out,
            "| |{}|",
            Format::ALL
                .map(|it| format!(" {} ", it.title_in(set)))
                .join("|")
        )
        .unwrap();
        writeln!(out, "|---|{}|", ["---:"; 5].join("|")).unwrap();
        for row in rows.iter().filter(|it| it.set == set) {
            let cells = Format::ALL.map(|format| shown(row, format));
            writeln!(out, "| {} | {} |", row.operation.title(), cells.join(" | ")).unwrap();
        }
    }
}

fn capital(text: &str) -> String {
    let mut letters = text.chars();
    letters
        .next()
        .map(|it| it.to_uppercase().collect::<String>() + letters.as_str())
        .unwrap_or_default()
}

// A row for each set and operation, a column for each format and one for the ratio to the least peer.
fn heap_table(out: &mut String, heap: &[HeapRow]) {
    let formats = GROWING.map(|it| format!(" {} ", it.title()));
    writeln!(out, "| set | operation |{}| ratio |", formats.join("|")).unwrap();
    writeln!(out, "|---|---|{}---:|", "---:|".repeat(GROWING.len())).unwrap();
    for row in heap {
        let shown = |it: &Option<usize>| it.map_or("–".into(), |it| grouped(it as f64));
        let peaks: Vec<String> = row.peaks.iter().map(shown).collect();
        let of_least = match row.of_least() {
            None => "–".into(),
            Some(it) if it.is_infinite() => "above 0".into(),
            Some(it) => format!("**{}**", ratio(it)),
        };
        let (set, operation) = (row.set.title(), row.operation.title());
        let peaks = peaks.join(" | ");
        writeln!(out, "| {set} | {operation} | {peaks} | {of_least} |").unwrap();
    }
}

// A row for each set, operation and format, a column for each size.
fn growth_table(out: &mut String, growth: &[Row], heap: &[HeapRow]) {
    let sizes = measure::SIZES.map(|it| format!(" {} ", grouped(it as f64)));
    writeln!(out, "| set | operation | format |{}|", sizes.join("|")).unwrap();
    writeln!(
        out,
        "|---|---|---|{}|",
        ["---:"; measure::SIZES.len()].join("|")
    )
    .unwrap();
    let rows: Vec<(&Row, &HeapRow)> = growth.iter().zip(heap).collect();
    for family in rows.chunks(measure::SIZES.len() * GROWTH.len()) {
        for operation in GROWTH {
            for (place, format) in GROWING.iter().enumerate() {
                let of_operation = family.iter().filter(|(row, _)| row.operation == operation);
                let cells = of_operation
                    .map(|(row, heap)| grown(row, heap.peaks[place], place))
                    .collect::<Vec<_>>();
                let set = family[0].0.set.family();
                writeln!(
                    out,
                    "| {set} | {} | {} | {} |",
                    operation.title(),
                    format.title(),
                    cells.join(" | ")
                )
                .unwrap();
            }
        }
    }
}

// The time and the heap's peak, each for one element.
fn grown(row: &Row, peak: Option<usize>, place: usize) -> String {
    let elements = row.set.size() as f64;
    match (&row.cells[place], peak) {
        (Cell::Time { ns, .. }, Some(peak)) => format!(
            "{} · {}",
            short(ns / elements),
            short(peak as f64 / elements)
        ),
        (Cell::Word(why), _) => why.clone(),
        (_, None) => "–".into(),
    }
}

// A number of three digits or so.
fn short(number: f64) -> String {
    match number {
        n if n >= 100.0 => grouped(n.round()),
        n if n >= 10.0 => format!("{n:.0}"),
        n if n >= 1.0 => format!("{n:.1}"),
        n if n >= 0.01 => format!("{n:.2}"),
        n if n >= 0.00005 => format!("{n:.4}"),
        _ => "0".into(),
    }
}

// The ratios alone: to rkyv, FlatBuffers and Cap'n Proto, by set and operation, of the sets that are wanted.
fn short_table(rows: &[Row], wanted: impl Fn(&str) -> bool) -> String {
    let mut out = String::new();
    writeln!(
        out,
        "| archive-core's time / rkyv's · FlatBuffers' · Cap'n Proto's |{}|",
        Operation::ALL
            .map(|it| format!(" {} ", it.title()))
            .join("|")
    )
    .unwrap();
    writeln!(out, "|---|{}|", ["---"; 5].join("|")).unwrap();
    let wanted = |set: Set| wanted(&set.title()) && set.operations().starts_with(&Operation::ALL);
    for (set, _) in SETS.into_iter().filter(|(set, _)| wanted(*set)) {
        let of_columns = |it: &&Row| it.set == set && Operation::ALL.contains(&it.operation);
        let cells = rows.iter().filter(of_columns).map(|row| {
            if let Cell::Word(why) = &row.cells[Format::Project as usize] {
                return why.clone();
            }
            let of = |format: Format| match &row.cells[format as usize] {
                Cell::Word(why) => why.clone(),
                Cell::Time { .. } => row.ratio(format).map_or("–".into(), ratio),
            };
            [Format::Rkyv, Format::Flat, Format::Proto]
                .map(of)
                .join(" · ")
        });
        writeln!(
            out,
            "| {} | {} |",
            set.title(),
            cells.collect::<Vec<_>>().join(" | ")
        )
        .unwrap();
    }
    out
}

// The sets whose ratios the README has.
const IN_README: [&str; 4] = [
    "one u32",
    "string of 11 bytes",
    "10,000 rows",
    "chain of 100,000 boxes",
];
const README: &str = "../README.md";
const BEGIN: &str = "<!-- the ratios, by bench/run -->\n";
const END: &str = "<!-- end of the ratios -->";

// Puts the ratios into the README, between the two lines that mark their place.
fn readme(table: &str) {
    let Ok(text) = fs::read_to_string(README) else {
        return;
    };
    let (Some(begin), Some(end)) = (text.find(BEGIN), text.find(END)) else {
        return;
    };
    let whole = format!("{}{table}{}", &text[..begin + BEGIN.len()], &text[end..]);
    fs::write(README, whole).expect("the README is written");
}

/// What a run measured, and with what.
pub struct Taken {
    pub machine: Machine,
    pub rounds: usize,
    /// How many others ran beside it, on average.
    pub others: f64,
    pub rows: Vec<Row>,
    /// The heap of each of these rows.
    pub heap: Vec<HeapRow>,
    pub growth: Vec<Row>,
    /// And of those of growth.
    pub heap_growth: Vec<HeapRow>,
}

const HEAP: &str = "\n## The heap

The most bytes that an operation held beyond the value, the bytes or the schema it is given, what it makes included, as a counter in place of `malloc`
tells (`bench/heap`); a buffer that is reused has grown before. The ratio is archive-core's to the least of the peers'.

";

const GROWS: &str = "\n## How time and heap grow

By the number of elements: nanoseconds · bytes of heap, each **divided by that number**. Where they stay the same from one size to the next, time or
heap is linear.

";

/// Writes RESULTS.md and the README's table.
pub fn write(taken: &Taken) {
    let rows = &taken.rows;
    let mut out = String::from("# archive-core beside its peers\n\n");
    out.push_str(&warning(taken.others));
    out.push_str(INTRODUCTION);
    out.push('\n');
    for line in &taken.machine.lines {
        writeln!(out, "- {line}").unwrap();
    }
    let (rounds, at_start) = (taken.rounds, &taken.machine.load);
    writeln!(out, "- The least of {rounds} rounds in all layouts together. Load of the machine (1, 5 and 15 minutes): {at_start} at the start, {} at the end.", load()).unwrap();
    writeln!(
        out,
        "\n![The ratios as bars](results.svg)\n\n## What is wanted, and what was measured\n\n{}",
        goals::table(rows, &taken.heap)
    )
    .unwrap();
    writeln!(out, "## The ratios\n\n{}", short_table(rows, |_| true)).unwrap();
    out.push_str("## Times, speeds and ratios\n");
    tables(&mut out, rows);
    out.push_str(HEAP);
    heap_table(&mut out, &taken.heap);
    out.push_str(GROWS);
    growth_table(&mut out, &taken.growth, &taken.heap_growth);
    fs::write("RESULTS.md", out).expect("RESULTS.md is written");
    let table = short_table(rows, |title| IN_README.contains(&title));
    readme(&(warning(taken.others) + &table));
}
