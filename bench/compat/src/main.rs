//! Compares the project with rkyv 0.7.39 on types whose archives both have alike, and prints a table with a line for each type.
//!
//! * **written**: random values that rkyv writes. The project reads each one's bytes back and writes the value again, and the bytes must be the same: so each
//!   reads what the other wrote, and both write the same bytes. Where values are shared, their keys are the positions that they were read at.
//! * **changed**: these bytes cut at the end or at the start, with bytes written over, or with four bytes that are a small offset or length. Both accept or
//!   both refuse them. Where both accept, each reads the value back and writes it again, and the bytes must be the same.
//!
//! Differences that docs/DIFFERENCES.md names are counted apart. Any other one is printed with its bytes, the first eight of each type, and the status is then
//! 1.
mod random;
mod types;

use bytecheck::CheckBytes;
use random::Random;
use rkyv::de::deserializers::SharedDeserializeMap;
use rkyv::ser::serializers::AllocSerializer;
use rkyv::validation::validators::DefaultValidator;
use rkyv::{AlignedVec, Archive, Deserialize, Serialize};
use std::fmt::Write;
use std::rc::Rc;
use types::{Compared, Node, Padded, Record, Row, Small, Wide};

/// An export of the project: it reads bytes back and writes the value again over `out`. The number of bytes written and one, or 0 where it refuses.
pub type Echo = unsafe extern "C" fn(*const u8, usize, *mut u8, usize) -> usize;

const VALUES: usize = 10_000;
const CHANGES: usize = 50_000;

// What the project reads back and writes again; none where it refuses the bytes.
fn project(echo: Echo, bytes: &[u8]) -> Option<Vec<u8>> {
    let mut out = vec![0xcc; 4 * bytes.len() + 64];
    // SAFETY: the export reads the first slice and writes to the second one, each within its length.
    let written = unsafe { echo(bytes.as_ptr(), bytes.len(), out.as_mut_ptr(), out.len()) };
    out.truncate(written.checked_sub(1)?);
    Some(out)
}

// What rkyv reads back and writes again; none where it refuses the bytes.
fn original<T>(bytes: &[u8]) -> Option<Vec<u8>>
where
    T: Archive + Serialize<AllocSerializer<256>>,
    T::Archived: for<'a> CheckBytes<DefaultValidator<'a>> + Deserialize<T, SharedDeserializeMap>,
{
    let mut aligned = AlignedVec::new();
    aligned.extend_from_slice(bytes);
    let archived = rkyv::check_archived_root::<T>(&aligned).ok()?;
    let value: T = archived
        .deserialize(&mut SharedDeserializeMap::new())
        .ok()?;
    Some(written(&value))
}

fn written<T: Serialize<AllocSerializer<256>>>(value: &T) -> Vec<u8> {
    rkyv::to_bytes::<_, 256>(value).expect("memory").to_vec()
}

// The bytes cut, or written over in places.
fn changed(random: &mut Random, bytes: &[u8]) -> Vec<u8> {
    let mut changed = bytes.to_vec();
    match random.below(8) {
        0 => changed.truncate(random.below(bytes.len() + 1)),
        1 => drop(changed.drain(..random.below(bytes.len() + 1))),
        _ => {}
    }
    for _ in 0..random.below(3) {
        if changed.is_empty() {
            break;
        }
        let at = random.below(changed.len());
        changed[at] = [0, 1, 2, 0x7f, 0x80, 0xff, random.next() as u8][random.below(7)];
    }
    if random.below(2) == 0 && changed.len() >= 4 {
        let at = random.below(changed.len() / 4) * 4;
        let small = random.below(2 * changed.len() + 8) as i32 - changed.len() as i32;
        changed[at..at + 4].copy_from_slice(&small.to_le_bytes());
    }
    changed
}

#[derive(Default)]
struct Found {
    written: usize,
    changed: usize,
    accepted: usize,
    refused_here_alone: usize,
    refused_there_alone: usize,
    other_values: usize,
    named: usize,
    shown: usize,
}

impl Found {
    fn show(&mut self, what: &str, bytes: &[u8], here: &Option<Vec<u8>>, there: &Option<Vec<u8>>) {
        self.shown += 1;
        if self.shown > 8 {
            return;
        }
        let hex = |bytes: &[u8]| {
            bytes.iter().fold(String::new(), |mut all, byte| {
                write!(all, "{byte:02x}").unwrap();
                all
            })
        };
        let or = |echo: &Option<Vec<u8>>| echo.as_ref().map_or("refused".into(), |it| hex(it));
        println!(
            "{what}: {}\n    here {}\n    rkyv {}",
            hex(bytes),
            or(here),
            or(there)
        );
    }
}

fn compare<T>(seed: u64) -> bool
where
    T: Compared + Archive + Serialize<AllocSerializer<256>>,
    T::Archived: for<'a> CheckBytes<DefaultValidator<'a>> + Deserialize<T, SharedDeserializeMap>,
{
    let mut random = Random::new(seed);
    let mut found = Found::default();
    let mut archives = Vec::new();
    for _ in 0..VALUES {
        let bytes = written(&T::any(&mut random));
        let here = project(T::ECHO, &bytes);
        if here.as_ref() == Some(&bytes) {
            found.written += 1;
        } else {
            found.show("written", &bytes, &here, &Some(bytes.clone()));
        }
        archives.push(bytes);
    }
    for turn in 0..CHANGES {
        let bytes = changed(&mut random, &archives[turn % VALUES]);
        let (here, there) = (project(T::ECHO, &bytes), original::<T>(&bytes));
        if here != there && there.is_some() && T::is_named_difference(&bytes) {
            found.named += 1;
            continue;
        }
        match (&here, &there) {
            (None, None) => found.changed += 1,
            (Some(one), Some(other)) if one == other => {
                found.changed += 1;
                found.accepted += 1;
            }
            (None, Some(_)) => found.refused_here_alone += 1,
            (Some(_), None) => found.refused_there_alone += 1,
            _ => found.other_values += 1,
        }
        if here != there {
            found.show("changed", &bytes, &here, &there);
        }
    }
    println!(
        "| {} | {} of {VALUES} | {} of {CHANGES} | {} | {} | {} | {} | {} |",
        T::NAME,
        found.written,
        found.changed,
        found.accepted,
        found.named,
        found.refused_here_alone,
        found.refused_there_alone,
        found.other_values
    );
    found.written == VALUES && found.changed + found.named == CHANGES
}

fn main() {
    println!("| Type | written alike | changed, judged alike | of which accepted | named differences | refused here alone | refused by rkyv alone | read as other values |");
    println!("|---|---|---|---|---|---|---|---|");
    let alike = [
        compare::<Small>(1),
        compare::<Padded>(2),
        compare::<Wide>(3),
        compare::<[u32; 5]>(4),
        compare::<Vec<u32>>(5),
        compare::<Vec<Vec<u16>>>(6),
        compare::<Vec<Row>>(7),
        compare::<Box<u64>>(8),
        compare::<Box<[u16]>>(9),
        compare::<Vec<Option<u32>>>(10),
        compare::<Option<Box<u32>>>(11),
        compare::<Result<u8, Vec<u32>>>(12),
        compare::<Record>(13),
        compare::<Node>(14),
        compare::<Vec<Rc<u32>>>(15),
        compare::<Vec<Rc<[u32]>>>(16),
    ];
    std::process::exit(i32::from(alike.contains(&false)));
}
