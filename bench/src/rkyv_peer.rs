//! rkyv 0.7.39: written with `to_bytes` (256 bytes of scratch, as its documentation has it) or into a kept `AlignedVec` with kept scratch space, checked
//! with `check_archived_root`, read back with `from_bytes`. A number is written over through `archived_root_mut`, strings are compared by `cmp`.

use crate::format::{Operation, Ready, Set, Task, REFUSED};
use crate::rkyv_types::{Drawing, Event, Line, List, Node, Plain, Point, Record, Row, Spot, Tree};
use crate::{archives, sets};
use bytecheck::CheckBytes;
use rkyv::de::deserializers::SharedDeserializeMap;
use rkyv::ser::serializers::{
    AlignedSerializer, AllocScratch, AllocSerializer, CompositeSerializer, FallbackScratch,
    HeapScratch, SharedSerializeMap,
};
use rkyv::ser::Serializer;
use rkyv::validation::validators::DefaultValidator;
use rkyv::{AlignedVec, Archive, Deserialize, Fallible, Infallible, Serialize};
use std::collections::BTreeMap;
use std::fmt::Debug;
use std::hint::black_box;
use std::pin::Pin;
use std::rc::Rc;

type Scratch = FallbackScratch<HeapScratch<1024>, AllocScratch>;
// `M` keeps what is shared: nothing, or a map.
type Kept<M> = CompositeSerializer<AlignedSerializer<AlignedVec>, Scratch, M>;

fn write_into<T: Serialize<Kept<M>>, M: Fallible + Default>(
    value: &T,
    buffer: AlignedVec,
    scratch: Scratch,
) -> (AlignedVec, Scratch)
where
    M::Error: Debug,
{
    let mut serializer = Kept::new(AlignedSerializer::new(buffer), scratch, M::default());
    serializer
        .serialize_value(black_box(value))
        .expect("rkyv writes it");
    let (serializer, scratch, _) = serializer.into_components();
    (serializer.into_inner(), scratch)
}

fn aligned(bytes: &[u8]) -> AlignedVec {
    let mut held = AlignedVec::with_capacity(bytes.len());
    held.extend_from_slice(bytes);
    held
}

// The operation on a value. `archive` is its archive where it needn't be written first.
fn ready<T, M>(value: T, operation: Operation, archive: Option<AlignedVec>) -> Ready
where
    T: Archive + Serialize<AllocSerializer<256>> + Serialize<Kept<M>> + 'static,
    M: Fallible + Default,
    M::Error: Debug,
    T::Archived: for<'a> CheckBytes<DefaultValidator<'a>> + Deserialize<T, SharedDeserializeMap>,
{
    let written = || rkyv::to_bytes::<T, 256>(&value).expect("rkyv writes it");
    let (bytes, archive) = match (operation, archive) {
        (_, Some(archive)) => (archive.len(), archive),
        (_, None) => {
            let archive = written();
            (archive.len(), archive)
        }
    };
    let run: Box<dyn FnMut(usize) -> u64> = match operation {
        Operation::WriteNew => Box::new(move |count| {
            let mut total = 0;
            for _ in 0..count {
                total += rkyv::to_bytes::<T, 256>(black_box(&value))
                    .expect("rkyv writes it")
                    .len();
            }
            total as u64
        }),
        Operation::WriteReused => {
            let mut kept = Some((AlignedVec::with_capacity(bytes), Scratch::default()));
            Box::new(move |count| {
                let (mut buffer, mut scratch) = kept.take().expect("it is put back");
                let mut total = 0;
                for _ in 0..count {
                    buffer.clear();
                    (buffer, scratch) = write_into::<T, M>(&value, buffer, scratch);
                    total += black_box(&buffer).len();
                }
                kept = Some((buffer, scratch));
                total as u64
            })
        }
        Operation::Check | Operation::Access => {
            drop(value);
            Box::new(move |count| {
                for _ in 0..count {
                    if rkyv::check_archived_root::<T>(black_box(&archive)).is_err() {
                        return REFUSED;
                    }
                }
                count as u64
            })
        }
        Operation::Read => {
            drop(value);
            Box::new(move |count| {
                for _ in 0..count {
                    let Ok(back) = rkyv::from_bytes::<T>(black_box(&archive)) else {
                        return REFUSED;
                    };
                    black_box(&back);
                }
                count as u64
            })
        }
        Operation::Seal | Operation::Compare | Operation::Get | Operation::View => {
            unreachable!("they have tasks of their own")
        }
    };
    Ready {
        run,
        expected: None,
        bytes,
        prepares: false,
    }
}

fn record() -> Record {
    Record {
        byte: 42,
        text: "hello world".into(),
        list: Some(vec![1, 2, 3, 4]),
    }
}

fn plain() -> Plain {
    Plain {
        byte: 42,
        text: "hello world".into(),
        list: vec![1, 2, 3, 4],
    }
}

fn pointers(n: usize) -> Vec<Rc<String>> {
    let strings: Vec<Rc<String>> = (0..sets::shared_strings(n))
        .map(|key| Rc::new(sets::shared_string(key)))
        .collect();
    (0..n).map(|i| strings[i % strings.len()].clone()).collect()
}

// Goes from the root to the third number of the list, which was checked once, and writes another one over it.
fn write_third(bytes: &mut [u8], value: i32) -> bool {
    let root = unsafe { rkyv::archived_root_mut::<Record>(Pin::new(bytes)) };
    let list = unsafe { root.map_unchecked_mut(|it| &mut it.list) };
    let Some(list) = list.as_pin_mut() else {
        return false;
    };
    if list.len() <= 2 {
        return false;
    }
    *list.index_pin(2) = value;
    true
}

fn seal() -> Ready {
    let mut archive = rkyv::to_bytes::<Record, 256>(&record()).expect("rkyv writes it");
    Ready {
        bytes: archive.len(),
        run: Box::new(move |count| {
            if rkyv::check_archived_root::<Record>(&archive).is_err() {
                return REFUSED;
            }
            let mut written = 0;
            for round in 0..count {
                if write_third(black_box(&mut archive), (round & 0xffff) as i32) {
                    written += 1;
                }
            }
            written
        }),
        expected: Some(Box::new(|count| count as u64)),
        prepares: true,
    }
}

fn compare(n: usize) -> Ready {
    let archive = rkyv::to_bytes::<_, 256>(&sets::names(n)).expect("rkyv writes it");
    Ready {
        bytes: archive.len(),
        run: Box::new(move |count| {
            let names = unsafe { rkyv::archived_root::<Vec<String>>(&archive) };
            let lesser = |_| {
                let pairs = black_box(names).windows(2);
                pairs.filter(|it| it[0].cmp(&it[1]).is_lt()).count() as u64
            };
            (0..count).map(lesser).sum()
        }),
        expected: None,
        prepares: false,
    }
}

fn point() -> Point {
    Point {
        x: 3,
        y: -4,
        name: "hello world".into(),
        tags: sets::TAGS.map(String::from).to_vec(),
    }
}

fn line(i: usize) -> Line {
    let [from, to] = sets::line(i).map(|(right, up)| Spot { right, up });
    Line { from, to }
}

fn event(i: usize) -> Event {
    match sets::event(i) {
        sets::Event::Quit => Event::Quit,
        sets::Event::Key(key) => Event::Key(key),
        sets::Event::Text(text) => Event::Text(text),
        sets::Event::Move(x, y) => Event::Move { x, y },
        sets::Event::Batch(numbers) => Event::Batch(numbers),
    }
}

fn drawing(i: usize) -> Drawing {
    Drawing {
        first: line(i),
        lines: (i..i + 3).map(line).collect(),
        last: (i % 2 == 0).then(|| Box::new(line(i))),
        event: event(i),
    }
}

fn rows(n: usize) -> Vec<Row> {
    let made = (0..n).map(sets::row);
    made.map(|(id, name, values)| Row { id, name, values })
        .collect()
}

fn list(n: usize) -> Node {
    (0..n).fold(Node::Nil, |inner, _| Node::Cons(Box::new(inner)))
}

fn records(n: usize) -> List {
    let numbers = sets::numbers(n).into_iter();
    numbers.fold(List::Nil, |rest, it| List::Cons(it, Box::new(rest)))
}

fn tree(index: usize, height: usize) -> Tree {
    let children = index * 10..index * 10 + 10;
    Tree {
        value: sets::number(index),
        children: match height {
            0 => Vec::new(),
            _ => children.map(|it| tree(it, height - 1)).collect(),
        },
    }
}

fn pairs(n: usize) -> Vec<(bool, u32)> {
    (0..n).map(|i| (sets::bit(i), sets::number(i))).collect()
}

fn entries(n: usize) -> BTreeMap<u32, u32> {
    (0..n).map(|i| (sets::key(i), sets::number(i))).collect()
}

fn texts(n: usize) -> impl Iterator<Item = (String, u32)> {
    (0..n).map(|i| (sets::name(i), sets::number(i)))
}

// Goes through rows that were checked once.
fn view(n: usize) -> Ready {
    let archive = rkyv::to_bytes::<_, 256>(&rows(n)).expect("rkyv writes it");
    Ready {
        bytes: archive.len(),
        run: Box::new(move |count| {
            let sum = |_| {
                let rows = unsafe { rkyv::archived_root::<Vec<Row>>(black_box(&archive)) };
                let lengths = rows.iter().map(|it| it.name.len() + it.values.len());
                lengths.sum::<usize>() as u64
            };
            (0..count).map(sum).sum()
        }),
        expected: Some(Box::new(move |count| sets::sum_of_lengths(n, count))),
        prepares: false,
    }
}

// Looks keys up in a map that was checked once.
fn get(set: Set) -> Ready {
    let n = set.size();
    let next = move |index: usize| (index + sets::STRIDE) % n;
    let archive = match set {
        Set::Map(_) => rkyv::to_bytes::<_, 256>(&entries(n)),
        _ => rkyv::to_bytes::<_, 256>(&texts(n).collect::<BTreeMap<String, u32>>()),
    }
    .expect("rkyv writes it");
    let bytes = archive.len();
    let run: Box<dyn FnMut(usize) -> u64> = match set {
        Set::Map(_) => {
            let keys: Vec<u32> = (0..n).map(sets::key).collect();
            Box::new(move |count| {
                let map = unsafe { rkyv::archived_root::<BTreeMap<u32, u32>>(black_box(&archive)) };
                let indices = std::iter::successors(Some(0), |it| Some(next(*it))).take(count);
                let values = indices.filter_map(|it| map.get(&keys[it]));
                values.map(|it| u64::from(*it)).sum()
            })
        }
        _ => {
            let keys: Vec<String> = (0..n).map(sets::name).collect();
            Box::new(move |count| {
                let map =
                    unsafe { rkyv::archived_root::<BTreeMap<String, u32>>(black_box(&archive)) };
                let indices = std::iter::successors(Some(0), |it| Some(next(*it))).take(count);
                let values = indices.filter_map(|it| map.get(keys[it].as_str()));
                values.map(|it| u64::from(*it)).sum()
            })
        }
    };
    Ready {
        run,
        expected: Some(Box::new(move |count| sets::sum_of_values(n, count))),
        bytes,
        prepares: false,
    }
}

/// What rkyv writes of a list of numbers, a chain, a list or a tree.
pub fn written(set: Set) -> Vec<u8> {
    let written = match set {
        Set::Numbers(n) => rkyv::to_bytes::<_, 256>(&sets::numbers(n)),
        Set::Records(n) => rkyv::to_bytes::<_, 256>(&records(n)),
        Set::Tree(n) => rkyv::to_bytes::<_, 256>(&tree(0, n.ilog10() as usize)),
        _ => rkyv::to_bytes::<_, 256>(&list(set.size())),
    };
    written.expect("rkyv writes it").to_vec()
}

// The operation on a value that shares nothing.
fn unshared<T>(value: T, operation: Operation, archive: Option<AlignedVec>) -> Ready
where
    T: Archive + Serialize<AllocSerializer<256>> + Serialize<Kept<Infallible>> + 'static,
    T::Archived: for<'a> CheckBytes<DefaultValidator<'a>> + Deserialize<T, SharedDeserializeMap>,
{
    ready::<T, Infallible>(value, operation, archive)
}

pub fn task(set: Set, operation: Operation) -> Task {
    if operation == Operation::Get {
        return Task::Ready(get(set));
    }
    Task::Ready(match set {
        Set::Record if operation == Operation::Seal => seal(),
        Set::Rows(n) if operation == Operation::View => view(n),
        Set::Number => unshared(42u32, operation, None),
        Set::Text(n) => unshared(sets::text(n), operation, None),
        Set::Record => unshared(record(), operation, None),
        Set::Own => unshared(point(), operation, None),
        Set::Frames(n) => unshared((0..n).map(drawing).collect::<Vec<_>>(), operation, None),
        Set::Events(n) => unshared((0..n).map(event).collect::<Vec<_>>(), operation, None),
        Set::Plain => unshared(plain(), operation, None),
        Set::Numbers(n) => unshared(sets::numbers(n), operation, None),
        Set::Bools(n) => unshared((0..n).map(sets::bit).collect::<Vec<_>>(), operation, None),
        Set::Chars(n) => unshared(
            (0..n).map(sets::letter).collect::<Vec<_>>(),
            operation,
            None,
        ),
        Set::Shorts(n) => unshared((0..n).map(sets::short).collect::<Vec<_>>(), operation, None),
        Set::Rows(n) => unshared(rows(n), operation, None),
        Set::Shared(n) => ready::<_, SharedSerializeMap>(pointers(n), operation, None),
        Set::Pairs(n) => unshared(pairs(n), operation, None),
        Set::Map(n) => unshared(entries(n), operation, None),
        Set::TextPairs(n) => unshared(texts(n).collect::<Vec<_>>(), operation, None),
        Set::TextMap(n) => unshared(texts(n).collect::<BTreeMap<_, _>>(), operation, None),
        Set::Names(n) => compare(n),
        Set::Records(n) => unshared(records(n), operation, None),
        Set::Tree(n) => unshared(tree(0, n.ilog10() as usize), operation, None),
        // Its archive is the project's, so that a check needs no write before it, and no value.
        Set::List(n) => {
            let writes = matches!(operation, Operation::WriteNew | Operation::WriteReused);
            unshared(
                list(if writes { n } else { 0 }),
                operation,
                Some(aligned(&archives::of_list(n))),
            )
        }
    })
}
