//! The types that are compared, as rkyv 0.7.39 has them, each with the export that reads its value back and writes it again here.
use crate::random::Random;
use crate::Echo;
use bytecheck::CheckBytes;
use rkyv::{Archive, Deserialize, Serialize};
use std::collections::HashMap;
use std::rc::Rc;

macro_rules! exports {
    ($($name:ident)*) => {
        extern "C" {
            $(fn $name(bytes: *const u8, len: usize, out: *mut u8, room: usize) -> usize;)*
        }
    };
}

exports! {
    archive_compat_small archive_compat_padded archive_compat_wide archive_compat_array archive_compat_list
    archive_compat_lists archive_compat_rows archive_compat_box archive_compat_slice archive_compat_options
    archive_compat_boxed archive_compat_result archive_compat_record archive_compat_chain archive_compat_shared
    archive_compat_slices
}

/// A type that is compared.
pub trait Compared: PartialEq {
    const NAME: &'static str;
    const ECHO: Echo;
    fn any(random: &mut Random) -> Self;

    /// Whether these bytes, which rkyv 0.7.39 accepts, are among the differences that docs/DIFFERENCES.md names.
    fn is_named_difference(_bytes: &[u8]) -> bool {
        false
    }
}

#[derive(Archive, Serialize, Deserialize, PartialEq)]
#[archive_attr(repr(C), derive(CheckBytes))]
pub struct Small(u8, u32, bool);

impl Compared for Small {
    const NAME: &'static str = "record of `u8`, `u32`, `bool`";
    const ECHO: Echo = archive_compat_small;
    fn any(random: &mut Random) -> Self {
        Small(
            random.next() as u8,
            random.number() as u32,
            random.below(2) == 1,
        )
    }
}

#[derive(Archive, Serialize, Deserialize, PartialEq)]
#[archive_attr(repr(C), derive(CheckBytes))]
pub struct Padded(i16, u64, i8);

impl Compared for Padded {
    const NAME: &'static str = "record of `i16`, `u64`, `i8`";
    const ECHO: Echo = archive_compat_padded;
    fn any(random: &mut Random) -> Self {
        Padded(random.next() as i16, random.number(), random.next() as i8)
    }
}

#[derive(Archive, Serialize, Deserialize, PartialEq)]
#[archive_attr(repr(C), derive(CheckBytes))]
pub struct Wide(char, u128, i32);

fn any_char(random: &mut Random) -> char {
    loop {
        if let Some(found) = char::from_u32(random.number() as u32 & 0x1f_ffff) {
            return found;
        }
    }
}

impl Compared for Wide {
    const NAME: &'static str = "record of `char`, `u128`, `i32`";
    const ECHO: Echo = archive_compat_wide;
    fn any(random: &mut Random) -> Self {
        let wide = (u128::from(random.number()) << 64) | u128::from(random.next());
        Wide(any_char(random), wide, random.next() as i32)
    }
}

impl Compared for [u32; 5] {
    const NAME: &'static str = "`[u32; 5]`";
    const ECHO: Echo = archive_compat_array;
    fn any(random: &mut Random) -> Self {
        std::array::from_fn(|_| random.number() as u32)
    }
}

impl Compared for Vec<u32> {
    const NAME: &'static str = "`Vec<u32>`";
    const ECHO: Echo = archive_compat_list;
    fn any(random: &mut Random) -> Self {
        random.list(|random| random.number() as u32)
    }
}

impl Compared for Vec<Vec<u16>> {
    const NAME: &'static str = "`Vec<Vec<u16>>`";
    const ECHO: Echo = archive_compat_lists;
    fn any(random: &mut Random) -> Self {
        random.list(|random| random.list(|random| random.next() as u16))
    }
}

#[derive(Archive, Serialize, Deserialize, PartialEq)]
#[archive_attr(repr(C), derive(CheckBytes))]
pub struct Row(u8, u32);

impl Compared for Vec<Row> {
    const NAME: &'static str = "`Vec` of a record of `u8`, `u32`";
    const ECHO: Echo = archive_compat_rows;
    fn any(random: &mut Random) -> Self {
        random.list(|random| Row(random.next() as u8, random.number() as u32))
    }
}

impl Compared for Box<u64> {
    const NAME: &'static str = "`Box<u64>`";
    const ECHO: Echo = archive_compat_box;
    fn any(random: &mut Random) -> Self {
        Box::new(random.number())
    }
}

impl Compared for Box<[u16]> {
    const NAME: &'static str = "`Box<[u16]>`";
    const ECHO: Echo = archive_compat_slice;
    fn any(random: &mut Random) -> Self {
        random
            .list(|random| random.next() as u16)
            .into_boxed_slice()
    }
}

impl Compared for Vec<Option<u32>> {
    const NAME: &'static str = "`Vec<Option<u32>>`";
    const ECHO: Echo = archive_compat_options;
    fn any(random: &mut Random) -> Self {
        random.list(|random| {
            if random.below(2) == 0 {
                None
            } else {
                Some(random.number() as u32)
            }
        })
    }
}

impl Compared for Option<Box<u32>> {
    const NAME: &'static str = "`Option<Box<u32>>`";
    const ECHO: Echo = archive_compat_boxed;
    fn any(random: &mut Random) -> Self {
        if random.below(4) == 0 {
            None
        } else {
            Some(Box::new(random.number() as u32))
        }
    }
}

impl Compared for Result<u8, Vec<u32>> {
    const NAME: &'static str = "`Result<u8, Vec<u32>>`";
    const ECHO: Echo = archive_compat_result;
    fn any(random: &mut Random) -> Self {
        if random.below(3) == 0 {
            Ok(random.next() as u8)
        } else {
            Err(random.list(|random| random.number() as u32))
        }
    }
}

#[derive(Archive, Serialize, Deserialize, PartialEq)]
#[archive_attr(repr(C), derive(CheckBytes))]
pub struct Record(u8, Vec<i32>, Option<u16>);

impl Compared for Record {
    const NAME: &'static str = "record of `u8`, `Vec<i32>`, `Option<u16>`";
    const ECHO: Echo = archive_compat_record;
    fn any(random: &mut Random) -> Self {
        let third = if random.below(2) == 0 {
            None
        } else {
            Some(random.next() as u16)
        };
        Record(
            random.next() as u8,
            random.list(|random| random.next() as i32),
            third,
        )
    }
}

#[derive(Archive, Serialize, Deserialize, PartialEq)]
#[archive(bound(serialize = "__S: rkyv::ser::Serializer"))]
#[archive_attr(
    derive(CheckBytes),
    check_bytes(
        bound = "__C: rkyv::validation::ArchiveContext, <__C as rkyv::Fallible>::Error: std::error::Error"
    )
)]
pub enum Node {
    Nil,
    Cons(
        #[omit_bounds]
        #[archive_attr(omit_bounds)]
        Box<Node>,
    ),
}

impl Compared for Node {
    const NAME: &'static str = "recursive enum";
    const ECHO: Echo = archive_compat_chain;
    fn any(random: &mut Random) -> Self {
        let mut node = Node::Nil;
        for _ in 0..random.below(12) {
            node = Node::Cons(Box::new(node));
        }
        node
    }
}

impl Compared for Vec<Rc<u32>> {
    const NAME: &'static str = "`Vec<Rc<u32>>`";
    const ECHO: Echo = archive_compat_shared;
    fn any(random: &mut Random) -> Self {
        let values: [Rc<u32>; 3] = std::array::from_fn(|_| Rc::new(random.number() as u32));
        random.list(|random| values[random.below(3)].clone())
    }
}

impl Compared for Vec<Rc<[u32]>> {
    const NAME: &'static str = "`Vec<Rc<[u32]>>`";
    const ECHO: Echo = archive_compat_slices;
    fn any(random: &mut Random) -> Self {
        let values: [Rc<[u32]>; 3] = std::array::from_fn(|_| {
            let mut list = random.list(|random| random.number() as u32);
            list.push(random.number() as u32);
            Rc::from(list)
        });
        random.list(|random| values[random.below(3)].clone())
    }

    // Two pointers to one position with different lengths, or a pointer to an empty slice.
    fn is_named_difference(bytes: &[u8]) -> bool {
        let word = |at: usize| i32::from_le_bytes(bytes[at..at + 4].try_into().unwrap());
        let target = |at: usize| at as i64 + i64::from(word(at));
        let root = bytes.len() - 8;
        let mut lengths = HashMap::new();
        (0..word(root + 4) as usize).any(|index| {
            let at = target(root) as usize + 8 * index;
            let length = word(at + 4);
            length == 0 || *lengths.entry(target(at)).or_insert(length) != length
        })
    }
}
