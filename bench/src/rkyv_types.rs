//! The types of the sets, archived by rkyv's derive: own ones as they are declared for the project's.

use bytecheck::CheckBytes;
use rkyv::ser::{ScratchSpace, Serializer};
use rkyv::{Archive, Deserialize, Serialize};

#[derive(Archive, Serialize, Deserialize)]
#[archive_attr(derive(CheckBytes))]
pub struct Record {
    pub byte: u8,
    pub text: String,
    pub list: Option<Vec<i32>>,
}

#[derive(Archive, Serialize, Deserialize)]
#[archive_attr(derive(CheckBytes))]
pub struct Plain {
    pub byte: u8,
    pub text: String,
    pub list: Vec<i32>,
}

#[derive(Archive, Serialize, Deserialize)]
#[archive_attr(derive(CheckBytes))]
pub struct Point {
    pub x: i32,
    pub y: i32,
    pub name: String,
    pub tags: Vec<String>,
}

#[derive(Archive, Serialize, Deserialize)]
#[archive_attr(derive(CheckBytes))]
pub struct Spot {
    pub right: u16,
    pub up: i16,
}

#[derive(Archive, Serialize, Deserialize)]
#[archive_attr(derive(CheckBytes))]
pub struct Line {
    pub from: Spot,
    pub to: Spot,
}

#[derive(Archive, Serialize, Deserialize)]
#[archive_attr(derive(CheckBytes))]
pub struct Drawing {
    pub first: Line,
    pub lines: Vec<Line>,
    pub last: Option<Box<Line>>,
    pub event: Event,
}

#[derive(Archive, Serialize, Deserialize)]
#[archive_attr(derive(CheckBytes))]
pub enum Event {
    Quit,
    Key(char),
    Text(String),
    Move { x: i32, y: i32 },
    Batch(Vec<u32>),
}

#[derive(Archive, Serialize, Deserialize)]
#[archive_attr(derive(CheckBytes))]
pub struct Row {
    pub id: u64,
    pub name: String,
    pub values: Vec<u32>,
}

#[derive(Archive, Serialize, Deserialize)]
#[archive(bound(serialize = "__S: Serializer"))]
#[archive_attr(
    derive(CheckBytes),
    check_bytes(
        bound = "__C: rkyv::validation::ArchiveContext, <__C as rkyv::Fallible>::Error: std::error::Error"
    )
)]
pub enum Node {
    Nil,
    Cons(
        #[omit_bounds]
        #[archive_attr(omit_bounds)]
        Box<Node>,
    ),
}

#[derive(Archive, Serialize, Deserialize)]
#[archive(bound(serialize = "__S: Serializer"))]
#[archive_attr(
    derive(CheckBytes),
    check_bytes(
        bound = "__C: rkyv::validation::ArchiveContext, <__C as rkyv::Fallible>::Error: std::error::Error"
    )
)]
pub enum List {
    Nil,
    Cons(
        u32,
        #[omit_bounds]
        #[archive_attr(omit_bounds)]
        Box<List>,
    ),
}

#[derive(Archive, Serialize, Deserialize)]
#[archive(bound(serialize = "__S: Serializer + ScratchSpace"))]
#[archive_attr(
    derive(CheckBytes),
    check_bytes(
        bound = "__C: rkyv::validation::ArchiveContext, <__C as rkyv::Fallible>::Error: std::error::Error"
    )
)]
pub struct Tree {
    pub value: u32,
    #[omit_bounds]
    #[archive_attr(omit_bounds)]
    pub children: Vec<Tree>,
}
