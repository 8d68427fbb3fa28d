//! FlatBuffers and Cap'n Proto, in C++ (peers/).

use crate::format::{Format, Operation, Ready, Set, Task};

enum Case {}

type Make = unsafe extern "C" fn(i32, usize, bool) -> *mut Case;
type Length = unsafe extern "C" fn(*mut Case) -> usize;
type Run = unsafe extern "C" fn(*mut Case, i32, usize) -> u64;
type Free = unsafe extern "C" fn(*mut Case);

extern "C" {
    fn flat_make(set: i32, size: usize, limited: bool) -> *mut Case;
    fn flat_bytes(case: *mut Case) -> usize;
    fn flat_run(case: *mut Case, operation: i32, count: usize) -> u64;
    fn flat_free(case: *mut Case);
    fn proto_make(set: i32, size: usize, limited: bool) -> *mut Case;
    fn proto_bytes(case: *mut Case) -> usize;
    fn proto_run(case: *mut Case, operation: i32, count: usize) -> u64;
    fn proto_free(case: *mut Case);
}

// One set in one format.
struct Held {
    case: *mut Case,
    run: Run,
    free: Free,
}

impl Held {
    fn run(&mut self, operation: i32, count: usize) -> u64 {
        unsafe { (self.run)(self.case, operation, count) }
    }
}

impl Drop for Held {
    fn drop(&mut self) {
        unsafe { (self.free)(self.case) }
    }
}

pub fn task(format: Format, set: Set, operation: Operation, limited: bool) -> Task {
    let (make, length, run, free): (Make, Length, Run, Free) = match format {
        Format::Flat => (flat_make, flat_bytes, flat_run, flat_free),
        _ => (proto_make, proto_bytes, proto_run, proto_free),
    };
    let number = match operation {
        Operation::WriteNew => 0,
        Operation::WriteReused => 1,
        Operation::Check | Operation::Access => 2,
        Operation::Read => 3,
        Operation::Get if format == Format::Flat => 4,
        Operation::Seal | Operation::Compare | Operation::Get | Operation::View => {
            return Task::Absent
        }
    };
    // Neither looks at the bytes of a text when it checks one.
    let is_unseen = number == 2 && matches!(set, Set::Text(_));
    let Some(set_number) = set.number().filter(|_| !is_unseen) else {
        return Task::Absent;
    };
    let case = unsafe { make(set_number, set.size(), limited) };
    if case.is_null() {
        return Task::Absent;
    }
    let bytes = unsafe { length(case) };
    let mut held = Held { case, run, free };
    let sum = move |count| crate::sets::sum_of_values(set.size(), count);
    Task::Ready(Ready {
        run: Box::new(move |count| held.run(number, count)),
        expected: (operation == Operation::Get).then(|| Box::new(sum) as Box<dyn Fn(usize) -> u64>),
        bytes,
        prepares: false,
    })
}
