//! The calls and returns of a log in a doubly linked list, by tick and within a tick the calls first,
//! so that a return stands before a call exactly if its tick is lower. The two entries of an operation
//! that has been placed are lifted out, and put back when it is taken back, in constant time each.

use yauponroof_tests::model::history::{Operation, Stamp};

/// What an entry of the list stands for.
#[derive(Clone, Copy)]
pub enum Event {
    /// The call of the operation with that number.
    Call(u16),
    /// A return, or the end of the list: nothing behind it can come next.
    Barrier,
}

/// The entry of the record that is taken as number i is the one with the index i + 1. An entry before
/// the first record and one behind the last are never lifted out.
pub struct CallList {
    entries: Vec<Entry>,
}

#[derive(Clone, Copy)]
struct Entry {
    before: u32,
    behind: u32,
    event: Event,
}

const START: usize = 0;

fn entry_of(record: Stamp) -> usize {
    record.place + 1
}

impl CallList {
    /// The list of all records of these operations.
    pub fn new(operations: &[Operation]) -> CallList {
        let last_entry = |o: &Operation| entry_of(o.returned.unwrap_or(o.call));
        let end = operations.iter().map(last_entry).max().unwrap_or(START) + 1;
        let linked = |index: u32| Entry {
            before: index.wrapping_sub(1),
            behind: index + 1,
            event: Event::Barrier,
        };
        let mut entries: Vec<Entry> = (0..=end as u32).map(linked).collect();
        for (number, operation) in (0..).zip(operations) {
            entries[entry_of(operation.call)].event = Event::Call(number);
        }
        CallList { entries }
    }

    pub fn event(&self, entry: usize) -> Event {
        self.entries[entry].event
    }

    /// The first entry that has not been lifted out.
    pub fn first(&self) -> usize {
        self.behind(START)
    }

    pub fn behind(&self, entry: usize) -> usize {
        self.entries[entry].behind as usize
    }

    pub fn lift(&mut self, operation: &Operation) {
        self.unlink(entry_of(operation.call));
        if let Some(returned) = operation.returned {
            self.unlink(entry_of(returned));
        }
    }

    /// Puts back the operation that was lifted out last. The answer is the entry of its call.
    pub fn put_back(&mut self, operation: &Operation) -> usize {
        if let Some(returned) = operation.returned {
            self.link(entry_of(returned));
        }
        let call = entry_of(operation.call);
        self.link(call);
        call
    }

    fn unlink(&mut self, entry: usize) {
        let Entry { before, behind, .. } = self.entries[entry];
        self.entries[before as usize].behind = behind;
        self.entries[behind as usize].before = before;
    }

    fn link(&mut self, entry: usize) {
        let Entry { before, behind, .. } = self.entries[entry];
        self.entries[before as usize].behind = entry as u32;
        self.entries[behind as usize].before = entry as u32;
    }
}
