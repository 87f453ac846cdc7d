//! Chains of values: each is added before the one before it is removed, so that together they cover
//! all gaps of an empty remove that overlaps them. A chain may be broken in places.

use crate::logs::ticks::rising;
use crate::model::record::{call_add, call_remove, return_add, return_value, Record};

/// What becomes of the last value of a chain.
#[derive(Clone, Copy, Debug, PartialEq, Eq)]
pub enum Last {
    Removed,
    Kept,
}

/// The records of a chain of `count` values, and the places where the queue may be empty.
pub struct Chain {
    pub records: Vec<Record>,
    /// Gap g, between the records g and g + 1, for each g in this list is covered by no value; so
    /// are those before record 1, and if the last value is removed the last two.
    pub breaks: Vec<usize>,
}

/// The client that adds and the client that removes.
const ADDER: u16 = 0;
const REMOVER: u16 = 1;

/// A chain of `count` values, with ticks that rise. Where `breaks` says so of a value, the value
/// before it is called to be removed before its own add returns, and a gap is left.
pub fn chain(count: u32, last: Last, mut breaks: impl FnMut(u32) -> bool) -> Chain {
    let mut chain = Chain {
        records: vec![call_add(ADDER, 0, 0), return_add(ADDER, 0)],
        breaks: Vec::new(),
    };
    for value in 1..count {
        chain.hand_over(value, breaks(value));
    }
    if last == Last::Removed {
        chain.records.push(call_remove(REMOVER, 0));
        chain.records.push(return_value(REMOVER, 0, count - 1));
    }
    chain.records = rising(&chain.records);
    chain
}

impl Chain {
    fn hand_over(&mut self, value: u32, breaks: bool) {
        self.records.push(call_add(ADDER, 0, value));
        if breaks {
            self.breaks.push(self.records.len());
            self.records.push(call_remove(REMOVER, 0));
            self.records.push(return_add(ADDER, 0));
        } else {
            self.records.push(return_add(ADDER, 0));
            self.records.push(call_remove(REMOVER, 0));
        }
        self.records.push(return_value(REMOVER, 0, value - 1));
    }
}
