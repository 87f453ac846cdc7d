//! Logs written out of a log, record by record: narrowing to values (a projection), and the excerpt
//! kept with a pattern.

use crate::model::history::{operations, Action, Operation};
use crate::model::record::{Record, Removed};
use crate::model::violations::Violation;

/// "Narrowing to a list of values keeps all records of operations on those values and nothing
/// else; repeats in the list change nothing."
pub fn narrowed(records: &[Record], values: &[u32]) -> Vec<Record> {
    kept(records, |_, operation| {
        value_of(operation).is_some_and(|value| values.contains(&value))
    })
}

/// "The log of all records of all operations on the values of the listed operations, and of the
/// listed empty remove, in their places, with clients and ticks as they were."
pub fn excerpted(records: &[Record], violation: &Violation) -> Vec<Record> {
    let all = operations(records);
    let is_listed = |number: usize| violation.operations.contains(&(number as u16));
    let numbers = (0..all.len()).filter(|&number| is_listed(number));
    let values: Vec<u32> = numbers.filter_map(|o| value_of(&all[o])).collect();
    kept(records, |number, operation| match value_of(operation) {
        Some(value) => values.contains(&value),
        None => is_listed(number),
    })
}

/// The records of such operations, in their places.
fn kept(records: &[Record], such: impl Fn(usize, &Operation) -> bool) -> Vec<Record> {
    let mut keep = vec![false; records.len()];
    for (number, operation) in operations(records).iter().enumerate() {
        let is_kept = such(number, operation);
        keep[operation.call.index] = is_kept;
        if let Some(returned) = operation.returned {
            keep[returned.index] = is_kept;
        }
    }
    let places = (0..records.len()).filter(|&at| keep[at]);
    places.map(|at| records[at]).collect()
}

/// The value that an operation is on; an empty remove is on none, nor is one that has not returned.
fn value_of(operation: &Operation) -> Option<u32> {
    match operation.action {
        Action::Add(value) | Action::Remove(Removed::Value(value)) => Some(value),
        Action::Remove(Removed::Empty) | Action::PendingRemove => None,
    }
}

/// The values of the log's operations, each once, in the order in which they first appear.
pub fn values(records: &[Record]) -> Vec<u32> {
    let mut values = Vec::new();
    for value in operations(records).iter().filter_map(value_of) {
        if !values.contains(&value) {
            values.push(value);
        }
    }
    values
}
