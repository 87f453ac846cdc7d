//! Writes logs as bytes, sound ones and others.

use crate::model::reader::VERSION;
use crate::model::record::{Event, Record, Removed};

/// A record's bytes: the length byte L, then L bytes.
pub fn record_bytes(record: &Record) -> Vec<u8> {
    let (kind, value) = match record.event {
        Event::CallAdd(value) => (1, Some(value)),
        Event::CallRemove => (2, None),
        Event::ReturnAdd => (3, None),
        Event::ReturnRemove(Removed::Value(value)) => (4, Some(value)),
        Event::ReturnRemove(Removed::Empty) => (5, None),
    };
    let mut body = vec![kind];
    body.extend(record.client.to_be_bytes());
    body.extend(record.tick.to_be_bytes());
    if let Some(value) = value {
        body.extend(value.to_be_bytes());
    }
    let mut bytes = vec![body.len() as u8];
    bytes.extend(body);
    bytes
}

/// The header of a log whose field n is `n`.
pub fn header(n: u16) -> Vec<u8> {
    let [high, low] = n.to_be_bytes();
    vec![VERSION, high, low]
}

/// The log of these records.
pub fn log(records: &[Record]) -> Vec<u8> {
    log_with_n(records.len() as u16, records)
}

/// The log of these records with a field n that need not fit them.
pub fn log_with_n(n: u16, records: &[Record]) -> Vec<u8> {
    let mut bytes = header(n);
    for record in records {
        bytes.extend(record_bytes(record));
    }
    bytes
}
