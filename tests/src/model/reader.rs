//! Reads logs: the records of a readable one, or the refusal of another.

use std::collections::{HashMap, HashSet};

use crate::model::record::{Event, Record, Removed};
use crate::Answer;

pub const VERSION: u8 = 1;
pub const HEADER: usize = 3;
pub const MAX_RECORDS: usize = 1024;

/// The most bytes that a readable log can have: every record a call of add.
pub const LOG_MAX: usize = HEADER + MAX_RECORDS * 12;

/// A refusal's number and record index.
#[derive(Clone, Copy, Debug, PartialEq, Eq)]
pub struct Refusal(pub u32, pub usize);

/// The operation of a client's open call.
#[derive(Clone, Copy, PartialEq, Eq)]
enum Operation {
    Add,
    Remove,
}

/// What the records so far say about those to come.
#[derive(Default)]
struct Past {
    last_tick: u32,
    /// For each client with an open call: its operation and the index of the call.
    open: HashMap<u16, (Operation, usize)>,
    /// For each client that has returned: the tick of its last return.
    last_return: HashMap<u16, u32>,
    added: HashSet<u32>,
}

/// The records of a readable log, or the refusal of one that is not.
pub fn read(log: &[u8]) -> Result<Vec<Record>, Refusal> {
    let n = read_header(log)?;
    let mut rest = &log[HEADER..];
    let mut records = Vec::new();
    let mut past = Past::default();
    for index in 0..n {
        let body = split_record(&mut rest).ok_or(Refusal(1, index))?;
        let record = decode(body).map_err(|number| Refusal(number, index))?;
        admit(&mut past, record, index).map_err(|number| Refusal(number, index))?;
        records.push(record);
    }
    if !rest.is_empty() {
        return Err(Refusal(1, n));
    }
    match second_open_remove(&past) {
        Some(index) => Err(Refusal(10, index)),
        None => Ok(records),
    }
}

/// What the library's check must answer for this log.
pub fn expected(log: &[u8]) -> Answer {
    match read(log) {
        Ok(records) => Answer::Accepted(operation_count(&records)),
        Err(Refusal(number, index)) => Answer::Refused {
            number,
            index: index as u32,
        },
    }
}

/// Each call record begins one operation.
pub fn operation_count(records: &[Record]) -> u32 {
    records
        .iter()
        .filter(|record| record.event.is_call())
        .count() as u32
}

fn read_header(log: &[u8]) -> Result<usize, Refusal> {
    if log.len() < HEADER {
        return Err(Refusal(1, 0));
    }
    if log[0] != VERSION {
        return Err(Refusal(2, 0));
    }
    let n = usize::from(u16::from_be_bytes([log[1], log[2]]));
    if n > MAX_RECORDS {
        return Err(Refusal(3, 0));
    }
    Ok(n)
}

/// The L bytes of the next record; `None` if the bytes end before or inside it.
fn split_record<'a>(rest: &mut &'a [u8]) -> Option<&'a [u8]> {
    let (&length, behind) = rest.split_first()?;
    if behind.len() < usize::from(length) {
        return None;
    }
    let (body, behind) = behind.split_at(usize::from(length));
    *rest = behind;
    Some(body)
}

/// A record from its L bytes, or 4 or 5; 5 comes first if L is 0, since there is no kind then.
fn decode(body: &[u8]) -> Result<Record, u32> {
    let kind = *body.first().ok_or(5u32)?;
    let length = match kind {
        1 | 4 => 11,
        2 | 3 | 5 => 7,
        _ => return Err(4),
    };
    if body.len() != length {
        return Err(5);
    }
    let number =
        |at: usize| u32::from_be_bytes([body[at], body[at + 1], body[at + 2], body[at + 3]]);
    let event = match kind {
        1 => Event::CallAdd(number(7)),
        2 => Event::CallRemove,
        3 => Event::ReturnAdd,
        4 => Event::ReturnRemove(Removed::Value(number(7))),
        _ => Event::ReturnRemove(Removed::Empty),
    };
    Ok(Record {
        client: u16::from_be_bytes([body[1], body[2]]),
        tick: number(3),
        event,
    })
}

/// Holds a record against those before it, in the order 6, 7, 31, 8, 9.
fn admit(past: &mut Past, record: Record, index: usize) -> Result<(), u32> {
    if record.tick < past.last_tick {
        return Err(6);
    }
    past.last_tick = record.tick;
    match record.event {
        Event::CallAdd(value) => {
            call(past, record, Operation::Add, index)?;
            if !past.added.insert(value) {
                return Err(9);
            }
            Ok(())
        }
        Event::CallRemove => call(past, record, Operation::Remove, index),
        Event::ReturnAdd => close(past, record, Operation::Add),
        Event::ReturnRemove(_) => close(past, record, Operation::Remove),
    }
}

/// "It refuses with 31 a call whose tick equals that of its client's last return, checked right after
/// 7."
fn call(past: &mut Past, record: Record, operation: Operation, index: usize) -> Result<(), u32> {
    if past
        .open
        .insert(record.client, (operation, index))
        .is_some()
    {
        return Err(7);
    }
    match past.last_return.get(&record.client) {
        Some(&tick) if tick == record.tick => Err(31),
        _ => Ok(()),
    }
}

fn close(past: &mut Past, record: Record, operation: Operation) -> Result<(), u32> {
    match past.open.remove(&record.client) {
        Some((open, _)) if open == operation => {
            past.last_return.insert(record.client, record.tick);
            Ok(())
        }
        _ => Err(8),
    }
}

/// Change 4 of document 02: "Refusal 10 is now for a second remove without return, with the index of
/// its call."
fn second_open_remove(past: &Past) -> Option<usize> {
    let removes = past.open.values().filter(|(o, _)| *o == Operation::Remove);
    let mut calls: Vec<usize> = removes.map(|&(_, index)| index).collect();
    calls.sort();
    calls.get(1).copied()
}
