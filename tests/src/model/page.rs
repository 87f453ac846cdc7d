//! The page of a log, for people to look at: change 1 of document 02. "A readable log of at most 63
//! records is laid out as one line per operation, in number order, each 80 characters and a line
//! feed."

use crate::model::history::{operations, Action, Operation};
use crate::model::reader::{self, Refusal};
use crate::model::record::{Record, Removed};
use crate::{refused, Outcome};

/// The most records of a log that has a page.
pub const PAGE_RECORDS: usize = 63;

/// The bytes of a line: 80 characters and a line feed.
pub const LINE: usize = 80 + 1;

/// The most bytes of a page: every record calls an operation.
pub const PAGE_MAX: usize = PAGE_RECORDS * LINE;

/// What the library must write for this log to a buffer of that length, or its refusal. "It refuses
/// with 30 a log of more than 63 records, after the input list and before 24."
pub fn expected(log: &[u8], room: usize) -> Outcome {
    let records =
        reader::read(log).map_err(|Refusal(number, index)| refused(number, index as u32))?;
    if records.len() > PAGE_RECORDS {
        return Err(refused(30, 0));
    }
    let page = page(&records);
    match room < page.len() {
        true => Err(refused(24, 0)),
        false => Ok(page.into_bytes()),
    }
}

/// The page of a readable log of these records, at most 63.
fn page(records: &[Record]) -> String {
    let operations = operations(records);
    let numbered = operations.iter().enumerate();
    let lines = numbered.map(|(number, operation)| line(number, operation, records.len()));
    lines.collect()
}

/// "Characters 1 to 4 hold the operation number, right-aligned; 5 and 17 are spaces." What 6 to 16
/// hold is left-aligned. "From 18 on each record has one column."
fn line(number: usize, operation: &Operation, records: usize) -> String {
    let columns: String = (0..PAGE_RECORDS)
        .map(|record| mark(operation, record, records))
        .collect();
    let line = format!("{number:>4} {:<11} {columns}\n", label(operation));
    assert_eq!(line.len(), LINE, "{line:?}");
    line
}

/// "A, R or E (empty remove) and the value in decimal without leading zeros, left-aligned; E has no
/// value." Of an open remove change 4 says: "The page shows a lone R."
fn label(operation: &Operation) -> String {
    match operation.action {
        Action::Add(value) => format!("A{value}"),
        Action::Remove(Removed::Value(value)) => format!("R{value}"),
        Action::Remove(Removed::Empty) => "E".to_string(),
        Action::PendingRemove => "R".to_string(),
    }
}

/// "# from call to return, both included, or to the last record for an open operation, else a dot.
/// Columns behind the last record are spaces." The columns are the records as they stand, whatever
/// their ticks are.
fn mark(operation: &Operation, record: usize, records: usize) -> char {
    let first = operation.call.index;
    let last = operation.returned.map_or(records - 1, |r| r.index);
    match record {
        _ if record >= records => ' ',
        _ if first <= record && record <= last => '#',
        _ => '.',
    }
}
