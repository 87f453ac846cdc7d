//! What the entries that write give for a log, with buffers that are long enough.

use crate::library::guarded::written;
use crate::library::{excerpt, judge, narrow, page};
use crate::model::page::PAGE_MAX;
use crate::model::sheet::{HEADER, SHEET_MAX};
use crate::Outcome;

/// More bytes than are needed, to see that those behind the written ones stay as they are.
const MORE: usize = 16;

/// The sheet that the judge writes, or its refusal.
pub fn judged(log: &[u8]) -> Outcome {
    // Each operation that is listed has two bytes of the sheet and, in its call record, eight of
    // the log.
    let room = SHEET_MAX.min(HEADER + log.len() / 4) + MORE;
    written(room, |sheet| judge(log, sheet))
}

/// The excerpt that the library makes, or its refusal.
pub fn excerpt_made(log: &[u8]) -> Outcome {
    written(log.len() + MORE, |out| excerpt(log, out))
}

/// The bytes that the library writes when it narrows the log to these values, or its refusal.
pub fn narrowing_made(log: &[u8], values: &[u32]) -> Outcome {
    written(log.len() + MORE, |out| narrow(log, values, out))
}

/// The bytes that are lent for any page.
pub const PAGE_ROOM: usize = PAGE_MAX + MORE;

/// The page that the library makes, or its refusal.
pub fn page_made(log: &[u8]) -> Outcome {
    written(PAGE_ROOM, |out| page(log, out))
}
