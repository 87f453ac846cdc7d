//! The calls that are measured. Each is a function by itself, under its own name, for callgrind to
//! count what runs inside; what is done with the result keeps the calls in them from being jumps.

use std::hint::black_box;

use yauponroof_tests::library::{begin, check, close, feed, judge, replay};
use yauponroof_tests::model::history::Operation;
use yauponroof_tests::{Answer, Session};

use crate::cache::Cache;
use crate::search::{search, Limit, Outcome};

/// The bare reading: each byte of the log is loaded, by itself and once, and added to a sum. The
/// loads are volatile, so that no compiler makes one of several.
#[no_mangle]
#[inline(never)]
pub fn measured_read(log: &[u8]) -> u64 {
    let load = |byte: &u8| u64::from(unsafe { std::ptr::read_volatile(byte) });
    black_box(log.iter().map(load).sum())
}

#[no_mangle]
#[inline(never)]
pub fn measured_check(log: &[u8]) -> Answer {
    black_box(check(log))
}

#[no_mangle]
#[inline(never)]
pub fn measured_judge(log: &[u8], sheet: &mut [u8]) -> Answer {
    black_box(judge(log, sheet))
}

#[no_mangle]
#[inline(never)]
pub fn measured_replay(log: &[u8], sheet: &[u8]) -> Answer {
    black_box(replay(log, sheet))
}

/// A whole session: it is begun, fed each record of the log, and closed.
#[no_mangle]
#[inline(never)]
pub fn measured_session(log: &[u8], buffer: &mut [u8], sheet: &mut [u8]) -> Answer {
    let mut session = Session { stage: 0, used: 0 };
    let mut answer = begin(&mut session, buffer);
    while matches!(answer, Answer::Accepted(_)) && (session.used as usize) < log.len() {
        let record = &log[session.used as usize..];
        answer = feed(&mut session, buffer, &record[..1 + usize::from(record[0])]);
    }
    if matches!(answer, Answer::Accepted(_)) {
        answer = close(&mut session, buffer, sheet);
    }
    black_box(answer)
}

/// The search, from the operations of the log on: that they are read is not part of it.
#[no_mangle]
#[inline(never)]
pub fn measured_search(operations: &[Operation], limit: Limit) -> Outcome {
    black_box(search(operations, &mut Cache::default(), limit))
}
