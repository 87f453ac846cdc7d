//! The refusals of the page in their order: those of the log, 1 to 10 and 31, then 30 for more than
//! 63 records, then a buffer that is too short. A refused call writes nothing.

use yauponroof_tests::library::guarded::written_twice;
use yauponroof_tests::library::page;
use yauponroof_tests::logs::samples::{calls_then_returns, pending_adds, refusals};
use yauponroof_tests::logs::simulation::{simulate, Clients};
use yauponroof_tests::model::page::PAGE_MAX;
use yauponroof_tests::model::record::{call_add, call_remove, return_add, return_empty, Record};
use yauponroof_tests::model::writer::{log, log_with_n};
use yauponroof_tests::{refused, Answer};

/// Lengths of buffers: too short for a page, long enough for some, and long enough for any.
const LENGTHS: [usize; 9] = [0, 1, 80, 81, 82, 162, PAGE_MAX - 1, PAGE_MAX, 64 * 81];

/// Asserts that the log is refused in this way with a buffer of each length, and that nothing is
/// written.
fn assert_refused(log: &[u8], refusal: Answer) {
    for length in LENGTHS {
        let outcome = written_twice(length, |out| page(log, out));
        assert_eq!(outcome, Err(refusal), "a buffer of {length} bytes");
    }
}

#[test]
fn the_refusals_of_the_log_come_before_24() {
    let refusals = refusals();
    assert_eq!(refusals.len(), 11);
    for (log, refusal) in refusals {
        assert_refused(&log, refusal);
    }
}

#[test]
fn more_than_63_records_are_refused_before_24() {
    for records in [
        pending_adds(64),
        pending_adds(65),
        pending_adds(1024),
        calls_then_returns(64),
        simulate(8, Clients::Reused, 64, 207),
        simulate(8, Clients::Reused, 1024, 208),
    ] {
        assert_refused(&log(&records), refused(30, 0));
    }
}

#[test]
fn a_buffer_that_is_too_short_has_no_record_at_fault() {
    for n in [1, 2, 62, 63] {
        let log = log(&pending_adds(n));
        for length in [0, 1, 81 * n - 81, 81 * n - 2, 81 * n - 1] {
            let outcome = written_twice(length, |out| page(&log, out));
            assert_eq!(outcome, Err(refused(24, 0)), "{n} adds, {length} bytes");
        }
    }
}

/// So many open adds, and one more record.
fn adds_and(n: usize, record: Record) -> Vec<u8> {
    let mut records = pending_adds(n);
    records.push(record);
    log(&records)
}

/// So many open operations: removes at these places, and adds elsewhere.
fn open_removes_in(n: usize, places: &[usize]) -> Vec<u8> {
    let mut records = pending_adds(n);
    for &at in places {
        records[at] = call_remove(records[at].client, records[at].tick);
    }
    log(&records)
}

/// Logs of one record more than `n`, the last of which is at fault, with the refusal of each.
fn faults_after(n: usize) -> Vec<(Vec<u8>, Answer)> {
    let (client, tick) = (n as u16, n as u32);
    let sound = adds_and(n, call_add(client, tick, 7));
    let last = sound.len() - 12;
    let with_byte = |at: usize, byte: u8| {
        let mut changed = sound.clone();
        changed[at] = byte;
        changed
    };
    let cut = sound[..sound.len() - 1].to_vec();
    let faults = vec![
        (cut, 1),
        (sound[..last].to_vec(), 1),
        (with_byte(last + 1, 6), 4),
        (with_byte(last, 0), 5),
        (with_byte(last + 1, 2), 5),
        (adds_and(n, call_add(client, tick - 2, 7)), 6),
        (adds_and(n, call_remove(0, tick)), 7),
        (adds_and(n, return_add(client, tick)), 8),
        (adds_and(n, return_empty(0, tick)), 8),
        (adds_and(n, call_add(client, tick, u32::MAX)), 9),
        (open_removes_in(n + 1, &[0, n]), 10),
    ];
    let at_last = |(log, number): (Vec<u8>, u32)| (log, refused(number, tick));
    faults.into_iter().map(at_last).collect()
}

#[test]
fn faults_of_the_last_record_come_before_30_and_24() {
    let mut compared = 0;
    for n in [62, 63, 64, 100, 1023] {
        for (log, refusal) in faults_after(n) {
            assert_refused(&log, refusal);
            compared += 1;
        }
    }
    assert_eq!(compared, 5 * 11);
}

#[test]
fn faults_of_the_whole_log_come_before_30_and_24() {
    for n in [63, 64, 1024] {
        let sound = log(&pending_adds(n));
        let mut version = sound.clone();
        version[0] = 2;
        assert_refused(&version, refused(2, 0));
        assert_refused(&log_with_n(1025, &pending_adds(n)), refused(3, 0));
        let mut left = sound.clone();
        left.push(0);
        assert_refused(&left, refused(1, n as u32));
    }
}

#[test]
fn a_second_open_remove_anywhere_comes_before_30_and_24() {
    for n in [63, 64, 1024] {
        for second in [1, n / 2, n - 1] {
            let log = open_removes_in(n, &[0, second]);
            assert_refused(&log, refused(10, second as u32));
        }
        let three = open_removes_in(n, &[2, n / 2, n - 1]);
        assert_refused(&three, refused(10, n as u32 / 2));
    }
}

#[test]
fn one_open_remove_anywhere_does_not_come_before_30() {
    for n in [64, 1024] {
        for at in [0, n / 2, n - 1] {
            assert_refused(&open_removes_in(n, &[at]), refused(30, 0));
        }
    }
}
