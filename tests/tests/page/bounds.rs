//! The pages of logs of 63 records and around that, the longest pages, and logs that are too long.

use yauponroof_tests::compare::page::Pages;
use yauponroof_tests::library::outcomes::page_made;
use yauponroof_tests::logs::samples::{calls_then_returns, pending_adds};
use yauponroof_tests::logs::simulation::{simulate, Clients};
use yauponroof_tests::model::page::{LINE, PAGE_MAX, PAGE_RECORDS};
use yauponroof_tests::model::reader::MAX_RECORDS;
use yauponroof_tests::model::record::{call_add, Record};
use yauponroof_tests::model::writer::log;
use yauponroof_tests::{refused, Answer};

/// What is answered for these records with enough bytes, which is compared.
fn answer(records: &[Record]) -> Answer {
    Pages::new().compare(&log(records))
}

fn accepted(operations: usize) -> Answer {
    Answer::Accepted(operations as u32 * 81)
}

#[test]
fn the_sizes_of_the_document() {
    assert_eq!((PAGE_RECORDS, LINE, PAGE_MAX), (63, 81, 5103));
}

#[test]
fn every_number_of_open_adds() {
    for n in 0..=MAX_RECORDS {
        let expected = if n <= 63 { accepted(n) } else { refused(30, 0) };
        assert_eq!(answer(&pending_adds(n)), expected, "{n} records");
    }
}

#[test]
fn the_longest_page() {
    let page = page_made(&log(&pending_adds(63))).expect("a page");
    assert_eq!(page.len(), 5103);
    let lines: Vec<&[u8]> = page.chunks(81).collect();
    for (number, label, open) in [
        (0, "   0 A4294967295 ", 63),
        (9, "   9 A4294967286 ", 54),
        (10, "  10 A4294967285 ", 53),
        (61, "  61 A4294967234 ", 2),
        (62, "  62 A4294967233 ", 1),
    ] {
        let columns = [".".repeat(63 - open), "#".repeat(open)].concat();
        let line = format!("{label}{columns}\n");
        assert_eq!(lines[number], line.as_bytes(), "line {number}");
    }
}

#[test]
fn it_is_records_that_count_and_not_operations() {
    // 31 operations have a page, and 32 that return have none.
    assert_eq!(answer(&calls_then_returns(62)), accepted(31));
    assert_eq!(answer(&calls_then_returns(64)), refused(30, 0));
    assert_eq!(answer(&calls_then_returns(1024)), refused(30, 0));
    let in_turn = |n| simulate(1, Clients::Reused, n, 204);
    assert_eq!(answer(&in_turn(62)), accepted(31));
    assert_eq!(answer(&in_turn(64)), refused(30, 0));
}

/// So many records of a run of 8 clients, the last one an open add where the number is odd.
fn run_of(n: usize) -> Vec<Record> {
    let mut records = simulate(8, Clients::Reused, n / 2 * 2, n as u64);
    if n % 2 == 1 {
        let tick = records.last().map_or(0, |record| record.tick);
        records.push(call_add(8, tick, 77));
    }
    records
}

#[test]
fn runs_of_every_number_of_records_around_63() {
    for n in 0..=130 {
        let records = run_of(n);
        assert_eq!(records.len(), n);
        let expected = match n {
            0..=63 => accepted(n.div_ceil(2)),
            _ => refused(30, 0),
        };
        assert_eq!(answer(&records), expected, "{n} records");
    }
}

#[test]
fn numbers_of_records_that_are_63_or_less_but_for_their_high_bits() {
    for n in [
        64,
        127,
        128,
        256,
        256 + 1,
        256 + 63,
        512 + 62,
        768 + 63,
        1023,
        1024,
    ] {
        assert_eq!(answer(&run_of(n)), refused(30, 0), "{n} records");
        assert_eq!(answer(&pending_adds(n)), refused(30, 0), "{n} records");
    }
}
