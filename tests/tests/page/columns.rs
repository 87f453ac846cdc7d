//! The columns: an operation from every record to every later one, and open operations at every record.
//! The expected line is made from counts of characters, without the model.

use yauponroof_tests::compare::page::Pages;
use yauponroof_tests::library::outcomes::page_made;
use yauponroof_tests::logs::insertion::with_pending_remove;
use yauponroof_tests::logs::samples::pending_adds;
use yauponroof_tests::logs::simulation::{simulate, Clients};
use yauponroof_tests::logs::ticks::at_one_tick;
use yauponroof_tests::model::record::{
    call_add, call_remove, return_add, return_empty, return_value, Record,
};
use yauponroof_tests::model::writer::log;

/// A client that makes no other operation.
const OTHER_CLIENT: u16 = 500;

/// The line of an operation on records `first` to `last` of so many.
fn line(number: usize, label: &str, first: usize, last: usize, records: usize) -> String {
    let columns = [
        ".".repeat(first),
        "#".repeat(last - first + 1),
        ".".repeat(records - 1 - last),
        " ".repeat(63 - records),
    ];
    let number = number.to_string();
    let number = " ".repeat(4 - number.len()) + &number;
    let label = label.to_string() + &" ".repeat(11 - label.len());
    [&number, " ", &label, " ", &columns.concat(), "\n"].concat()
}

/// The line of that number on the page of these records, which is compared with the model's as a
/// whole.
fn line_of(records: &[Record], number: usize) -> String {
    let log = log(records);
    Pages::new().compare(&log);
    let page = page_made(&log).expect("a page");
    let line = page.chunks(81).nth(number).expect("a line");
    String::from_utf8(line.to_vec()).expect("ASCII")
}

/// The call and the return of an operation, and what its line says of it.
fn operations() -> [(Record, Record, &'static str); 3] {
    let client = OTHER_CLIENT;
    [
        (call_add(client, 0, 12), return_add(client, 0), "A12"),
        (call_remove(client, 0), return_value(client, 0, 34), "R34"),
        (call_remove(client, 0), return_empty(client, 0), "E"),
    ]
}

/// All records have one tick: what stands where is shown, and not what is taken first.
#[test]
fn an_operation_from_every_record_to_every_later_one() {
    let mut compared = 0;
    for n in [2, 3, 31, 32, 33, 61, 62, 63] {
        for last in 1..n {
            for first in 0..last {
                for (call, returned, label) in operations() {
                    let mut records = at_one_tick(&pending_adds(n), 0);
                    records[first] = call;
                    records[last] = returned;
                    let expected = line(first, label, first, last, n);
                    assert_eq!(line_of(&records, first), expected);
                    compared += 1;
                }
            }
        }
    }
    assert_eq!(compared, 3 * (1 + 3 + 465 + 496 + 528 + 1830 + 1891 + 1953));
}

#[test]
fn open_adds_at_every_record_among_others_that_are_open() {
    let mut compared = 0;
    for n in 1..=63 {
        let records = pending_adds(n);
        for at in 0..n {
            let value = 4_294_967_295 - at as u64;
            let expected = line(at, &format!("A{value}"), at, n - 1, n);
            assert_eq!(line_of(&records, at), expected);
            compared += 1;
        }
    }
    assert_eq!(compared, 63 * 64 / 2);
}

/// The records with an add of 77 put in right before the record with that index, or at the end. It
/// does not return.
fn with_open_add(records: &[Record], at: usize) -> Vec<Record> {
    let tick = at.checked_sub(1).map_or(0, |before| records[before].tick);
    let mut all = records.to_vec();
    all.insert(at, call_add(OTHER_CLIENT, tick, 77));
    all
}

#[test]
fn open_adds_at_every_record_among_others_that_return() {
    let mut compared = 0;
    for n in [2, 8, 30, 62] {
        let records = simulate(4, Clients::Reused, n, 203);
        for at in 0..=n {
            let calls = records[..at].iter().filter(|r| r.event.is_call()).count();
            let expected = line(calls, "A77", at, n, n + 1);
            assert_eq!(line_of(&with_open_add(&records, at), calls), expected);
            compared += 1;
        }
    }
    assert_eq!(compared, 3 + 9 + 31 + 63);
}

/// An open remove in the place of each open add, so that all are open.
#[test]
fn an_open_remove_at_every_record_among_adds_that_are_open() {
    let mut compared = 0;
    for n in 1..=63 {
        for at in 0..n {
            let mut records = pending_adds(n);
            records[at] = call_remove(records[at].client, records[at].tick);
            let expected = line(at, "R", at, n - 1, n);
            assert_eq!(line_of(&records, at), expected);
            compared += 1;
        }
    }
    assert_eq!(compared, 63 * 64 / 2);
}

#[test]
fn an_open_remove_at_every_record_among_operations_that_return() {
    let mut compared = 0;
    for n in [2, 8, 30, 62] {
        let records = simulate(4, Clients::Reused, n, 203);
        for at in 0..=n {
            let calls = records[..at].iter().filter(|r| r.event.is_call()).count();
            let expected = line(calls, "R", at, n, n + 1);
            let open = with_pending_remove(&records, at);
            assert_eq!(line_of(&open, calls), expected);
            compared += 1;
        }
    }
    assert_eq!(compared, 3 + 9 + 31 + 63);
}
