//! The fields of lines, each read where it stands: together they are all that a page shows of an
//! operation. Nothing here lays a line out.

use yauponroof_tests::library::outcomes::page_made;
use yauponroof_tests::logs::enumerate::{random_log, random_log_with_pending_remove};
use yauponroof_tests::logs::simulation::{simulate_run, Clients};
use yauponroof_tests::model::history::{operations, Action, Operation};
use yauponroof_tests::model::record::{Record, Removed};
use yauponroof_tests::model::writer::log;
use yauponroof_tests::random::Random;

/// What characters `first` to `last` hold, counted from 1.
fn characters(line: &[u8], first: usize, last: usize) -> &str {
    std::str::from_utf8(&line[first - 1..last]).expect("ASCII")
}

/// The number that the text is in decimal, without leading zeros.
fn decimal(text: &str) -> u32 {
    let number: u32 = text.parse().expect("a number");
    assert_eq!(number.to_string(), text, "no leading zeros, no sign");
    number
}

/// What is left of a field without the spaces that fill it: before, if it is right-aligned.
fn right_aligned(field: &str) -> &str {
    field.trim_start_matches(' ')
}

fn left_aligned(field: &str) -> &str {
    field.trim_end_matches(' ')
}

fn action(label: &str) -> Action {
    match label.split_at(1) {
        ("A", value) => Action::Add(decimal(value)),
        ("R", "") => Action::PendingRemove,
        ("R", value) => Action::Remove(Removed::Value(decimal(value))),
        ("E", "") => Action::Remove(Removed::Empty),
        _ => panic!("{label:?} is no operation"),
    }
}

/// Asserts that the characters from 18 on are dots, then marks from the call to the return, then
/// dots, one for each record; and then spaces.
fn assert_columns(columns: &str, operation: &Operation, records: usize) {
    let first = operation.call.index;
    let last = operation.returned.map_or(records - 1, |r| r.index);
    let counts = [
        ('.', first),
        ('#', last + 1 - first),
        ('.', records - 1 - last),
        (' ', 63 - records),
    ];
    let mut left = columns;
    for (character, count) in counts {
        let (these, rest) = left.split_at(count);
        assert!(these.chars().all(|c| c == character), "{columns:?}");
        left = rest;
    }
    assert_eq!(left, "", "{columns:?}");
}

fn assert_line(line: &[u8], number: usize, operation: &Operation, records: usize) {
    assert_eq!(line.len(), 81);
    assert_eq!(line[80], b'\n');
    let shown = decimal(right_aligned(characters(line, 1, 4)));
    assert_eq!(shown as usize, number);
    assert_eq!(characters(line, 5, 5), " ");
    let label = left_aligned(characters(line, 6, 16));
    assert_eq!(action(label), operation.action);
    assert_eq!(characters(line, 17, 17), " ");
    assert_columns(characters(line, 18, 80), operation, records);
}

/// Asserts that the page of these records shows their operations; how many there are.
fn assert_shown(records: &[Record]) -> usize {
    let page = page_made(&log(records)).expect("a page");
    let operations = operations(records);
    let lines: Vec<&[u8]> = page.chunks(81).collect();
    assert_eq!(lines.len(), operations.len());
    for (number, (line, operation)) in lines.iter().zip(&operations).enumerate() {
        assert_line(line, number, operation, records.len());
    }
    operations.len()
}

#[test]
fn logs_by_chance() {
    let mut random = Random::new(201);
    let mut shown = 0;
    for _ in 0..4000 {
        let least = random.below(60);
        let records = random_log(least, &mut random);
        if records.len() <= 63 {
            shown += assert_shown(&records);
        }
    }
    assert!(shown >= 50_000, "{shown} operations");
}

#[test]
fn logs_by_chance_with_an_open_remove() {
    let mut random = Random::new(250);
    let mut shown = 0;
    for _ in 0..2000 {
        let least = random.below(60);
        let records = random_log_with_pending_remove(least, &mut random);
        if records.len() <= 63 {
            shown += assert_shown(&records);
        }
    }
    assert!(shown >= 25_000, "{shown} operations");
}

#[test]
fn runs_of_a_queue() {
    let mut random = Random::new(202);
    let mut shown = 0;
    for seed in 0..2000 {
        let workers = 1 + random.below(12) as u16;
        let n = 2 * random.below(32);
        let clients = *random.pick(&[Clients::Reused, Clients::OnePerOperation]);
        let run = simulate_run(workers, clients, n, seed);
        shown += assert_shown(&run.with_pending_adds(15, &mut random).records);
    }
    assert!(shown >= 25_000, "{shown} operations");
}
