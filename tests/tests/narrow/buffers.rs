//! The buffer of a narrowing at every length from 0 to past the needed one: below it the call is
//! refused 24 and writes nothing, and from there on it writes the same bytes and leaves those
//! behind them alone.

use yauponroof_tests::compare::buffer_lengths::compare_lengths;
use yauponroof_tests::compare::narrowing::compare_narrowing;
use yauponroof_tests::library::narrow;
use yauponroof_tests::logs::enumerate::every_log;
use yauponroof_tests::logs::notation::run;
use yauponroof_tests::logs::samples::{pending_adds, RUNS};
use yauponroof_tests::logs::simulation::{simulate, Clients};
use yauponroof_tests::model::projection::values;
use yauponroof_tests::model::reader::{LOG_MAX, MAX_RECORDS};
use yauponroof_tests::model::writer::log;

/// Lends buffers of these lengths; how many of them were long enough.
fn compare_narrowings(log: &[u8], values: &[u32], lengths: impl Iterator<Item = usize>) -> usize {
    let narrowed = Ok(compare_narrowing(log, values));
    compare_lengths(&narrowed, lengths, |out| narrow(log, values, out))
}

/// No value, the first one, the last one and all.
fn lists(all: &[u32]) -> Vec<Vec<u32>> {
    let mut lists = vec![vec![], all.to_vec()];
    lists.extend(all.first().map(|value| vec![*value]));
    lists.extend(all.last().map(|value| vec![*value]));
    lists
}

#[test]
fn every_length_for_every_log_of_up_to_five_records() {
    let mut compared = 0;
    every_log(5, &mut |records| {
        let log = log(records);
        for values in lists(&values(records)) {
            let needed = compare_narrowing(&log, &values).len();
            assert_eq!(compare_narrowings(&log, &values, 0..=needed + 3), 4);
            compared += 1;
        }
    });
    assert_eq!(compared, 3316);
}

#[test]
fn every_length_for_the_runs_of_the_document() {
    let mut compared = 0;
    for (text, ..) in RUNS {
        let records = run(text);
        let log = log(&records);
        for values in lists(&values(&records)) {
            compared += 1;
            let needed = compare_narrowing(&log, &values).len();
            assert_eq!(compare_narrowings(&log, &values, 0..=needed + 20), 21);
            let long = [log.len() + 1, LOG_MAX, 1 << 20];
            assert_eq!(compare_narrowings(&log, &values, long.into_iter()), 3);
        }
    }
    assert_eq!(compared, 2 * 2 + 14 * 4);
}

#[test]
fn lengths_around_the_longest_narrowings() {
    for records in [
        pending_adds(MAX_RECORDS),
        simulate(8, Clients::Reused, MAX_RECORDS, 8),
    ] {
        let log = log(&records);
        let all = values(&records);
        for values in [&all[..1], &all[..all.len() / 2], &all] {
            let needed = compare_narrowing(&log, values).len();
            let around = needed.saturating_sub(20)..=needed + 20;
            let others = (0..3).chain((3..needed.saturating_sub(20)).step_by(997));
            assert_eq!(compare_narrowings(&log, values, others.chain(around)), 21);
        }
    }
}
