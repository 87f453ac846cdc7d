//! The sheet at every length from 0 to past the needed one, for the longest sheets at some of them:
//! below it the judge is refused 24 and writes nothing, and from there on it writes the same bytes,
//! which are held against the table, and leaves those behind them alone.

use yauponroof_tests::compare::archive::Archives;
use yauponroof_tests::compare::buffer_lengths::compare_lengths;
use yauponroof_tests::library::judge;
use yauponroof_tests::library::outcomes::judged;
use yauponroof_tests::logs::enumerate::every_log;
use yauponroof_tests::logs::notation::run;
use yauponroof_tests::logs::samples::{longest_false_empty, pending_adds_removed, RUNS};
use yauponroof_tests::logs::simulation::{simulate, Clients};
use yauponroof_tests::model::sheet::SHEET_MAX;
use yauponroof_tests::model::writer::log;

/// Lends sheets of these lengths; how many of them were long enough.
fn compare_sheets(log: &[u8], lengths: impl Iterator<Item = usize>) -> usize {
    Archives::new().compare(log);
    compare_lengths(&judged(log), lengths, |sheet| judge(log, sheet))
}

#[test]
fn every_length_for_every_log_of_up_to_six_records() {
    let mut long_enough = 0;
    every_log(6, &mut |records| {
        // At most four operations are listed, on 12 bytes.
        long_enough += compare_sheets(&log(records), 0..=20);
    });
    assert_eq!(long_enough, 90_476);
}

#[test]
fn every_length_for_the_runs_of_the_document() {
    let mut long_enough = 0;
    for (text, ..) in RUNS {
        let log = log(&run(text));
        long_enough += compare_sheets(&log, (0..=40).chain([SHEET_MAX, 5000, 1 << 20]));
    }
    assert_eq!(long_enough, 568);
}

#[test]
fn every_length_for_sheets_of_some_hundred_bytes() {
    for records in [
        simulate(8, Clients::Reused, 300, 1),
        simulate(64, Clients::OnePerOperation, 400, 2),
        pending_adds_removed(70, 0..70),
    ] {
        let log = log(&records);
        let needed = judged(&log).expect("a sheet").len();
        assert!(needed > 260);
        assert_eq!(compare_sheets(&log, 0..=needed + 20), 21);
    }
}

#[test]
fn lengths_around_the_longest_sheets() {
    for (records, needed) in [
        (pending_adds_removed(341, 0..341), SHEET_MAX),
        (longest_false_empty(), 4 + 2 * 257),
        (simulate(8, Clients::Reused, 1024, 3), 4 + 2 * 512),
    ] {
        let log = log(&records);
        assert_eq!(judged(&log).map(|sheet| sheet.len()), Ok(needed));
        let around = needed - 20..=needed + 20;
        let others = (0..needed - 20).step_by(37);
        assert_eq!(compare_sheets(&log, others.chain(around)), 21);
    }
}
