//! Buffers of sessions at every length around what is needed: below it a call is refused 24 and
//! changes nothing, and from there on it writes the same bytes and leaves those behind them alone.

use yauponroof_tests::compare::buffer_lengths::in_room;
use yauponroof_tests::compare::session::Compared;
use yauponroof_tests::compare::whole_session::holding;
use yauponroof_tests::library::outcomes::{excerpt_made, judged};
use yauponroof_tests::logs::enumerate::every_log;
use yauponroof_tests::logs::notation::run;
use yauponroof_tests::logs::samples::{longest_false_empty, pending_adds_removed, RUNS};
use yauponroof_tests::logs::simulation::{simulate, Clients};
use yauponroof_tests::model::reader::{LOG_MAX, MAX_RECORDS};
use yauponroof_tests::model::record::Record;
use yauponroof_tests::model::session::{CLOSED, OPEN};
use yauponroof_tests::model::sheet::SHEET_MAX;
use yauponroof_tests::model::writer::{log, record_bytes};
use yauponroof_tests::{refused, Answer};

#[test]
fn beginning_with_every_length() {
    for fill in [0xAA, 0x55, 0, 1] {
        for length in (0..=40).chain([LOG_MAX, 1 << 20]) {
            let mut session = Compared::filled(length, fill);
            let answer = match length {
                0..=2 => refused(24, 0),
                _ => Answer::Accepted(3),
            };
            assert_eq!(session.begin(), answer, "{length} bytes");
            // Again, over what was begun.
            assert_eq!(session.begin(), answer, "{length} bytes");
        }
    }
}

/// Feeds the last of these records with every length of the buffer from the used bytes on; how many
/// of them were long enough.
fn compare_rooms_to_feed(records: &[Record]) -> usize {
    let (last, others) = records.split_last().expect("records");
    let record = record_bytes(last);
    let log = log(others);
    let is_taken = |&behind: &usize| {
        let mut session = holding(&log, OPEN, behind);
        let before = session.state().clone();
        let answer = session.feed(&record);
        if behind < record.len() {
            assert_eq!(answer, refused(24, 0), "{behind} bytes behind");
            assert_eq!(*session.state(), before);
            return false;
        }
        assert_eq!(answer, Answer::Accepted(record.len() as u32));
        assert_eq!(session.state().used(), log.len() + record.len());
        true
    };
    (0..=20).filter(is_taken).count()
}

#[test]
fn feeding_with_every_length_for_every_log_of_up_to_five_records() {
    let mut logs = 0;
    let mut taken = 0;
    every_log(5, &mut |records| {
        if !records.is_empty() {
            logs += 1;
            taken += compare_rooms_to_feed(records);
        }
    });
    // Of the 21 lengths 9 are enough for a record of 12 bytes, and 13 for one of 8.
    assert_eq!(logs, 831);
    assert_eq!(taken, 603 * 9 + 228 * 13);
}

#[test]
fn feeding_long_logs_with_every_length() {
    for n in [100, 500, MAX_RECORDS] {
        let records = simulate(8, Clients::Reused, n, n as u64);
        for count in [n - 3, n - 2, n - 1, n] {
            let taken = compare_rooms_to_feed(&records[..count]);
            assert!(taken == 9 || taken == 13, "{taken} of 21 lengths");
        }
    }
}

/// Closes with sheets of these lengths, and asks for the sheet; how many were long enough.
fn compare_sheets(log: &[u8], lengths: impl Iterator<Item = usize>) -> usize {
    let sheet = judged(log);
    let is_enough = |&length: &usize| {
        let expected = in_room(&sheet, length);
        let mut session = holding(log, OPEN, length % 3);
        assert_eq!(session.close(length), expected, "{length} bytes");
        let stage = if expected.is_ok() { CLOSED } else { OPEN };
        assert_eq!(session.state().session.stage, stage, "{length} bytes");
        let closed = holding(log, CLOSED, length % 3);
        assert_eq!(closed.sheet(length), expected, "{length} bytes");
        expected.is_ok()
    };
    lengths.filter(is_enough).count()
}

/// Asks for the excerpt with buffers of these lengths; how many were long enough.
fn compare_excerpts(log: &[u8], lengths: impl Iterator<Item = usize>) -> usize {
    let excerpt = excerpt_made(log);
    let is_enough = |&length: &usize| {
        let expected = in_room(&excerpt, length);
        let closed = holding(log, CLOSED, length % 3);
        assert_eq!(closed.excerpt(length), expected, "{length} bytes");
        expected.is_ok()
    };
    lengths.filter(is_enough).count()
}

#[test]
fn closing_with_every_length_for_every_log_of_up_to_five_records() {
    let mut long_enough = 0;
    // At most three operations are listed, on 10 bytes.
    every_log(5, &mut |records| {
        long_enough += compare_sheets(&log(records), 0..=14);
    });
    assert_eq!(long_enough, 6482);
}

#[test]
fn excerpts_with_every_length_for_every_log_of_up_to_five_records() {
    let mut long_enough = 0;
    every_log(5, &mut |records| {
        let log = log(records);
        long_enough += compare_excerpts(&log, 0..=log.len() + 3);
    });
    assert_eq!(long_enough, 12_748);
}

#[test]
fn every_length_for_the_runs_of_the_document() {
    let (mut sheets, mut excerpts) = (0, 0);
    for (text, ..) in RUNS {
        let log = log(&run(text));
        sheets += compare_sheets(&log, (0..=40).chain([SHEET_MAX, 5000, 1 << 20]));
        excerpts += compare_excerpts(&log, (0..=log.len() + 5).chain([LOG_MAX, 1 << 20]));
    }
    // Of each of the seven logs with a pattern every record is kept.
    assert_eq!((sheets, excerpts), (568, 7 * 8));
}

#[test]
fn lengths_around_the_longest_sheets_and_excerpts() {
    let false_empty = longest_false_empty();
    let orders = [
        pending_adds_removed(341, 0..341),
        simulate(8, Clients::Reused, MAX_RECORDS, 205),
    ];
    for (records, needed) in [
        (&orders[0], SHEET_MAX),
        (&orders[1], 4 + 2 * 512),
        (&false_empty, 4 + 2 * 257),
    ] {
        let around = needed - 4..=needed + 4;
        let others = (0..needed - 4).step_by(171);
        assert_eq!(compare_sheets(&log(records), others.chain(around)), 5);
    }
    // Every record belongs to an operation that is listed, or to the remove of a listed value.
    let log = log(&false_empty);
    let around = log.len() - 4..=log.len() + 4;
    let others = (0..log.len() - 4).step_by(997);
    assert_eq!(compare_excerpts(&log, others.chain(around)), 5);
}
