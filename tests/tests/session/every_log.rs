//! Every log of few records handed to sessions, record by record: every feed is accepted, and a
//! session closed at any of its records answers as judging the log fed so far does, removes without
//! return included.

use yauponroof_tests::compare::whole_session::{compare_closing, fed_seen};
use yauponroof_tests::logs::enumerate::{
    every_log, every_log_of_paired_operations, every_log_with_pending_remove,
};
use yauponroof_tests::model::record::Record;
use yauponroof_tests::model::writer::log;
use yauponroof_tests::Answer;

/// How often closing gave each answer.
#[derive(Debug, Default, PartialEq, Eq)]
struct Closings {
    orders: u64,
    patterns: u64,
    /// Refused 10: there are two at least.
    open_removes: u64,
}

impl Closings {
    /// Feeds the records, and closes a copy of the session before each of them and at the end.
    fn compare(&mut self, records: &[Record]) {
        let session = fed_seen(records, |session, so_far| {
            match compare_closing(&mut session.clone(), so_far) {
                Ok(sheet) if sheet[1] == 0 => self.orders += 1,
                Ok(_) => self.patterns += 1,
                Err(Answer::Refused { number: 10, .. }) => self.open_removes += 1,
                Err(other) => panic!("{other:?} for {records:?}"),
            }
        });
        assert_eq!(session.held(), log(records));
    }
}

#[test]
fn every_log_of_up_to_six_records() {
    let mut closings = Closings::default();
    every_log(6, &mut |records| closings.compare(records));
    let expected = Closings {
        orders: 28_336,
        patterns: 14_476,
        open_removes: 2990,
    };
    assert_eq!(closings, expected);
}

#[test]
fn every_log_of_up_to_four_paired_operations() {
    let mut closings = Closings::default();
    every_log_of_paired_operations(8, &mut |records| closings.compare(records));
    let expected = Closings {
        orders: 51_227,
        patterns: 2368,
        open_removes: 9182,
    };
    assert_eq!(closings, expected);
}

#[test]
fn every_log_of_up_to_six_records_with_an_open_remove() {
    let mut closings = Closings::default();
    every_log_with_pending_remove(6, &mut |records| closings.compare(records));
    let expected = Closings {
        orders: 27_724,
        patterns: 11_578,
        open_removes: 7346,
    };
    assert_eq!(closings, expected);
}
