//! The refusals of narrowing in their order: those of the log, 1 to 10 and 31, come before a buffer
//! that is too short. The list of values is never refused, nor is any verdict. A refused call writes
//! nothing.

use yauponroof_tests::compare::narrowing::compare_narrowing;
use yauponroof_tests::library::guarded::written_twice;
use yauponroof_tests::library::narrow;
use yauponroof_tests::logs::notation::run;
use yauponroof_tests::logs::samples::{refusals, RUNS};
use yauponroof_tests::model::reader::LOG_MAX;
use yauponroof_tests::model::writer::log;
use yauponroof_tests::refused;

const LISTS: [&[u32]; 4] = [&[], &[7], &[7, 7, 1], &[9, u32::MAX, 0]];

#[test]
fn the_refusals_of_the_log_come_before_24() {
    let mut compared = 0;
    for (log, refusal) in refusals() {
        for values in LISTS {
            for length in (0..=4).chain([log.len(), LOG_MAX]) {
                let outcome = written_twice(length, |out| narrow(&log, values, out));
                assert_eq!(outcome, Err(refusal), "a buffer of {length} bytes");
                compared += 1;
            }
        }
    }
    assert_eq!(compared, 11 * 4 * 7);
}

#[test]
fn a_buffer_under_3_bytes_is_always_too_short() {
    for (text, ..) in RUNS {
        let log = log(&run(text));
        for values in LISTS {
            for length in 0..3 {
                let outcome = written_twice(length, |out| narrow(&log, values, out));
                assert_eq!(outcome, Err(refused(24, 0)), "{text}, {length} bytes");
            }
        }
    }
}

#[test]
fn orders_and_patterns_are_narrowed() {
    let mut kept_something = 0;
    for (text, ..) in RUNS {
        let log = log(&run(text));
        for values in LISTS {
            let narrowed = compare_narrowing(&log, values);
            kept_something += usize::from(narrowed.len() > 3);
        }
    }
    assert_eq!(kept_something, 20);
}
