//! The buffer of an excerpt at every length from 0 to past the needed one, for the longest excerpts
//! at some of them: below it the call is refused 24 and writes nothing, and from there on it writes
//! the same bytes, which are held against the model's, and leaves those behind them alone.

use yauponroof_tests::compare::archive::Archives;
use yauponroof_tests::compare::buffer_lengths::compare_lengths;
use yauponroof_tests::library::excerpt;
use yauponroof_tests::library::outcomes::excerpt_made;
use yauponroof_tests::logs::enumerate::every_log;
use yauponroof_tests::logs::insertion::with_run;
use yauponroof_tests::logs::notation::run;
use yauponroof_tests::logs::samples::{longest_false_empty, pending_adds, Verdict, RUNS};
use yauponroof_tests::logs::ticks::rising;
use yauponroof_tests::model::history::operations;
use yauponroof_tests::model::reader::{LOG_MAX, MAX_RECORDS};
use yauponroof_tests::model::record::{call_remove, return_value, Record};
use yauponroof_tests::model::violations::first_violation;
use yauponroof_tests::model::writer::log;

/// Lends buffers of these lengths; how many of them were long enough.
fn compare_excerpts(log: &[u8], lengths: impl Iterator<Item = usize>) -> usize {
    Archives::new().compare(log);
    compare_lengths(&excerpt_made(log), lengths, |out| excerpt(log, out))
}

fn needed(log: &[u8]) -> usize {
    excerpt_made(log).expect("an excerpt").len()
}

#[test]
fn every_length_for_every_log_of_up_to_five_records() {
    let mut logs = 0;
    every_log(5, &mut |records| {
        if first_violation(&operations(records)).is_some() {
            let log = log(records);
            assert_eq!(compare_excerpts(&log, 0..=needed(&log) + 3), 4);
            logs += 1;
        }
    });
    assert_eq!(logs, 488);
}

#[test]
fn every_length_for_the_runs_of_the_document() {
    let mut logs = 0;
    for (text, _, verdict) in RUNS {
        if let Verdict::Pattern(..) = verdict {
            let log = log(&run(text));
            assert_eq!(compare_excerpts(&log, 0..=needed(&log) + 20), 21, "{text}");
            assert_eq!(compare_excerpts(&log, [LOG_MAX, 1 << 20].into_iter()), 2);
            logs += 1;
        }
    }
    assert_eq!(logs, 7);
}

#[test]
fn a_short_excerpt_of_a_long_log() {
    // The buffer is shorter than the log and long enough.
    for text in ["R( R9)", "A1( A1) A2( A2) R( R2) R( R1)", "A0( A0) R( R-)"] {
        let before = MAX_RECORDS - text.split_whitespace().count();
        let log = log(&with_run(&pending_adds(before), &[(before, text)]));
        let needed = needed(&log);
        assert!(needed < 100, "{text}");
        let lengths = (0..=3).chain(needed - 5..=needed + 5);
        assert_eq!(compare_excerpts(&log, lengths), 6, "{text}");
        assert_eq!(
            compare_excerpts(&log, [log.len() - 1, log.len()].into_iter()),
            2
        );
    }
}

/// A remove that returns 9, so often that it fills the log.
fn removes_of_one_value() -> Vec<Record> {
    let remove = |i| [call_remove(i, 1), return_value(i, 1, 9)];
    rising(&(0..512).flat_map(remove).collect::<Vec<_>>())
}

#[test]
fn lengths_around_the_longest_excerpts() {
    for records in [longest_false_empty(), removes_of_one_value()] {
        let log = log(&records);
        let needed = needed(&log);
        assert_eq!(needed, log.len(), "the excerpt is the whole log");
        assert!(needed > 10_000);
        let around = needed - 20..=needed + 20;
        let others = (0..20).chain((20..needed - 20).step_by(501));
        assert_eq!(compare_excerpts(&log, others.chain(around)), 21);
    }
}
