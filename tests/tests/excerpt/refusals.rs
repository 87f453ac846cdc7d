//! The refusals of the excerpt in their order: those of the log, 1 to 10 and 31, then 32 of a log with
//! an open remove, then 23 where the verdict is an order, then a buffer that is too short. A refused
//! call writes nothing.

use yauponroof_tests::library::excerpt;
use yauponroof_tests::library::guarded::written_twice;
use yauponroof_tests::library::outcomes::judged;
use yauponroof_tests::logs::enumerate::{every_log, every_log_with_pending_remove};
use yauponroof_tests::logs::insertion::with_pending_remove;
use yauponroof_tests::logs::notation::run;
use yauponroof_tests::logs::samples::{
    adds_then_removes, pending_adds, pending_adds_removed, refusals,
};
use yauponroof_tests::logs::simulation::{simulate, Clients};
use yauponroof_tests::model::history::operations;
use yauponroof_tests::model::reader::LOG_MAX;
use yauponroof_tests::model::violations::first_violation;
use yauponroof_tests::model::writer::log;
use yauponroof_tests::refused;

#[test]
fn the_refusals_of_the_log_come_first() {
    let mut compared = 0;
    for (log, refusal) in refusals() {
        for length in (0..=12).chain([log.len(), LOG_MAX]) {
            let outcome = written_twice(length, |out| excerpt(&log, out));
            assert_eq!(outcome, Err(refusal), "a buffer of {length} bytes");
            compared += 1;
        }
    }
    assert_eq!(compared, 11 * 15);
}

#[test]
fn an_order_is_refused_23_before_a_buffer_that_is_too_short() {
    let mut compared = 0;
    every_log(6, &mut |records| {
        if first_violation(&operations(records)).is_some() {
            return;
        }
        let log = log(records);
        for length in [0, 1, 2, 3, log.len() - 1, log.len(), log.len() + 1] {
            let outcome = written_twice(length, |out| excerpt(&log, out));
            assert_eq!(outcome, Err(refused(23, 0)), "{records:?}, {length} bytes");
            compared += 1;
        }
    });
    assert_eq!(compared, 7 * 2093);
}

#[test]
fn long_orders_are_refused_23_whatever_the_buffer() {
    for records in [
        pending_adds(1024),
        simulate(8, Clients::Reused, 1024, 5),
        simulate(64, Clients::OnePerOperation, 1024, 6),
    ] {
        let log = log(&records);
        for length in [0, 1, 2, 3, 1368, log.len() - 1, log.len(), LOG_MAX] {
            let outcome = written_twice(length, |out| excerpt(&log, out));
            assert_eq!(outcome, Err(refused(23, 0)), "{length} bytes");
        }
    }
}

#[test]
fn a_pattern_is_refused_24_where_an_order_is_refused_23() {
    let outcome = |text| {
        let log = log(&run(text));
        written_twice(0, |out| excerpt(&log, out))
    };
    assert_eq!(outcome("A0( A0) R( R-)"), Err(refused(24, 0)));
    assert_eq!(outcome("A0( R( A0) R-)"), Err(refused(23, 0)));
}

/// Asserts that the excerpt is refused 32 with a buffer of no bytes, of some, and of more than enough.
fn assert_refused_32(log: &[u8]) {
    for length in [0, 1, 2, 3, log.len() - 1, log.len(), LOG_MAX] {
        let outcome = written_twice(length, |out| excerpt(log, out));
        assert_eq!(outcome, Err(refused(32, 0)), "{length} bytes, {log:?}");
    }
}

#[test]
fn an_open_remove_is_refused_32_whatever_the_verdict() {
    // By the verdict: an order without the open remove, one with it, and each pattern.
    for (text, verdict) in [
        ("R(", 0),
        ("A7( A7) Ro( R( R7)", 0),
        ("A1( A1) A2( A2) Ro( R( R2)", 0),
        ("A0( A0) Ro( R( R-)", 0),
        ("Ro( R( R9)", 1),
        ("A7( A7) R( R7) R( R7) Ro(", 2),
        ("R( R7) Ro( A7( A7)", 3),
        ("A1( A1) A2( A2) R( R2) Ro(", 4),
        ("A1( A1) A2( A2) R( R2) R( R1) Ro(", 5),
        ("A0( A0) R( R-) Ro(", 6),
    ] {
        let log = log(&run(text));
        assert_eq!(judged(&log).expect("a sheet")[1], verdict, "{text}");
        assert_refused_32(&log);
    }
}

#[test]
fn every_log_of_up_to_six_records_with_an_open_remove_is_refused_32() {
    let mut compared = 0;
    every_log_with_pending_remove(6, &mut |records| {
        assert_refused_32(&log(records));
        compared += 1;
    });
    assert_eq!(compared, 6793);
}

#[test]
fn long_logs_with_an_open_remove_are_refused_32() {
    // The verdicts are orders, and patterns 5 and 4.
    for records in [
        pending_adds(1023),
        pending_adds_removed(340, 0..340),
        adds_then_removes(255, (0..255).rev()),
        adds_then_removes(255, 1..255),
    ] {
        for at in [0, records.len() / 2, records.len()] {
            assert_refused_32(&log(&with_pending_remove(&records, at)));
        }
    }
}

#[test]
fn the_refusals_of_the_log_come_before_32() {
    for (text, number, index) in [
        ("Ro( A7( A7) A7(", 9, 3),
        ("Ro( Rp(", 10, 1),
        ("A7( A7) R( R-) Ro( Rp(", 10, 5),
    ] {
        let log = log(&run(text));
        for length in [0, 3, log.len()] {
            let outcome = written_twice(length, |out| excerpt(&log, out));
            assert_eq!(outcome, Err(refused(number, index)), "{text}");
        }
        // A byte is left behind the last record.
        let left = [&log[..], &[0]].concat();
        let outcome = written_twice(log.len(), |out| excerpt(&left, out));
        let n = text.split_whitespace().count() as u32;
        let expected = if number == 10 {
            refused(1, n)
        } else {
            refused(number, index)
        };
        assert_eq!(outcome, Err(expected), "{text}");
    }
}
