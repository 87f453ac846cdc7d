//! The refusals of the judge in their order: those of the log, 1 to 10 and 31, come before a sheet
//! that is too short. A refused call writes nothing.

use yauponroof_tests::library::guarded::written_twice;
use yauponroof_tests::library::judge;
use yauponroof_tests::library::outcomes::judged;
use yauponroof_tests::logs::notation::run;
use yauponroof_tests::logs::samples::{pending_adds, refusals};
use yauponroof_tests::model::sheet::SHEET_MAX;
use yauponroof_tests::model::writer::log;
use yauponroof_tests::refused;

#[test]
fn the_refusals_of_the_log_come_before_24() {
    let mut compared = 0;
    for (log, refusal) in refusals() {
        for length in (0..=12).chain([SHEET_MAX]) {
            let outcome = written_twice(length, |sheet| judge(&log, sheet));
            assert_eq!(outcome, Err(refusal), "a sheet of {length} bytes");
            compared += 1;
        }
    }
    assert_eq!(compared, 11 * 14);
}

#[test]
fn a_sheet_that_is_too_short_has_no_record_at_fault() {
    for text in ["", "A7( A7) R( R7)", "A1( A1) A2( A2) R( R2)", "R( R9)"] {
        let log = log(&run(text));
        for length in 0..4 {
            let outcome = written_twice(length, |sheet| judge(&log, sheet));
            assert_eq!(outcome, Err(refused(24, 0)), "{text}, {length} bytes");
        }
    }
}

#[test]
fn a_fault_in_the_last_record_comes_before_24() {
    let mut records = pending_adds(1023);
    records.push(records[0]);
    let fallen = log(&records);
    records[1023].tick = 1023;
    let busy = log(&records);
    records[1023].client = 1023;
    let added_again = log(&records);
    for (log, number) in [(fallen, 6), (busy, 7), (added_again, 9)] {
        for length in [0, 3, 4, SHEET_MAX] {
            let outcome = written_twice(length, |sheet| judge(&log, sheet));
            assert_eq!(outcome, Err(refused(number, 1023)), "{length} bytes");
        }
    }
}

#[test]
fn a_second_open_remove_is_refused_whatever_the_verdict_would_be() {
    // Beside an order and each pattern two removes do not return, as the first operations, as the
    // last, or as the first and the last.
    let runs = [
        "A7( A7) R( R7)",
        "R( R9)",
        "A7( A7) R( R7) R( R7)",
        "R( R7) A7( A7)",
        "A1( A1) A2( A2) R( R2)",
        "A1( A1) A2( A2) R( R2) R( R1)",
        "A0( A0) R( R-)",
    ];
    for (verdict, text) in runs.iter().enumerate() {
        let records = run(text);
        let sheet = judged(&log(&records)).expect("a sheet");
        assert_eq!(usize::from(sheet[1]), verdict, "{text}");
        let first = judged(&log(&run(&format!("Ro( Rp( {text}"))));
        assert_eq!(first, Err(refused(10, 1)), "{text}");
        let end = records.len() as u32 + 1;
        let last = judged(&log(&run(&format!("{text} Ro( Rp("))));
        assert_eq!(last, Err(refused(10, end)), "{text}");
        let apart = judged(&log(&run(&format!("Ro( {text} Rp("))));
        assert_eq!(apart, Err(refused(10, end)), "{text}");
    }
}
