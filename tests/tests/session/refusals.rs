//! The refusals of sessions in their order, where more than one of them would do: "Feed: 25, 20,
//! 21, the input list, 24. Others: 25, then 20 or 22, then the input list, 23, 24", and 32 before 23.
//! And what index each carries, and that a refused call changes nothing.

use yauponroof_tests::compare::session::Compared;
use yauponroof_tests::compare::whole_session::{fed, holding};
use yauponroof_tests::hex::hex;
use yauponroof_tests::logs::notation::run;
use yauponroof_tests::logs::samples::{
    open_add, pending_adds, refused_logs, REFUSED_BEHIND_OPEN_ADD,
};
use yauponroof_tests::model::reader::MAX_RECORDS;
use yauponroof_tests::model::session::{CLOSED, OPEN};
use yauponroof_tests::model::sheet::SHEET_MAX;
use yauponroof_tests::model::writer::log;
use yauponroof_tests::{refused, Answer};

/// Bytes that are not one record. Most of them would also be refused for what comes later in the
/// list.
const NOT_ONE_RECORD: [&str; 9] = [
    "",
    "01",
    "0000",
    "0B09",
    "050100000000FF",
    "07090001000000",
    "0709000100000004FF",
    "0B0100010000000400000007FF",
    "0702000100000004 0703000100000005",
];

/// Bytes that are refused behind the open add, each with the number.
fn refused_feeds() -> impl Iterator<Item = (&'static str, u32)> {
    let not_one = NOT_ONE_RECORD.map(|bytes| (bytes, 1));
    not_one.into_iter().chain(REFUSED_BEHIND_OPEN_ADD)
}

/// Asserts that a feed is refused so, and that it changes nothing.
fn assert_refused(session: &mut Compared, record: &str, refusal: Answer) {
    let before = session.state().clone();
    assert_eq!(session.feed(&hex(record)), refusal, "{record}");
    assert_eq!(*session.state(), before, "{record}");
}

#[test]
fn the_input_list_in_its_order_and_before_24() {
    for behind in [0, 1, 7, 8, 11, 12, 40] {
        let mut session = holding(&open_add(), OPEN, behind);
        for (record, number) in refused_feeds() {
            assert_refused(&mut session, record, refused(number, 1));
        }
    }
}

#[test]
fn the_index_is_the_number_of_records_held() {
    for held in [0, 1, 2, 100, 255, 256, 257, 1023] {
        let mut session = holding(&log(&pending_adds(held)), OPEN, 20);
        let index = held as u32;
        for (record, number) in [("", 1), ("0000", 1), ("00", 5), ("0109", 4), ("0101", 5)] {
            assert_refused(&mut session, record, refused(number, index));
        }
        let unknown_client = "0703FFFFFFFFFFFF";
        assert_refused(&mut session, unknown_client, refused(8, index));
        // For want of room the index is 0.
        session.tamper(|state| state.buffer.truncate(state.used() + 7));
        assert_refused(&mut session, "0702FFFFFFFFFFFF", refused(24, 0));
    }
}

#[test]
fn an_unfit_session_is_told_before_all() {
    let mut unfit = 0;
    let logs = refused_logs();
    let unfits = logs.iter().flat_map(|log| [(log, OPEN), (log, CLOSED)]);
    // With two removes without return, which is the last log, an open session fits.
    for (log, stage) in unfits.filter(|&(log, stage)| !(stage == OPEN && log == &logs[10])) {
        for behind in [0, 40] {
            let mut session = holding(log, stage, behind);
            for (record, _) in refused_feeds() {
                assert_refused(&mut session, record, refused(25, 0));
            }
            for room in [0, 1, SHEET_MAX] {
                assert_eq!(session.close(room), Err(refused(25, 0)));
                assert_eq!(session.sheet(room), Err(refused(25, 0)));
                assert_eq!(session.excerpt(room), Err(refused(25, 0)));
            }
            unfit += 1;
        }
    }
    assert_eq!(unfit, 42);
}

#[test]
fn a_closed_session_is_told_before_what_is_fed_and_before_a_short_buffer() {
    for behind in [0, 40] {
        let mut session = holding(&open_add(), CLOSED, behind);
        for (record, _) in refused_feeds() {
            assert_refused(&mut session, record, refused(20, 0));
        }
        for room in [0, 3, 4, 100] {
            assert_eq!(session.close(room), Err(refused(20, 0)));
        }
    }
}

/// A log of the most records, the last of which has a tick below the one before.
fn full_and_unfit() -> Vec<u8> {
    let mut records = pending_adds(MAX_RECORDS);
    records[MAX_RECORDS - 1].tick = 5;
    log(&records)
}

#[test]
fn a_full_session_is_told_before_the_input_list_and_behind_25_and_20() {
    for behind in [0, 40] {
        for (log, stage, number) in [
            (log(&pending_adds(MAX_RECORDS)), OPEN, 21),
            (log(&pending_adds(MAX_RECORDS)), CLOSED, 20),
            (full_and_unfit(), OPEN, 25),
            (full_and_unfit(), CLOSED, 25),
        ] {
            let mut session = holding(&log, stage, behind);
            for (record, _) in refused_feeds() {
                assert_refused(&mut session, record, refused(number, 0));
            }
            assert_refused(&mut session, "0702FFFFFFFFFFFF", refused(number, 0));
        }
    }
}

#[test]
fn a_second_remove_without_return_is_told_before_a_short_sheet_and_leaves_the_session_open() {
    let mut session = holding(&log(&run("A7( A7) Ra( Rb(")), OPEN, 20);
    for room in [0, 3, 4, 8, SHEET_MAX] {
        assert_eq!(session.close(room), Err(refused(10, 3)));
        assert_eq!(session.state().session.stage, OPEN);
        assert_eq!(session.excerpt(room), Err(refused(22, 0)));
    }
    // The return of the first is fed, and the session can be closed.
    let returned = hex("0B 04 0002 00000005 00000007");
    assert_eq!(session.feed(&returned), Answer::Accepted(12));
    assert_eq!(session.close(7), Err(refused(24, 0)));
    assert_eq!(session.close(8), Ok(hex("01 00 0002 0000 0001")));
    assert_eq!(session.excerpt(0), Err(refused(32, 0)));
}

#[test]
fn a_short_sheet_leaves_the_session_open() {
    let mut session = holding(&log(&run("A7( A7)")), OPEN, 40);
    for room in 0..6 {
        assert_eq!(session.close(room), Err(refused(24, 0)));
        assert_eq!(session.sheet(room), Err(refused(22, 0)));
    }
    let called = hex("07 02 0002 00000003");
    assert_eq!(session.feed(&called), Answer::Accepted(8));
    assert_eq!(session.close(5), Err(refused(24, 0)));
    assert_eq!(session.clone().close(6), Ok(hex("01 00 0001 0000")));
    let called_too = hex("07 02 0003 00000003");
    assert_eq!(session.feed(&called_too), Answer::Accepted(8));
    assert_eq!(session.close(6), Err(refused(10, 3)));
    let returned = hex("07 05 0002 00000004");
    assert_eq!(session.feed(&returned), Answer::Accepted(8));
    // The remove that is open still took the value.
    let order = hex("01 00 0003 0000 0002 0001");
    assert_eq!(session.close(9), Err(refused(24, 0)));
    assert_eq!(session.clone().close(10), Ok(order));
    let returned_too = hex("07 05 0003 00000004");
    assert_eq!(session.feed(&returned_too), Answer::Accepted(8));
    assert_eq!(session.close(7), Err(refused(24, 0)));
    assert_eq!(session.close(8), Ok(hex("01 06 0002 0001 0000")));
}

#[test]
fn an_open_session_is_told_before_an_order_and_before_a_short_buffer() {
    for text in ["", "A7( A7) R( R7)", "A7( A7) R( R-)", "A7( A7) R("] {
        let session = fed(&run(text));
        for room in [0, 3, 4, SHEET_MAX] {
            assert_eq!(session.sheet(room), Err(refused(22, 0)), "{text}");
            assert_eq!(session.excerpt(room), Err(refused(22, 0)), "{text}");
        }
    }
}

/// 32 comes behind 25 and 22, and before 23 and 24.
#[test]
fn an_open_remove_is_told_before_an_order_and_before_a_short_buffer() {
    for text in [
        "R(",
        "A7( A7) Ro( R( R7)",
        "A7( A7) Ro( R( R-)",
        "A7( A7) R( R-) Ro(",
    ] {
        let log = log(&run(text));
        for room in [0, 1, 2, 3, log.len(), SHEET_MAX] {
            for (stage, number) in [(OPEN, 22), (CLOSED, 32), (2, 25)] {
                let session = holding(&log, stage, 0);
                assert_eq!(session.excerpt(room), Err(refused(number, 0)), "{text}");
            }
        }
        // The used bytes do not fit.
        let mut unfit = holding(&log, CLOSED, 0);
        unfit.tamper(|state| state.session.used -= 1);
        assert_eq!(unfit.excerpt(0), Err(refused(25, 0)), "{text}");
    }
}

#[test]
fn an_order_is_told_before_a_short_buffer() {
    for (text, number) in [("", 23), ("A7( A7) R( R7)", 23), ("A7( A7) R( R-)", 24)] {
        let session = holding(&log(&run(text)), CLOSED, 0);
        for room in [0, 1, 2] {
            assert_eq!(session.excerpt(room), Err(refused(number, 0)), "{text}");
        }
    }
}

#[test]
fn a_closed_session_tells_its_sheet_again_and_again() {
    let mut session = fed(&run("A7( A7) R( R-)"));
    let sheet = session.close(SHEET_MAX).expect("a sheet");
    assert_eq!(sheet, hex("01 06 0002 0001 0000"));
    let excerpt = session.excerpt(SHEET_MAX).expect("an excerpt");
    assert_eq!(excerpt, session.held());
    for _ in 0..3 {
        assert_eq!(session.feed(&hex("07 02 0009 00000009")), refused(20, 0));
        assert_eq!(session.close(SHEET_MAX), Err(refused(20, 0)));
        assert_eq!(session.sheet(7), Err(refused(24, 0)));
        assert_eq!(session.sheet(8).as_ref(), Ok(&sheet));
        assert_eq!(session.excerpt(excerpt.len()).as_ref(), Ok(&excerpt));
    }
}
