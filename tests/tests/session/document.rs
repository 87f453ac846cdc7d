//! Sessions on what document 01 says of them, sentence by sentence: "Sessions", the parts of the
//! input list that are about a feed, and "Turned down by how things stand".

use yauponroof_tests::compare::session::Compared;
use yauponroof_tests::compare::whole_session::{compare_whole, fed, holding};
use yauponroof_tests::hex::hex;
use yauponroof_tests::library::outcomes::{excerpt_made, judged};
use yauponroof_tests::logs::notation::run;
use yauponroof_tests::logs::samples::{refused_logs, Verdict, RUNS};
use yauponroof_tests::model::session::{CLOSED, OPEN};
use yauponroof_tests::model::sheet::{verdict_on, HEADER, SHEET_MAX};
use yauponroof_tests::model::writer::log;
use yauponroof_tests::{refused, Answer, Session};

/// The records of document 01's second run, A7( A7) R( R7), by client 1 at ticks 1 to 4.
const ADD_CALLED: &str = "0B 01 0001 00000001 00000007";
const ADD_RETURNED: &str = "07 03 0001 00000002";
const REMOVE_CALLED: &str = "07 02 0001 00000003";
const REMOVE_RETURNED: &str = "0B 04 0001 00000004 00000007";

/// A session with a buffer of that many bytes that was fed these records.
fn session(length: usize, records: &[&str]) -> Compared {
    let mut session = Compared::begun(length);
    for record in records {
        let record = hex(record);
        assert_eq!(session.feed(&record), Answer::Accepted(record.len() as u32));
    }
    session
}

/// A session that was fed the run, and then closed.
fn closed(text: &str) -> Compared {
    let mut session = fed(&run(text));
    session.close(SHEET_MAX).expect("a sheet");
    session
}

fn numbers(session: &Compared) -> (u32, u32) {
    let Session { stage, used } = session.state().session;
    (stage, used)
}

/// Runs with an order and with a pattern, one with an open remove, and one that is readable but for
/// 10.
const ORDER: &str = "A7( A7) R( R7)";
const PATTERN: &str = "A1( A1) A2( A2) R( R2)";
const OPEN_REMOVE: &str = "A7( A7) R(";
const TWO_OPEN_REMOVES: &str = "A7( Ra( A7) Rb(";

/// "Beginning writes 01 00 00 (hexadecimal)." "An accepted call that writes returns how many bytes
/// it wrote; bytes behind them keep their contents."
#[test]
fn beginning_writes_the_log_of_no_records() {
    let mut session = Compared::new(5);
    assert_eq!(session.begin(), Answer::Accepted(3));
    assert_eq!(numbers(&session), (OPEN, 3));
    assert_eq!(session.state().buffer, hex("01 00 00 AA AA"));
}

/// "Each accepted feed alters only these, the count in the lent buffer and the bytes just behind the
/// used ones." "A feed returns 1 + L."
#[test]
fn a_feed_alters_the_count_and_the_bytes_behind_the_used_ones() {
    let mut session = Compared::begun(26);
    assert_eq!(session.feed(&hex(ADD_CALLED)), Answer::Accepted(12));
    assert_eq!(numbers(&session), (OPEN, 15));
    let once = format!("01 0001 {ADD_CALLED} AA AA AA AA AA AA AA AA AA AA AA");
    assert_eq!(session.state().buffer, hex(&once));
    assert_eq!(session.feed(&hex(ADD_RETURNED)), Answer::Accepted(8));
    assert_eq!(numbers(&session), (OPEN, 23));
    let twice = format!("01 0002 {ADD_CALLED} {ADD_RETURNED} AA AA AA");
    assert_eq!(session.state().buffer, hex(&twice));
}

/// "The lent buffer then always holds the log fed so far."
#[test]
fn the_buffer_holds_the_log_fed_so_far() {
    let records = run("A1( A2( A1) A2) R( R2)");
    for count in 0..=records.len() {
        let session = fed(&records[..count]);
        assert_eq!(session.held(), log(&records[..count]));
    }
}

/// "Closing gives the sheet that the whole log gives. Closing alters only the stage."
#[test]
fn closing_gives_the_sheet_and_alters_the_stage() {
    let all = [ADD_CALLED, ADD_RETURNED, REMOVE_CALLED, REMOVE_RETURNED];
    let mut session = session(50, &all);
    let before = session.state().clone();
    assert_eq!(session.close(20), Ok(hex("01 00 0002 0000 0001")));
    assert_eq!(numbers(&session), (CLOSED, 43));
    assert_eq!(session.state().buffer, before.buffer);
}

#[test]
fn the_runs_of_the_document() {
    for (text, _, verdict) in RUNS {
        let sheet = compare_whole(&run(text)).expect("a sheet");
        let told = match verdict {
            Verdict::Order(order) => (0, order.to_vec()),
            Verdict::Pattern(number, operations) => (number, operations.to_vec()),
        };
        assert_eq!(verdict_on(&sheet), Some(told), "{text}");
    }
}

/// "For a log that is readable, or is so but for 10, and buffers long enough, feeding its records
/// and closing answers as judging the log does."
#[test]
fn a_second_remove_without_return_is_told_as_judging_tells_it() {
    for (text, index) in [
        ("Ra( Rb(", 1),
        (TWO_OPEN_REMOVES, 3),
        ("Ra( Rb( A1( Rc(", 1),
        ("A1( Ra( A1) Rb( Rb1) Rc(", 5),
    ] {
        assert_eq!(judged(&log(&run(text))), Err(refused(10, index)), "{text}");
        assert_eq!(compare_whole(&run(text)), Err(refused(10, index)), "{text}");
    }
}

/// A session is closed over a log with one open remove, and tells the verdict as judging does. "For
/// such logs the archive keeps the sheet alone."
#[test]
fn a_session_is_closed_over_one_open_remove() {
    for (text, sheet) in [
        ("R(", "01 00 0000"),
        (OPEN_REMOVE, "01 00 0001 0000"),
        ("A1( A1) Ro( R( R-)", "01 00 0003 0000 0001 0002"),
        ("A1( A1) R( R-) Ro(", "01 06 0002 0001 0000"),
        ("Ro( R( R9)", "01 01 0001 0001"),
    ] {
        assert_eq!(compare_whole(&run(text)), Ok(hex(sheet)), "{text}");
        let mut session = closed(text);
        assert_eq!(session.state().session.stage, CLOSED, "{text}");
        assert_eq!(session.sheet(SHEET_MAX), Ok(hex(sheet)), "{text}");
        for room in [0, 3, 100] {
            assert_eq!(session.excerpt(room), Err(refused(32, 0)), "{text}");
        }
        assert_eq!(session.close(SHEET_MAX), Err(refused(20, 0)), "{text}");
        assert_eq!(session.feed(&hex(ADD_CALLED)), refused(20, 0), "{text}");
    }
}

/// "It is made from a log or a closed session; the pattern is the one judged from that log." "The
/// archive of a log is the sheet that judging it writes and, with a pattern, the excerpt made from
/// it; a session closed on that log gives the same bytes."
#[test]
fn a_closed_session_gives_the_archive_of_its_log() {
    for (text, _, verdict) in RUNS {
        let log = log(&run(text));
        let session = closed(text);
        assert_eq!(session.sheet(SHEET_MAX), judged(&log), "{text}");
        let excerpt = session.excerpt(log.len());
        assert_eq!(excerpt, excerpt_made(&log), "{text}");
        assert_eq!(excerpt.is_ok(), matches!(verdict, Verdict::Pattern(..)));
    }
}

/// "For a feed: not exactly one record." "A feed makes its whole test for 1, bytes behind the record
/// included, before the rest of the list."
#[test]
fn a_feed_of_not_exactly_one_record_is_1() {
    let mut session = session(60, &[ADD_CALLED]);
    let two = format!("{ADD_RETURNED} {REMOVE_CALLED}");
    let cut = "07 03 0001 000000";
    let left = format!("{ADD_RETURNED} 00");
    for bytes in ["", "07", "0B", "FF", cut, &left, &two] {
        assert_eq!(session.feed(&hex(bytes)), refused(1, 1), "{bytes}");
    }
    // Each is refused for something else without the byte behind it.
    for (bytes, number) in [
        ("00", 5),
        ("01 09", 4),
        ("07 09 0001 00000002", 4),
        ("07 01 0001 00000002", 5),
        ("07 03 0001 00000000", 6),
        ("07 02 0001 00000002", 7),
        ("07 05 0001 00000002", 8),
        ("0B 01 0002 00000002 00000007", 9),
    ] {
        assert_eq!(session.feed(&hex(bytes)), refused(number, 1), "{bytes}");
        let longer = format!("{bytes} 00");
        assert_eq!(session.feed(&hex(&longer)), refused(1, 1), "{longer}");
    }
}

/// "A feed's index is the number of records held."
#[test]
fn a_feed_is_refused_with_the_number_of_records_held() {
    let mut session = Compared::begun(60);
    let all = [ADD_CALLED, ADD_RETURNED, REMOVE_CALLED, REMOVE_RETURNED];
    for (held, record) in (0..).zip(all) {
        assert_eq!(session.feed(&[]), refused(1, held));
        assert_eq!(session.feed(&[0]), refused(5, held));
        assert_eq!(session.feed(&hex("01 06")), refused(4, held));
        let record = hex(record);
        assert_eq!(session.feed(&record), Answer::Accepted(record.len() as u32));
    }
    assert_eq!(session.feed(&hex(ADD_CALLED)), refused(6, 4));
}

/// "4: unknown kind. 5: L is 0, or not the kind's. 6: tick below the record before. 7: call by a
/// client with an open call. 8: return with no open call of that client and that operation. 9: a
/// value called to be added a second time." Each "returns its number and a record index and writes
/// nothing"; the session then goes on.
#[test]
fn each_refusal_of_the_input_list() {
    let mut session = session(60, &[ADD_CALLED, "07 02 0002 00000001"]);
    let before = session.state().clone();
    for (record, number) in [
        ("07 00 0003 00000001", 4),
        ("07 06 0003 00000001", 4),
        ("0B FF 0003 00000001 00000008", 4),
        ("00", 5),
        ("01 01", 5),
        ("07 01 0003 00000001", 5),
        ("0B 02 0003 00000001 00000008", 5),
        ("0B 03 0001 00000001 00000007", 5),
        ("07 04 0002 00000001", 5),
        ("0B 05 0002 00000001 00000007", 5),
        ("07 03 0001 00000000", 6),
        ("07 02 0001 00000001", 7),
        ("0B 01 0002 00000001 00000008", 7),
        ("07 03 0003 00000001", 8),
        ("07 03 0002 00000001", 8),
        ("07 05 0001 00000001", 8),
        ("0B 04 0001 00000001 00000007", 8),
        ("0B 01 0003 00000001 00000007", 9),
    ] {
        assert_eq!(session.feed(&hex(record)), refused(number, 2), "{record}");
        assert_eq!(*session.state(), before, "{record}");
    }
    assert_eq!(session.feed(&hex(ADD_RETURNED)), Answer::Accepted(8));
    assert_eq!(
        session.feed(&hex("0B 04 0002 00000002 00000007")),
        Answer::Accepted(12)
    );
    assert_eq!(session.close(8), Ok(hex("01 00 0002 0000 0001")));
}

/// "20: feed or close on a closed session."
#[test]
fn a_closed_session_takes_no_feed_and_no_close() {
    let mut session = closed(ORDER);
    for record in [ADD_CALLED, "07 02 0009 00000009", "", "00", "01 09"] {
        assert_eq!(session.feed(&hex(record)), refused(20, 0), "{record}");
    }
    for room in [0, 3, 4, 8, 100] {
        assert_eq!(session.close(room), Err(refused(20, 0)));
    }
}

/// "22: sheet or excerpt from an open session."
#[test]
fn an_open_session_gives_no_sheet_and_no_excerpt() {
    for text in ["", ORDER, PATTERN, OPEN_REMOVE, TWO_OPEN_REMOVES] {
        let session = fed(&run(text));
        for room in [0, 3, 4, 8, 100] {
            assert_eq!(session.sheet(room), Err(refused(22, 0)), "{text}");
            assert_eq!(session.excerpt(room), Err(refused(22, 0)), "{text}");
        }
    }
}

/// "23: excerpt where the verdict is an order."
#[test]
fn there_is_no_excerpt_of_an_order() {
    for text in ["", ORDER] {
        let session = closed(text);
        for room in [0, 2, 3, 100] {
            assert_eq!(session.excerpt(room), Err(refused(23, 0)), "{text}");
        }
    }
}

/// "24: a buffer too short for the complete answer, or for the fed record, or under 3 bytes at
/// beginning."
#[test]
fn a_buffer_that_is_too_short() {
    for length in 0..3 {
        assert_eq!(Compared::new(length).begin(), refused(24, 0));
    }
    let mut short = session(26, &[ADD_CALLED]);
    let longer = hex("0B 01 0002 00000001 00000008");
    assert_eq!(short.feed(&longer), refused(24, 0));
    // What follows is as if it had not been tried.
    assert_eq!(short.feed(&hex(ADD_RETURNED)), Answer::Accepted(8));
    assert_eq!(short.close(5), Err(refused(24, 0)));
    assert_eq!(short.close(6), Ok(hex("01 00 0001 0000")));
    let pattern = closed(PATTERN);
    assert_eq!(pattern.sheet(9), Err(refused(24, 0)));
    assert_eq!(pattern.sheet(10), Ok(hex("01 04 0003 0000 0001 0002")));
    assert_eq!(pattern.excerpt(62), Err(refused(24, 0)));
    assert_eq!(pattern.excerpt(63), Ok(log(&run(PATTERN))));
}

/// Asserts that the four calls that look at a session are all refused 25, whatever is handed in.
fn assert_unfit(mut session: Compared) {
    let before = session.state().clone();
    for record in [ADD_CALLED, "07 02 0009 00000009", "", "00"] {
        assert_eq!(session.feed(&hex(record)), refused(25, 0));
    }
    for room in [0, SHEET_MAX] {
        assert_eq!(session.close(room), Err(refused(25, 0)));
        assert_eq!(session.sheet(room), Err(refused(25, 0)));
        assert_eq!(session.excerpt(room), Err(refused(25, 0)));
    }
    assert_eq!(*session.state(), before);
}

/// "25: the session's stage or used bytes do not fit its buffer": a stage that is neither open nor
/// closed.
#[test]
fn a_stage_that_is_none() {
    for stage in [
        2,
        3,
        255,
        256,
        257,
        1 << 16,
        (1 << 16) + 1,
        1 << 24,
        1 << 31,
        u32::MAX,
    ] {
        for text in ["", ORDER, PATTERN, OPEN_REMOVE, TWO_OPEN_REMOVES] {
            let mut session = fed(&run(text));
            session.tamper(|state| state.session.stage = stage);
            assert_unfit(session);
        }
    }
}

/// The same: used bytes that the buffer does not have, or that are not those of the log in it.
#[test]
fn used_bytes_that_do_not_fit() {
    let sound = fed(&run(ORDER));
    let used = sound.state().session.used;
    let length = sound.state().buffer.len() as u32;
    let near = (0..=length + 20).filter(|&other| other != used);
    let far = [used + (1 << 8), used + (1 << 16), used | 1 << 31, u32::MAX];
    for other in near.chain(far) {
        for stage in [OPEN, CLOSED] {
            let mut session = sound.clone();
            session.tamper(|state| state.session = Session { stage, used: other });
            assert_unfit(session);
        }
    }
}

/// The same: a buffer that ends before the used bytes do.
#[test]
fn a_buffer_shorter_than_the_used_bytes() {
    for text in ["", ORDER] {
        for stage in [OPEN, CLOSED] {
            let sound = fed(&run(text));
            for length in 0..sound.state().used() {
                let mut session = sound.clone();
                session.tamper(|state| {
                    state.session.stage = stage;
                    state.buffer.truncate(length);
                });
                assert_unfit(session);
            }
        }
    }
}

/// "Or the bytes are no readable log": one for each of the refusals 1 to 9 and 31.
#[test]
fn a_log_that_is_not_readable() {
    let mut unfit = 0;
    for log in &refused_logs()[..10] {
        for stage in [OPEN, CLOSED] {
            for behind in [0, 30] {
                assert_unfit(holding(log, stage, behind));
                unfit += 1;
            }
        }
    }
    assert_eq!(unfit, 40);
}

/// "Open session: readable but for 10": the same log is held by an open session, and not by a closed
/// one.
#[test]
fn two_removes_without_return_are_held_by_an_open_session_alone() {
    for text in ["Ra( Rb(", TWO_OPEN_REMOVES, "Ra( Rb( Rc("] {
        let mut session = fed(&run(text));
        assert_eq!(session.sheet(SHEET_MAX), Err(refused(22, 0)));
        session.tamper(|state| state.session.stage = CLOSED);
        assert_unfit(session);
    }
}

/// A log with one remove without return is readable, so that a closed session holds it as well.
#[test]
fn one_remove_without_return_is_held_by_a_closed_session() {
    for text in ["R(", OPEN_REMOVE] {
        let mut session = fed(&run(text));
        session.tamper(|state| state.session.stage = CLOSED);
        assert_eq!(session.sheet(SHEET_MAX), judged(&log(&run(text))));
        assert_eq!(session.excerpt(SHEET_MAX), Err(refused(32, 0)));
        assert_eq!(session.close(SHEET_MAX), Err(refused(20, 0)));
    }
}

/// A session that was not begun holds no log.
#[test]
fn a_session_that_was_not_begun() {
    for length in [0, 1, 2, 3, 60] {
        for stage in [OPEN, CLOSED] {
            let mut session = Compared::new(length);
            session.tamper(|state| state.session.stage = stage);
            assert_unfit(session);
        }
    }
}

/// Beginning looks at nothing of the session; what it held before is gone.
#[test]
fn beginning_again() {
    for stage in [OPEN, CLOSED, 2, u32::MAX] {
        for used in [0, 3, 43, 52, 53, u32::MAX] {
            let mut session = fed(&run(ORDER));
            session.tamper(|state| state.session = Session { stage, used });
            let before = session.state().buffer.clone();
            assert_eq!(session.begin(), Answer::Accepted(3));
            assert_eq!(numbers(&session), (OPEN, 3));
            assert_eq!(session.state().buffer[..3], [1, 0, 0]);
            assert_eq!(session.state().buffer[3..], before[3..]);
            assert_eq!(session.close(HEADER), Ok(hex("01 00 0000")));
        }
    }
}

/// A beginning that is refused leaves the session as it was.
#[test]
fn a_refused_beginning() {
    for length in 0..3 {
        for stage in [OPEN, CLOSED, 2] {
            for used in [0, 3, u32::MAX] {
                let mut session = Compared::new(length);
                session.tamper(|state| state.session = Session { stage, used });
                assert_eq!(session.begin(), refused(24, 0));
                assert_eq!(numbers(&session), (stage, used));
                assert_eq!(session.state().buffer, vec![0xAA; length]);
            }
        }
    }
}
