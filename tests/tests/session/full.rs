//! Sessions that hold the most records, 1,024: "21: feed when 1,024 records are held."

use yauponroof_tests::compare::whole_session::{compare_closing, compare_whole, fed, holding};
use yauponroof_tests::logs::insertion::with_pending_remove;
use yauponroof_tests::logs::samples::{calls_then_returns, pending_adds};
use yauponroof_tests::logs::simulation::{simulate, Clients};
use yauponroof_tests::model::reader::{LOG_MAX, MAX_RECORDS};
use yauponroof_tests::model::record::{call_add, call_remove, return_value, Record};
use yauponroof_tests::model::session::{CLOSED, OPEN};
use yauponroof_tests::model::writer::{log, record_bytes};
use yauponroof_tests::{refused, Answer};

/// Logs of the most records: the longest one, one of calls and then returns, a simulated one.
fn full_logs() -> Vec<Vec<Record>> {
    vec![
        pending_adds(MAX_RECORDS),
        calls_then_returns(MAX_RECORDS),
        simulate(8, Clients::Reused, MAX_RECORDS, 203),
    ]
}

/// What may be fed behind a log of these records if there were room for a record more.
fn next_record() -> Vec<u8> {
    record_bytes(&call_add(u16::MAX, u32::MAX, 7))
}

/// That record, and bytes that the input list refuses.
fn fed_in_vain() -> Vec<Vec<u8>> {
    let cut = next_record()[..11].to_vec();
    let left = [next_record(), vec![0]].concat();
    let twice = [next_record(), next_record()].concat();
    vec![vec![], vec![0], vec![1, 9], cut, next_record(), left, twice]
}

#[test]
fn the_last_record_is_taken_and_no_other() {
    for records in full_logs() {
        let (last, others) = records.split_last().expect("records");
        let last = record_bytes(last);
        let mut session = holding(&log(others), OPEN, last.len() + 20);
        // The record with the index 1,023.
        assert_eq!(session.feed(&last), Answer::Accepted(last.len() as u32));
        assert_eq!(session.held(), log(&records));
        let before = session.state().clone();
        for bytes in fed_in_vain() {
            assert_eq!(session.feed(&bytes), refused(21, 0), "{bytes:?}");
        }
        assert_eq!(*session.state(), before);
        compare_closing(&mut session, &log(&records)).expect("a sheet");
        assert_eq!(session.feed(&next_record()), refused(20, 0));
    }
}

#[test]
fn records_are_taken_up_to_the_last_whatever_their_number() {
    let mut taken = 0;
    for records in full_logs() {
        for held in [
            0, 1, 127, 128, 254, 255, 256, 511, 512, 767, 768, 1022, 1023,
        ] {
            let record = record_bytes(&records[held]);
            let mut session = holding(&log(&records[..held]), OPEN, record.len());
            assert_eq!(session.feed(&record), Answer::Accepted(record.len() as u32));
            assert_eq!(session.held(), log(&records[..=held]));
            taken += 1;
        }
    }
    assert_eq!(taken, 39);
}

#[test]
fn the_longest_log_is_fed_record_by_record() {
    let records = pending_adds(MAX_RECORDS);
    let mut session = fed(&records);
    assert_eq!(session.held().len(), LOG_MAX);
    assert_eq!(session.feed(&next_record()), refused(21, 0));
    // No add returned and none was removed.
    assert_eq!(
        compare_closing(&mut session, &log(&records)),
        Ok(vec![1, 0, 0, 0])
    );
}

#[test]
fn a_simulated_log_of_the_most_records_is_fed_record_by_record() {
    compare_whole(&simulate(8, Clients::Reused, MAX_RECORDS, 204)).expect("an order");
    compare_whole(&calls_then_returns(MAX_RECORDS)).expect("an order");
}

#[test]
fn a_full_session_with_two_removes_without_return_cannot_be_closed() {
    let mut records = pending_adds(MAX_RECORDS - 1);
    records[7] = call_remove(7, 7);
    records.push(call_remove(u16::MAX, u32::MAX));
    let mut session = holding(&log(&records), OPEN, 20);
    let returned = record_bytes(&return_value(u16::MAX, u32::MAX, u32::MAX));
    assert_eq!(session.feed(&returned), refused(21, 0));
    let refusal = refused(10, MAX_RECORDS as u32 - 1);
    assert_eq!(session.close(2000), Err(refusal));
    assert_eq!(session.state().session.stage, OPEN);
}

#[test]
fn a_full_session_with_one_remove_without_return_is_closed() {
    for at in [0, 511, MAX_RECORDS - 1] {
        let records = with_pending_remove(&pending_adds(MAX_RECORDS - 1), at);
        let mut session = holding(&log(&records), OPEN, 20);
        assert_eq!(session.feed(&next_record()), refused(21, 0));
        let closed = compare_closing(&mut session, &log(&records));
        assert_eq!(closed, Ok(vec![1, 0, 0, 0]), "record {at}");
        assert_eq!(session.feed(&next_record()), refused(20, 0));
    }
}

#[test]
fn a_count_above_the_most_is_no_readable_log() {
    let mut records = pending_adds(MAX_RECORDS);
    records.push(call_add(u16::MAX, u32::MAX, 7));
    for stage in [OPEN, CLOSED] {
        let mut session = holding(&log(&records), stage, 20);
        assert_eq!(session.feed(&next_record()), refused(25, 0));
        assert_eq!(session.close(2000), Err(refused(25, 0)));
        assert_eq!(session.sheet(2000), Err(refused(25, 0)));
        assert_eq!(session.excerpt(LOG_MAX), Err(refused(25, 0)));
    }
}
