//! Refusal 31 in sessions: a feed of a call whose tick equals that of its client's last return, with
//! the number of records held; the session goes on as if it had not been fed. And sessions whose
//! records come in batches of one tick each.

use yauponroof_tests::compare::session::Compared;
use yauponroof_tests::compare::whole_session::{compare_closing, compare_whole, fed, holding};
use yauponroof_tests::hex::hex;
use yauponroof_tests::logs::enumerate::{every_log_with_joined_ticks, random_log};
use yauponroof_tests::logs::samples::{calls_then_returns, pending_adds};
use yauponroof_tests::logs::simulation::{simulate, simulate_load, Clients, Load};
use yauponroof_tests::logs::ticks::{at_one_tick, in_batches};
use yauponroof_tests::model::reader::MAX_RECORDS;
use yauponroof_tests::model::record::{
    call_add, call_remove, return_add, return_empty, return_value, Record,
};
use yauponroof_tests::model::session::{CLOSED, OPEN};
use yauponroof_tests::model::sheet::SHEET_MAX;
use yauponroof_tests::model::writer::{log, record_bytes};
use yauponroof_tests::random::Random;
use yauponroof_tests::{refused, Answer};

/// Feeds the record; it is refused so, and nothing is changed.
fn assert_refused(session: &mut Compared, record: &Record, refusal: Answer) {
    let before = session.state().clone();
    assert_eq!(session.feed(&record_bytes(record)), refusal, "{record:?}");
    assert_eq!(*session.state(), before, "{record:?}");
}

fn assert_taken(session: &mut Compared, record: &Record) {
    let bytes = record_bytes(record);
    let answer = Answer::Accepted(bytes.len() as u32);
    assert_eq!(session.feed(&bytes), answer, "{record:?}");
}

#[test]
fn a_call_at_the_tick_of_its_clients_last_return() {
    let records = [call_add(1, 5, 7), return_add(1, 5)];
    let mut session = holding(&log(&records), OPEN, 60);
    for call in [call_add(1, 5, 8), call_remove(1, 5)] {
        assert_refused(&mut session, &call, refused(31, 2));
    }
    // What was held is still held, and can be closed.
    let sheet = compare_closing(&mut session.clone(), &log(&records));
    assert_eq!(sheet, Ok(hex("01 00 0001 0000")));
    // Another client calls at that tick, and the first one at the next.
    assert_taken(&mut session, &call_remove(2, 5));
    assert_refused(&mut session, &call_remove(1, 5), refused(31, 3));
    assert_taken(&mut session, &return_value(2, 5, 7));
    assert_refused(&mut session, &call_remove(1, 5), refused(31, 4));
    assert_refused(&mut session, &call_add(2, 5, 8), refused(31, 4));
    assert_taken(&mut session, &call_remove(1, 6));
    assert_taken(&mut session, &return_empty(1, 6));
    let all = [
        records[0],
        records[1],
        call_remove(2, 5),
        return_value(2, 5, 7),
        call_remove(1, 6),
        return_empty(1, 6),
    ];
    let sheet = compare_closing(&mut session, &log(&all));
    assert_eq!(sheet, Ok(hex("01 00 0003 0000 0001 0002")));
}

#[test]
fn it_comes_after_the_tests_before_it_and_before_9_and_24() {
    let records = [call_remove(2, 4), call_add(1, 5, 7), return_add(1, 5)];
    // With room for a record, and with none.
    for behind in [0, 7, 11, 12, 40] {
        let mut session = holding(&log(&records), OPEN, behind);
        assert_refused(&mut session, &call_add(1, 5, 7), refused(31, 3));
        assert_refused(&mut session, &call_add(1, 5, 8), refused(31, 3));
        assert_refused(&mut session, &call_remove(1, 5), refused(31, 3));
        assert_refused(&mut session, &call_add(3, 5, 7), refused(9, 3));
        assert_refused(&mut session, &call_add(2, 5, 7), refused(7, 3));
        assert_refused(&mut session, &call_add(1, 4, 7), refused(6, 3));
        assert_refused(&mut session, &return_add(1, 5), refused(8, 3));
        let call = record_bytes(&call_remove(1, 5));
        assert_eq!(session.feed(&call[..7]), refused(1, 3));
        assert_eq!(session.feed(&[&call[..], &[0]].concat()), refused(1, 3));
    }
}

#[test]
fn a_first_call_is_never_refused() {
    for tick in [0, 1, u32::MAX] {
        let mut session = Compared::begun(60);
        assert_taken(&mut session, &call_remove(0, tick));
        assert_taken(&mut session, &return_empty(0, tick));
        assert_taken(&mut session, &call_add(1, tick, 0));
        assert_refused(&mut session, &call_add(0, tick, 1), refused(31, 3));
    }
}

#[test]
fn it_is_told_behind_many_records_of_the_tick() {
    for between in [1, 100, 510, 1021] {
        let mut records = vec![call_add(2000, 3, 5000), return_add(2000, 3)];
        records.extend(at_one_tick(&pending_adds(between), 3));
        let mut session = holding(&log(&records), OPEN, 24);
        let index = between as u32 + 2;
        assert_refused(&mut session, &call_remove(2000, 3), refused(31, index));
        assert_taken(&mut session, &call_add(2000, 4, 5001));
    }
}

/// "The bytes are no readable log": 25, and not 31, whatever is fed.
#[test]
fn a_session_that_holds_such_a_call_is_unfit() {
    let records = [call_add(1, 5, 7), return_add(1, 5), call_add(1, 5, 8)];
    for (stage, behind) in [(OPEN, 0), (OPEN, 40), (CLOSED, 0), (CLOSED, 40)] {
        let mut session = holding(&log(&records), stage, behind);
        for record in [return_add(1, 6), call_remove(2, 5), call_remove(1, 5)] {
            assert_refused(&mut session, &record, refused(25, 0));
        }
        assert_eq!(session.close(SHEET_MAX), Err(refused(25, 0)));
        assert_eq!(session.sheet(SHEET_MAX), Err(refused(25, 0)));
        assert_eq!(session.excerpt(100), Err(refused(25, 0)));
        // With another tick of the last record it fits.
        session.tamper(|state| state.buffer[3 + 12 + 8 + 7] = 6);
        let sheet = match stage {
            OPEN => session.close(SHEET_MAX),
            _ => session.sheet(SHEET_MAX),
        };
        assert_eq!(sheet, Ok(hex("01 00 0001 0000")));
    }
}

/// Feeds the records up to the first that is refused, which must be with 31 and the number of those
/// held. What is held then is closed, as all is if none is refused. Whether one was.
fn is_refused(records: &[Record]) -> bool {
    let mut session = Compared::begun(log(records).len());
    for (held, record) in records.iter().enumerate() {
        let bytes = record_bytes(record);
        match session.feed(&bytes) {
            Answer::Accepted(length) => assert_eq!(length as usize, bytes.len()),
            refusal => {
                assert_eq!(refusal, refused(31, held as u32));
                let _ = compare_closing(&mut session, &log(&records[..held]));
                return true;
            }
        }
    }
    compare_closing(&mut session, &log(records)).expect("a sheet");
    false
}

#[test]
fn every_log_of_up_to_five_records_with_ticks_joined_in_every_way() {
    let mut seen = [0, 0];
    every_log_with_joined_ticks(5, &mut |records| {
        seen[usize::from(is_refused(records))] += 1;
    });
    assert_eq!(seen, [9642, 2588]);
}

#[test]
fn logs_by_chance_in_batches() {
    let mut random = Random::new(233);
    let mut seen = [0; 7];
    for _ in 0..1500 {
        let least = 4 + random.below(12);
        let records = random_log(least, &mut random);
        let batched = in_batches(&records, 4, &mut random);
        let sheet = compare_whole(&batched).expect("a sheet");
        seen[usize::from(sheet[1])] += 1;
    }
    assert_eq!(seen, [326, 461, 353, 196, 102, 8, 54]);
}

#[test]
fn runs_of_a_queue_in_batches() {
    let mut random = Random::new(234);
    for (workers, n, about) in [(1, 60, 3), (4, 200, 6), (64, 200, 50), (8, 400, 9)] {
        let run = simulate_load(Load::Busy, workers, Clients::Reused, n, random.next_u64());
        let run = run.with_pending_adds(10, &mut random);
        let sheet = compare_whole(&run.in_batches(about, &mut random).records);
        assert_eq!(sheet.expect("a sheet")[1], 0);
    }
}

#[test]
fn the_most_records_of_one_tick() {
    let records = at_one_tick(&calls_then_returns(MAX_RECORDS), 1);
    let (last, others) = records.split_last().expect("records");
    let mut session = holding(&log(others), OPEN, 20);
    assert_taken(&mut session, last);
    compare_closing(&mut session, &log(&records)).expect("an order");
    // The second half is fed record by record.
    let mut session = holding(&log(&records[..512]), OPEN, 512 * 12);
    for record in &records[512..] {
        assert_taken(&mut session, record);
    }
    assert_eq!(session.held(), log(&records));
}

/// Each record of a run is fed once more at the tick of the last one held, as a call of its client:
/// 31 exactly if that client has returned at that tick, and 7 if it is at work.
#[test]
fn a_call_of_each_client_behind_each_record() {
    let run = simulate(4, Clients::Reused, 60, 235);
    let records = in_batches(&run, 5, &mut Random::new(236));
    let mut seen = [0; 3];
    for held in 1..records.len() {
        let (before, tick) = (&records[..held], records[held - 1].tick);
        let session = holding(&log(before), OPEN, 20);
        for client in 0..5 {
            let last = before.iter().rfind(|record| record.client == client);
            let (expected, way) = match last {
                Some(last) if last.event.is_call() => (refused(7, held as u32), 0),
                Some(last) if last.tick == tick => (refused(31, held as u32), 1),
                _ => (Answer::Accepted(8), 2),
            };
            let call = record_bytes(&call_remove(client, tick));
            assert_eq!(session.clone().feed(&call), expected, "{held}, {client}");
            seen[way] += 1;
        }
    }
    assert!(seen.iter().all(|&times| times >= 30), "{seen:?}");
    assert_eq!(fed(&records).held(), log(&records));
}
