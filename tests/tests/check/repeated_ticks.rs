//! Refusal 31: "a call whose tick equals that of its client's last return, checked right after 7".
//! By hand, for every pair of a return and a call, among many clients, and on every short log with
//! its ticks joined. That 7 comes before it cannot be seen: a client with an open call has called
//! behind its last return, and so has a higher tick.

use yauponroof_tests::compare::reading::Tally;
use yauponroof_tests::library::check;
use yauponroof_tests::logs::enumerate::every_log_with_joined_ticks;
use yauponroof_tests::logs::samples::pending_adds;
use yauponroof_tests::logs::ticks::at_one_tick;
use yauponroof_tests::model::reader::MAX_RECORDS;
use yauponroof_tests::model::record::{
    call_add, call_remove, return_add, return_empty, return_value, Record,
};
use yauponroof_tests::model::writer::{log, log_with_n};
use yauponroof_tests::{refused, Answer};

fn answer(records: &[Record]) -> Answer {
    Tally::of_all_entries().compare(&log(records))
}

/// An operation of the client, called at one tick and returned at another, with each kind of return.
fn operations(client: u16, called: u32, returned: u32) -> [[Record; 2]; 3] {
    [
        [call_add(client, called, 7), return_add(client, returned)],
        [
            call_remove(client, called),
            return_value(client, returned, 8),
        ],
        [call_remove(client, called), return_empty(client, returned)],
    ]
}

#[test]
fn each_call_behind_each_return() {
    for (called, returned) in [(5, 5), (4, 5), (0, 0), (0, u32::MAX - 1)] {
        for [call, end] in operations(1, called, returned) {
            let add = |tick| answer(&[call, end, call_add(1, tick, 9)]);
            let remove = |tick| answer(&[call, end, call_remove(1, tick)]);
            assert_eq!(add(returned), refused(31, 2));
            assert_eq!(remove(returned), refused(31, 2));
            assert_eq!(add(returned + 1), Answer::Accepted(2));
            assert_eq!(remove(returned + 1), Answer::Accepted(2));
        }
    }
}

#[test]
fn a_call_has_its_own_index_however_far_the_return_is() {
    for between in [0, 1, 2, 510, 1021] {
        let mut records = vec![call_add(2000, 3, 5000), return_add(2000, 3)];
        records.extend(at_one_tick(&pending_adds(between), 3));
        records.push(call_add(2000, 3, 5001));
        let index = between as u32 + 2;
        assert_eq!(answer(&records), refused(31, index));
        // Had the tick risen before the call, or before all that stands between, it would be read.
        *records.last_mut().expect("a call") = call_add(2000, 4, 5001);
        assert_eq!(answer(&records), Answer::Accepted(index));
        records[2..].iter_mut().for_each(|record| record.tick = 4);
        assert_eq!(answer(&records), Answer::Accepted(index));
    }
}

#[test]
fn the_return_of_another_client_does_not_matter() {
    for [call, end] in operations(1, 5, 5) {
        for other in [0, 2, 257, 1025, 4097, 16_385, 32_769] {
            assert_eq!(
                answer(&[call, end, call_add(other, 5, 9)]),
                Answer::Accepted(2)
            );
            // The other one returned before that, and calls again when the first returns.
            let before = [call_add(other, 4, 1), return_add(other, 4)];
            let records = [&before[..], &[call, end, call_remove(other, 5)]].concat();
            assert_eq!(answer(&records), Answer::Accepted(3));
        }
    }
}

#[test]
fn a_first_call_is_never_refused() {
    for tick in [0, 1, u32::MAX] {
        assert_eq!(answer(&[call_add(0, tick, 0)]), Answer::Accepted(1));
        assert_eq!(answer(&[call_remove(0, tick)]), Answer::Accepted(1));
        // Others have called and returned at that tick.
        let mut records = Vec::new();
        for client in 1..100 {
            records.extend([call_remove(client, tick), return_empty(client, tick)]);
            let first = call_add(0, tick, 0);
            let answer = answer(&[&records[..], &[first]].concat());
            assert_eq!(answer, Answer::Accepted(1 + u32::from(client)));
        }
    }
}

#[test]
fn the_last_return_counts_and_not_one_before_it() {
    let records = [
        call_add(1, 1, 1),
        return_add(1, 2),
        call_add(1, 3, 2),
        return_add(1, 4),
    ];
    let behind = |tick| answer(&[&records[..], &[call_add(1, tick, 3)]].concat());
    assert_eq!(behind(4), refused(31, 4));
    assert_eq!(behind(5), Answer::Accepted(3));
    // Called at the tick of its own return only, or of both.
    assert_eq!(
        answer(&[records[0], records[1], call_add(1, 2, 2)]),
        refused(31, 2)
    );
    let called_within = [call_remove(1, 2), return_empty(1, 2), call_remove(1, 2)];
    assert_eq!(answer(&called_within), refused(31, 2));
}

#[test]
fn ticks_and_clients_are_compared_by_every_bit() {
    for bit in 0..32 {
        let tick = 0x5A5A_5A5A & !(1 << bit);
        let returned = [call_remove(1, tick), return_empty(1, tick)];
        let call = |tick| answer(&[&returned[..], &[call_add(1, tick, 1)]].concat());
        assert_eq!(call(tick), refused(31, 2), "bit {bit}");
        assert_eq!(call(tick | 1 << bit), Answer::Accepted(2), "bit {bit}");
    }
    for bit in 0..16 {
        let (one, other) = (0x5A5A, 0x5A5A ^ 1 << bit);
        let returned = [call_remove(one, 3), return_empty(one, 3)];
        let call = |client| answer(&[&returned[..], &[call_add(client, 3, 1)]].concat());
        assert_eq!(call(one), refused(31, 2), "bit {bit}");
        assert_eq!(call(other), Answer::Accepted(2), "bit {bit}");
    }
}

/// Client 1 adds 7 and returns at tick 5; clients 2 and 4 have their removes open.
fn returned_and_open() -> [Record; 4] {
    [
        call_remove(2, 4),
        call_remove(4, 4),
        call_add(1, 5, 7),
        return_add(1, 5),
    ]
}

#[test]
fn it_comes_after_the_tests_before_it_and_before_9() {
    let behind = |record| answer(&[&returned_and_open()[..], &[record]].concat());
    // A value added again, by the client itself and by another one.
    assert_eq!(behind(call_add(1, 5, 7)), refused(31, 4));
    assert_eq!(behind(call_add(1, 6, 7)), refused(9, 4));
    assert_eq!(behind(call_add(3, 5, 7)), refused(9, 4));
    // A client with an open call.
    assert_eq!(behind(call_add(2, 5, 7)), refused(7, 4));
    // A falling tick, which is that of the client's last return.
    let fallen = [
        call_add(1, 5, 7),
        return_add(1, 5),
        call_remove(2, 6),
        call_add(1, 5, 7),
    ];
    assert_eq!(answer(&fallen), refused(6, 3));
    // A return at that tick is no call.
    assert_eq!(behind(return_add(1, 5)), refused(8, 4));
    assert_eq!(behind(return_empty(2, 5)), Answer::Accepted(3));
}

#[test]
fn it_comes_before_what_stands_behind_the_record() {
    let records = [&returned_and_open()[..], &[call_add(1, 5, 8)]].concat();
    let expected = refused(31, 4);
    // A second remove without return, which is there already, bytes left, and records that are
    // missing.
    assert_eq!(check(&log(&records)), expected);
    assert_eq!(check(&[&log(&records)[..], &[0]].concat()), expected);
    assert_eq!(check(&log_with_n(6, &records)), expected);
    let mut behind = log_with_n(6, &records);
    for byte in [0, 9, 1, 255] {
        behind.push(byte);
        assert_eq!(check(&behind), expected);
    }
    // The record itself is cut, or its length or its kind is wrong.
    let bytes = log(&records);
    let last = bytes.len() - 12;
    assert_eq!(check(&bytes[..bytes.len() - 1]), refused(1, 4));
    let with_byte = |at: usize, byte| {
        let mut changed = bytes.clone();
        changed[last + at] = byte;
        check(&changed)
    };
    assert_eq!(with_byte(0, 0), refused(5, 4));
    assert_eq!(with_byte(0, 7), refused(5, 4));
    assert_eq!(with_byte(1, 6), refused(4, 4));
}

/// So many clients call at one tick and return at the next.
fn all_returned(clients: u16) -> Vec<Record> {
    let calls = (0..clients).map(|client| call_add(client, 8, client.into()));
    let returns = (0..clients).map(|client| return_add(client, 9));
    calls.chain(returns).collect()
}

#[test]
fn every_client_that_has_returned_at_the_tick_is_known() {
    const CLIENTS: u16 = 511;
    let records = all_returned(CLIENTS);
    let behind = |record| check(&log(&[&records[..], &[record]].concat()));
    for client in 0..CLIENTS {
        assert_eq!(behind(call_add(client, 9, 1000)), refused(31, 1022));
        assert_eq!(behind(call_add(client, 10, 1000)), Answer::Accepted(512));
    }
    assert_eq!(behind(call_add(CLIENTS, 9, 1000)), Answer::Accepted(512));
}

/// All clients return at ticks of their own, and all of them then call at the tick of the last
/// return: the last client alone is refused.
#[test]
fn clients_that_have_returned_at_lower_ticks_may_call() {
    for clients in [2, 3, 100, 340] {
        let mut records = all_returned(clients);
        let (_, returns) = records.split_at_mut(usize::from(clients));
        (9..).zip(returns).for_each(|(tick, r)| r.tick = tick);
        let last_tick = 8 + u32::from(clients);
        for client in 0..clients - 1 {
            let value = 1000 + u32::from(client);
            records.push(call_add(client, last_tick, value));
        }
        let operations = 2 * u32::from(clients) - 1;
        assert_eq!(answer(&records), Answer::Accepted(operations));
        records.push(call_add(clients - 1, last_tick, 5000));
        assert_eq!(answer(&records), refused(31, records.len() as u32 - 1));
    }
}

/// The tick rises, and those that returned before are forgotten; one returns anew and is known.
#[test]
fn a_client_that_returns_again_at_a_later_tick() {
    let mut records = all_returned(300);
    for client in 0..200 {
        records.push(call_remove(client, 10));
    }
    for client in (0..200).rev() {
        records.push(return_empty(client, 10));
    }
    assert_eq!(records.len(), 1000);
    for client in 0..300 {
        let last = call_add(client, 10, 1000);
        let expected = match client {
            0..200 => refused(31, 1000),
            _ => Answer::Accepted(501),
        };
        let answer = check(&log(&[&records[..], &[last]].concat()));
        assert_eq!(answer, expected, "client {client}");
    }
}

#[test]
fn it_is_told_of_the_last_of_the_most_records() {
    let mut records = at_one_tick(&pending_adds(MAX_RECORDS - 2), 7);
    records.push(return_add(500, 7));
    records.push(call_remove(500, 7));
    assert_eq!(answer(&records), refused(31, 1023));
    records[1023].tick = 8;
    assert_eq!(answer(&records), Answer::Accepted(1023));
}

/// What the other entries answer to these is compared where the judge, replay, pages and sessions are.
#[test]
fn every_log_of_up_to_six_records_with_ticks_joined_in_every_way() {
    let mut tally = Tally::new();
    every_log_with_joined_ticks(6, &mut |records| {
        tally.compare(&log(records));
    });
    assert_eq!((tally.seen(0), tally.seen(31)), (149_776, 49_718));
    assert_eq!(tally.total(), 149_776 + 49_718);
}

#[test]
fn all_entries_refuse_the_same_logs() {
    let mut tally = Tally::of_all_entries();
    every_log_with_joined_ticks(5, &mut |records| {
        tally.compare(&log(records));
    });
    assert_eq!((tally.seen(0), tally.seen(31)), (9642, 2588));
}
