//! Values and clients that share slots of the library's maps: each of them is told from the others,
//! wherever it stands among them. The logs are handed to all other entries as well.

use yauponroof_tests::compare::reading::Tally;
use yauponroof_tests::logs::samples::adds_then_removes;
use yauponroof_tests::logs::slots::Slots;
use yauponroof_tests::model::reader::MAX_RECORDS;
use yauponroof_tests::model::record::{
    call_add, call_remove, return_add, return_empty, return_value, Record,
};
use yauponroof_tests::model::writer::log;
use yauponroof_tests::random::Random;
use yauponroof_tests::{refused, Answer};

/// Adds of these values that never return, a client each.
fn pending_adds(values: &[u32]) -> Vec<Record> {
    let clients = 0..;
    let adds = clients
        .zip(values)
        .map(|(client, &v)| call_add(client, 1, v));
    adds.collect()
}

/// Compares the log of adds of these values, with one more of value number `first` put in as record
/// `again`.
fn compare_added_again(values: &[u32], first: usize, again: usize, tally: &mut Tally) {
    let (before, after) = values.split_at(again);
    let all = [before, &[values[first]], after].concat();
    let answer = tally.compare(&log(&pending_adds(&all)));
    assert_eq!(answer, refused(9, again as u32), "{first} and {again}");
}

#[test]
fn values_of_one_slot_fill_the_log() {
    let values = Slots::default().values;
    for n in [1, 2, 3, 100, MAX_RECORDS] {
        // A tally judges its first log.
        let answer = Tally::of_all_entries().compare(&log(&pending_adds(&values[..n])));
        assert_eq!(answer, Answer::Accepted(n as u32));
    }
}

#[test]
fn each_of_few_values_of_one_slot_added_again_anywhere() {
    let values = &Slots::default().values[..24];
    let mut tally = Tally::of_all_entries();
    for again in 1..=values.len() {
        for first in 0..again {
            compare_added_again(values, first, again, &mut tally);
        }
    }
    tally.assert_at_least([0, 0, 0, 0, 0, 0, 0, 0, 0, 300, 0]);
}

#[test]
fn a_value_added_again_among_many_of_its_slot() {
    let values = &Slots::default().values[..MAX_RECORDS - 1];
    let mut random = Random::new(213);
    let mut tally = Tally::of_all_entries();
    for again in [1, 2, 511, 512, 513, 1022, 1023] {
        let by_chance = random.below(again);
        for first in [0, again / 2, again - 1, by_chance] {
            compare_added_again(values, first, again, &mut tally);
        }
    }
    tally.assert_at_least([0, 0, 0, 0, 0, 0, 0, 0, 0, 28, 0]);
}

#[test]
fn a_value_added_again_when_it_was_removed() {
    let slots = Slots::default();
    let records = slots.shared(&adds_then_removes(255, 0..255));
    for value in [0, 1, 100, 254] {
        let again = call_add(2, u32::MAX, slots.values[value]);
        let answer = Tally::of_all_entries().compare(&log(&[&records[..], &[again]].concat()));
        assert_eq!(answer, refused(9, 1020), "value number {value}");
    }
}

#[test]
fn clients_of_one_slot_are_told_apart() {
    tell_apart(&Slots::default());
}

#[test]
fn clients_of_one_slot_of_the_reader_are_told_apart() {
    tell_apart(&Slots::of_the_reader());
}

/// Clients of one slot call an add each. What a client may do then depends on that client alone.
fn tell_apart(slots: &Slots) {
    const N: u32 = 125;
    let (callers, others) = slots.clients.split_at(N as usize);
    let stranger = others[0];
    let adds = callers.iter().zip(1000..);
    let calls: Vec<Record> = adds.map(|(&c, value)| call_add(c, 1, value)).collect();
    let mut tally = Tally::of_all_entries();
    let mut compare = |more: &[Record], expected: Answer| {
        let answer = tally.compare(&log(&[&calls[..], more].concat()));
        assert_eq!(answer, expected, "{more:?}");
    };
    for &client in callers {
        let returned = return_add(client, 1);
        compare(&[call_add(client, 1, 7)], refused(7, N));
        compare(&[call_remove(client, 1)], refused(7, N));
        compare(&[return_empty(client, 1)], refused(8, N));
        compare(&[returned], Answer::Accepted(N));
        compare(&[returned, returned], refused(8, N + 1));
        compare(&[returned, call_remove(client, 1)], refused(31, N + 1));
        let removes = [returned, call_remove(client, 2), call_remove(stranger, 2)];
        compare(&removes[..2], Answer::Accepted(N + 1));
        compare(&removes, refused(10, N + 2));
        compare(&[returned, call_add(client, 2, 7)], Answer::Accepted(N + 1));
        compare(
            &[returned, call_add(stranger, 1, 7)],
            Answer::Accepted(N + 1),
        );
    }
    compare(&[return_add(stranger, 1)], refused(8, N));
    compare(&[return_value(stranger, 1, 1000)], refused(8, N));
    compare(&[call_add(stranger, 1, 7)], Answer::Accepted(N + 1));
    tally.assert_at_least([501, 0, 0, 0, 0, 0, 0, 250, 252, 0, 125]);
    tally.assert_seen(31, 125);
}
