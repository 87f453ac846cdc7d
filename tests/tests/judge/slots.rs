//! The judge and the excerpt on logs whose values and clients share slots of the library's map:
//! which values and clients they are does not matter. Up to 1,024 records, sound and not.

use yauponroof_tests::compare::archive::{verdict_of, Archives};
use yauponroof_tests::logs::changes::CHANGES;
use yauponroof_tests::logs::enumerate::every_log;
use yauponroof_tests::logs::samples::{adds_then_removes, pending_adds};
use yauponroof_tests::logs::simulation::runs_with_shared_slots;
use yauponroof_tests::logs::slots::Slots;
use yauponroof_tests::logs::ticks::rising;
use yauponroof_tests::model::reader::MAX_RECORDS;
use yauponroof_tests::model::record::{
    call_add, call_remove, return_add, return_value, Event, Record, Removed,
};
use yauponroof_tests::model::sheet::ORDER;
use yauponroof_tests::random::Random;

#[test]
fn every_log_of_up_to_six_records() {
    let slots = Slots::default();
    let mut archives = Archives::new();
    every_log(6, &mut |records| {
        archives.compare_records(&slots.shared(records));
    });
    assert_eq!(archives.seen(), [2093, 2787, 396, 1131, 119, 0, 158]);
}

/// 255 adds of values of one slot, the operations 0 to 254, and then 255 removes in the same
/// order; but the remove that would take value number `at` takes number `other`.
fn with_another_taken(at: u32, other: u32) -> Vec<Record> {
    let taken = (0..255).map(|value| if value == at { other } else { value });
    Slots::default().shared(&adds_then_removes(255, taken))
}

#[test]
fn values_of_one_slot_that_are_taken_in_turn() {
    let (verdict, order) = verdict_of(&with_another_taken(0, 0));
    assert_eq!((verdict, order), (ORDER, (0..510).collect()));
}

#[test]
fn a_value_that_was_not_added_among_those_of_its_slot() {
    for at in [0, 1, 127, 253, 254] {
        let expected = (1, vec![255 + at as u16]);
        assert_eq!(verdict_of(&with_another_taken(at, 1000)), expected);
    }
}

#[test]
fn a_value_that_was_removed_twice_among_those_of_its_slot() {
    for (at, other) in [(0, 1), (1, 0), (0, 254), (254, 0), (127, 128), (200, 100)] {
        let removes = [at.min(other), at.max(other)].map(|value| 255 + value as u16);
        let expected = (2, removes.to_vec());
        assert_eq!(verdict_of(&with_another_taken(at, other)), expected);
    }
}

/// Adds of one slot that never return fill the log, but for a remove of one of their values.
#[test]
fn any_of_the_most_values_of_one_slot() {
    let slots = Slots::default();
    let adds = slots.shared(&pending_adds(MAX_RECORDS - 2));
    let (client, remove) = (slots.clients[adds.len()], adds.len() as u16);
    let verdict_with = |number: u16| {
        let value = slots.values[usize::from(number)];
        let removed = [call_remove(client, 1021), return_value(client, 1021, value)];
        verdict_of(&[&adds[..], &removed].concat())
    };
    for number in [0, 1, 511, 1020, 1021] {
        assert_eq!(verdict_with(number), (ORDER, vec![number, remove]));
    }
    assert_eq!(verdict_with(1022), (1, vec![remove]));
}

/// 256 removes, and 256 adds of values of one slot; the first remove takes the last value.
fn removes_and_adds() -> [Vec<Record>; 4] {
    let slots = Slots::default();
    let values = &slots.values[..256];
    let (removers, adders) = slots.clients[..512].split_at(256);
    let adds = adders.iter().zip(values);
    let removes = removers.iter().zip(values.iter().rev());
    [
        removers.iter().map(|&c| call_remove(c, 1)).collect(),
        removes.map(|(&c, &v)| return_value(c, 1, v)).collect(),
        adds.map(|(&c, &v)| call_add(c, 1, v)).collect(),
        adders.iter().map(|&c| return_add(c, 1)).collect(),
    ]
}

#[test]
fn values_of_one_slot_that_are_removed_before_they_are_added() {
    let [remove_calls, remove_returns, add_calls, add_returns] = removes_and_adds();
    let before = [remove_calls, remove_returns, add_calls, add_returns].concat();
    assert_eq!(before.len(), MAX_RECORDS);
    assert_eq!(verdict_of(&rising(&before)), (3, vec![0, 511]));
}

#[test]
fn values_of_one_slot_that_come_back_in_reverse_order() {
    let [remove_calls, remove_returns, add_calls, add_returns] = removes_and_adds();
    let overlapping = [remove_calls, add_calls, add_returns, remove_returns].concat();
    let (verdict, order) = verdict_of(&rising(&overlapping));
    assert_eq!((verdict, order.len()), (ORDER, 512));
}

#[test]
fn runs_of_a_queue() {
    let mut archives = Archives::new();
    for run in runs_with_shared_slots() {
        assert_eq!(archives.compare_records(&run.records), ORDER);
    }
    assert_eq!(archives.seen(), [120, 0, 0, 0, 0, 0, 0]);
}

#[test]
fn runs_of_a_queue_changed_in_one_place() {
    let mut random = Random::new(214);
    let mut archives = Archives::new();
    for run in runs_with_shared_slots() {
        for change in CHANGES {
            if let Some(records) = change(&run, &mut random) {
                archives.compare_records(&records);
            }
        }
    }
    archives.assert_at_least([400, 40, 10, 100, 5, 25, 10]);
}

/// A remove takes another value of the slot; some of these the log does not have.
#[test]
fn runs_of_a_queue_in_which_a_remove_takes_any_value_of_the_slot() {
    let slots = Slots::default();
    let mut random = Random::new(215);
    let mut archives = Archives::new();
    for mut run in runs_with_shared_slots() {
        let values = &slots.values[..run.records.len() / 3];
        let taken = |event| matches!(event, Event::ReturnRemove(Removed::Value(_)));
        let takes = run.records.iter_mut().filter(|r| taken(r.event));
        if let Some(record) = random.pick_from(takes) {
            record.event = Event::ReturnRemove(Removed::Value(*random.pick(values)));
            archives.compare_records(&run.records);
        }
    }
    archives.assert_at_least([0, 20, 50, 0, 0, 0, 0]);
}
