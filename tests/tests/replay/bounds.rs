//! Replay on the longest logs, the longest orders and the longest queues.

use yauponroof_tests::compare::replay::Replays;
use yauponroof_tests::library::replay;
use yauponroof_tests::logs::insertion::with_pending_remove;
use yauponroof_tests::logs::samples::{
    adds_then_removes, calls_then_returns, pending_adds, pending_adds_removed,
};
use yauponroof_tests::model::reader::MAX_RECORDS;
use yauponroof_tests::model::record::return_add;
use yauponroof_tests::model::sheet::{sheet, MOST_JUDGED};
use yauponroof_tests::model::writer::log;
use yauponroof_tests::random::Random;
use yauponroof_tests::{NO, YES};

const JUDGED: u16 = MOST_JUDGED as u16;

fn call_order(count: usize) -> Vec<u16> {
    (0..count as u16).collect()
}

/// Compares the order with two of its operations exchanged, many times; they may be the same.
fn compare_exchanges(log: &[u8], order: &[u16]) -> Replays {
    let mut random = Random::new(61);
    let mut replays = Replays::new();
    for _ in 0..300 {
        let mut exchanged = order.to_vec();
        exchanged.swap(random.below(order.len()), random.below(order.len()));
        replays.compare(log, &sheet(&exchanged));
    }
    replays
}

#[test]
fn pending_adds_that_fill_the_log_may_be_listed_in_any_order() {
    let log = log(&pending_adds(MAX_RECORDS));
    let mut random = Random::new(62);
    let mut order = call_order(MAX_RECORDS);
    let mut replays = Replays::new();
    for listed in [MAX_RECORDS, 1023, 683, 682, 512, 256, 1, 0] {
        random.shuffle(&mut order);
        let answer = replays.compare(&log, &sheet(&order[..listed]));
        assert_eq!(answer, YES, "{listed} listed");
    }
}

#[test]
fn one_of_the_most_operations_listed_twice() {
    let log = log(&pending_adds(MAX_RECORDS));
    let order = call_order(MAX_RECORDS);
    for (one, other) in [(0, 1), (0, 1023), (1023, 0), (1022, 1023), (511, 512)] {
        let mut in_place_of_another = order.clone();
        in_place_of_another[other] = order[one];
        assert_eq!(replay(&log, &sheet(&in_place_of_another)), NO);
        let mut one_too_many = order.clone();
        one_too_many.insert(other, order[one]);
        assert_eq!(replay(&log, &sheet(&one_too_many)), NO);
    }
}

#[test]
fn operations_that_all_overlap() {
    let log = log(&calls_then_returns(MAX_RECORDS));
    let count = MAX_RECORDS as u16 / 2;
    let adds = || (0..count).step_by(2);
    let removes = || (1..count).step_by(2);
    let adds_first: Vec<u16> = adds().chain(removes()).collect();
    let removes_first: Vec<u16> = removes().chain(adds()).collect();
    let last_pair_first: Vec<u16> = adds().rev().flat_map(|add| [add, add + 1]).collect();
    assert_eq!(replay(&log, &sheet(&adds_first)), YES);
    assert_eq!(replay(&log, &sheet(&removes_first)), NO);
    assert_eq!(replay(&log, &sheet(&last_pair_first)), YES);
    compare_exchanges(&log, &adds_first).assert_answered(0, 200);
}

#[test]
fn operations_none_of_which_overlap() {
    let log = log(&adds_then_removes(256, 0..256));
    let order = call_order(MAX_RECORDS / 2);
    assert_eq!(replay(&log, &sheet(&order)), YES);
    assert_eq!(replay(&log, &sheet(&order[..511])), NO);
    assert_eq!(replay(&log, &sheet(&order[1..])), NO);
    compare_exchanges(&log, &order).assert_answered(0, 200);
}

#[test]
fn the_longest_order_of_the_judge() {
    let records = pending_adds_removed(JUDGED / 2, (0..JUDGED / 2).rev());
    assert_eq!(records.len(), MAX_RECORDS - 1);
    let log = log(&records);
    let as_removed: Vec<u16> = (0..JUDGED / 2).rev().chain(JUDGED / 2..JUDGED).collect();
    assert_eq!(sheet(&as_removed).len(), 1368);
    assert_eq!(replay(&log, &sheet(&as_removed)), YES);
    assert_eq!(replay(&log, &sheet(&call_order(JUDGED.into()))), NO);
    assert_eq!(replay(&log, &sheet(&as_removed[1..])), NO);
    compare_exchanges(&log, &as_removed).assert_answered(0, 200);
}

#[test]
fn the_longest_queue() {
    let records = pending_adds_removed(1022, 0..1);
    assert_eq!(records.len(), MAX_RECORDS);
    let log = log(&records);
    let order = call_order(1023);
    assert_eq!(replay(&log, &sheet(&order)), YES);
    for other in 1..1022 {
        let mut another_first = order.clone();
        another_first.swap(0, other);
        assert_eq!(replay(&log, &sheet(&another_first)), NO, "{other} first");
    }
    compare_exchanges(&log, &order).assert_answered(280, 0);
}

/// Adds that fill the log together with the removes of the first few.
const ADDS: u16 = 1000;
const REMOVES: u16 = 12;

#[test]
fn the_first_few_of_a_long_queue_are_removed() {
    let records = pending_adds_removed(ADDS, 0..REMOVES);
    assert_eq!(records.len(), MAX_RECORDS);
    let log = log(&records);
    let adds_first = call_order((ADDS + REMOVES).into());
    // A remove comes behind each 83 adds, and so meets a longer queue than the one before.
    let remove_behind = |add| ((add + 1) % 83 == 0).then_some(ADDS + add / 83);
    let interleaved: Vec<u16> = (0..ADDS)
        .flat_map(|add| [add].into_iter().chain(remove_behind(add)))
        .collect();
    for order in [adds_first, interleaved] {
        assert_eq!(order.len(), usize::from(ADDS + REMOVES));
        assert_eq!(replay(&log, &sheet(&order)), YES);
        compare_exchanges(&log, &order).assert_answered(250, 5);
    }
}

/// Of `count` adds one alone returns. Any order may leave out the others, and none that one.
fn assert_not_left_out(returned: usize, count: usize) {
    let number = returned as u16;
    let mut records = pending_adds(count);
    records.push(return_add(number, count as u32));
    let log = log(&records);
    let mut order = call_order(count);
    let answer = |order: &[u16]| replay(&log, &sheet(order));
    assert_eq!(answer(&order), YES, "all, {returned} of {count} returns");
    order.remove(returned);
    assert_eq!(answer(&order), NO, "{returned} of {count} is left out");
    assert_eq!(answer(&[number]), YES, "{returned} of {count} alone");
    assert_eq!(answer(&[]), NO, "none, {returned} of {count} returns");
}

#[test]
fn the_one_add_that_returns_is_left_out() {
    for count in [1, 2, 257, 512, 513, 600, 1010] {
        assert_not_left_out(count - 1, count);
    }
    for returned in 0..MAX_RECORDS - 1 {
        assert_not_left_out(returned, MAX_RECORDS - 1);
    }
}

/// An open remove as any record among adds that never return. It stands anywhere, takes one of their
/// values or none, and nobody notices.
#[test]
fn an_open_remove_as_any_of_the_most_records() {
    let adds = pending_adds(MAX_RECORDS - 1);
    let mut replays = Replays::new();
    for at in [0, 1, 511, 512, 1022, 1023] {
        let log = log(&with_pending_remove(&adds, at));
        let number = at as u16;
        let mut order = call_order(MAX_RECORDS);
        assert_eq!(replays.compare(&log, &sheet(&order)), YES, "record {at}");
        order.retain(|&other| other != number);
        assert_eq!(replays.compare(&log, &sheet(&order)), YES, "left out");
        for place in [0, 1, 500, 1022, 1023] {
            let mut once = order.clone();
            once.insert(place, number);
            assert_eq!(replays.compare(&log, &sheet(&once)), YES, "at {place}");
            once.insert(MAX_RECORDS / 2, number);
            assert_eq!(replays.compare(&log, &sheet(&once)), NO, "at {place}");
        }
        assert_eq!(replays.compare(&log, &sheet(&[number])), YES, "alone");
        assert_eq!(replays.compare(&log, &sheet(&[number, number])), NO);
    }
}

/// Adds and then the removes of all values but the first: the open remove has to take that one, when
/// it is at the front.
#[test]
fn the_open_remove_takes_the_first_of_many_values() {
    let records = with_pending_remove(&adds_then_removes(256, 1..256), 512);
    let log = log(&records);
    let open = 256;
    let order = call_order(512);
    assert_eq!(order[open], open as u16);
    assert_eq!(replay(&log, &sheet(&order)), YES);
    let mut without = order.clone();
    without.remove(open);
    assert_eq!(replay(&log, &sheet(&without)), NO);
    for place in 0..512 {
        let mut moved = without.clone();
        moved.insert(place, open as u16);
        // It is called behind all adds.
        let expected = if place == open { YES } else { NO };
        assert_eq!(replay(&log, &sheet(&moved)), expected, "at {place}");
    }
    compare_exchanges(&log, &order).assert_answered(0, 200);
}
