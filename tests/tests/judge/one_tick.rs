//! The longest logs with many records of one tick: nothing precedes anything within it, and calls are
//! taken before returns, wherever they stand. The same logs with rising ticks have patterns.

use yauponroof_tests::compare::archive::verdict_of;
use yauponroof_tests::logs::samples::{
    calls_then_returns, longest_false_empty, pending_adds, pending_adds_removed,
};
use yauponroof_tests::logs::ticks::{at_one_tick, rising};
use yauponroof_tests::model::reader::MAX_RECORDS;
use yauponroof_tests::model::record::{
    call_add, call_remove, return_add, return_empty, return_value, Record,
};
use yauponroof_tests::model::sheet::{MOST_JUDGED, ORDER};
use yauponroof_tests::model::violations::FALSE_EMPTY;

const TICK: u32 = 9;

/// Asserts that the records, all of one tick, have an order of so many operations.
fn assert_order_at_one_tick(records: &[Record], listed: usize) {
    let (verdict, order) = verdict_of(&at_one_tick(records, TICK));
    assert_eq!((verdict, order.len()), (ORDER, listed));
}

/// 256 adds of the values 0 to 255, each of which returns right behind its call, a client each.
fn adds() -> Vec<Record> {
    let add = |i: u16| [call_add(i, TICK, i.into()), return_add(i, TICK)];
    (0..256).flat_map(add).collect()
}

/// 256 removes in the same way. The first takes the last value, and so on.
fn removes_reversed() -> Vec<Record> {
    let taken = |i: u16| 255 - u32::from(i);
    let remove = |i| {
        [
            call_remove(256 + i, TICK),
            return_value(256 + i, TICK, taken(i)),
        ]
    };
    (0..256).flat_map(remove).collect()
}

/// 256 empty removes in the same way.
fn empty_removes() -> Vec<Record> {
    let remove = |i: u16| [call_remove(512 + i, TICK), return_empty(512 + i, TICK)];
    (0..256).flat_map(remove).collect()
}

#[test]
fn calls_and_then_their_returns() {
    assert_order_at_one_tick(&calls_then_returns(MAX_RECORDS), 512);
}

#[test]
fn adds_that_never_return() {
    assert_order_at_one_tick(&pending_adds(MAX_RECORDS), 0);
    let reversed = pending_adds_removed(341, (0..341).rev());
    assert_order_at_one_tick(&reversed, MOST_JUDGED);
}

#[test]
fn values_that_are_removed_in_reverse_order() {
    let records = [adds(), removes_reversed()].concat();
    assert_eq!(records.len(), MAX_RECORDS);
    assert_eq!(verdict_of(&rising(&records)), (5, vec![0, 1, 510, 511]));
    assert_order_at_one_tick(&records, 512);
}

#[test]
fn values_that_are_removed_where_their_adds_are_not_yet_called() {
    let records = [removes_reversed(), adds()].concat();
    assert_eq!(verdict_of(&rising(&records)), (3, vec![0, 511]));
    assert_order_at_one_tick(&records, 512);
}

#[test]
fn empty_removes_behind_adds() {
    let records = [adds(), empty_removes()].concat();
    assert_eq!(verdict_of(&rising(&records)), (6, vec![256, 0]));
    assert_order_at_one_tick(&records, 512);
}

#[test]
fn unknown_values_and_values_removed_twice() {
    let remove = |i| [call_remove(i, TICK), return_value(i, TICK, 9)];
    let unknown: Vec<Record> = (0..512).flat_map(remove).collect();
    assert_eq!(verdict_of(&unknown), (1, vec![0]));
    let twice = [vec![call_add(600, TICK, 9), return_add(600, TICK)], unknown].concat();
    assert_eq!(verdict_of(&twice[..MAX_RECORDS]), (2, vec![1, 2]));
}

/// Adds are called at one tick. At the next all returns stand before the calls of empty removes, and
/// are taken behind them all the same; one tick later all of these are false.
#[test]
fn returns_that_stand_before_calls() {
    let (calls, returns): (Vec<Record>, Vec<Record>) =
        adds().iter().partition(|record| record.event.is_call());
    let added = at_one_tick(&calls, TICK - 1);
    let records = [added, returns, empty_removes()].concat();
    assert_eq!(records.len(), MAX_RECORDS);
    let (verdict, order) = verdict_of(&records);
    assert_eq!((verdict, order.len()), (ORDER, 512));
    let mut later = records;
    later[512..].iter_mut().for_each(|r| r.tick = TICK + 1);
    assert_eq!(verdict_of(&later), (6, vec![256, 0]));
}

/// The record with that index has the tick of the one before it.
fn joined_at(records: &[Record], at: usize) -> Vec<Record> {
    let mut joined = records.to_vec();
    joined[at].tick = joined[at - 1].tick;
    joined
}

/// In the longest chain each value is called to be removed right behind the return of the next
/// one's add. Where these two have one tick, a gap is left; any other two may have one.
#[test]
fn two_records_of_one_tick_break_the_longest_chain() {
    let records = longest_false_empty();
    let whole = verdict_of(&records);
    assert_eq!((whole.0, whole.1.len()), (FALSE_EMPTY, 257));
    for value in [1, 2, 100, 254, 255] {
        let add_called = 4 * value - 1;
        let remove_called = add_called + 2;
        let (verdict, order) = verdict_of(&joined_at(&records, remove_called));
        assert_eq!((verdict, order.len()), (ORDER, 512), "value {value}");
        for at in [add_called, add_called + 1, remove_called + 1] {
            assert_eq!(verdict_of(&joined_at(&records, at)), whole, "record {at}");
        }
    }
}
