//! The judge on the longest logs, the longest sheets and the highest operation numbers.

use yauponroof_tests::compare::archive::verdict_of;
use yauponroof_tests::library::outcomes::judged;
use yauponroof_tests::logs::insertion::with_run;
use yauponroof_tests::logs::samples::{
    adds_then_removes, calls_then_returns, pending_adds, pending_adds_removed, Verdict, RUNS,
};
use yauponroof_tests::logs::ticks::rising;
use yauponroof_tests::model::reader::MAX_RECORDS;
use yauponroof_tests::model::record::{
    call_add, call_remove, return_add, return_empty, return_value, Record,
};
use yauponroof_tests::model::sheet::{sheet, MOST_JUDGED, ORDER, SHEET_MAX};
use yauponroof_tests::model::writer::log;

#[test]
fn no_records() {
    assert_eq!(judged(&log(&[])), Ok(vec![1, 0, 0, 0]));
}

#[test]
fn adds_that_fill_the_log_and_never_return() {
    assert_eq!(verdict_of(&pending_adds(MAX_RECORDS)), (ORDER, vec![]));
}

#[test]
fn operations_that_all_overlap() {
    let (verdict, order) = verdict_of(&calls_then_returns(MAX_RECORDS));
    assert_eq!((verdict, order.len()), (ORDER, MAX_RECORDS / 2));
}

#[test]
fn the_longest_sheet() {
    let count = MOST_JUDGED as u16 / 2;
    for records in [
        pending_adds_removed(count, 0..count),
        pending_adds_removed(count, (0..count).rev()),
        pending_adds_removed(count, (0..count).map(|i| i * 7 % count)),
    ] {
        assert_eq!(records.len(), MAX_RECORDS - 1);
        let sheet = judged(&log(&records)).expect("a sheet");
        assert_eq!(sheet.len(), SHEET_MAX);
        assert_eq!(SHEET_MAX, 1368);
        let (verdict, order) = verdict_of(&records);
        assert_eq!((verdict, order.len()), (ORDER, MOST_JUDGED));
    }
}

#[test]
fn operations_none_of_which_overlap() {
    let in_turn = adds_then_removes(256, 0..256);
    let all: Vec<u16> = (0..512).collect();
    assert_eq!(judged(&log(&in_turn)), Ok(sheet(&all)));
    // The last value added is the first removed, as if the queue were a stack.
    let reversed = adds_then_removes(256, (0..256).rev());
    assert_eq!(verdict_of(&reversed), (5, vec![0, 1, 510, 511]));
    // Two values in the end, or in the middle, trade places.
    let last_two = adds_then_removes(256, (0..254).chain([255, 254]));
    assert_eq!(verdict_of(&last_two), (5, vec![254, 255, 510, 511]));
    let trade = |value| match value {
        100 => 101,
        101 => 100,
        other => other,
    };
    let middle = adds_then_removes(256, (0..256).map(trade));
    assert_eq!(verdict_of(&middle), (5, vec![100, 101, 356, 357]));
    // The first value is never removed, or the last but one.
    let first_stuck = adds_then_removes(256, 1..256);
    assert_eq!(verdict_of(&first_stuck), (4, vec![0, 1, 256]));
    let last_but_one = adds_then_removes(256, (0..254).chain([255]));
    assert_eq!(verdict_of(&last_but_one), (4, vec![254, 255, 510]));
}

/// The calls of so many removes, and their returns, which tell an empty queue.
fn empty_removes(count: u16) -> (Vec<Record>, Vec<Record>) {
    let calls = (0..count).map(|i| call_remove(i, 1)).collect();
    let returns = (0..count).map(|i| return_empty(i, 1)).collect();
    (calls, returns)
}

fn all_at_once(count: u16) -> Vec<Record> {
    let (calls, returns) = empty_removes(count);
    [calls, returns].concat()
}

fn one_after_the_other(count: u16) -> Vec<Record> {
    let (calls, returns) = empty_removes(count);
    let pairs = calls.into_iter().zip(returns);
    pairs
        .flat_map(|(call, returned)| [call, returned])
        .collect()
}

#[test]
fn empty_removes_that_fill_the_log() {
    for empty_removes in [all_at_once, one_after_the_other] {
        let (verdict, order) = verdict_of(&rising(&empty_removes(512)));
        assert_eq!((verdict, order.len()), (ORDER, 512));
        // Behind an add that has returned all of them are false.
        let add = vec![call_add(600, 1, 0), return_add(600, 1)];
        let records = [add, empty_removes(511)].concat();
        assert_eq!(verdict_of(&rising(&records)), (6, vec![1, 0]));
    }
}

#[test]
fn empty_removes_that_all_have_one_gap_in_common() {
    let add = vec![call_add(600, 1, 0), return_add(600, 1)];
    let (calls, returns) = empty_removes(510);
    let records = [
        add,
        calls,
        vec![call_remove(601, 1)],
        returns,
        vec![return_value(601, 1, 0)],
    ];
    let (verdict, order) = verdict_of(&rising(&records.concat()));
    assert_eq!((verdict, order.len()), (ORDER, 512));
}

#[test]
fn removes_of_one_value_that_fill_the_log() {
    let removes = |count: u16| (0..count).flat_map(|i| [call_remove(i, 1), return_value(i, 1, 9)]);
    let unknown: Vec<Record> = removes(512).collect();
    assert_eq!(verdict_of(&rising(&unknown)), (1, vec![0]));
    let added = [call_add(600, 1, 9), return_add(600, 1)].into_iter();
    let twice: Vec<Record> = added.chain(removes(511)).collect();
    assert_eq!(verdict_of(&rising(&twice)), (2, vec![1, 2]));
}

#[test]
fn the_highest_operation_numbers() {
    let mut seen = [0; 7];
    for (text, _, verdict) in RUNS {
        let length = text.split_whitespace().count();
        // Adds that never return precede nothing, so they change nothing but the numbers.
        let before = MAX_RECORDS - length;
        let records = with_run(&pending_adds(before), &[(before, text)]);
        assert_eq!(records.len(), MAX_RECORDS);
        let raised =
            |list: &[u16]| -> Vec<u16> { list.iter().map(|o| o + before as u16).collect() };
        match verdict {
            Verdict::Order(order) => {
                let (told, listed) = verdict_of(&records);
                assert_eq!((told, listed.len()), (ORDER, order.len()), "{text}");
                assert!(listed.iter().all(|o| usize::from(*o) >= before), "{text}");
                seen[0] += 1;
            }
            Verdict::Pattern(number, list) => {
                assert_eq!(verdict_of(&records), (number, raised(list)), "{text}");
                seen[usize::from(number)] += 1;
            }
        }
    }
    assert_eq!(seen, [9, 1, 1, 1, 1, 1, 2]);
}
