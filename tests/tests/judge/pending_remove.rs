//! One remove that never returned, by hand: change 4 of document 02. "It may stand in an order once or
//! be left out; where it stands, it takes the front value if there is one and otherwise changes
//! nothing. The judge first tries it left out, then as the remove of each value added and not
//! otherwise removed, lowest add first, and lists the first success. If none succeeds, the pattern is
//! the one found with it left out."

use yauponroof_tests::compare::archive::verdict_of;
use yauponroof_tests::hex::hex;
use yauponroof_tests::library::outcomes::judged;
use yauponroof_tests::logs::chain::{chain, Last};
use yauponroof_tests::logs::insertion::{with_empty_removes, with_pending_remove};
use yauponroof_tests::logs::notation::{run, run_in_batches};
use yauponroof_tests::logs::samples::{adds_then_removes, pending_adds, pending_adds_removed};
use yauponroof_tests::logs::ticks::rising;
use yauponroof_tests::model::all_linearizations::linearizations;
use yauponroof_tests::model::reader::MAX_RECORDS;
use yauponroof_tests::model::record::{
    call_add, call_remove, return_add, return_empty, return_value, Record,
};
use yauponroof_tests::model::sheet::{MOST_JUDGED, ORDER, SHEET_MAX};
use yauponroof_tests::model::violations::FALSE_EMPTY;
use yauponroof_tests::model::writer::log;
use yauponroof_tests::{refused, Outcome};

fn judged_run(text: &str) -> Outcome {
    judged(&log(&run(text)))
}

/// Asserts that the judge lists a legal order of these records, over these operations.
fn assert_order_over(records: &[Record], operations: &[u16]) {
    let (verdict, order) = verdict_of(records);
    assert_eq!(verdict, ORDER, "{records:?}");
    assert!(linearizations(records).contains(&order), "{records:?}");
    let mut listed = order;
    listed.sort();
    assert_eq!(listed, operations, "{records:?}");
}

fn assert_order_of(text: &str, operations: &[u16]) {
    println!("{text}");
    assert_order_over(&run(text), operations);
}

/// Asserts that the run has this pattern with this list, and that no order is legal.
fn assert_pattern(text: &str, number: u8, operations: &[u16]) {
    let records = run(text);
    assert!(linearizations(&records).is_empty(), "{text}");
    let expected = (number, operations.to_vec());
    assert_eq!(verdict_of(&records), expected, "{text}");
}

/// "01's run of a lone open remove now gives an order with k = 0."
#[test]
fn a_lone_open_remove() {
    assert_eq!(judged_run("R("), Ok(hex("01 00 00 00")));
}

/// "Refusal 10 is now for a second remove without return, with the index of its call."
#[test]
fn a_second_open_remove_is_refused() {
    assert_eq!(judged_run("Ra( Rb("), Err(refused(10, 1)));
    assert_eq!(judged_run("A7( A7) Ra( Rb( Rb7) Rc("), Err(refused(10, 5)));
    assert_eq!(judged_run("Ra( Rb( A7( Rc( A7)"), Err(refused(10, 1)));
}

#[test]
fn it_is_left_out_where_an_order_exists_without_it() {
    assert_order_of("A7( A7) R(", &[0]);
    assert_order_of("Ro( A7( A7) R( R7)", &[1, 2]);
    assert_order_of("A7( Ra( Rb( Rb7)", &[0, 2]);
    assert_order_of("A7( Ro( A7) R( R7)", &[0, 2]);
    assert_order_of("Ra( Ra-) Rb( Rc( Rc-)", &[0, 2]);
    assert_order_of("A1( A1) A2( A2) Ro( Ra( Ra1) Rb( Rb2)", &[0, 1, 3, 4]);
    // An open add that nobody removed is left out as well.
    assert_order_of("A1( Ro( R( R-)", &[2]);
}

#[test]
fn it_takes_a_value_that_would_be_stuck() {
    assert_order_of("A1( A1) A2( A2) Ro( R( R2)", &[0, 1, 2, 3]);
    assert_order_of("Ro( A1( A1) A2( A2) R( R2)", &[0, 1, 2, 3]);
    assert_order_of("A1( A1) A2( A2) R( Ro( R2)", &[0, 1, 2, 3]);
    assert_order_of("A1( A1) A2( Ro( R( R2)", &[0, 1, 2, 3]);
    // It is called when the other value has been removed.
    assert_pattern("A1( A1) A2( A2) R( R2) Ro(", 4, &[0, 1, 2]);
}

#[test]
fn it_takes_a_value_that_an_empty_remove_did_not_find() {
    assert_order_of("A1( A1) Ro( R( R-)", &[0, 1, 2]);
    assert_order_of("A1( A1) R( Ro( R-)", &[0, 1, 2]);
    assert_order_of("Ro( A1( A1) R( R-)", &[0, 1, 2]);
    // It is called when the empty remove has returned.
    assert_pattern("A1( A1) R( R-) Ro(", 6, &[1, 0]);
    // The last value of a chain, and the first one, which another remove took.
    let last = "A1( A1) Re( A2( A2) Rb( Rb1) Ro( Re-)";
    assert_order_of(last, &[0, 1, 2, 3, 4]);
    let called_too_late = "A1( A1) Re( A2( A2) Rb( Rb1) Re-) Ro(";
    assert_pattern(called_too_late, 6, &[1, 0, 2]);
    let taken = "A1( A1) Ro( Re( Re-) Ra( Ra1)";
    assert_pattern(taken, 6, &[2, 0]);
}

#[test]
fn the_value_it_takes_need_not_be_that_of_the_lowest_add() {
    // Value 1 is added while 2 and 3 are, and only 2 is stuck.
    let second = "A1( A2( A2) A3( A1) A3) Ro( R( R3)";
    assert_order_of(second, &[0, 1, 2, 3, 4]);
    // Of three that stay only the one that returned first covers the empty remove.
    let third = "A1( A2( A3( A3) Ro( Re( Re-) A2) A1)";
    assert_order_of(third, &[0, 1, 2, 3, 4]);
    // The lowest add has not returned at all.
    let first_open = "A1( A2( A2) A3( A3) Ro( R( R3)";
    assert_order_of(first_open, &[1, 2, 3, 4]);
}

#[test]
fn it_takes_one_value_alone() {
    let two_stuck = "A1( A1) A2( A2) A3( A3) Ro( R( R3)";
    assert_pattern(two_stuck, 4, &[0, 2, 4]);
    let two_cover = "A1( A1) A2( A2) Ro( R( R-)";
    assert_pattern(two_cover, 6, &[3, 0]);
    let both = "A1( A1) A2( A2) Ro( R( R2) A3( A3) Re( Re-)";
    assert_pattern(both, 4, &[0, 1, 3]);
}

/// As the remove of some value another pattern, or another list, would be found.
#[test]
fn the_pattern_is_that_with_it_left_out() {
    // With it as the remove of 1: pattern 5, over 0 1 2 3.
    assert_pattern("A1( A1) A2( A2) R( R2) Ro(", 4, &[0, 1, 2]);
    // As the remove of 1: 6 over 3 1; as that of 2: 4 over 0 1 2.
    assert_pattern("A1( A1) A2( A2) Ro( R( R-)", 6, &[3, 0]);
    // As the remove of 1: 4 over 1 2 4; as that of 2: 4 over 0 1 3.
    assert_pattern("A1( A1) A2( A2) A3( A3) Ro( R( R3)", 4, &[0, 2, 4]);
}

#[test]
fn an_open_remove_does_not_help_against_1_2_3_and_5() {
    for text in ["Ro( R( R9)", "R( Ro( R9)"] {
        let remove = u16::from(text.starts_with("Ro"));
        assert_pattern(text, 1, &[remove]);
    }
    assert_pattern("A7( A7) Ro( R( R7) R( R7)", 2, &[2, 3]);
    assert_pattern("Ro( R( R7) A7( A7)", 3, &[1, 2]);
    assert_pattern("A1( A1) A2( A2) Ro( R( R2) R( R1)", 5, &[0, 1, 3, 4]);
}

/// Beside an order and each pattern an open remove is the first or the last operation.
#[test]
fn an_open_remove_first_or_last() {
    let runs = [
        ("A7( A7) R( R7)", 0, 0, 0),
        ("R( R9)", 1, 1, 1),
        ("A7( A7) R( R7) R( R7)", 2, 2, 2),
        ("R( R7) A7( A7)", 3, 3, 3),
        ("A1( A1) A2( A2) R( R2)", 4, 0, 4),
        ("A1( A1) A2( A2) R( R2) R( R1)", 5, 5, 5),
        ("A0( A0) R( R-)", 6, 0, 6),
    ];
    for (text, alone, first, last) in runs {
        assert_eq!(verdict_of(&run(text)).0, alone, "{text}");
        let before = run(&format!("Ro( {text}"));
        assert_eq!(verdict_of(&before).0, first, "{text}");
        let behind = run(&format!("{text} Ro("));
        assert_eq!(verdict_of(&behind).0, last, "{text}");
    }
}

#[test]
fn the_value_0_beside_an_open_remove() {
    assert_order_of("A0( A0) Ro(", &[0]);
    assert_order_of("A0( A0) Ro( R( R0)", &[0, 2]);
    assert_order_of("A0( Ro( R( R0)", &[0, 2]);
    assert_order_of("Ro( A0( R( R0) A0)", &[1, 2]);
    assert_order_of("A0( A0) Ro( R( R-)", &[0, 1, 2]);
    assert_order_of("A0( A0) A1( A1) Ro( R( R1)", &[0, 1, 2, 3]);
    assert_order_of("A1( A1) A0( A0) Ro( R( R0)", &[0, 1, 2, 3]);
    assert_pattern("A0( A0) Ro( R( R0) R( R0)", 2, &[2, 3]);
    assert_pattern("Ro( R( R0)", 1, &[1]);
    assert_pattern("A0( A0) R( R-) Ro(", 6, &[1, 0]);
}

/// Within a tick nothing precedes, and calls are taken before returns.
#[test]
fn an_open_remove_within_a_tick() {
    let in_batches = |text, operations: &[u16]| {
        println!("{text}");
        assert_order_over(&run_in_batches(text), operations);
    };
    in_batches("A1( A1) | R( | R-) Ro(", &[0, 1, 2]);
    in_batches("A1( A1) | A2( A2) | R( | R2) Ro(", &[0, 1, 2, 3]);
    let later = run_in_batches("A1( A1) | R( | R-) | Ro(");
    assert_eq!(verdict_of(&later), (6, vec![1, 0]));
}

// The longest logs.

#[test]
fn an_open_remove_as_any_of_the_most_records() {
    for at in 0..MAX_RECORDS {
        let records = with_pending_remove(&pending_adds(MAX_RECORDS - 1), at);
        assert_eq!(records.len(), MAX_RECORDS);
        assert_eq!(judged(&log(&records)), Ok(vec![1, 0, 0, 0]), "record {at}");
    }
}

/// The first of 256 values is never removed but by the open remove, which has to be called before the
/// second one's remove returns.
#[test]
fn a_value_that_would_be_stuck_in_a_long_log() {
    let records = adds_then_removes(256, 1..256);
    let first_returned = 2 * 256 + 1;
    for at in [0, 1, 2, 300, first_returned] {
        let (verdict, order) = verdict_of(&with_pending_remove(&records, at));
        assert_eq!((verdict, order.len()), (ORDER, 512), "record {at}");
    }
    for at in [first_returned + 1, 1000, records.len()] {
        let (verdict, listed) = verdict_of(&with_pending_remove(&records, at));
        assert_eq!((verdict, listed.len()), (4, 3), "record {at}");
        assert_eq!(listed[..2], [0, 1], "record {at}");
    }
}

/// So many records: an add that returns, adds that do not, and the last two, which have one tick: an
/// empty remove returns, or one that took the value of the last add, and the open remove is called.
fn ending_in_the_open_call(last_return: Record) -> Vec<Record> {
    let mut records = vec![call_add(2000, 1, 7), return_add(2000, 1)];
    records.extend(pending_adds(MAX_RECORDS - 5));
    records.push(call_remove(2001, 1));
    records.extend([last_return, call_remove(2002, 1)]);
    let mut records = rising(&records);
    records[MAX_RECORDS - 1].tick = records[MAX_RECORDS - 2].tick;
    records
}

#[test]
fn a_log_of_the_most_records_that_ends_in_the_open_call() {
    let empty = ending_in_the_open_call(return_empty(2001, 1));
    let last_add = !(MAX_RECORDS as u32 - 6);
    let overtaking = ending_in_the_open_call(return_value(2001, 1, last_add));
    let open = MAX_RECORDS as u16 - 3;
    for (records, listed) in [(empty, 3), (overtaking, 4)] {
        assert_eq!(records.len(), MAX_RECORDS);
        let (verdict, order) = verdict_of(&records);
        assert_eq!((verdict, order.len()), (ORDER, listed));
        assert!(order.contains(&open), "{order:?}");
        // A tick later it is called too late.
        let mut later = records;
        later[MAX_RECORDS - 1].tick += 1;
        assert!(matches!(verdict_of(&later).0, 4 | 6));
    }
}

/// The value of the add that returns is taken by the open remove, or else would be stuck before all
/// others. Of three records, one calls an add and two are the remove of its value, or two are an add
/// and one is the open remove.
#[test]
fn the_longest_sheet_with_an_open_remove() {
    let count = MOST_JUDGED as u16 / 2 - 1;
    for taken in [(0..count).collect::<Vec<_>>(), (0..count).rev().collect()] {
        let others = pending_adds_removed(count, taken.into_iter());
        let first = [
            call_add(2000, 1, u32::MAX),
            return_add(2000, 1),
            call_remove(2001, 1),
        ];
        let records = rising(&[&first[..], &others].concat());
        assert_eq!(records.len(), MAX_RECORDS - 1);
        let sheet = judged(&log(&records)).expect("a sheet");
        assert_eq!(sheet.len(), SHEET_MAX);
        let (verdict, order) = verdict_of(&records);
        assert_eq!((verdict, order.len()), (ORDER, MOST_JUDGED));
        // Without the open remove there is no order.
        let mut without = records;
        without.remove(2);
        assert_eq!(verdict_of(&without).0, 4);
    }
}

/// In a chain of so many values only the last one is never removed. The open remove takes it, if it is
/// called before the empty remove returns.
#[test]
fn a_long_chain_under_an_empty_remove() {
    const VALUES: u32 = 255;
    let chain = chain(VALUES, Last::Kept, |_| false).records;
    let records = with_empty_removes(&chain, &[(2, chain.len())]);
    let (verdict, listed) = verdict_of(&records);
    assert_eq!((verdict, listed.len()), (FALSE_EMPTY, 256));
    let returned = records.len() - 1;
    for at in [0, 1, 2, 3, 500, returned - 1, returned] {
        let (verdict, order) = verdict_of(&with_pending_remove(&records, at));
        assert_eq!((verdict, order.len()), (ORDER, 511), "record {at}");
    }
    let too_late = verdict_of(&with_pending_remove(&records, records.len()));
    assert_eq!(too_late, (verdict, listed));
}
