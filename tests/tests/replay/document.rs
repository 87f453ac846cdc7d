//! Replay on document 01's runs, and on what the documents say of values, pending operations and
//! precedence.

use yauponroof_tests::compare::every_order::compare_every_list;
use yauponroof_tests::compare::replay::Replays;
use yauponroof_tests::hex::hex;
use yauponroof_tests::library::replay;
use yauponroof_tests::logs::notation::run;
use yauponroof_tests::logs::samples::{Verdict, PROGRAM_EXAMPLE, RUNS};
use yauponroof_tests::logs::ticks::rising;
use yauponroof_tests::model::record::{
    call_add, call_remove, return_add, return_empty, return_value, Record,
};
use yauponroof_tests::model::sheet::sheet;
use yauponroof_tests::model::writer::log;
use yauponroof_tests::{NO, YES};

/// All orders that replay says yes to, lowest first; where the log has m operations, every list of
/// at most m + 1 numbers from 0 to m is tried.
fn legal_orders(records: &[Record]) -> Vec<Vec<u16>> {
    let orders = compare_every_list(records, &mut Replays::new());
    orders.into_iter().collect()
}

fn legal_orders_of_run(text: &str) -> Vec<Vec<u16>> {
    legal_orders(&run(text))
}

#[test]
fn the_orders_of_the_document_are_legal() {
    let mut orders = 0;
    for (text, _, verdict) in RUNS {
        if let Verdict::Order(order) = verdict {
            assert_eq!(replay(&log(&run(text)), &sheet(order)), YES, "{text}");
            orders += 1;
        }
    }
    assert_eq!(orders, 9);
}

#[test]
fn where_the_document_has_a_pattern_nothing_is_legal() {
    for (text, _, verdict) in RUNS {
        let has_order = matches!(verdict, Verdict::Order(_));
        assert_eq!(!legal_orders_of_run(text).is_empty(), has_order, "{text}");
    }
}

#[test]
fn the_example_of_the_program_in_its_bytes() {
    let log = hex(PROGRAM_EXAMPLE);
    assert_eq!(replay(&log, &hex("01 00 00 02 00 00 00 01")), YES);
    assert_eq!(replay(&log, &hex("01 00 00 02 00 01 00 00")), NO);
    assert_eq!(replay(&log, &hex("01 00 00 01 00 00")), NO);
    assert_eq!(replay(&log, &hex("01 00 00 00")), NO);
}

#[test]
fn the_value_0_is_not_empty() {
    assert_eq!(legal_orders_of_run("A0( A0) R( R0)"), [[0, 1]]);
    assert_eq!(legal_orders_of_run("R( R-) A0( A0)"), [[0, 1]]);
    assert!(legal_orders_of_run("A0( A0) R( R-)").is_empty());
    assert!(legal_orders_of_run("R( R0)").is_empty());
    assert_eq!(legal_orders_of_run("A0( R( R-)"), [vec![1], vec![1, 0]]);
    assert_eq!(legal_orders_of_run("A0( R( R0)"), [[0, 1]]);
}

#[test]
fn the_least_and_the_greatest_value() {
    let both = "A0( A0) A4294967295( A4294967295) Ra( Ra0) Rb( Rb4294967295)";
    assert_eq!(legal_orders_of_run(both), [[0, 1, 2, 3]]);
    let greatest_first = "A0( A0) A4294967295( A4294967295) Ra( Ra4294967295) Rb( Rb0)";
    assert!(legal_orders_of_run(greatest_first).is_empty());
    assert!(legal_orders_of_run("A4294967295( A4294967295) R( R-)").is_empty());
    assert!(legal_orders_of_run("R( R4294967295)").is_empty());
}

#[test]
fn values_are_told_apart_by_every_bit() {
    for bit in 0..32 {
        for value in [0, 0x5A5A_5A5A, u32::MAX] {
            let taken = |removed| {
                let records = [
                    call_add(1, 1, value),
                    return_add(1, 1),
                    call_remove(1, 1),
                    return_value(1, 1, removed),
                ];
                legal_orders(&rising(&records))
            };
            assert_eq!(taken(value), [[0, 1]], "{value}");
            assert!(taken(value ^ 1 << bit).is_empty(), "{value}, bit {bit}");
        }
    }
}

#[test]
fn a_pending_add_that_was_not_removed_is_listed_once_or_not_at_all() {
    assert_eq!(legal_orders_of_run("A1("), [vec![], vec![0]]);
    assert_eq!(
        legal_orders_of_run("A1( A2("),
        [vec![], vec![0], vec![0, 1], vec![1], vec![1, 0]]
    );
    // It may stand before or behind the remove of another value, and not in front of that value.
    assert_eq!(
        legal_orders_of_run("A7( A7) A8( R( R7)"),
        [vec![0, 1, 2], vec![0, 2], vec![0, 2, 1]]
    );
    assert_eq!(
        legal_orders_of_run("A1( A2( R( R2)"),
        [vec![1, 0, 2], vec![1, 2], vec![1, 2, 0]]
    );
    // An empty remove that is called behind it may still come first.
    assert_eq!(legal_orders_of_run("A1( R( R-)"), [vec![1], vec![1, 0]]);
}

#[test]
fn a_pending_add_that_was_removed_is_listed_once() {
    assert_eq!(legal_orders_of_run("A7( R( R7)"), [[0, 1]]);
    assert_eq!(legal_orders_of_run("A7( Ra( Ra7) Rb( Rb-)"), [[0, 1, 2]]);
    assert_eq!(legal_orders_of_run("A7( Ra( Ra-) Rb( Rb7)"), [[1, 0, 2]]);
    // A remove that returns before the add is called cannot have taken its value.
    assert!(legal_orders_of_run("R( R7) A7(").is_empty());
}

#[test]
fn a_pending_add_comes_behind_what_precedes_it() {
    assert_eq!(legal_orders_of_run("A1( A1) A2("), [vec![0], vec![0, 1]]);
    assert_eq!(
        legal_orders_of_run("R( R-) A1( A2( A2)"),
        [vec![0, 1, 2], vec![0, 2], vec![0, 2, 1]]
    );
}

/// "It may stand in an order once or be left out."
#[test]
fn a_pending_remove_is_listed_once_or_not_at_all() {
    assert_eq!(legal_orders_of_run("R("), [vec![], vec![0]]);
    // On an empty queue it changes nothing.
    assert_eq!(
        legal_orders_of_run("Ra( Rb( Rb-)"),
        [vec![0, 1], vec![1], vec![1, 0]]
    );
    // It may take a value that stays, or stand before that is added.
    assert_eq!(legal_orders_of_run("A1( A1) R("), [vec![0], vec![0, 1]]);
    assert_eq!(
        legal_orders_of_run("R( A1( A1)"),
        [vec![0, 1], vec![1], vec![1, 0]]
    );
    let log = log(&run("A1( A1) R("));
    for twice in [&[0, 1, 1][..], &[1, 0, 1], &[1, 1, 0], &[1, 1]] {
        assert_eq!(replay(&log, &sheet(twice)), NO, "{twice:?}");
    }
}

/// "Where it stands, it takes the front value if there is one."
#[test]
fn a_pending_remove_takes_the_front_value() {
    // It does not take the value that the other one returned.
    assert_eq!(
        legal_orders_of_run("A1( A1) Ro( R( R1)"),
        [vec![0, 2], vec![0, 2, 1]]
    );
    // Only if it stands between the add and the empty remove has that met an empty queue.
    assert_eq!(legal_orders_of_run("A1( A1) Ro( R( R-)"), [[0, 1, 2]]);
    assert_eq!(legal_orders_of_run("Ro( A1( A1) R( R-)"), [[1, 0, 2]]);
    // It takes the first of two values, and the second stays or is removed.
    assert_eq!(
        legal_orders_of_run("A1( A1) A2( A2) Ro( R( R2)"),
        [[0, 1, 2, 3]]
    );
    assert_eq!(
        legal_orders_of_run("Ro( A1( A1) A2( A2) R( R2)"),
        [[1, 0, 2, 3], [1, 2, 0, 3]]
    );
    // The value of a pending add may be the front one.
    assert_eq!(
        legal_orders_of_run("A1( Ro( R( R-)"),
        [
            vec![0, 1, 2],
            vec![1, 2],
            vec![1, 2, 0],
            vec![2],
            vec![2, 0],
            vec![2, 0, 1],
            vec![2, 1],
            vec![2, 1, 0]
        ]
    );
    // 0 is a value as any other.
    assert_eq!(legal_orders_of_run("A0( A0) Ro( R( R-)"), [[0, 1, 2]]);
    assert_eq!(
        legal_orders_of_run("A0( A0) Ro( R( R0)"),
        [vec![0, 2], vec![0, 2, 1]]
    );
}

#[test]
fn a_pending_remove_comes_behind_what_precedes_it() {
    assert_eq!(legal_orders_of_run("R( R-) Ro("), [vec![0], vec![0, 1]]);
    // It would have to come before the removes that have returned.
    assert!(legal_orders_of_run("A1( A1) R( R-) Ro(").is_empty());
    assert!(legal_orders_of_run("A1( A1) A2( A2) R( R2) Ro(").is_empty());
    let later = log(&run("A1( A1) A2( A2) R( R2) Ro("));
    assert_eq!(replay(&later, &sheet(&[0, 1, 3, 2])), NO);
}

#[test]
fn operations_that_overlap_may_come_in_either_order() {
    assert_eq!(legal_orders_of_run("A1( A1) A2( A2)"), [[0, 1]]);
    assert_eq!(legal_orders_of_run("A1( A2( A1) A2)"), [[0, 1], [1, 0]]);
    assert_eq!(legal_orders_of_run("A1( A2( A2) A1)"), [[0, 1], [1, 0]]);
    assert_eq!(legal_orders_of_run("Ra( Rb( Ra-) Rb-)"), [[0, 1], [1, 0]]);
    // The first precedes the last, and the long one overlaps both.
    assert_eq!(
        legal_orders_of_run("Ra( Rb( Ra-) Rc( Rc-) Rb-)"),
        [[0, 1, 2], [0, 2, 1], [1, 0, 2]]
    );
}

#[test]
fn one_client_makes_one_operation_after_the_other() {
    let records = [
        call_remove(9, 1),
        return_empty(9, 1),
        call_add(9, 1, 3),
        return_add(9, 1),
        call_add(9, 1, 4),
        call_remove(8, 1),
        return_value(8, 1, 3),
    ];
    assert_eq!(
        legal_orders(&rising(&records)),
        [vec![0, 1, 2, 3], vec![0, 1, 3], vec![0, 1, 3, 2]]
    );
}
