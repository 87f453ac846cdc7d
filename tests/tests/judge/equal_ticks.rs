//! Records of one tick tell no order, by hand: each pattern with its records apart, and with some of
//! them joined. Bars stand where the tick rises.

use yauponroof_tests::compare::archive::verdict_of;
use yauponroof_tests::logs::notation::run_in_batches;
use yauponroof_tests::model::all_linearizations::linearizations;
use yauponroof_tests::model::sheet::ORDER;

/// Asserts that the run in batches has this pattern with this list, and that no order is legal.
fn assert_pattern(text: &str, number: u8, operations: &[u16]) {
    let records = run_in_batches(text);
    assert!(linearizations(&records).is_empty(), "{text}");
    let expected = (number, operations.to_vec());
    assert_eq!(verdict_of(&records), expected, "{text}");
}

/// Asserts that the judge lists a legal order of the run, over these operations.
fn assert_order_of(text: &str, operations: &[u16]) {
    let records = run_in_batches(text);
    let (verdict, order) = verdict_of(&records);
    assert_eq!(verdict, ORDER, "{text}");
    assert!(linearizations(&records).contains(&order), "{text}");
    let mut listed = order;
    listed.sort();
    assert_eq!(listed, operations, "{text}");
}

#[test]
fn a_remove_precedes_the_add_of_its_value_only_at_a_lower_tick() {
    assert_pattern("R( R7) | A7( A7)", 3, &[0, 1]);
    assert_pattern("R( | R7) | A7(", 3, &[0, 1]);
    assert_order_of("R( R7) A7( A7)", &[0, 1]);
    assert_order_of("R( | R7) A7( | A7)", &[0, 1]);
    assert_order_of("R( R7) A7( | A7)", &[0, 1]);
}

#[test]
fn an_add_is_stuck_only_behind_one_of_a_higher_tick() {
    assert_pattern("A1( A1) | A2( A2) R( R2)", 4, &[0, 1, 2]);
    assert_pattern("A1( | A1) | A2( | A2) R( R2)", 4, &[0, 1, 2]);
    assert_order_of("A1( A1) A2( A2) | R( R2)", &[0, 1, 2]);
    assert_order_of("A1( | A1) A2( | A2) | R( | R2)", &[0, 1, 2]);
    // Add 0 and add 1 overlap, and add 0 precedes add 2, whose value is removed.
    assert_pattern("A1( | A1) A2( | A3( A3) A2) | R( R3)", 4, &[0, 2, 3]);
}

#[test]
fn a_value_is_overtaken_only_by_removes_of_different_ticks() {
    assert_pattern("A1( A1) | A2( A2) | R( R2) | R( R1)", 5, &[0, 1, 2, 3]);
    assert_order_of("A1( A1) | A2( A2) | R( R2) R( R1)", &[0, 1, 2, 3]);
    assert_order_of("A1( A1) A2( A2) | R( R2) | R( R1)", &[0, 1, 2, 3]);
    assert_order_of("A1( A1) | A2( A2) | R( | R2) R( | R1)", &[0, 1, 2, 3]);
    assert_order_of("A1( A1) A2( A2) R( R2) R( R1)", &[0, 1, 2, 3]);
}

#[test]
fn an_empty_remove_called_and_returned_within_one_tick_has_a_gap() {
    assert_pattern("A1( A1) | R( R-)", 6, &[1, 0]);
    assert_pattern("A1( A1) | R( R-) | Ra( Ra1)", 6, &[1, 0]);
    // Other calls of the tick come before its return, and a remove of the value is among them.
    assert_order_of("A1( A1) | R( R-) Ra( Ra1)", &[0, 1, 2]);
    assert_order_of("A1( A1) | Ra( R( R-) Ra1)", &[0, 1, 2]);
    assert_pattern("A1( A1) | R( R-) A2( A2)", 6, &[1, 0]);
    assert_order_of("R( R-)", &[0]);
}

#[test]
fn within_a_tick_an_add_returns_after_all_calls() {
    // The empty remove is called before the add returns, wherever it stands.
    assert_order_of("A1( A1) R( R-)", &[0, 1]);
    assert_order_of("A1( | A1) R( R-)", &[0, 1]);
    assert_order_of("A1( | A1) R( | R-)", &[0, 1]);
    assert_order_of("A1( | R( A1) | R-)", &[0, 1]);
    assert_pattern("A1( | A1) | R( | R-)", 6, &[1, 0]);
}

#[test]
fn within_a_tick_one_value_is_not_handed_over_to_the_next() {
    // Value 1 is called to be removed before the add of value 2 has returned.
    let in_one_tick = "A1( A1) | Re( | A2( A2) Ra( Ra1) | Re-) | R( R2)";
    assert_order_of(in_one_tick, &[0, 1, 2, 3, 4]);
    let apart = "A1( A1) | Re( | A2( A2) | Ra( Ra1) | Re-) | R( R2)";
    assert_pattern(apart, 6, &[1, 0, 2]);
    // The return of the add and the call of the remove have one tick.
    let joined = "A1( A1) | Re( | A2( | A2) Ra( | Ra1) | Re-) | R( R2)";
    assert_order_of(joined, &[0, 1, 2, 3, 4]);
}

#[test]
fn what_reaches_furthest_is_decided_within_a_tick_by_the_sequence_of_the_calls() {
    assert_pattern("A1( A2( A1) A2) | Re( Re-) | Ra( Rb( Ra1) Rb2)", 6, &[2, 1]);
    assert_pattern("A1( A2( A1) A2) | Re( Re-) | Rb( Ra( Ra1) Rb2)", 6, &[2, 0]);
    // A return that stands between the two calls changes nothing.
    assert_pattern("A1( A2( A1) A2) | Re( Re-) | Ra( Ra1) Rb( Rb2)", 6, &[2, 1]);
    assert_pattern("A1( A2( A1) A2) | Re( Re-) | Rb( Rb2) Ra( Ra1)", 6, &[2, 0]);
    // Three of one tick, the second of which is the last to be called.
    let three = "A1( A2( A3( A1) A2) A3) | Re( Re-) | Rc( Ra( Ra1) Rb( Rb2) Rc3)";
    assert_pattern(three, 6, &[3, 1]);
    // Never removed reaches furthest, and then the lowest add, though a higher one stands first.
    assert_pattern("A1( A2( A2) A1) | Re( Re-)", 6, &[2, 0]);
}

#[test]
fn within_a_tick_a_remove_is_called_before_all_returns() {
    // The value is called to be removed before the empty remove returns, wherever that stands.
    assert_order_of("A1( A1) | Re( | Ra( Re-) | Ra1)", &[0, 1, 2]);
    assert_order_of("A1( A1) | Re( | Re-) Ra( | Ra1)", &[0, 1, 2]);
    assert_pattern("A1( A1) | Re( | Re-) | Ra( | Ra1)", 6, &[1, 0]);
}

#[test]
fn a_chain_goes_on_at_a_gap_within_a_tick() {
    // The first gap beyond value 1 lies between the calls of two removes of one tick. Value 2 covers
    // it and no other one; value 3 reaches further.
    let beyond = "A1( A1) | Re( A2( A3( | A3) A2) | Ra( Ra1) Rb( Rb2) | Re-) | Rc( Rc3)";
    assert_pattern(beyond, 6, &[1, 0, 3]);
    // Without value 3 the gap behind those calls is uncovered.
    let uncovered = "A1( A1) | Re( A2( | A2) | Ra( Ra1) Rb( Rb2) | Re-)";
    assert_order_of(uncovered, &[0, 1, 2, 3, 4]);
    // The add of value 2 returns within the tick in which value 1 is called to be removed.
    let too_late = "A1( A1) | Re( A2( | A2) Ra( Ra1) | Re-) | Rb( Rb2)";
    assert_order_of(too_late, &[0, 1, 2, 3, 4]);
}
