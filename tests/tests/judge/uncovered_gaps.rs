//! Pattern 6 where an empty remove is true: the search for its chain ends at the first gap that no
//! value covers, and what it has found by then must not come into the chain of a higher empty remove
//! that is false. That one may be called and return while the true one is at work. By hand; in
//! simulated runs `empty_removes` has such removes.

use yauponroof_tests::compare::archive::verdict_of;
use yauponroof_tests::logs::notation::run;
use yauponroof_tests::model::all_linearizations::linearizations;
use yauponroof_tests::model::violations::FALSE_EMPTY;

/// Asserts that the run has pattern 6 with this list, and that no order is legal.
fn assert_false_empty(text: &str, operations: &[u16]) {
    let records = run(text);
    assert!(linearizations(&records).is_empty(), "{text}");
    let expected = (FALSE_EMPTY, operations.to_vec());
    assert_eq!(verdict_of(&records), expected, "{text}");
}

// Re is true, and Rf, which is called later, is false.

#[test]
fn the_first_gap_of_the_true_one_is_uncovered() {
    assert_false_empty("Re( Re-) A1( A1) Rf( Rf-)", &[2, 1]);
    assert_false_empty("Re( A1( A1) Rf( Rf-) Re-)", &[2, 1]);
    assert_false_empty("Re( A1( A1) Rf( A2( A2) Ra( Ra1) Rf-) Re-)", &[2, 1, 3]);
    // Both are called after value 1 was removed.
    let emptied = "A1( A1) Ra( Ra1) Re( A2( A2) Rf( Rf-) Re-)";
    assert_false_empty(emptied, &[4, 3]);
}

#[test]
fn a_gap_in_the_middle_of_the_true_one_is_uncovered() {
    // Value 1 covers up to Ra(, value 2 up to Rb(, and value 3 from A3) on.
    let before_it = "A1( A1) Re( A2( A2) Ra( Ra1) Rf( Rf-) Rb( Rb2) A3( A3) Re-)";
    assert_false_empty(before_it, &[4, 2]);
    let after_it = "A1( A1) Re( A2( A2) Ra( Ra1) Rb( Rb2) A3( A3) Rf( Rf-) Re-)";
    assert_false_empty(after_it, &[6, 5]);
    // Rf is called in the first gap of the chain of Re, and needs the same two values.
    let beside = "A1( A1) Re( Rf( A2( A2) Ra( Ra1) Rf-) Rb( Rb2) A3( A3) Re-)";
    assert_false_empty(beside, &[2, 0, 3]);
    // Re returns before Rf does, which goes on with value 3.
    let across = "A1( A1) Re( Ra( Ra1) A2( A2) Rf( Re-) A3( A3) Rb( Rb2) Rf-)";
    assert_false_empty(across, &[4, 3, 5]);
}

#[test]
fn the_last_gap_of_the_true_one_is_uncovered() {
    // It lies between Rc( and Re-).
    let one = "A1( A1) Re( A2( A2) Ra( Ra1) Rf( Rf-) Rc( Re-) Rc2)";
    assert_false_empty(one, &[4, 2]);
    let chain = "A1( A1) Re( A2( A2) Ra( Ra1) Rf( A3( A3) Rb( Rb2) Rf-) Rc( Re-) Rc3)";
    assert_false_empty(chain, &[4, 2, 5]);
    let whole = "A1( A1) Re( Rf( A2( A2) Ra( Ra1) A3( A3) Rb( Rb2) Rf-) Rc( Re-) Rc3)";
    assert_false_empty(whole, &[2, 0, 3, 5]);
    // Value 1 reaches furthest, but its add returns only after the call of Rf.
    let later = "A0( A0) Re( A1( A2( A2) Rf( A1) Rf-) Ra( Ra0) Rb( Rb2) Rc( Re-) Rc1)";
    assert_false_empty(later, &[4, 3]);
}

#[test]
fn several_true_ones_before_the_false_one() {
    // Of Rd the first gap is uncovered, of Re one in the middle, of Rg the last.
    let text = "Rd( A1( A1) Re( A2( A2) Ra( Ra1) Rg( Rf( Rf-) Rb( Rg-) Rb2) A3( A3) Re-) Rd-)";
    assert_false_empty(text, &[6, 3]);
}

#[test]
fn values_that_are_never_removed() {
    // The lowest add is taken, though it returns later.
    assert_false_empty("Re( A1( A2( A2) A1) Rf( Rf-) Re-)", &[3, 1]);
    assert_false_empty("Re( A1( A2( A3( A3) A2) Rf( A1) Rf-) Re-)", &[4, 2]);
    // Value 3 comes after value 1: it is the lowest that is there by then, since A2) is too late.
    let chained = "Re( A1( A1) Rf( A2( A3( A4( A4) A3) Ra( A2) Ra1) Rf-) Re-)";
    assert_false_empty(chained, &[2, 1, 4]);
}

#[test]
fn adds_that_have_not_returned() {
    // Value 1 covers nothing, removed or not.
    assert_false_empty("A1( Re( A2( A2) Rf( Rf-) Re-)", &[3, 2]);
    assert_false_empty("A1( Re( Re-) A2( A2) Rf( Ra( Rf-) Ra1)", &[3, 2]);
    // Neither does value 2: it would be the lower of two, and would cover the gap after value 1.
    let lower = "Re( A1( A1) Rf( A2( A3( A3) Ra( Ra1) Rf-) Re-)";
    assert_false_empty(lower, &[2, 1, 4]);
    let bridge = "A1( A1) Re( A2( Ra( Ra1) A3( A3) Rf( Rf-) Re-) Rb( Rb2)";
    assert_false_empty(bridge, &[5, 4]);
}

#[test]
fn values_that_are_added_in_another_order_than_they_were_called() {
    // Add 2 returns first and covers the first gap, then add 1.
    let exchanged = "Re( A1( A2( A2) Rf( A1) Rb( Rb2) Rf-) Re-)";
    assert_false_empty(exchanged, &[3, 2, 1]);
    let three = "Re( A1( A2( A3( A3) Rf( A2) Rc( Rc3) A1) Rb( Rb2) Rf-) Re-)";
    assert_false_empty(three, &[4, 3, 2, 1]);
    // Value 3 returns last and reaches less far than value 1, which returned before it.
    let passed_by = "Re( A1( A2( A3( A2) Rf( A1) A3) Rb( Rb2) Rc( Rc3) Rf-) Ra( Ra1) Re-)";
    assert_false_empty(passed_by, &[4, 2, 1]);
}
