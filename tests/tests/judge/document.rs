//! The judge on document 01's runs, on the readings that the document rules out, and on runs by
//! hand for each pattern and for which of its lists is the lowest.

use yauponroof_tests::compare::archive::Archives;
use yauponroof_tests::hex::hex;
use yauponroof_tests::library::outcomes::judged;
use yauponroof_tests::logs::notation::run;
use yauponroof_tests::logs::samples::{pending_adds, Verdict, PROGRAM_EXAMPLE, RUNS};
use yauponroof_tests::model::all_linearizations::linearizations;
use yauponroof_tests::model::sheet::{order_on, verdict_on};
use yauponroof_tests::model::writer::log;
use yauponroof_tests::{refused, Outcome};

fn sheet_of(text: &str) -> Vec<u8> {
    let log = log(&run(text));
    judged(&log).unwrap_or_else(|refusal| panic!("{text}: {refusal:?}"))
}

/// Asserts that the run has this pattern, with this list, and that no order is legal.
fn assert_pattern(text: &str, number: u8, operations: &[u16]) {
    assert!(linearizations(&run(text)).is_empty(), "{text}");
    let sheet = sheet_of(text);
    let told = (number, operations.to_vec());
    assert_eq!(verdict_on(&sheet), Some(told), "{text}");
    assert_eq!(
        Archives::new().compare_records(&run(text)),
        number,
        "{text}"
    );
}

fn sorted(order: &[u16]) -> Vec<u16> {
    let mut operations = order.to_vec();
    operations.sort();
    operations
}

/// Asserts that the judge lists these operations, in a legal order.
fn assert_order_of(text: &str, operations: &[u16]) {
    let records = run(text);
    let order = order_on(&sheet_of(text)).unwrap_or_else(|| panic!("{text} has no order"));
    assert!(
        linearizations(&records).contains(&order),
        "{order:?} is not legal for {text}"
    );
    assert_eq!(sorted(&order), operations, "{text}");
    assert_eq!(Archives::new().compare_records(&records), 0, "{text}");
}

/// Asserts that the judge lists this order, and that no other one over its operations is legal.
fn assert_only_order(text: &str, order: &[u16]) {
    assert_order_of(text, &sorted(order));
    let all = linearizations(&run(text));
    let mut over_these = all.iter().filter(|o| sorted(o) == sorted(order));
    assert_eq!(over_these.next().map(Vec::as_slice), Some(order), "{text}");
    assert_eq!(over_these.next(), None, "{text}");
}

fn judged_run(text: &str) -> Outcome {
    judged(&log(&run(text)))
}

#[test]
fn the_runs_are_judged_as_the_document_says() {
    let (mut orders, mut patterns) = (0, 0);
    for (text, _, verdict) in RUNS {
        match verdict {
            Verdict::Order(order) => {
                assert_only_order(text, order);
                orders += 1;
            }
            Verdict::Pattern(number, operations) => {
                assert_pattern(text, number, operations);
                patterns += 1;
            }
        }
    }
    assert_eq!((orders, patterns), (9, 7));
}

#[test]
fn the_runs_with_a_refusal_are_refused() {
    assert_eq!(judged_run("A7( A7) A7("), Err(refused(9, 2)));
    // A second remove without return, which change 4 of document 02 leaves to 10.
    assert_eq!(judged_run("Ra( Rb("), Err(refused(10, 1)));
}

#[test]
fn the_most_records_are_judged_and_one_more_is_refused() {
    let nothing_listed = Ok(hex("01 00 00 00"));
    assert_eq!(judged(&log(&pending_adds(1024))), nothing_listed);
    assert_eq!(judged(&log(&pending_adds(1025))), Err(refused(3, 0)));
}

#[test]
fn the_example_of_the_program_in_its_bytes() {
    let log = hex(PROGRAM_EXAMPLE);
    assert_eq!(judged(&log), Ok(hex("01 00 00 02 00 00 00 01")));
}

#[test]
fn a_pattern_in_its_bytes() {
    let text = "A1( A1) A2( A2) R( R2) R( R1)";
    let sheet = hex("01 05 00 04 00 00 00 01 00 02 00 03");
    assert_eq!(judged_run(text), Ok(sheet));
}

// The readings that the document rules out.

#[test]
fn an_open_remove_is_not_taken_for_empty() {
    assert_only_order("A7( A7) R(", &[0]);
    assert_only_order("A7( Ra( Rb( Rb7)", &[0, 2]);
    assert_only_order("Ra( Ra-) Rb( Rc( Rc-)", &[0, 2]);
    // The same runs once the remove has returned.
    assert_pattern("A7( A7) R( R-)", 6, &[1, 0]);
    assert_order_of("A7( Ra( Rb( Rb7) Ra-)", &[0, 1, 2]);
    assert_order_of("Ra( Ra-) Rb( Rc( Rc-) Rb-)", &[0, 1, 2]);
}

#[test]
fn the_value_0_is_not_taken_for_empty() {
    assert_only_order("A0( A0) R( R0)", &[0, 1]);
    assert_only_order("R( A0( R0) A0)", &[1, 0]);
    assert_only_order("R( R-) A0( A0)", &[0, 1]);
    assert_only_order("A0( R( R0)", &[0, 1]);
    assert_only_order("A0( R( R-)", &[1]);
    assert_pattern("R( R0)", 1, &[0]);
    assert_pattern("A0( A0) R( R0) R( R0)", 2, &[1, 2]);
    assert_pattern("R( R0) A0( A0)", 3, &[0, 1]);
    assert_pattern("A0( A0) A1( A1) R( R1)", 4, &[0, 1, 2]);
    assert_pattern("A1( A1) A0( A0) R( R0)", 4, &[0, 1, 2]);
    assert_pattern("A0( A0) A1( A1) R( R1) R( R0)", 5, &[0, 1, 2, 3]);
    assert_pattern("A0( A0) R( R-)", 6, &[1, 0]);
    assert_pattern("A0( A0) Ra( Ra-) Rb( Rb0)", 6, &[1, 0]);
}

#[test]
fn an_empty_remove_is_tested_against_chains_and_not_single_values() {
    // Neither value covers all gaps by itself, and both do together.
    let two = "A1( A1) Ra( A2( A2) Rb( Rb1) Ra-) R( R2)";
    assert_pattern(two, 6, &[1, 0, 2]);
    let three = "A1( A1) Re( A2( A2) Ra( Ra1) A3( A3) Rb( Rb2) Re-) Rc( Rc3)";
    assert_pattern(three, 6, &[1, 0, 2, 4]);
    // A gap is left between the first and the second, or the second and the third.
    let gap = "A1( A1) Ra( A2( Rb( A2) Rb1) Ra-) R( R2)";
    assert_only_order(gap, &[0, 3, 1, 2, 4]);
    let first_gap = "A1( A1) Re( A2( Ra( A2) Ra1) A3( A3) Rb( Rb2) Re-) Rc( Rc3)";
    assert_order_of(first_gap, &[0, 1, 2, 3, 4, 5, 6]);
    let second_gap = "A1( A1) Re( A2( A2) Ra( Ra1) A3( Rb( A3) Rb2) Re-) Rc( Rc3)";
    assert_order_of(second_gap, &[0, 1, 2, 3, 4, 5, 6]);
}

#[test]
fn an_open_add_whose_value_was_removed_is_not_left_out() {
    assert_only_order("A7( R( R7)", &[0, 1]);
    assert_only_order("R( A7( R7)", &[1, 0]);
    assert_only_order("A7( Ra( Ra7) Rb( Rb-)", &[0, 1, 2]);
    assert_only_order("A7( Ra( Ra-) Rb( Rb7)", &[1, 0, 2]);
    assert_order_of("A1( A2( Ra( Ra2) Rb( Rb1)", &[0, 1, 2, 3]);
}

#[test]
fn pattern_4_is_not_reported_when_add_b_was_called_before_add_a_returned() {
    assert_only_order("A1( A2( A1) A2) R( R2)", &[1, 0, 2]);
    assert_only_order("A1( A2( A2) A1) R( R2)", &[1, 0, 2]);
    assert_only_order("A1( A2( A1) R( R2)", &[1, 0, 2]);
    assert_order_of("A1( A2( A2) R( R2) A1)", &[0, 1, 2]);
    assert_pattern("A1( A1) A2( A2) R( R2)", 4, &[0, 1, 2]);
    assert_pattern("A1( A1) A2( R( R2)", 4, &[0, 1, 2]);
}

// More on orders.

#[test]
fn an_open_add_whose_value_was_not_removed_is_not_listed() {
    assert_only_order("A7(", &[]);
    assert_only_order("A7( A8(", &[]);
    assert_only_order("A7( R( R-)", &[1]);
    assert_only_order("A7( A7) A8( R( R7)", &[0, 2]);
    assert_only_order("A1( A2( R( R2)", &[1, 2]);
    // An add that has returned is listed, removed or not.
    assert_only_order("A7( A7)", &[0]);
}

#[test]
fn operations_are_not_listed_in_the_order_of_their_calls() {
    assert_only_order("R( A7( R7) A7)", &[1, 0]);
    assert_only_order("A1( A2( A1) A2) R( R2) R( R1)", &[1, 0, 2, 3]);
    assert_only_order("A1( A1) A2( A2) Ra( Rb( Ra2) Rb1)", &[0, 1, 3, 2]);
    // The first two are placed truly, and the others come in another order than they were called.
    let late = "A1( A1) R( R1) A2( A3( A2) A3) Ra( Rb( Ra2) Rb3) Rc( Rc-)";
    assert_order_of(late, &[0, 1, 2, 3, 4, 5, 6]);
    let swapped = "A1( A1) R( R1) A2( A3( A2) A3) Ra( Ra3) Rb( Rb2)";
    assert_only_order(swapped, &[0, 1, 3, 2, 4, 5]);
}

#[test]
fn an_empty_remove_comes_where_the_queue_is_empty() {
    assert_only_order("R( R-)", &[0]);
    assert_only_order("A1( A1) Re( Ra( Ra1) Re-)", &[0, 2, 1]);
    assert_only_order("Re( A1( A1) Re-)", &[0, 1]);
    assert_only_order("Re( A1( A1) Re-) Ra( Ra1)", &[0, 1, 2]);
    // It overlaps both values, and the queue is empty between them alone.
    let between = "A1( A1) Re( Ra( Ra1) A2( A2) Re-)";
    assert_only_order(between, &[0, 2, 1, 3]);
}

// The patterns, and which list is the lowest.

#[test]
fn pattern_1_is_a_value_that_no_add_of_the_log_names() {
    assert_pattern("A7( A7) R( R8)", 1, &[1]);
    assert_pattern("A7( A7) Ra( Ra7) Rb( Rc( Rc8) Rb9)", 1, &[2]);
    assert_pattern("Ra( Rb( Rb9) Ra8)", 1, &[0]);
    // An add names its value wherever it is called, and if it never returns.
    assert_pattern("R( R7) A7( A7)", 3, &[0, 1]);
    assert_pattern("R( R7) A7(", 3, &[0, 1]);
    assert_only_order("A7( R( R7)", &[0, 1]);
}

#[test]
fn pattern_2_lists_the_lowest_two_removes_of_one_value() {
    assert_pattern("A7( A7) Ra( Rb( Rb7) Ra7)", 2, &[1, 2]);
    assert_pattern("A7( A7) R( R7) R( R7) R( R7)", 2, &[1, 2]);
    // The removes of 1 are 2 and 5, those of 2 are 3 and 4.
    let crossed = "A1( A1) A2( A2) R( R1) R( R2) R( R2) R( R1)";
    assert_pattern(crossed, 2, &[2, 5]);
    let with_another_between = "A1( A2( A1) A2) Ra( Ra1) Rb( Rb2) Rc( Rc1)";
    assert_pattern(with_another_between, 2, &[2, 4]);
}

#[test]
fn pattern_3_is_a_remove_that_returned_before_its_add_was_called() {
    assert_pattern("Ra( Ra7) A7( A7)", 3, &[0, 1]);
    assert_pattern("Ra( Ra7) A7(", 3, &[0, 1]);
    assert_only_order("R( A7( R7) A7)", &[1, 0]);
    assert_only_order("R( A7( A7) R7)", &[1, 0]);
    assert_only_order("A7( R( R7) A7)", &[0, 1]);
    // The lowest remove, not the lowest add.
    assert_pattern("Ra( Ra1) Rb( Rb2) A2( A2) A1( A1)", 3, &[0, 3]);
    assert_pattern("A3( A3) Ra( Rb( Rb2) Ra1) A1( A1) A2( A2)", 3, &[1, 3]);
}

#[test]
fn pattern_4_lists_the_lowest_adds() {
    // Add a may be 0 or 1, and add b 2 or 3.
    let two_by_two = "A1( A1) A2( A2) A3( A3) A4( A4) Ra( Ra4) Rb( Rb3)";
    assert_pattern(two_by_two, 4, &[0, 2, 5]);
    // Value 1 was removed, so it is not stuck.
    let second = "A1( A1) A2( A2) A3( A3) Ra( Ra1) Rb( Rb3)";
    assert_pattern(second, 4, &[1, 2, 4]);
    // Add 0 does not precede add 1, which was called before it returned.
    let overlapping = "A1( A2( A1) A2) A3( A3) Ra( Ra3) Rb( Rb2)";
    assert_pattern(overlapping, 4, &[0, 2, 3]);
    assert_pattern("A1( A1) Ra( A2( Ra2)", 4, &[0, 2, 1]);
    // Add 0 precedes add 3 alone, and add 1 precedes add 2: the lowest add a comes first.
    let crossed = "A1( A2( A2) A3( A1) A3) A4( A4) Ra( Ra3) Rb( Rb4)";
    assert_pattern(crossed, 4, &[0, 3, 5]);
}

#[test]
fn pattern_5_lists_the_lowest_adds() {
    // Every later value overtakes every earlier one.
    let all = "A1( A1) A2( A2) A3( A3) R( R3) R( R2) R( R1)";
    assert_pattern(all, 5, &[0, 1, 4, 5]);
    let last_two = "A1( A1) A2( A2) A3( A3) R( R1) R( R3) R( R2)";
    assert_pattern(last_two, 5, &[1, 2, 4, 5]);
    assert_pattern("A1( A1) A2( R( R2) R( R1)", 5, &[0, 1, 2, 3]);
    // Add 0 precedes add 3 alone, and add 1 precedes add 2: the lowest add a comes first.
    let crossed = "A1( A2( A2) A3( A1) A3) A4( A4) Ra( Ra3) Rb( Rb4) Rc( Rc2) Rd( Rd1)";
    assert_pattern(crossed, 5, &[0, 3, 5, 7]);
    // Removes that overlap may have taken effect in either order.
    let overlapping = "A1( A1) A2( A2) Ra( Rb( Ra2) Rb1)";
    assert_only_order(overlapping, &[0, 1, 3, 2]);
    let returned_later = "A1( A1) A2( A2) Ra( Rb( Rb1) Ra2)";
    assert_only_order(returned_later, &[0, 1, 3, 2]);
}

#[test]
fn pattern_6_is_reported_of_the_lowest_empty_remove() {
    assert_pattern("A1( A1) Ra( Ra-) Rb( Rb-)", 6, &[1, 0]);
    // The lowest one overlaps the add, and the second returns before the third.
    let second = "Ra( A1( A1) Rb( Rc( Rb-) Rc-) Ra-)";
    assert_pattern(second, 6, &[2, 1]);
    let third_returns_first = "Ra( A1( A1) Rb( Rc( Rc-) Rb-) Ra-)";
    assert_pattern(third_returns_first, 6, &[2, 1]);
    // Rb has the longer chain and the lower number.
    let longer = "A1( A1) Rb( A2( A2) Rd( Rd-) Ra( Ra1) Rb-)";
    assert_pattern(longer, 6, &[1, 0, 2]);
}

#[test]
fn a_value_covers_from_the_return_of_its_add_to_the_call_of_its_remove() {
    assert_pattern("A1( A1) Re( Re-) R( R1)", 6, &[1, 0]);
    assert_pattern("A1( A1) Re( Re-)", 6, &[1, 0]);
    // The gap before the return of the add, or behind the call of the remove, is not covered.
    assert_order_of("A1( Re( A1) Re-) R( R1)", &[0, 1, 2]);
    assert_order_of("A1( Re( Re-) A1) R( R1)", &[0, 1, 2]);
    assert_order_of("Re( A1( A1) Re-) R( R1)", &[0, 1, 2]);
    assert_only_order("A1( A1) Re( R( Re-) R1)", &[0, 2, 1]);
    assert_only_order("A1( A1) R( Re( Re-) R1)", &[0, 1, 2]);
    assert_only_order("A1( A1) R( Re( R1) Re-)", &[0, 1, 2]);
    // The last covered gap stands right before the call of the remove.
    assert_pattern("A1( A1) Re( Re-) Ra( Ra1)", 6, &[1, 0]);
    // An open add covers nothing.
    assert_only_order("A1( Re( Re-)", &[1]);
    assert_only_order("A1( Re( Re-) R( R1)", &[1, 0, 2]);
}

#[test]
fn a_chain_takes_the_value_that_reaches_furthest() {
    // Value 2 is removed behind value 1; both are removed behind the empty remove.
    let beyond = "A1( A2( A1) A2) Re( Re-) Ra( Ra1) Rb( Rb2)";
    assert_pattern(beyond, 6, &[2, 1]);
    let other_way = "A1( A2( A1) A2) Re( Re-) Rb( Rb2) Ra( Ra1)";
    assert_pattern(other_way, 6, &[2, 0]);
    // The call of the remove tells how far, not its return.
    let called_first = "A1( A2( A1) A2) Re( Re-) Ra( Rb( Rb1) Ra2)";
    assert_pattern(called_first, 6, &[2, 0]);
    // Never removed reaches furthest.
    let kept = "A1( A2( A1) A2) Re( Re-) Ra( Ra1)";
    assert_pattern(kept, 6, &[2, 1]);
    let kept_first = "A1( A2( A1) A2) Re( Re-) Rb( Rb2)";
    assert_pattern(kept_first, 6, &[2, 0]);
    // Among several that are never removed the lowest add is taken, whichever returned first.
    assert_pattern("A1( A2( A2) A1) Re( Re-)", 6, &[2, 0]);
    assert_pattern("A1( A2( A3( A3) A2) A1) Re( Re-)", 6, &[3, 0]);
    // The lowest add alone has not returned.
    assert_pattern("A1( A2( A3( A3) A2) Re( Re-)", 6, &[3, 1]);
}

#[test]
fn a_chain_goes_on_at_the_first_gap_beyond() {
    // Value 2 covers the first gap beyond value 1, and so does value 3, which reaches further.
    let two = "A1( A1) Re( A2( A3( A2) A3) Ra( Ra1) Rb( Rb2) Re-) Rc( Rc3)";
    assert_pattern(two, 6, &[1, 0, 3]);
    // Value 3 covers only behind that gap, so value 2 has to come between.
    let three = "A1( A1) Re( A2( A2) Ra( A3( A3) Ra1) Rb( Rb2) Re-) Rc( Rc3)";
    assert_pattern(three, 6, &[1, 0, 2, 4]);
    // Add 1 returned first, so it comes before add 0.
    let lower_add_later = "A1( A2( A2) Re( A1) Ra( Ra2) Re-) Rb( Rb1)";
    assert_pattern(lower_add_later, 6, &[2, 1, 0]);
    // The chain ends with the last gap, though value 2 reaches beyond value 1.
    let one = "A1( A1) Re( A2( A2) Re-) Ra( Ra1) Rb( Rb2)";
    assert_pattern(one, 6, &[1, 0]);
}

#[test]
fn the_lowest_number_is_reported_whatever_else_occurs() {
    // Six runs with a pattern each; of all from one on, the first is the lowest.
    let pieces = [
        "Ru( Ru99)",
        "A21( A21) Rv( Rv21) Rw( Rw21)",
        "Rx( Rx31) A31( A31)",
        "A41( A41) A42( A42) Ry( Ry42)",
        "A51( A51) A52( A52) Rz( Rz52) Rq( Rq51)",
        "A61( A61) Re( Re-)",
    ];
    for from in 0..pieces.len() {
        let forwards = pieces[from..].join(" ");
        let mut reversed = pieces[from..].to_vec();
        reversed.reverse();
        for text in [forwards, reversed.join(" ")] {
            let verdict = Archives::new().compare_records(&run(&text));
            // Behind the piece of 4 or 6 a value is never removed, so that 4 comes with 5.
            let expected = match from {
                4 if text.starts_with("A61") => 4,
                _ => from as u8 + 1,
            };
            assert_eq!(verdict, expected, "{text}");
        }
    }
}
