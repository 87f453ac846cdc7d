//! Document 01's examples, by hand.

use yauponroof_tests::hex::hex;
use yauponroof_tests::library::check;
use yauponroof_tests::logs::notation::run;
use yauponroof_tests::logs::samples::{
    open_add, pending_adds, refusals, PROGRAM_EXAMPLE, REFUSED_BEHIND_OPEN_ADD, RUNS,
};
use yauponroof_tests::model::writer::{log, log_with_n};
use yauponroof_tests::{refused, Answer};

fn check_hex(text: &str) -> Answer {
    check(&hex(text))
}

#[test]
fn readable_runs_are_accepted_with_their_operations() {
    for (text, operations, _) in RUNS {
        let answer = check(&log(&run(text)));
        assert_eq!(answer, Answer::Accepted(operations), "{text}");
    }
}

#[test]
fn runs_with_a_refusal_are_refused() {
    assert_eq!(check(&log(&run("A7( A7) A7("))), refused(9, 2));
    assert_eq!(check(&log(&run("Ra( Rb("))), refused(10, 1));
}

#[test]
fn the_most_records_are_read_and_one_more_is_refused() {
    assert_eq!(check(&log(&pending_adds(1024))), Answer::Accepted(1024));
    assert_eq!(check(&log(&pending_adds(1025))), refused(3, 0));
}

#[test]
fn the_example_of_the_program_is_accepted() {
    let bytes = hex(PROGRAM_EXAMPLE);
    assert_eq!(bytes.len(), 43);
    assert_eq!(check(&bytes), Answer::Accepted(2));
}

#[test]
fn each_refusal_with_its_index() {
    for (log, refusal) in refusals() {
        assert_eq!(check(&log), refusal);
    }
}

#[test]
fn the_order_of_the_tests_decides() {
    let cases = [
        // The header: under 3 bytes, then the version, then n.
        ("", 1, 0),
        ("01", 1, 0),
        ("02", 1, 0),
        ("0104", 1, 0),
        ("FFFF", 1, 0),
        ("000000", 2, 0),
        ("020000", 2, 0),
        ("020401", 2, 0),
        ("010401", 3, 0),
        ("01FFFF", 3, 0),
        ("0104010B", 3, 0),
        // The bytes end before or inside a record, whatever else is wrong with it.
        ("010001", 1, 0),
        ("010400", 1, 0),
        ("0100010B01", 1, 0),
        ("0100010B09", 1, 0),
        // L = 0 comes before the kind, which then is not there.
        ("01000100", 5, 0),
        ("01000200", 5, 0),
        ("0100010009", 5, 0),
        // An unknown kind comes before its L, and both before the bytes left.
        ("01000103090000", 4, 0),
        ("0100010100", 4, 0),
        ("01000101FF", 4, 0),
        ("010001070600000000000000", 4, 0),
        ("0100010501000000000000", 5, 0),
        ("010001050100000000FF", 5, 0),
        // Bytes left behind record n, which may be none.
        ("01000000", 1, 0),
    ];
    for (text, number, index) in cases {
        assert_eq!(check_hex(text), refused(number, index), "{text}");
    }
}

#[test]
fn a_record_is_refused_by_the_first_test_that_it_fails_and_before_what_is_behind_it() {
    for (record, number) in REFUSED_BEHIND_OPEN_ADD {
        // Nothing more, a byte left, a record that is not there, and one that is at fault.
        for (n, behind) in [(2, ""), (2, "FF"), (3, ""), (3, "00")] {
            let mut log = open_add();
            log[2] = n;
            log.extend(hex(record));
            log.extend(hex(behind));
            assert_eq!(check(&log), refused(number, 1), "{record}, then {behind}");
        }
    }
}

#[test]
fn each_length_fits_its_kind_alone() {
    // An add and a remove that do not return, and returns without a call.
    let of_its_kind = [
        (11, Answer::Accepted(1)),
        (7, Answer::Accepted(1)),
        (7, refused(8, 0)),
        (11, refused(8, 0)),
        (7, refused(8, 0)),
    ];
    for (kind, (right, told)) in (1u8..).zip(of_its_kind) {
        for length in 1..=u8::MAX {
            let mut bytes = vec![1, 0, 1, length, kind];
            bytes.resize(4 + usize::from(length), 0);
            let expected = if length == right { told } else { refused(5, 0) };
            assert_eq!(check(&bytes), expected, "kind {kind}, L {length}");
        }
    }
}

#[test]
fn the_first_record_at_fault_is_told() {
    // The tick of record 1 falls below that of record 0; record 2 has an unknown kind.
    let fall = "010003 0702000100000005 0702000200000004 0709000300000006";
    assert_eq!(check_hex(fall), refused(6, 1));
    // Equal ticks do not fall, whoever made the records.
    let equal = "010002 0702000100000005 0705000100000005";
    assert_eq!(check_hex(equal), Answer::Accepted(1));
    // A falling tick comes before a call by a client at work, that before a value added again.
    let busy = "010002 0B0100010000000500000007 0B0100010000000500000007";
    assert_eq!(check_hex(busy), refused(7, 1));
    let busy_and_falling = "010002 0B0100010000000500000007 0B0100010000000400000007";
    assert_eq!(check_hex(busy_and_falling), refused(6, 1));
}

#[test]
fn a_return_needs_an_open_call_of_its_operation() {
    let add_then = |event: &str| format!("010002 0B0100010000000100000007 {event}");
    let remove_then = |event: &str| format!("010002 0702000100000001 {event}");
    let return_add = "0703000100000002";
    let return_value = "0B0400010000000200000007";
    let return_empty = "0705000100000002";
    assert_eq!(check_hex(&add_then(return_add)), Answer::Accepted(1));
    assert_eq!(check_hex(&add_then(return_value)), refused(8, 1));
    assert_eq!(check_hex(&add_then(return_empty)), refused(8, 1));
    assert_eq!(check_hex(&remove_then(return_add)), refused(8, 1));
    assert_eq!(check_hex(&remove_then(return_value)), Answer::Accepted(1));
    assert_eq!(check_hex(&remove_then(return_empty)), Answer::Accepted(1));
    for alone in [return_add, return_value, return_empty] {
        assert_eq!(check_hex(&format!("010001 {alone}")), refused(8, 0));
        // An open call of another client does not help.
        let other = format!("010002 0B0100020000000100000007 {alone}");
        assert_eq!(check_hex(&other), refused(8, 1));
    }
}

#[test]
fn a_value_is_added_once_even_if_it_was_removed() {
    assert_eq!(check(&log(&run("A7( A7) R( R7) A7("))), refused(9, 4));
    assert_eq!(check(&log(&run("A0( A0("))), refused(9, 1));
    // A returned value is no call to add it.
    assert_eq!(check(&log(&run("R( R7) A7("))), Answer::Accepted(2));
}

#[test]
fn one_remove_may_be_left_open() {
    for (text, operations) in [
        ("R(", 1),
        ("A7( Ra( A7)", 2),
        ("Ra( Rb( Ra-)", 2),
        ("Ra( Rb( Rb-)", 2),
        ("R( R-) Ra(", 2),
        ("A1( A2( R(", 3),
    ] {
        let answer = check(&log(&run(text)));
        assert_eq!(answer, Answer::Accepted(operations), "{text}");
    }
}

#[test]
fn the_second_open_remove_is_told_after_the_bytes_left() {
    let two_open = run("A7( Ra( Rb( A7)");
    assert_eq!(check(&log(&two_open)), refused(10, 2));
    let first_returned = run("Ra( Rb( Ra-) Rc(");
    assert_eq!(check(&log(&first_returned)), refused(10, 3));
    let mut left = log(&two_open);
    left.push(0);
    assert_eq!(check(&left), refused(1, 4));
    // Records behind record n are bytes left, those missing are records the bytes end before.
    assert_eq!(check(&log_with_n(3, &two_open)), refused(1, 3));
    assert_eq!(check(&log_with_n(5, &two_open)), refused(1, 4));
}

#[test]
fn of_many_open_removes_the_second_is_told() {
    assert_eq!(check(&log(&run("Ra( Rb( Rc("))), refused(10, 1));
    assert_eq!(check(&log(&run("Ra( A1( Rb( A1) Rc("))), refused(10, 2));
    // The first of four has returned, or the second, or the last.
    assert_eq!(check(&log(&run("Ra( Rb( Rc( Rd( Ra-)"))), refused(10, 2));
    assert_eq!(check(&log(&run("Ra( Rb( Rc( Rd( Rb-)"))), refused(10, 2));
    assert_eq!(check(&log(&run("Ra( Rb( Rc( Rd( Rd-)"))), refused(10, 1));
}

#[test]
fn the_second_open_remove_is_by_record_and_not_by_client() {
    let later_client_first = "010002 0702000900000001 0702000100000002";
    assert_eq!(check_hex(later_client_first), refused(10, 1));
    // Client 1 called first, returned, and called again behind client 9.
    let called_again = "010004 0702000100000001 0705000100000002 0702000900000003 0702000100000004";
    assert_eq!(check_hex(called_again), refused(10, 3));
    // Clients 9, 5 and 1 call in that order.
    let falling = "010003 0702000900000001 0702000500000002 0702000100000003";
    assert_eq!(check_hex(falling), refused(10, 1));
}
