//! Narrowing by hand: what document 01 says is kept, record by record, and what is not.

use yauponroof_tests::compare::archive::Archives;
use yauponroof_tests::compare::narrowing::compare_narrowing;
use yauponroof_tests::hex::hex;
use yauponroof_tests::library::outcomes::narrowing_made;
use yauponroof_tests::logs::notation::run;
use yauponroof_tests::logs::samples::PROGRAM_EXAMPLE;
use yauponroof_tests::model::record::{call_add, return_add, Record};
use yauponroof_tests::model::writer::log;

/// Asserts that the run narrowed to the values is made of the records with these indexes.
fn assert_kept(text: &str, values: &[u32], indexes: &[usize]) {
    let records = run(text);
    let kept: Vec<Record> = indexes.iter().map(|&at| records[at]).collect();
    let made = compare_narrowing(&log(&records), values);
    assert_eq!(made, log(&kept), "{text} narrowed to {values:?}");
}

const ALL_KINDS: &str = "A1( A1) Re( A2( A3( A3) Rb( Rb1) Re-) R( R9)";

#[test]
fn operations_on_the_values_are_kept() {
    assert_kept(ALL_KINDS, &[1], &[0, 1, 6, 7]);
    assert_kept(ALL_KINDS, &[3], &[4, 5]);
    assert_kept(ALL_KINDS, &[1, 3], &[0, 1, 4, 5, 6, 7]);
}

#[test]
fn open_adds_are_kept() {
    assert_kept(ALL_KINDS, &[2], &[3]);
    assert_kept(ALL_KINDS, &[2, 3], &[3, 4, 5]);
}

#[test]
fn removes_of_a_value_that_no_add_names_are_kept() {
    assert_kept(ALL_KINDS, &[9], &[9, 10]);
    assert_kept("A7( A7) R( R7) R( R7)", &[7], &[0, 1, 2, 3, 4, 5]);
}

#[test]
fn empty_removes_are_not_kept() {
    let all = [0, 1, 3, 4, 5, 6, 7, 9, 10];
    assert_kept(ALL_KINDS, &[1, 2, 3, 9], &all);
    assert_kept("R( R-)", &[0, 1], &[]);
}

#[test]
fn an_open_remove_is_not_kept() {
    assert_kept("R(", &[0, 1], &[]);
    assert_kept("Ro( A1( A1) R( R1)", &[1], &[1, 2, 3, 4]);
    assert_kept("A1( A1) R( R1) Ro(", &[1], &[0, 1, 2, 3]);
    assert_kept("A0( Ro( A0)", &[0], &[0, 2]);
    assert_kept("A1( Ro( A2( A2) R( R2)", &[1, 2], &[0, 2, 3, 4, 5]);
    assert_kept("A1( Ro( A2( A2) R( R2)", &[], &[]);
}

/// The open remove took 1, and without it 1 is stuck.
#[test]
fn without_its_open_remove_an_order_may_have_a_pattern() {
    let text = "A1( A1) A2( A2) Ro( R( R2)";
    assert_kept(text, &[1, 2], &[0, 1, 2, 3, 5, 6]);
    let whole = log(&run(text));
    let narrowed = narrowing_made(&whole, &[1, 2]).expect("a narrowing");
    let verdict = |log: &[u8]| Archives::new().compare(log);
    assert_eq!((verdict(&whole), verdict(&narrowed)), (0, 4));
}

#[test]
fn the_value_0_is_not_empty() {
    let text = "A0( A0) Ra( Ra-) Rb( Rb0) A1(";
    assert_kept(text, &[0], &[0, 1, 4, 5]);
    assert_kept(text, &[1], &[6]);
    assert_kept(text, &[], &[]);
}

#[test]
fn the_order_of_the_list_and_repeats_change_nothing() {
    let kept = [0, 1, 4, 5, 6, 7];
    for values in [&[3, 1][..], &[1, 1, 3], &[3, 1, 3, 1, 3], &[1, 3, 1]] {
        assert_kept(ALL_KINDS, values, &kept);
    }
}

#[test]
fn values_that_the_log_lacks_change_nothing() {
    assert_kept(ALL_KINDS, &[4], &[]);
    assert_kept(ALL_KINDS, &[4, 3, 0, u32::MAX], &[4, 5]);
    assert_kept(ALL_KINDS, &[0, 4, 5, 6, 1], &[0, 1, 6, 7]);
}

#[test]
fn an_empty_list_gives_the_log_of_no_records() {
    for text in ["", "A7( A7) R( R7)", ALL_KINDS] {
        assert_eq!(narrowing_made(&log(&run(text)), &[]), Ok(hex("01 00 00")));
    }
}

#[test]
fn the_example_of_the_program() {
    let log = hex(PROGRAM_EXAMPLE);
    assert_eq!(narrowing_made(&log, &[7]), Ok(log.clone()));
    assert_eq!(narrowing_made(&log, &[8]), Ok(hex("01 00 00")));
}

#[test]
fn a_narrowing_in_its_bytes() {
    // Client 258 adds 0x01020304 while client 1 adds 7 and does not return.
    let log = hex("01 00 03 \
        0B 01 00 01 00 00 00 05 00 00 00 07 \
        0B 01 01 02 00 00 01 06 01 02 03 04 \
        07 03 01 02 80 00 00 00");
    let narrowed = hex("01 00 02 \
        0B 01 01 02 00 00 01 06 01 02 03 04 \
        07 03 01 02 80 00 00 00");
    assert_eq!(narrowing_made(&log, &[0x0102_0304]), Ok(narrowed));
    assert_eq!(narrowing_made(&log, &[0x0403_0201]), Ok(hex("01 00 00")));
}

#[test]
fn clients_and_ticks_stay_as_they_were() {
    let records = [
        call_add(9, 3, 1),
        call_add(65_535, 500, 2),
        return_add(65_535, 70_000),
        return_add(9, u32::MAX),
    ];
    let [_, call, returned, _] = records;
    let made = narrowing_made(&log(&records), &[2]);
    assert_eq!(made, Ok(log(&[call, returned])));
}

#[test]
fn values_are_told_apart_by_every_bit() {
    for bit in 0..32 {
        for value in [0, 0x5A5A_5A5A, u32::MAX] {
            let other = value ^ 1 << bit;
            let one = call_add(1, 1, value);
            let log_of_both = log(&[one, call_add(2, 1, other)]);
            let made = narrowing_made(&log_of_both, &[value]);
            assert_eq!(made, Ok(log(&[one])), "{value}, bit {bit}");
        }
    }
}
