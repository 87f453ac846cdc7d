//! Excerpts by hand: what document 01 says is kept, record by record, and what is not. Every
//! excerpt is judged again and must have the same pattern.

use yauponroof_tests::compare::archive::Archives;
use yauponroof_tests::hex::hex;
use yauponroof_tests::library::outcomes::{excerpt_made, judged};
use yauponroof_tests::logs::notation::run;
use yauponroof_tests::logs::samples::{Verdict, PROGRAM_EXAMPLE, RUNS};
use yauponroof_tests::model::reader;
use yauponroof_tests::model::record::{
    call_add, call_remove, return_add, return_empty, return_value, Record,
};
use yauponroof_tests::model::writer::log;
use yauponroof_tests::refused;

/// Asserts that the excerpt of the run is made of the records with these indexes, and that its
/// pattern is this one.
fn assert_kept(text: &str, pattern: u8, indexes: &[usize]) {
    let records = run(text);
    let bytes = log(&records);
    let kept: Vec<Record> = indexes.iter().map(|&at| records[at]).collect();
    assert_eq!(excerpt_made(&bytes), Ok(log(&kept)), "{text}");
    for log in [bytes, log(&kept)] {
        let sheet = judged(&log).expect("a sheet");
        assert_eq!(sheet[1], pattern, "{text}");
        assert_eq!(Archives::new().compare(&log), pattern, "{text}");
    }
}

/// The same with all records kept but for those with these indexes.
fn assert_left_out(text: &str, pattern: u8, indexes: &[usize]) {
    let all = 0..text.split_whitespace().count();
    let kept: Vec<usize> = all.filter(|at| !indexes.contains(at)).collect();
    assert_kept(text, pattern, &kept);
}

#[test]
fn the_runs_of_the_document() {
    let (mut orders, mut patterns) = (0, 0);
    for (text, _, verdict) in RUNS {
        let log = log(&run(text));
        match verdict {
            Verdict::Order(_) => {
                let number = if text == "R(" { 32 } else { 23 };
                assert_eq!(excerpt_made(&log), Err(refused(number, 0)), "{text}");
                orders += 1;
            }
            // Every operation of these runs is on a value of a listed one, or is listed.
            Verdict::Pattern(number, _) => {
                assert_left_out(text, number, &[]);
                patterns += 1;
            }
        }
    }
    assert_eq!((orders, patterns), (9, 7));
}

#[test]
fn there_is_no_excerpt_of_the_example_of_the_program() {
    assert_eq!(excerpt_made(&hex(PROGRAM_EXAMPLE)), Err(refused(23, 0)));
}

#[test]
fn an_excerpt_in_its_bytes() {
    // Client 258 removes 9, which nobody added, while client 1 adds 7.
    let log = hex("01 00 04 \
        0B 01 00 01 00 00 00 05 00 00 00 07 \
        07 02 01 02 00 00 01 06 \
        0B 04 01 02 80 00 00 07 00 00 00 09 \
        07 03 00 01 FF FF FF FF");
    let excerpt = hex("01 00 02 \
        07 02 01 02 00 00 01 06 \
        0B 04 01 02 80 00 00 07 00 00 00 09");
    assert_eq!(excerpt_made(&log), Ok(excerpt));
}

#[test]
fn other_values_and_their_records_are_left_out() {
    assert_left_out("A5( A5) R( R9) Ra( Ra5)", 1, &[0, 1, 4, 5]);
    assert_left_out("A7( A5( A7) R( R7) R( R7) A5)", 2, &[1, 7]);
    assert_left_out("A5( R( R7) A7( A7)", 3, &[0]);
    assert_left_out("A1( A1) A5( A2( A2) A5) R( R2)", 4, &[2, 5]);
    let overtaken = "A5( A5) Rx( Rx5) A1( A1) A2( A2) R( R2) R( R1)";
    assert_left_out(overtaken, 5, &[0, 1, 2, 3]);
    assert_left_out("A5( A5) Rx( Rx5) A1( A1) R( R-)", 6, &[0, 1, 2, 3]);
}

#[test]
fn all_operations_on_a_listed_value_are_kept() {
    // Other removes of the value that no add names.
    assert_left_out("Ra( Ra9) Rb( Rb9) Rc( Rc8)", 1, &[4, 5]);
    // The add of the value that was removed twice, and a third remove of it.
    assert_left_out("A7( A7) R( R7) R( R7) R( R7)", 2, &[]);
    assert_left_out("A7( R( R7) R( R7)", 2, &[]);
    // The removes of a chain's values, also behind the empty remove.
    let chain = "A1( A1) Re( A2( A2) Rb( Rb1) Re-) A3( A3) R( R2) Rc( Rc3)";
    assert_left_out(chain, 6, &[8, 9, 12, 13]);
    let beyond = "A1( A1) Re( Re-) A2( A2) Ra( Ra1) Rb( Rb2)";
    assert_left_out(beyond, 6, &[4, 5, 8, 9]);
}

#[test]
fn open_adds_on_a_listed_value_are_kept() {
    assert_left_out("R( R7) A7( A8(", 3, &[3]);
    assert_left_out("A1( A1) A2( A3( R( R2)", 4, &[3]);
    assert_left_out("A1( A1) A2( R( R2) R( R1)", 5, &[]);
}

#[test]
fn the_listed_empty_remove_is_kept_and_no_other_one() {
    // The second is false as well.
    assert_left_out("A1( A1) Ra( Ra-) Rb( Rb-)", 6, &[4, 5]);
    // The first is true, and the third overlaps the second.
    let among = "Ra( Ra-) A1( A1) Rb( Rc( Rb-) Rc-) R( R1)";
    assert_left_out(among, 6, &[0, 1, 5, 7]);
    // None is kept with another pattern.
    assert_left_out("Ra( Ra-) Rb( Rb9)", 1, &[0, 1]);
    assert_left_out("A1( A1) A2( Re( Re-) A2) R( R2)", 4, &[3, 4]);
}

#[test]
fn values_that_cover_but_are_not_in_the_chain_are_left_out() {
    // Value 1 covers all gaps too and does not reach as far.
    let two = "A1( A2( A1) A2) Re( Re-) Ra( Ra1) Rb( Rb2)";
    assert_left_out(two, 6, &[0, 2, 6, 7]);
    // Neither was removed, and add 0 is the lowest.
    assert_left_out("A1( A2( A2) A1) Re( Re-)", 6, &[1, 2]);
}

#[test]
fn the_value_0_is_kept_as_any_other() {
    assert_left_out("A5( R( R0) R( R0)", 1, &[0]);
    assert_left_out("A0( A0) R( R-) R( R-)", 6, &[4, 5]);
    assert_left_out("R( R-) A0( A0) A1( A1) R( R1)", 4, &[0, 1]);
    assert_left_out("A1( A1) R( R-) A0(", 6, &[4]);
}

#[test]
fn clients_and_ticks_stay_as_they_were() {
    let records = [
        call_remove(9, 2),
        return_empty(9, 2),
        call_add(9, 3, 70_000),
        call_add(65_535, 500, 5),
        return_add(9, 500),
        call_add(9, 501, 80_000),
        return_add(65_535, 70_000),
        return_add(9, 70_001),
        call_remove(9, 1 << 30),
        return_value(9, u32::MAX, 80_000),
    ];
    let kept = [
        records[2], records[4], records[5], records[7], records[8], records[9],
    ];
    let bytes = log(&records);
    assert_eq!(Archives::new().compare(&bytes), 4);
    assert_eq!(excerpt_made(&bytes), Ok(log(&kept)));
    assert_eq!(reader::read(&log(&kept)), Ok(kept.to_vec()));
}

#[test]
fn an_excerpt_of_an_excerpt_is_the_same_log() {
    for text in [
        "Ra( Ra9) Rb( Rb9) Rc( Rc8)",
        "A5( R( R7) A7( A7)",
        "A1( A1) A5( A2( A2) A5) R( R2)",
        "A5( A5) Rx( Rx5) A1( A1) A2( A2) R( R2) R( R1)",
        "Ra( Ra-) A1( A1) Rb( Rc( Rb-) Rc-) R( R1)",
    ] {
        let excerpt = excerpt_made(&log(&run(text))).expect("an excerpt");
        assert!(excerpt.len() < log(&run(text)).len(), "{text}");
        assert_eq!(excerpt_made(&excerpt), Ok(excerpt.clone()), "{text}");
    }
}
