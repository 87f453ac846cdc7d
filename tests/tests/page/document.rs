//! Pages by hand: lines as change 1 of document 02 lays them out, written character by character.

use yauponroof_tests::compare::page::Pages;
use yauponroof_tests::hex::hex;
use yauponroof_tests::library::outcomes::{excerpt_made, page_made};
use yauponroof_tests::logs::notation::{run, run_in_batches};
use yauponroof_tests::logs::samples::PROGRAM_EXAMPLE;
use yauponroof_tests::model::record::{
    call_add, call_remove, return_add, return_empty, return_value,
};
use yauponroof_tests::model::writer::log;

/// Asserts that the page of the log is made of these lines, by the library and by the model.
fn assert_lines(log: &[u8], lines: &[&str]) {
    assert!(lines.iter().all(|line| line.len() == 80), "80 characters");
    Pages::new().compare(log);
    let page: String = lines.iter().map(|line| format!("{line}\n")).collect();
    assert_eq!(page_made(log), Ok(page.into_bytes()));
}

/// The same for a run.
fn assert_page(text: &str, lines: &[&str]) {
    println!("{text}");
    assert_lines(&log(&run(text)), lines);
}

/// The page of the second run.
const SECOND_RUN: [&str; 2] = [
    "   0 A7          ##..                                                           ",
    "   1 R7          ..##                                                           ",
];

#[test]
fn the_second_run() {
    assert_page("A7( A7) R( R7)", &SECOND_RUN);
}

#[test]
fn the_example_of_the_program() {
    assert_lines(&hex(PROGRAM_EXAMPLE), &SECOND_RUN);
}

#[test]
fn no_records() {
    assert_page("", &[]);
}

#[test]
fn the_false_empty_run() {
    assert_page(
        "A1( A1) Ra( A2( A2) Rb( Rb1) Ra-) R( R2)",
        &[
            "   0 A1          ##........                                                     ",
            "   1 E           ..######..                                                     ",
            "   2 A2          ...##.....                                                     ",
            "   3 R1          .....##...                                                     ",
            "   4 R2          ........##                                                     ",
        ],
    );
}

#[test]
fn an_open_add_is_marked_to_the_last_record() {
    assert_page(
        "A7( R( R-)",
        &[
            "   0 A7          ###                                                            ",
            "   1 E           .##                                                            ",
        ],
    );
}

#[test]
fn an_open_add_that_is_the_last_record() {
    assert_page(
        "A1( A1) A2(",
        &[
            "   0 A1          ##.                                                            ",
            "   1 A2          ..#                                                            ",
        ],
    );
}

/// "The page shows a lone R."
#[test]
fn an_open_remove_is_a_lone_r_and_marked_to_the_last_record() {
    assert_page(
        "R(",
        &["   0 R           #                                                              "],
    );
    assert_page(
        "A1( A1) A2( A2) Ro( R( R2)",
        &[
            "   0 A1          ##.....                                                        ",
            "   1 A2          ..##...                                                        ",
            "   2 R           ....###                                                        ",
            "   3 R2          .....##                                                        ",
        ],
    );
    assert_page(
        "Ro( A0( R( A0) R-)",
        &[
            "   0 R           #####                                                          ",
            "   1 A0          .###.                                                          ",
            "   2 E           ..###                                                          ",
        ],
    );
}

#[test]
fn an_open_remove_that_is_the_last_record() {
    assert_page(
        "A7( A7) R( R7) Ra(",
        &[
            "   0 A7          ##...                                                          ",
            "   1 R7          ..##.                                                          ",
            "   2 R           ....#                                                          ",
        ],
    );
}

#[test]
fn an_open_add_in_the_middle() {
    assert_page(
        "R( R8) A5( A70( A70) R( R70)",
        &[
            "   0 R8          ##.....                                                        ",
            "   1 A5          ..#####                                                        ",
            "   2 A70         ...##..                                                        ",
            "   3 R70         .....##                                                        ",
        ],
    );
}

#[test]
fn the_value_0_is_not_empty() {
    assert_page(
        "A0( A0) R( R0)",
        &[
            "   0 A0          ##..                                                           ",
            "   1 R0          ..##                                                           ",
        ],
    );
    assert_page(
        "A0( A0) R( R-)",
        &[
            "   0 A0          ##..                                                           ",
            "   1 E           ..##                                                           ",
        ],
    );
}

#[test]
fn the_greatest_value_fills_its_characters() {
    assert_page(
        "A4294967295( A4294967295) R( R4294967295) Re( Re-)",
        &[
            "   0 A4294967295 ##....                                                         ",
            "   1 R4294967295 ..##..                                                         ",
            "   2 E           ....##                                                         ",
        ],
    );
}

#[test]
fn operations_that_overlap_share_columns() {
    assert_page(
        "R( A7( R7) A7)",
        &[
            "   0 R7          ###.                                                           ",
            "   1 A7          .###                                                           ",
        ],
    );
}

#[test]
fn a_value_that_no_add_names() {
    assert_page(
        "R( R9)",
        &["   0 R9          ##                                                             "],
    );
}

#[test]
fn operation_numbers_of_one_and_two_digits() {
    assert_page(
        &"R( R-) ".repeat(11),
        &[
            "   0 E           ##....................                                         ",
            "   1 E           ..##..................                                         ",
            "   2 E           ....##................                                         ",
            "   3 E           ......##..............                                         ",
            "   4 E           ........##............                                         ",
            "   5 E           ..........##..........                                         ",
            "   6 E           ............##........                                         ",
            "   7 E           ..............##......                                         ",
            "   8 E           ................##....                                         ",
            "   9 E           ..................##..                                         ",
            "  10 E           ....................##                                         ",
        ],
    );
}

#[test]
fn a_line_in_its_bytes() {
    // Client 258 adds 0x01020304, which is 16909060, at ticks that are far apart.
    let log = hex("01 00 02 \
        0B 01 01 02 00 00 01 06 01 02 03 04 \
        07 03 01 02 80 00 00 00");
    let line = hex(&format!(
        "20202030 20 4131363930393036302020 20 2323 {} 0A",
        "20".repeat(61)
    ));
    assert_eq!(line.len(), 81);
    assert_eq!(page_made(&log), Ok(line));
}

#[test]
fn columns_are_records_and_not_ticks() {
    // Three clients, one of which makes two operations; ticks that stay equal or rise by much. The
    // remove is called behind the return of the add, though within its tick.
    let records = [
        call_add(1, 5, 0),
        return_add(1, 5),
        call_remove(2, 5),
        call_add(3, 256, 31),
        return_value(2, 257, 0),
        call_remove(1, u32::MAX),
        return_empty(1, u32::MAX),
    ];
    assert_lines(
        &log(&records),
        &[
            "   0 A0          ##.....                                                        ",
            "   1 R0          ..###..                                                        ",
            "   2 A31         ...####                                                        ",
            "   3 E           .....##                                                        ",
        ],
    );
}

#[test]
fn columns_are_records_as_they_stand_within_a_tick() {
    // By the ticks the remove is called before the add returns.
    let records = run_in_batches("A1( A1) R( R-) | A2( A3( | A2) Ra( A3) Ra1)");
    assert_lines(
        &log(&records),
        &[
            "   0 A1          ##........                                                     ",
            "   1 E           ..##......                                                     ",
            "   2 A2          ....###...                                                     ",
            "   3 A3          .....####.                                                     ",
            "   4 R1          .......###                                                     ",
        ],
    );
}

#[test]
fn the_page_of_an_excerpt_has_the_numbers_of_the_excerpt() {
    // The first two operations are left out of the excerpt.
    let whole = log(&run("A5( A5) Rx( Rx5) A1( A1) R( R-)"));
    let excerpt = excerpt_made(&whole).expect("an excerpt");
    assert_lines(
        &excerpt,
        &[
            "   0 A1          ##..                                                           ",
            "   1 E           ..##                                                           ",
        ],
    );
}
