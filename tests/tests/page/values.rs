//! Values in decimal: of every number of digits, around powers of ten and of two, of adds and of
//! removes.

use yauponroof_tests::compare::page::Pages;
use yauponroof_tests::library::outcomes::page_made;
use yauponroof_tests::model::record::{call_add, call_remove, return_value};
use yauponroof_tests::model::writer::log;

/// What characters 6 to 16 of the two lines hold for an open add of the value and a remove of it.
fn labels(value: u32) -> [String; 2] {
    let records = [
        call_add(1, 1, value),
        call_remove(2, 1),
        return_value(2, 1, value),
    ];
    let log = log(&records);
    Pages::new().compare(&log);
    let page = page_made(&log).expect("a page");
    [0, 81].map(|line| String::from_utf8(page[line + 5..line + 16].to_vec()).expect("ASCII"))
}

#[test]
fn values_written_out() {
    for (value, add, remove) in [
        (0, "A0         ", "R0         "),
        (1, "A1         ", "R1         "),
        (9, "A9         ", "R9         "),
        (10, "A10        ", "R10        "),
        (99, "A99        ", "R99        "),
        (100, "A100       ", "R100       "),
        (255, "A255       ", "R255       "),
        (256, "A256       ", "R256       "),
        (1000, "A1000      ", "R1000      "),
        (65_535, "A65535     ", "R65535     "),
        (65_536, "A65536     ", "R65536     "),
        (100_000, "A100000    ", "R100000    "),
        (1_000_000, "A1000000   ", "R1000000   "),
        (16_777_216, "A16777216  ", "R16777216  "),
        (99_999_999, "A99999999  ", "R99999999  "),
        (100_000_000, "A100000000 ", "R100000000 "),
        (999_999_999, "A999999999 ", "R999999999 "),
        (1_000_000_000, "A1000000000", "R1000000000"),
        (2_147_483_648, "A2147483648", "R2147483648"),
        (4_000_000_000, "A4000000000", "R4000000000"),
        (4_294_967_295, "A4294967295", "R4294967295"),
    ] {
        assert_eq!(labels(value), [add, remove], "{value}");
    }
}

/// The digits of a value, made one by one from the last, left-aligned after a letter.
fn label(letter: char, value: u32) -> String {
    let mut digits = Vec::new();
    let mut left = value;
    while left > 0 || digits.is_empty() {
        digits.push(char::from(b'0' + (left % 10) as u8));
        left /= 10;
    }
    let mut label: String = [letter]
        .into_iter()
        .chain(digits.into_iter().rev())
        .collect();
    while label.len() < 11 {
        label.push(' ');
    }
    label
}

#[test]
fn values_around_powers_of_ten_and_of_two() {
    let tens = (0..10).map(|power| 10u32.pow(power));
    let twos = (0..32).map(|power| 1u32 << power);
    let mut compared = 0;
    for power in tens.chain(twos) {
        for value in [power - 1, power, power.wrapping_add(1), !power] {
            assert_eq!(labels(value), ['A', 'R'].map(|letter| label(letter, value)));
            compared += 1;
        }
    }
    assert_eq!(compared, 4 * 42);
}

#[test]
fn every_digit_in_every_place() {
    let mut compared = 0;
    for place in 0..10 {
        for digit in 0..=9u64 {
            // Ones in all other places.
            let value = 1_111_111_111 - 10u64.pow(place) + digit * 10u64.pow(place);
            if let Ok(value) = u32::try_from(value) {
                assert_eq!(labels(value), ['A', 'R'].map(|letter| label(letter, value)));
                compared += 1;
            }
        }
    }
    // Five digits and more in the first place are too many.
    assert_eq!(compared, 9 * 10 + 5);
}
