//! The judge tells values apart by all of their 32 bits, and it does not matter to it which values
//! they are.

use yauponroof_tests::compare::archive::Archives;
use yauponroof_tests::library::outcomes::judged;
use yauponroof_tests::logs::enumerate::every_log;
use yauponroof_tests::logs::ticks::rising;
use yauponroof_tests::model::record::{call_add, call_remove, return_add, return_value, Record};
use yauponroof_tests::model::sheet::sheet;
use yauponroof_tests::model::writer::log;

/// The records with other values, no two alike that were not.
fn with_values(records: &[Record], renamed: fn(u32) -> u32) -> Vec<Record> {
    let with_other = |record: &Record| Record {
        event: record.event.with_value(renamed),
        ..*record
    };
    records.iter().map(with_other).collect()
}

#[test]
fn other_values_change_nothing() {
    // Few values, from 0 on, become others that are alike in their low or in their high bits.
    let ways: [fn(u32) -> u32; 6] = [
        |value| !value,
        |value| value << 8,
        |value| value << 16,
        |value| value << 24 | 7,
        |value| value << 29,
        |value| 0x8000_0000 | value,
    ];
    let mut archives = Archives::new();
    every_log(6, &mut |records| {
        for renamed in ways {
            archives.compare_records(&with_values(records, renamed));
        }
    });
    let seen = [2093, 2787, 396, 1131, 119, 0, 158].map(|seen| 6 * seen);
    assert_eq!(archives.seen(), seen);
}

#[test]
fn a_remove_takes_the_value_that_is_alike_in_every_bit() {
    for bit in 0..32 {
        for value in [0, 0x5A5A_5A5A, u32::MAX] {
            let removed = |other| {
                let records = [
                    call_add(1, 1, value),
                    return_add(1, 1),
                    call_remove(1, 1),
                    return_value(1, 1, other),
                ];
                judged(&log(&rising(&records)))
            };
            let unknown = vec![1, 1, 0, 1, 0, 1];
            assert_eq!(removed(value), Ok(sheet(&[0, 1])), "{value}");
            assert_eq!(removed(value ^ 1 << bit), Ok(unknown), "{value}, bit {bit}");
        }
    }
}

#[test]
fn two_values_that_differ_in_one_bit_are_two() {
    let mut archives = Archives::new();
    for bit in 0..32 {
        for value in [0, 0x5A5A_5A5A, u32::MAX] {
            let other = value ^ 1 << bit;
            for taken in [[value, other], [other, value], [other, other]] {
                let adds = [value, other].map(|v| [call_add(1, 1, v), return_add(1, 1)]);
                let removes = taken.map(|v| [call_remove(1, 1), return_value(1, 1, v)]);
                archives.compare_records(&rising(&[adds, removes].concat().concat()));
            }
        }
    }
    assert_eq!(archives.seen(), [96, 0, 96, 0, 0, 96, 0]);
}
