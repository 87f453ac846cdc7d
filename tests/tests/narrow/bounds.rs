//! Narrowing of the longest logs, and by the longest lists.

use yauponroof_tests::compare::narrowing::compare_narrowing;
use yauponroof_tests::library::outcomes::narrowing_made;
use yauponroof_tests::logs::samples::{calls_then_returns, pending_adds};
use yauponroof_tests::logs::simulation::{simulate, Clients};
use yauponroof_tests::logs::ticks::rising;
use yauponroof_tests::model::projection::values;
use yauponroof_tests::model::reader::{LOG_MAX, MAX_RECORDS};
use yauponroof_tests::model::record::{call_add, return_add, Record};
use yauponroof_tests::model::writer::{header, log};

#[test]
fn the_longest_log_to_all_of_its_values() {
    let records = pending_adds(MAX_RECORDS);
    let bytes = log(&records);
    assert_eq!(bytes.len(), LOG_MAX);
    let all = values(&records);
    assert_eq!(all.len(), MAX_RECORDS);
    assert_eq!(compare_narrowing(&bytes, &all), bytes);
    let backwards: Vec<u32> = all.iter().rev().copied().collect();
    assert_eq!(compare_narrowing(&bytes, &backwards), bytes);
}

#[test]
fn each_single_value_of_the_longest_log() {
    let records = pending_adds(MAX_RECORDS);
    let bytes = log(&records);
    for record in &records {
        let value = values(&[*record])[0];
        assert_eq!(narrowing_made(&bytes, &[value]), Ok(log(&[*record])));
    }
}

#[test]
fn all_values_but_one() {
    let records = calls_then_returns(MAX_RECORDS);
    let bytes = log(&records);
    let all = values(&records);
    assert_eq!(all.len(), MAX_RECORDS / 4);
    for left_out in 0..all.len() {
        let mut list = all.clone();
        list.remove(left_out);
        let narrowed = compare_narrowing(&bytes, &list);
        // An add and a remove have four records, of two times 12 and two times 8 bytes.
        assert_eq!(narrowed.len(), bytes.len() - 40);
    }
}

#[test]
fn numbers_of_records_around_256() {
    let records = pending_adds(MAX_RECORDS);
    let bytes = log(&records);
    let all = values(&records);
    for count in [0, 1, 254, 255, 256, 257, 511, 512, 513, 768, 1023, 1024] {
        let narrowed = compare_narrowing(&bytes, &all[..count]);
        assert_eq!(narrowed[..3], header(count as u16));
        assert_eq!(narrowed.len(), 3 + 12 * count);
    }
}

#[test]
fn the_longest_lists() {
    let records = simulate(8, Clients::Reused, MAX_RECORDS, 7);
    let bytes = log(&records);
    let all = values(&records);
    // Values that the log lacks fill the list up to the last one, which the log has.
    let lacking = |count: u32| {
        (0..)
            .filter(|value| !all.contains(value))
            .take(count as usize)
    };
    for count in [255, 1023, 1024, 1025, 2047, 65_535, 65_536, 100_000] {
        let list: Vec<u32> = lacking(count).chain([all[3]]).collect();
        let narrowed = compare_narrowing(&bytes, &list);
        assert_eq!(Ok(narrowed), narrowing_made(&bytes, &[all[3]]), "{count}");
    }
    // All values again and again.
    let repeated = all.repeat(300);
    assert!(repeated.len() > 65_536);
    let narrowed = compare_narrowing(&bytes, &repeated);
    assert_eq!(Ok(narrowed), narrowing_made(&bytes, &all));
}

#[test]
fn one_value_that_is_first_or_last_in_the_log() {
    let add = |client: u16, value| [call_add(client, 1, value), return_add(client, 1)];
    let adds: Vec<Record> = (0..512).flat_map(|i| add(i, u32::from(i))).collect();
    let records = rising(&adds);
    let bytes = log(&records);
    assert_eq!(compare_narrowing(&bytes, &[0]), log(&records[..2]));
    assert_eq!(compare_narrowing(&bytes, &[511]), log(&records[1022..]));
}
