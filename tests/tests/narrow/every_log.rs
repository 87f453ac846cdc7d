//! Narrowing of all logs of few records to every subset of their values, with repeats and with
//! values that the log lacks, held against the model's narrowing record by record.

use yauponroof_tests::compare::archive::Archives;
use yauponroof_tests::compare::narrowing::compare_narrowing;
use yauponroof_tests::logs::enumerate::{
    every_log, every_log_of_new_clients, every_log_with_joined_ticks, every_log_with_pending_remove,
};
use yauponroof_tests::model::projection::values;
use yauponroof_tests::model::reader;
use yauponroof_tests::model::record::Record;
use yauponroof_tests::model::sheet::ORDER;
use yauponroof_tests::model::writer::log;

/// Every subset of the items.
fn subsets(items: &[u32]) -> Vec<Vec<u32>> {
    let mut subsets = vec![Vec::new()];
    for &item in items {
        let with_item = |subset: &Vec<u32>| [&subset[..], &[item]].concat();
        subsets.extend(subsets.iter().map(with_item).collect::<Vec<_>>());
    }
    subsets
}

/// The list backwards, every value twice, among values that no log of the enumeration has.
fn with_repeats_and_unknown(values: &[u32]) -> Vec<u32> {
    let backwards = values.iter().rev();
    let among = backwards.flat_map(|&value| [value, 1000 + value, value]);
    [u32::MAX]
        .into_iter()
        .chain(among)
        .chain([77, 77])
        .collect()
}

/// How many narrowings were compared, and how many of them kept some records and left others out.
#[derive(Default)]
struct Narrowings {
    compared: u64,
    in_between: u64,
}

impl Narrowings {
    fn compare(&mut self, records: &[Record]) {
        let bytes = log(records);
        for subset in subsets(&values(records)) {
            let narrowed = compare_narrowing(&bytes, &subset);
            let other_list = with_repeats_and_unknown(&subset);
            assert_eq!(compare_narrowing(&bytes, &other_list), narrowed);
            self.compared += 2;
            let kept = reader::read(&narrowed).expect("a readable log").len();
            if 0 < kept && kept < records.len() {
                self.in_between += 1;
            }
        }
    }

    fn assert_compared(&self, compared: u64, in_between: u64) {
        assert_eq!((self.compared, self.in_between), (compared, in_between));
    }
}

#[test]
fn every_log_of_up_to_six_records() {
    let mut narrowings = Narrowings::default();
    every_log(6, &mut |records| narrowings.compare(records));
    narrowings.assert_compared(92_682, 35_373);
}

#[test]
fn every_log_of_up_to_five_records_with_ticks_joined_in_every_way() {
    let mut narrowings = Narrowings::default();
    every_log_with_joined_ticks(5, &mut |records| {
        if reader::read(&log(records)).is_ok() {
            narrowings.compare(records);
        }
    });
    narrowings.assert_compared(105_026, 36_412);
}

#[test]
fn every_log_of_up_to_seven_records_with_a_client_for_each_operation() {
    let mut narrowings = Narrowings::default();
    every_log_of_new_clients(7, &mut |records| narrowings.compare(records));
    narrowings.assert_compared(306_204, 124_385);
}

#[test]
fn every_log_of_up_to_six_records_with_an_open_remove() {
    let mut narrowings = Narrowings::default();
    every_log_with_pending_remove(6, &mut |records| narrowings.compare(records));
    narrowings.assert_compared(70_060, 28_237);
}

/// How many narrowings there are of the log, if its verdict is an order. All of them must have one.
fn narrowed_orders(records: &[Record]) -> u64 {
    let bytes = log(records);
    if Archives::new().compare(&bytes) != ORDER {
        return 0;
    }
    let subsets = subsets(&values(records));
    for subset in &subsets {
        let narrowed = compare_narrowing(&bytes, subset);
        let verdict = Archives::new().compare(&narrowed);
        assert_eq!(verdict, ORDER, "{records:?} narrowed to {subset:?}");
    }
    subsets.len() as u64
}

#[test]
fn a_narrowed_order_stays_an_order() {
    let mut narrowed = 0;
    every_log(6, &mut |records| narrowed += narrowed_orders(records));
    assert_eq!(narrowed, 14_789);
}

#[test]
fn a_narrowed_order_stays_an_order_with_ticks_joined_in_every_way() {
    let mut narrowed = 0;
    every_log_with_joined_ticks(5, &mut |records| {
        if reader::read(&log(records)).is_ok() {
            narrowed += narrowed_orders(records);
        }
    });
    assert_eq!(narrowed, 23_929);
}
