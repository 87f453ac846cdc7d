//! The pages of all logs of few records, held against the model's line by line. The logs are those
//! of `enumerate`; their ticks rise by one but for the last tests.

use yauponroof_tests::compare::page::Pages;
use yauponroof_tests::library::outcomes::page_made;
use yauponroof_tests::logs::enumerate::{
    every_log, every_log_of_new_clients, every_log_of_new_clients_with_pending_remove,
    every_log_of_paired_operations, every_log_with_pending_remove,
};
use yauponroof_tests::logs::ticks::every_joining;
use yauponroof_tests::model::record::Record;
use yauponroof_tests::model::writer::log;
use yauponroof_tests::Answer;

fn compare(records: &[Record], pages: &mut Pages) {
    pages.compare(&log(records));
}

#[test]
fn every_log_of_up_to_six_records() {
    let mut pages = Pages::new();
    every_log(6, &mut |records| compare(records, &mut pages));
    assert_eq!(pages.seen(0), 6684);
}

#[test]
fn every_log_of_up_to_seven_records_with_a_client_for_each_operation() {
    let mut pages = Pages::new();
    every_log_of_new_clients(7, &mut |records| compare(records, &mut pages));
    assert_eq!(pages.seen(0), 17_852);
}

#[test]
fn every_log_of_up_to_four_paired_operations() {
    let mut pages = Pages::new();
    every_log_of_paired_operations(8, &mut |records| compare(records, &mut pages));
    assert_eq!(pages.seen(0), 7045);
}

#[test]
fn every_log_of_up_to_six_records_with_an_open_remove() {
    let mut pages = Pages::new();
    every_log_with_pending_remove(6, &mut |records| compare(records, &mut pages));
    assert_eq!(pages.seen(0), 6793);
}

#[test]
fn every_log_of_up_to_seven_records_with_a_client_for_each_operation_and_an_open_remove() {
    let mut pages = Pages::new();
    every_log_of_new_clients_with_pending_remove(7, &mut |records| compare(records, &mut pages));
    assert_eq!(pages.seen(0), 18_130);
}

/// Compares the page of these records with their ticks joined in every way. The columns are the
/// records as they stand, so that ticks change nothing.
fn compare_joined(records: &[Record], pages: &mut Pages) {
    let apart = page_made(&log(records));
    every_joining(records, &mut |joined| {
        if let Answer::Accepted(_) = pages.compare(&log(joined)) {
            assert_eq!(page_made(&log(joined)), apart, "{joined:?}");
        }
    });
}

#[test]
fn ticks_joined_in_every_way() {
    let mut pages = Pages::new();
    every_log(5, &mut |records| compare_joined(records, &mut pages));
    assert_eq!((pages.seen(0), pages.seen(31)), (9642, 2588));
}

#[test]
fn ticks_joined_in_every_way_with_an_open_remove() {
    let mut pages = Pages::new();
    every_log_with_pending_remove(5, &mut |records| compare_joined(records, &mut pages));
    assert_eq!((pages.seen(0), pages.seen(31)), (9201, 2368));
}

#[test]
fn by_how_much_ticks_rise_does_not_matter() {
    let mut pages = Pages::new();
    let steps: [fn(u32) -> u32; 2] = [|at| u32::MAX - 9 + at, |at| at << 28];
    every_log(5, &mut |records| {
        for step in steps {
            let with_tick = |record: &Record| Record {
                tick: step(record.tick),
                ..*record
            };
            let changed: Vec<Record> = records.iter().map(with_tick).collect();
            compare(&changed, &mut pages);
        }
    });
    assert_eq!(pages.seen(0), 2 * 832);
}
