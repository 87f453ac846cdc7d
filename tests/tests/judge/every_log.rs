//! The judge and the excerpt on all logs of few records, held against the table of patterns and the
//! test of orders. That an order is told exactly where one exists is held against a search that
//! knows nothing of patterns, nor of what the judge tries for an open remove. The logs are those of
//! `enumerate`, and their ticks rise by one; `equal_ticks` has those with equal ones.

use yauponroof_tests::compare::archive::Archives;
use yauponroof_tests::logs::enumerate::{
    every_log, every_log_of_new_clients, every_log_of_new_clients_with_pending_remove,
    every_log_of_paired_operations, every_log_of_paired_operations_with_pending_remove,
    every_log_with_pending_remove,
};
use yauponroof_tests::logs::ticks::every_joining;
use yauponroof_tests::model::reader;
use yauponroof_tests::model::writer::log;

#[test]
fn every_log_of_up_to_seven_records() {
    let mut archives = Archives::new();
    every_log(7, &mut |records| archives.compare_with_search(records));
    let seen = [14_670, 29_359, 5509, 11_340, 1446, 24, 1400];
    assert_eq!(archives.seen(), seen);
}

#[test]
fn every_log_of_up_to_eight_records_with_a_client_for_each_operation() {
    let mut archives = Archives::new();
    every_log_of_new_clients(8, &mut |records| archives.compare_with_search(records));
    let seen = [31_717, 69_132, 14_955, 15_137, 2825, 53, 2201];
    assert_eq!(archives.seen(), seen);
}

#[test]
fn every_log_of_up_to_five_paired_operations() {
    let mut archives = Archives::new();
    every_log_of_paired_operations(10, &mut |records| archives.compare_with_search(records));
    let seen = [179_157, 0, 0, 0, 27_534, 1397, 33_947];
    assert_eq!(archives.seen(), seen);
}

// With one open remove. How many of the orders list it is counted as well.

#[test]
fn every_log_of_up_to_seven_records_with_an_open_remove() {
    let mut archives = Archives::new();
    every_log_with_pending_remove(7, &mut |records| archives.compare_with_search(records));
    let seen = [22_338, 29_361, 4055, 10_900, 363, 0, 769];
    assert_eq!(archives.seen(), seen);
    assert_eq!(archives.took(), 1716);
}

#[test]
fn every_log_of_up_to_eight_records_with_a_client_for_each_operation_and_an_open_remove() {
    let mut archives = Archives::new();
    every_log_of_new_clients_with_pending_remove(8, &mut |records| {
        archives.compare_with_search(records);
    });
    let seen = [45_256, 65_133, 11_955, 15_884, 621, 32, 721];
    assert_eq!(archives.seen(), seen);
    assert_eq!(archives.took(), 3588);
}

#[test]
fn every_log_of_up_to_four_paired_operations_and_an_open_remove() {
    let mut archives = Archives::new();
    every_log_of_paired_operations_with_pending_remove(9, &mut |records| {
        archives.compare_with_search(records);
    });
    let seen = [58_173, 0, 0, 0, 1302, 153, 3149];
    assert_eq!(archives.seen(), seen);
    assert_eq!(archives.took(), 7474);
}

#[test]
fn every_log_of_up_to_six_records_with_an_open_remove_and_ticks_joined_in_every_way() {
    let mut archives = Archives::new();
    every_log_with_pending_remove(6, &mut |records| {
        every_joining(records, &mut |joined| {
            if reader::read(&log(joined)).is_ok() {
                archives.compare_with_search(joined);
            }
        });
    });
    let seen = [69_891, 57_708, 6360, 17_116, 290, 0, 420];
    assert_eq!(archives.seen(), seen);
    assert_eq!(archives.took(), 3428);
}
