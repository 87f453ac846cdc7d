//! Lists of operation numbers on all logs of few records, held against both ways in which the model
//! finds the legal orders. The logs are all readable ones up to the naming of clients and values:
//! these are numbered from 0 in the order in which they first appear, and the ticks rise by one.
//! Two tests take the same logs with ticks joined in every way and with other client numbers, and the
//! last ones those with an open remove. Where a log has m operations, the lists are those of at most
//! m + 1 numbers from 0 to m, or the arrangements: those of numbers from 0 to m - 1 without repeats.

use yauponroof_tests::compare::every_order::{compare_every_arrangement, compare_every_list};
use yauponroof_tests::compare::replay::Replays;
use yauponroof_tests::logs::clients::{clients_apart, DISTANCES};
use yauponroof_tests::logs::enumerate::{
    every_log, every_log_with_joined_ticks, every_log_with_pending_remove,
};
use yauponroof_tests::logs::ticks::every_joining;
use yauponroof_tests::model::reader;
use yauponroof_tests::model::writer::log;

#[test]
fn every_list_on_every_log_of_up_to_five_records() {
    let mut replays = Replays::new();
    every_log(5, &mut |records| {
        compare_every_list(records, &mut replays);
    });
    replays.assert_answered(2200, 740_000);
}

#[test]
fn every_arrangement_on_every_log_of_six_records() {
    let mut replays = Replays::new();
    every_log(6, &mut |records| {
        if records.len() == 6 {
            compare_every_arrangement(records, &mut replays);
        }
    });
    replays.assert_answered(19_000, 330_000);
}

#[test]
fn every_arrangement_on_every_log_of_up_to_five_records_with_ticks_joined_in_every_way() {
    let mut replays = Replays::new();
    let mut logs = 0;
    every_log_with_joined_ticks(5, &mut |records| {
        if reader::read(&log(records)).is_ok() {
            compare_every_arrangement(records, &mut replays);
            logs += 1;
        }
    });
    assert_eq!(logs, 9642);
    replays.assert_answered(4400, 32_000);
}

#[test]
fn clients_that_share_a_remainder_change_nothing() {
    let mut replays = Replays::new();
    every_log(5, &mut |records| {
        for distance in DISTANCES {
            compare_every_arrangement(&clients_apart(records, distance), &mut replays);
        }
    });
    replays.assert_answered(6600, 48_000);
}

#[test]
fn every_list_on_every_log_of_up_to_five_records_with_an_open_remove() {
    let mut replays = Replays::new();
    every_log_with_pending_remove(5, &mut |records| {
        compare_every_list(records, &mut replays);
    });
    replays.assert_answered(6200, 1_600_000);
}

#[test]
fn every_arrangement_on_every_log_of_six_records_with_an_open_remove() {
    let mut replays = Replays::new();
    every_log_with_pending_remove(6, &mut |records| {
        if records.len() == 6 {
            compare_every_arrangement(records, &mut replays);
        }
    });
    replays.assert_answered(64_000, 550_000);
}

#[test]
fn every_arrangement_on_logs_with_an_open_remove_and_ticks_joined_in_every_way() {
    let mut replays = Replays::new();
    every_log_with_pending_remove(5, &mut |records| {
        every_joining(records, &mut |joined| {
            if reader::read(&log(joined)).is_ok() {
                compare_every_arrangement(joined, &mut replays);
            }
        });
    });
    replays.assert_answered(90_000, 270_000);
}
