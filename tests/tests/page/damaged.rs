//! The page on damaged logs, with buffers of no bytes and of enough. What the model's reader refuses
//! has to be refused in the same way, and what stays readable has its page.

use yauponroof_tests::compare::page::Pages;
use yauponroof_tests::logs::damage::telling_values;
use yauponroof_tests::logs::insertion::with_pending_remove;
use yauponroof_tests::logs::notation::run;
use yauponroof_tests::logs::samples::{calls_then_returns, pending_adds, RUNS};
use yauponroof_tests::logs::simulation::{simulate, Clients};
use yauponroof_tests::logs::ticks::in_batches;
use yauponroof_tests::model::page::PAGE_MAX;
use yauponroof_tests::model::record::Record;
use yauponroof_tests::model::writer::{log, log_with_n};
use yauponroof_tests::random::Random;

/// Document 01's runs, and some of around 63 records; two of them have an open remove.
fn logs() -> Vec<Vec<Record>> {
    let mut logs: Vec<Vec<Record>> = RUNS.iter().map(|(text, ..)| run(text)).collect();
    for n in [62, 64] {
        let run = simulate(4, Clients::Reused, n, 213);
        logs.push(in_batches(&run, 3, &mut Random::new(232)));
        logs.push(calls_then_returns(n));
        let run = simulate(4, Clients::OnePerOperation, n - 2, 213);
        logs.push(with_pending_remove(&run, n / 2));
    }
    for n in [62, 63, 64] {
        logs.push(pending_adds(n));
    }
    logs
}

fn compare(log: &[u8], pages: &mut Pages) {
    for room in [0, PAGE_MAX] {
        pages.compare_room(log, room);
    }
}

#[test]
fn every_byte_changed() {
    let mut pages = Pages::new();
    for records in logs() {
        let mut bytes = log(&records);
        for at in 0..bytes.len() {
            let sound = bytes[at];
            for changed in telling_values(sound) {
                bytes[at] = changed;
                compare(&bytes, &mut pages);
            }
            bytes[at] = sound;
        }
    }
    // No single byte makes a remove lack its return.
    let input_list = (1..=9).map(|number| (number, 250));
    pages.assert_at_least(&input_list.collect::<Vec<_>>());
    pages.assert_at_least(&[(0, 10_000), (24, 10_000), (30, 10_000), (31, 80)]);
}

#[test]
fn logs_cut_at_every_byte_and_bytes_left() {
    let mut pages = Pages::new();
    for records in logs() {
        let bytes = log(&records);
        for length in 0..bytes.len() {
            compare(&bytes[..length], &mut pages);
        }
        for left in [0, 1, 7, 11, 255] {
            compare(&[&bytes[..], &[left]].concat(), &mut pages);
        }
    }
    pages.assert_at_least(&[(1, 5000)]);
    assert_eq!(pages.seen(0) + pages.seen(24) + pages.seen(30), 0);
}

#[test]
fn every_n_around_the_number_of_records() {
    let mut pages = Pages::new();
    let mut compared = 0;
    for records in logs() {
        for n in (0..=130).chain([255, 256, 319, 1024, 1025, 65_535]) {
            compare(&log_with_n(n, &records), &mut pages);
            compared += 2;
        }
    }
    assert_eq!(compared, 2 * 25 * 137);
    // Each log is readable with its own n alone. Of the 25, 22 have a page, one of them without
    // lines, and 3 have 64 records.
    assert_eq!(
        (pages.seen(0), pages.seen(24), pages.seen(30)),
        (22 + 1, 21, 3 + 3)
    );
    pages.assert_at_least(&[(1, 5000), (3, 80)]);
}

#[test]
fn records_lost_doubled_or_exchanged() {
    let mut pages = Pages::new();
    for records in logs() {
        for at in 0..records.len() {
            let mut changed = records.clone();
            let record = changed.remove(at);
            compare(&log(&changed), &mut pages);
            changed.insert(at, record);
            changed.insert(at, record);
            compare(&log(&changed), &mut pages);
            let mut exchanged = records.clone();
            exchanged.swap(at, (at + 1) % records.len());
            compare(&log(&exchanged), &mut pages);
        }
    }
    pages.assert_at_least(&[(6, 500), (7, 700), (8, 600), (10, 70)]);
    pages.assert_at_least(&[(0, 300), (24, 300), (30, 150)]);
}
