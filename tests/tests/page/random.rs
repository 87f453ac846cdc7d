//! The pages of logs by chance and of simulated runs, changed ones too, with buffers of any length,
//! held against the model's line by line.

use yauponroof_tests::compare::page::Pages;
use yauponroof_tests::logs::changes::{
    a_call_later, a_return_sooner, an_outcome_changed, neighbours_exchanged, outcomes_exchanged,
    values_added_exchanged, Change,
};
use yauponroof_tests::logs::clients::{clients_apart, DISTANCES};
use yauponroof_tests::logs::enumerate::{
    random_log, random_log_of_paired_operations, random_log_with_pending_remove,
};
use yauponroof_tests::logs::simulation::{
    runs_in_batches, runs_of_all_sizes, runs_with_clients_apart, runs_with_shared_slots,
    simulate_load, Clients, Load, Run,
};
use yauponroof_tests::logs::ticks::in_batches;
use yauponroof_tests::model::page::{LINE, PAGE_MAX};
use yauponroof_tests::model::reader::operation_count;
use yauponroof_tests::model::record::Record;
use yauponroof_tests::model::writer::log;
use yauponroof_tests::random::Random;

/// A length for the buffer: the needed one or close to it, that of some other page, or any.
fn room(records: &[Record], random: &mut Random) -> usize {
    let needed = LINE * operation_count(records) as usize;
    match random.below(8) {
        0..=2 => needed,
        3 => needed.saturating_sub(1 + random.below(3)),
        4 => needed + 1 + random.below(3),
        5 => LINE * random.below(70),
        6 => random.below(PAGE_MAX + 100),
        _ => PAGE_MAX,
    }
}

fn compare(records: &[Record], pages: &mut Pages, random: &mut Random) {
    pages.compare_room(&log(records), room(records, random));
}

/// Compares so many logs, each of them made by chance.
fn compare_made(seed: u64, times: u32, make: fn(&mut Random) -> Vec<Record>) -> Pages {
    let mut random = Random::new(seed);
    let mut pages = Pages::new();
    for _ in 0..times {
        compare(&make(&mut random), &mut pages, &mut random);
    }
    pages
}

#[test]
fn logs_by_chance() {
    let pages = compare_made(209, 20_000, |random| random_log(random.below(70), random));
    pages.assert_at_least(&[(0, 10_000), (24, 3000), (30, 2000)]);
}

#[test]
fn logs_by_chance_with_an_open_remove() {
    let pages = compare_made(251, 10_000, |random| {
        let records = random_log_with_pending_remove(random.below(70), random);
        match random.below(2) {
            0 => records,
            _ => in_batches(&records, 4, random),
        }
    });
    pages.assert_at_least(&[(0, 5000), (24, 1500), (30, 1000)]);
}

#[test]
fn logs_by_chance_in_batches() {
    let pages = compare_made(231, 5000, |random| {
        let records = random_log(random.below(70), random);
        let about = 2 + random.below(20);
        in_batches(&records, about, random)
    });
    pages.assert_at_least(&[(0, 2500), (24, 700), (30, 500)]);
}

#[test]
fn paired_operations_by_chance() {
    let paired = |random: &mut Random| random_log_of_paired_operations(random.below(34), random);
    let pages = compare_made(210, 4000, paired);
    pages.assert_at_least(&[(0, 2000), (24, 600), (30, 100)]);
}

/// A run of up to 66 records: as many clients at work, as full a queue and as many open adds as
/// chance has it.
fn some_run(random: &mut Random) -> Run {
    let load = *random.pick(&[Load::Even, Load::Busy]);
    let workers = 1 + random.below(16) as u16;
    let clients = *random.pick(&[Clients::Reused, Clients::OnePerOperation]);
    let n = 2 * random.below(34);
    let run = simulate_load(load, workers, clients, n, random.next_u64());
    let percent = *random.pick(&[0, 10, 60]);
    run.with_pending_adds(percent, random)
}

#[test]
fn runs_of_a_queue() {
    let mut random = Random::new(211);
    let mut pages = Pages::new();
    for _ in 0..10_000 {
        let run = some_run(&mut random);
        let distance = *random.pick(&DISTANCES);
        compare(&run.records, &mut pages, &mut random);
        let apart = clients_apart(&run.records, distance);
        compare(&apart, &mut pages, &mut random);
    }
    pages.assert_at_least(&[(0, 12_000), (24, 3000), (30, 500)]);
}

const CHANGES: [Change; 6] = [
    neighbours_exchanged,
    a_return_sooner,
    a_call_later,
    values_added_exchanged,
    outcomes_exchanged,
    an_outcome_changed,
];

#[test]
fn runs_of_a_queue_changed_in_one_place() {
    let mut random = Random::new(212);
    let mut pages = Pages::new();
    let mut changed = 0;
    for _ in 0..10_000 {
        let run = some_run(&mut random);
        if run.records.len() > 1 {
            let change = random.pick(&CHANGES);
            if let Some(records) = change(&run, &mut random) {
                compare(&records, &mut pages, &mut random);
                changed += 1;
            }
        }
    }
    assert!(changed >= 6000, "{changed} runs were changed");
    pages.assert_at_least(&[(0, 4000), (24, 1000), (30, 100)]);
}

#[test]
fn runs_of_all_sizes_have_a_page_or_30() {
    let mut pages = Pages::new();
    for runs in [
        runs_of_all_sizes(),
        runs_with_clients_apart(),
        runs_with_shared_slots(),
        runs_in_batches(),
    ] {
        for run in runs {
            pages.compare(&log(&run.records));
        }
    }
    assert_eq!(pages.seen(0) + pages.seen(30), 480);
    pages.assert_at_least(&[(0, 120), (30, 240)]);
}
