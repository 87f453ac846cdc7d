//! The judge and the excerpt on logs of up to 12 operations by chance, held against the table of
//! patterns and the test of orders. That an order is told exactly where one exists is held against
//! a search that knows nothing of patterns, nor of what the judge tries for an open remove.

use yauponroof_tests::compare::archive::Archives;
use yauponroof_tests::logs::changes::CHANGES;
use yauponroof_tests::logs::enumerate::{
    random_log, random_log_of_paired_operations,
    random_log_of_paired_operations_with_pending_remove, random_log_with_pending_remove,
};
use yauponroof_tests::logs::simulation::{simulate_load, Clients, Load, Run};
use yauponroof_tests::logs::ticks::in_batches;
use yauponroof_tests::model::history::operations;
use yauponroof_tests::model::record::{Event, Record};
use yauponroof_tests::model::sheet::ORDER;
use yauponroof_tests::random::Random;

const MOST_OPERATIONS: usize = 12;

fn compare(records: &[Record], archives: &mut Archives) {
    assert!(operations(records).len() <= MOST_OPERATIONS);
    archives.compare_with_search(records);
}

#[test]
fn logs_by_chance() {
    let mut random = Random::new(81);
    let mut archives = Archives::new();
    for _ in 0..40_000 {
        let least = random.below(18);
        let records = random_log(least, &mut random);
        if operations(&records).len() <= MOST_OPERATIONS {
            compare(&records, &mut archives);
        }
    }
    archives.assert_at_least([10_000, 9000, 7000, 4000, 1800, 130, 1000]);
}

/// The records without the returns of some adds.
fn with_pending_adds(records: &[Record], random: &mut Random) -> Vec<Record> {
    let stays = |record: &&Record| record.event != Event::ReturnAdd || random.below(8) > 0;
    records.iter().filter(stays).copied().collect()
}

#[test]
fn paired_operations_by_chance() {
    let mut random = Random::new(82);
    let mut archives = Archives::new();
    for _ in 0..40_000 {
        let count = 4 + random.below(MOST_OPERATIONS - 3);
        let records = random_log_of_paired_operations(count, &mut random);
        compare(&records, &mut archives);
        compare(&with_pending_adds(&records, &mut random), &mut archives);
    }
    archives.assert_at_least([40_000, 0, 0, 0, 17_000, 5000, 12_000]);
}

#[test]
fn short_runs_of_a_queue_changed_in_one_place() {
    let mut random = Random::new(83);
    let mut archives = Archives::new();
    for seed in 0..12_000 {
        let workers = 1 + random.below(6) as u16;
        let load = *random.pick(&[Load::Even, Load::Busy]);
        let n = 2 * (1 + random.below(MOST_OPERATIONS));
        let run = simulate_load(load, workers, Clients::Reused, n, seed);
        let run = run.with_pending_adds(10, &mut random);
        assert_eq!(archives.compare_records(&run.records), ORDER);
        if run.records.len() > 1 {
            let change = random.pick(&CHANGES);
            if let Some(changed) = change(&run, &mut random) {
                compare(&changed, &mut archives);
            }
        }
    }
    archives.assert_at_least([18_000, 600, 70, 300, 200, 200, 150]);
}

// With one open remove.

#[test]
fn logs_by_chance_with_an_open_remove() {
    let mut random = Random::new(241);
    let mut archives = Archives::new();
    for _ in 0..40_000 {
        let least = random.below(18);
        let records = random_log_with_pending_remove(least, &mut random);
        if operations(&records).len() <= MOST_OPERATIONS {
            compare(&records, &mut archives);
        }
    }
    archives.assert_at_least([14_000, 6000, 6000, 6000, 1400, 130, 1100]);
    assert!(archives.took() >= 330, "{archives:?}");
}

#[test]
fn paired_operations_by_chance_with_an_open_remove() {
    let mut random = Random::new(242);
    let mut archives = Archives::new();
    for round in 0..30_000 {
        let count = 3 + random.below(MOST_OPERATIONS - 2);
        let records = random_log_of_paired_operations_with_pending_remove(count, &mut random);
        compare(&records, &mut archives);
        compare(&with_pending_adds(&records, &mut random), &mut archives);
        let batches = in_batches(&records, 2 + round % 5, &mut random);
        compare(&batches, &mut archives);
    }
    archives.assert_at_least([60_000, 0, 0, 0, 11_000, 2500, 9000]);
    assert!(archives.took() >= 2800, "{archives:?}");
}

#[test]
fn short_runs_of_a_queue_of_which_a_consumer_never_came_back() {
    let mut random = Random::new(243);
    let mut archives = Archives::new();
    for seed in 0..12_000 {
        let workers = 1 + random.below(6) as u16;
        let load = *random.pick(&[Load::Even, Load::Busy]);
        let n = 2 * (1 + random.below(MOST_OPERATIONS));
        let run = simulate_load(load, workers, Clients::Reused, n, seed);
        let run = run.with_pending_adds(10, &mut random);
        let open = run.with_pending_remove(&mut random);
        assert_eq!(archives.compare_records(&open.records), ORDER);
        if run.records.len() > 1 {
            let change = random.pick(&CHANGES);
            if let Some(records) = change(&run, &mut random) {
                let changed = Run { records, ..run };
                let open = changed.with_pending_remove(&mut random);
                compare(&open.records, &mut archives);
            }
        }
    }
    archives.assert_at_least([18_000, 380, 30, 240, 210, 70, 80]);
    assert!(archives.took() >= 2500, "{archives:?}");
}
