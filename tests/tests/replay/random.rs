//! Small logs by chance with orders by chance, held against both ways in which the model finds
//! the legal orders.

use yauponroof_tests::compare::replay::Replays;
use yauponroof_tests::logs::enumerate::{random_log, random_log_with_pending_remove};
use yauponroof_tests::logs::simulation::{simulate_run, Clients};
use yauponroof_tests::model::all_linearizations::linearizations;
use yauponroof_tests::model::history::operations;
use yauponroof_tests::model::record::Record;
use yauponroof_tests::model::sheet::sheet;
use yauponroof_tests::model::writer::log;
use yauponroof_tests::random::Random;
use yauponroof_tests::YES;

/// More operations than this have too many orders to find all.
const MOST_OPERATIONS: usize = 6;

/// All returned operations and some of the pending ones, in any order.
fn random_order(records: &[Record], random: &mut Random) -> Vec<u16> {
    let mut order = Vec::new();
    for (number, operation) in (0..).zip(operations(records)) {
        if operation.returned.is_some() || random.below(2) == 0 {
            order.push(number);
        }
    }
    random.shuffle(&mut order);
    order
}

/// Compares some of the legal orders that there are, and some orders by chance.
fn compare_orders(records: &[Record], random: &mut Random, replays: &mut Replays) {
    let log = log(records);
    let legal = linearizations(records);
    let some_legal: Vec<Vec<u16>> = (0..3)
        .filter_map(|_| random.pick_from(&legal).cloned())
        .collect();
    let by_chance = (0..6).map(|_| random_order(records, random));
    for order in by_chance.chain(some_legal) {
        let answer = replays.compare(&log, &sheet(&order));
        assert_eq!(answer == YES, legal.contains(&order), "{order:?}");
    }
}

#[test]
fn random_logs() {
    let mut random = Random::new(51);
    let mut replays = Replays::new();
    for _ in 0..30_000 {
        let least = random.below(12);
        let records = random_log(least, &mut random);
        if operations(&records).len() <= MOST_OPERATIONS {
            compare_orders(&records, &mut random, &mut replays);
        }
    }
    replays.assert_answered(50_000, 60_000);
}

#[test]
fn short_runs_of_a_queue() {
    let mut random = Random::new(52);
    let mut replays = Replays::new();
    for seed in 0..6000 {
        let workers = 1 + random.below(5) as u16;
        let n = 2 * random.below(MOST_OPERATIONS + 1);
        let run = simulate_run(workers, Clients::Reused, n, seed);
        let run = run.with_pending_adds(20, &mut random);
        compare_orders(&run.records, &mut random, &mut replays);
    }
    replays.assert_answered(25_000, 12_000);
}

#[test]
fn random_logs_with_an_open_remove() {
    let mut random = Random::new(252);
    let mut replays = Replays::new();
    for _ in 0..20_000 {
        let least = random.below(11);
        let records = random_log_with_pending_remove(least, &mut random);
        if operations(&records).len() <= MOST_OPERATIONS {
            compare_orders(&records, &mut random, &mut replays);
        }
    }
    replays.assert_answered(65_000, 55_000);
}

#[test]
fn short_runs_of_a_queue_with_an_open_remove() {
    let mut random = Random::new(253);
    let mut replays = Replays::new();
    for seed in 0..6000 {
        let workers = 1 + random.below(5) as u16;
        let n = 2 * random.below(MOST_OPERATIONS + 1);
        let run = simulate_run(workers, Clients::Reused, n, seed);
        let run = run.with_pending_adds(10, &mut random);
        let open = run.with_pending_remove(&mut random);
        compare_orders(&open.records, &mut random, &mut replays);
    }
    replays.assert_answered(36_000, 13_000);
}
