//! Narrowing of long logs, and of short ones by chance, to lists of values by chance, held against
//! the model's narrowing record by record.

use yauponroof_tests::compare::narrowing::compare_narrowing;
use yauponroof_tests::library::outcomes::narrowing_made;
use yauponroof_tests::logs::enumerate::random_log;
use yauponroof_tests::logs::simulation::{
    runs_in_batches, runs_of_all_sizes, runs_with_clients_apart, runs_with_shared_slots, Run,
};
use yauponroof_tests::model::projection::values;
use yauponroof_tests::model::writer::log;
use yauponroof_tests::random::Random;

/// Some of the values in any order, some of them twice, and some that the log lacks.
fn random_list(all: &[u32], random: &mut Random) -> Vec<u32> {
    let one_in = 1 + random.below(6);
    let mut list = Vec::new();
    for &value in all {
        if random.below(one_in) == 0 {
            list.push(value);
            if random.below(4) == 0 {
                list.extend([value, value ^ 1 << random.below(32)]);
            }
        }
    }
    random.shuffle(&mut list);
    list
}

fn compare_lists(runs: &[Run]) {
    let mut random = Random::new(98);
    let mut compared = 0;
    for run in runs {
        let log = log(&run.records);
        let all = values(&run.records);
        for _ in 0..4 {
            compare_narrowing(&log, &random_list(&all, &mut random));
            compared += 1;
        }
    }
    assert_eq!(compared, 4 * 120);
}

#[test]
fn lists_by_chance() {
    compare_lists(&runs_of_all_sizes());
}

#[test]
fn lists_by_chance_with_clients_apart() {
    compare_lists(&runs_with_clients_apart());
}

#[test]
fn lists_by_chance_with_shared_slots() {
    compare_lists(&runs_with_shared_slots());
}

#[test]
fn lists_by_chance_in_batches() {
    compare_lists(&runs_in_batches());
}

#[test]
fn lists_by_chance_with_an_open_remove() {
    let mut random = Random::new(249);
    let mut lost = |run: &Run| run.with_pending_remove(&mut random);
    for runs in [runs_of_all_sizes(), runs_in_batches()] {
        let open: Vec<Run> = runs.iter().map(&mut lost).collect();
        compare_lists(&open);
    }
}

#[test]
fn short_logs_by_chance() {
    let mut random = Random::new(101);
    let mut in_between = 0;
    for _ in 0..10_000 {
        let least = random.below(18);
        let records = random_log(least, &mut random);
        let log = log(&records);
        let list = random_list(&values(&records), &mut random);
        let narrowed = compare_narrowing(&log, &list);
        in_between += usize::from(3 < narrowed.len() && narrowed.len() < log.len());
    }
    assert!(
        in_between >= 5000,
        "{in_between} keep some records and not all"
    );
}

#[test]
fn a_narrowing_of_a_narrowing_is_one_to_what_both_lists_have() {
    let mut random = Random::new(99);
    let mut compared = 0;
    for run in runs_of_all_sizes() {
        let bytes = log(&run.records);
        let all = values(&run.records);
        let [one, other] = [0, 1].map(|_| random_list(&all, &mut random));
        let in_both: Vec<u32> = one.iter().copied().filter(|v| other.contains(v)).collect();
        let narrowed = compare_narrowing(&bytes, &one);
        let twice = compare_narrowing(&narrowed, &other);
        assert_eq!(narrowing_made(&bytes, &in_both), Ok(twice));
        compared += 1;
    }
    assert_eq!(compared, 120);
}
