//! The judge and the excerpt on logs whose records come in batches of one tick each: every short log
//! with its ticks joined in every way, logs by chance, and simulated runs of up to 1,024 records. That
//! an order is told exactly where one exists is held against the search where the log is short.

use yauponroof_tests::compare::archive::{verdict_of, Archives};
use yauponroof_tests::logs::changes::CHANGES;
use yauponroof_tests::logs::enumerate::{
    every_log, every_log_of_paired_operations, every_log_with_joined_ticks, random_log,
    random_log_of_paired_operations,
};
use yauponroof_tests::logs::insertion::{with_empty_removes, Span};
use yauponroof_tests::logs::simulation::{
    runs_in_batches, runs_of_all_sizes, simulate_load, Clients, Load,
};
use yauponroof_tests::logs::ticks::{at_one_tick, every_joining, in_batches};
use yauponroof_tests::model::history::operations;
use yauponroof_tests::model::reader;
use yauponroof_tests::model::record::Record;
use yauponroof_tests::model::sheet::ORDER;
use yauponroof_tests::model::writer::log;
use yauponroof_tests::random::Random;

/// Whether the log of these records is not refused with 31.
fn is_readable(records: &[Record]) -> bool {
    reader::read(&log(records)).is_ok()
}

#[test]
fn every_log_of_up_to_six_records_with_ticks_joined_in_every_way() {
    let mut archives = Archives::new();
    every_log_with_joined_ticks(6, &mut |records| {
        if is_readable(records) {
            archives.compare_with_search(records);
        }
    });
    let seen = [53_146, 63_314, 9062, 19_216, 2562, 0, 2476];
    assert_eq!(archives.seen(), seen);
}

#[test]
fn every_log_of_up_to_three_paired_operations_with_ticks_joined_in_every_way() {
    let mut archives = Archives::new();
    every_log_of_paired_operations(6, &mut |records| {
        every_joining(records, &mut |joined| archives.compare_with_search(joined));
    });
    assert_eq!(archives.seen(), [8137, 0, 0, 0, 160, 0, 484]);
}

/// With all records of one tick no operation precedes another, and every empty remove has the gap
/// between the last call and the first return, which no value covers.
#[test]
fn at_one_tick_there_are_orders_and_the_patterns_1_and_2_alone() {
    let mut archives = Archives::new();
    every_log(6, &mut |records| {
        let joined = at_one_tick(records, 7);
        if is_readable(&joined) {
            archives.compare_with_search(&joined);
        }
    });
    assert_eq!(archives.seen(), [1370, 1148, 150, 0, 0, 0, 0]);
}

#[test]
fn by_how_much_ticks_rise_does_not_matter() {
    let steps: [fn(u32) -> u32; 3] = [|at| at << 28, |at| u32::MAX - 9 + at, |at| 65_533 + at];
    let mut compared = 0;
    every_log_with_joined_ticks(5, &mut |records| {
        if is_readable(records) {
            let verdict = verdict_of(records);
            for step in steps {
                let with_tick = |record: &Record| Record {
                    tick: step(record.tick),
                    ..*record
                };
                let others: Vec<Record> = records.iter().map(with_tick).collect();
                assert_eq!(verdict_of(&others), verdict, "{others:?}");
                compared += 1;
            }
        }
    });
    assert_eq!(compared, 28_926);
}

#[test]
fn logs_by_chance() {
    const MOST_OPERATIONS: usize = 12;
    let mut random = Random::new(225);
    let mut archives = Archives::new();
    for _ in 0..15_000 {
        let least = random.below(18);
        let any = random_log(least, &mut random);
        let count = 4 + random.below(MOST_OPERATIONS - 3);
        let paired = random_log_of_paired_operations(count, &mut random);
        for records in [any, paired] {
            let about = *random.pick(&[2, 4, 10]);
            if operations(&records).len() <= MOST_OPERATIONS {
                archives.compare_with_search(&in_batches(&records, about, &mut random));
            }
        }
    }
    archives.assert_at_least([13_000, 3500, 2500, 1100, 2500, 300, 1700]);
}

/// A run of a correct queue stays one, since in batches less precedes.
#[test]
fn runs_of_a_queue() {
    let mut archives = Archives::new();
    for run in runs_in_batches() {
        assert_eq!(archives.compare_records(&run.records), ORDER);
    }
    assert_eq!(archives.seen(), [120, 0, 0, 0, 0, 0, 0]);
}

#[test]
fn runs_of_a_queue_that_is_seldom_empty() {
    let mut random = Random::new(226);
    let mut archives = Archives::new();
    for workers in [1, 2, 4, 8, 64, 512] {
        for about in [2, 5, 20, 300] {
            let seed = random.next_u64();
            let run = simulate_load(Load::Busy, workers, Clients::Reused, 800, seed);
            let run = run.drained().with_pending_adds(5, &mut random);
            let batched = run.in_batches(about, &mut random);
            assert_eq!(archives.compare_records(&batched.records), ORDER);
        }
    }
    assert_eq!(archives.seen(), [24, 0, 0, 0, 0, 0, 0]);
}

/// What a change breaks is mended where batches join what it put apart.
#[test]
fn runs_of_a_queue_changed_in_one_place() {
    let mut random = Random::new(227);
    let mut archives = Archives::new();
    for run in runs_of_all_sizes() {
        for change in CHANGES {
            if let Some(records) = change(&run, &mut random) {
                let about = *random.pick(&[2, 3, 8, 40]);
                archives.compare_records(&in_batches(&records, about, &mut random));
            }
        }
    }
    archives.assert_at_least([450, 50, 10, 100, 5, 15, 5]);
}

/// Chains of values lead through batches here, and end in them.
#[test]
fn empty_removes_put_into_runs_of_a_queue() {
    let mut random = Random::new(228);
    let mut archives = Archives::new();
    for _ in 0..300 {
        let workers = *random.pick(&[1, 2, 4, 16]);
        let n = *random.pick(&[40, 200, 800]);
        let load = *random.pick(&[Load::Even, Load::Busy]);
        let run = simulate_load(load, workers, Clients::Reused, n, random.next_u64());
        let spans: Vec<Span> = (0..1 + random.below(3))
            .map(|_| {
                let from = random.below(n);
                (from, from + random.below(1 + (n - from).min(30)))
            })
            .collect();
        let records = with_empty_removes(&run.records, &spans);
        let about = *random.pick(&[2, 3, 6]);
        archives.compare_records(&in_batches(&records, about, &mut random));
    }
    archives.assert_at_least([40, 0, 0, 0, 0, 0, 200]);
}
