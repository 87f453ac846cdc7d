//! Scripts of sessions by chance: the calls in any order, sound and damaged records, buffers of
//! lengths around what is needed, and tampering with the session and its buffer. Every answer, what
//! was written, the session and every byte are held against the model's sessions.

use yauponroof_tests::compare::random_script::Author;
use yauponroof_tests::compare::session::{Entry, Seen};
use yauponroof_tests::logs::enumerate::{random_log, random_log_with_pending_remove};
use yauponroof_tests::logs::insertion::with_run;
use yauponroof_tests::logs::notation::run;
use yauponroof_tests::logs::samples::RUNS;
use yauponroof_tests::logs::simulation::{simulate, simulate_run, Clients};
use yauponroof_tests::logs::ticks::in_batches;
use yauponroof_tests::model::record::Record;
use yauponroof_tests::random::Random;

/// A log of a few records: any, one of the document's, or a simulated one. Some have an open remove.
fn short_plan(random: &mut Random) -> Vec<Record> {
    let records = match random.below(6) {
        0 => random_log(random.next_u64() as usize % 7, random),
        1 => random_log_with_pending_remove(random.next_u64() as usize % 7, random),
        2 => simulate(2, Clients::Reused, 8, random.next_u64()),
        _ => run(random.pick(&RUNS).0),
    };
    with_some_batches(records, random)
}

/// A simulated log of some hundred records with one of the document's runs put in. In some a remove
/// does not return.
fn long_plan(random: &mut Random) -> Vec<Record> {
    let run = simulate_run(6, Clients::Reused, 150, random.next_u64());
    let sound = match random.below(3) {
        0 => run.with_pending_remove(random).records,
        _ => run.records,
    };
    let at = random.below(sound.len() + 1);
    let records = with_run(&sound, &[(at, random.pick(&RUNS).0)]);
    with_some_batches(records, random)
}

/// The records in batches, or else as they are.
fn with_some_batches(records: Vec<Record>, random: &mut Random) -> Vec<Record> {
    match random.below(2) {
        0 => in_batches(&records, 4, random),
        _ => records,
    }
}

#[test]
fn short_scripts() {
    let mut random = Random::new(201);
    let mut seen = Seen::new();
    for _ in 0..52_000 {
        let plan = short_plan(&mut random);
        let steps = 4 + random.below(20);
        Author::new(plan, 14, &mut random).play(steps, &mut seen);
    }
    seen.assert_at_least(Entry::Begin, &[(0, 50_000), (24, 3000)]);
    let feeds = [
        (0, 130_000),
        (1, 15_000),
        (4, 1000),
        (5, 5000),
        (6, 4000),
        (7, 4000),
        (8, 10_000),
        (9, 1500),
        (20, 15_000),
        (24, 15_000),
        (25, 20_000),
        (31, 800),
    ];
    seen.assert_at_least(Entry::Feed, &feeds);
    let closings = [
        (0, 20_000),
        (10, 2000),
        (20, 3000),
        (24, 10_000),
        (25, 10_000),
    ];
    seen.assert_at_least(Entry::Close, &closings);
    let sheets = [(0, 9000), (22, 20_000), (24, 5000), (25, 3000)];
    seen.assert_at_least(Entry::Sheet, &sheets);
    let excerpts = [
        (0, 1500),
        (22, 20_000),
        (23, 10_000),
        (24, 1000),
        (25, 3000),
        (32, 7000),
    ];
    seen.assert_at_least(Entry::Excerpt, &excerpts);
}

#[test]
fn long_scripts() {
    let mut random = Random::new(202);
    let mut seen = Seen::new();
    for _ in 0..220 {
        let plan = long_plan(&mut random);
        Author::new(plan, 60, &mut random).play(300, &mut seen);
    }
    seen.assert_at_least(Entry::Begin, &[(0, 300), (24, 3)]);
    let feeds = [
        (0, 25_000),
        (1, 400),
        (4, 30),
        (5, 100),
        (6, 1000),
        (7, 300),
        (8, 1000),
        (9, 30),
        (20, 100),
        (24, 1000),
        (25, 1500),
        (31, 30),
    ];
    seen.assert_at_least(Entry::Feed, &feeds);
    let closings = [(0, 80), (10, 1500), (20, 5), (24, 50), (25, 1000)];
    seen.assert_at_least(Entry::Close, &closings);
    let sheets = [(0, 60), (22, 500), (24, 40), (25, 50)];
    seen.assert_at_least(Entry::Sheet, &sheets);
    let excerpts = [(0, 50), (22, 500), (23, 15), (24, 30), (25, 50), (32, 80)];
    seen.assert_at_least(Entry::Excerpt, &excerpts);
}
