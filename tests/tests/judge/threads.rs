//! Nothing is kept between calls: the same log gives the same bytes every time, whatever was judged
//! in between, and any number of threads may judge at the same time, also the same bytes.

use yauponroof_tests::compare::threads::in_threads;
use yauponroof_tests::library::outcomes::{excerpt_made, judged, narrowing_made, page_made};
use yauponroof_tests::logs::notation::run;
use yauponroof_tests::logs::samples::{refused_logs, RUNS};
use yauponroof_tests::logs::simulation::{simulate_load, Clients, Load};
use yauponroof_tests::model::projection::values;
use yauponroof_tests::model::reader;
use yauponroof_tests::model::writer::log;
use yauponroof_tests::random::Random;
use yauponroof_tests::Outcome;

/// What the four entries that write give for a log.
type Outcomes = [Outcome; 4];

fn outcomes(log: &[u8]) -> Outcomes {
    let all = reader::read(log).map_or(Vec::new(), |records| values(&records));
    let half = &all[all.len() / 2..];
    [
        judged(log),
        excerpt_made(log),
        narrowing_made(log, half),
        page_made(log),
    ]
}

/// Logs of many sizes with orders, patterns and refusals.
fn logs() -> Vec<Vec<u8>> {
    let mut logs = refused_logs();
    logs.extend(RUNS.iter().map(|(text, ..)| log(&run(text))));
    for seed in 0..12 {
        let n = [20, 100, 400][seed as usize % 3];
        let run = simulate_load(Load::Busy, 4, Clients::Reused, n, seed);
        logs.push(log(&run.records));
        logs.push(log(&run.drained().records));
        let open = run.drained().with_pending_remove(&mut Random::new(seed));
        logs.push(log(&open.records));
    }
    logs
}

#[test]
fn the_same_bytes_every_time() {
    let logs = logs();
    let first: Vec<Outcomes> = logs.iter().map(|log| outcomes(log)).collect();
    let mut random = Random::new(97);
    for _ in 0..4000 {
        let at = random.below(logs.len());
        assert_eq!(outcomes(&logs[at]), first[at], "log {at}");
    }
}

#[test]
fn many_threads_at_the_same_time() {
    let logs = logs();
    let alone: Vec<Outcomes> = logs.iter().map(|log| outcomes(log)).collect();
    in_threads(|seed| {
        let mut random = Random::new(seed);
        for _ in 0..1000 {
            let at = random.below(logs.len());
            assert_eq!(outcomes(&logs[at]), alone[at], "log {at}");
        }
    });
}
