//! Nothing is kept between calls: sessions that are fed in turn do not touch each other, and any
//! number of threads may have sessions at the same time, also with sheets of the same log.

use yauponroof_tests::compare::random_script::Author;
use yauponroof_tests::compare::session::{Compared, Seen};
use yauponroof_tests::compare::threads::in_threads;
use yauponroof_tests::compare::whole_session::{compare_closing, compare_whole, holding};
use yauponroof_tests::logs::enumerate::random_log;
use yauponroof_tests::logs::notation::run;
use yauponroof_tests::logs::samples::RUNS;
use yauponroof_tests::logs::simulation::{simulate_load, Clients, Load};
use yauponroof_tests::model::record::Record;
use yauponroof_tests::model::session::CLOSED;
use yauponroof_tests::model::sheet::SHEET_MAX;
use yauponroof_tests::model::writer::{log, record_bytes};
use yauponroof_tests::random::Random;
use yauponroof_tests::{refused, Answer};

/// Logs of many sizes with orders and patterns.
fn logs() -> Vec<Vec<Record>> {
    let mut logs: Vec<Vec<Record>> = RUNS.iter().map(|(text, ..)| run(text)).collect();
    for seed in 0..6 {
        let n = [20, 60, 120][seed as usize % 3];
        let run = simulate_load(Load::Busy, 4, Clients::Reused, n, seed);
        let open = run.drained().with_pending_remove(&mut Random::new(seed));
        logs.push(open.records);
        logs.push(run.drained().records);
        logs.push(run.records);
    }
    logs
}

#[test]
fn sessions_that_are_fed_in_turn() {
    let logs = logs();
    let mut sessions: Vec<Compared> = logs.iter().map(|_| Compared::begun(4000)).collect();
    let mut random = Random::new(213);
    let mut left: Vec<usize> = (0..logs.len())
        .flat_map(|at| vec![at; logs[at].len()])
        .collect();
    random.shuffle(&mut left);
    let mut fed = vec![0; logs.len()];
    for at in left {
        let record = record_bytes(&logs[at][fed[at]]);
        let answer = sessions[at].feed(&record);
        assert_eq!(answer, Answer::Accepted(record.len() as u32), "log {at}");
        fed[at] += 1;
    }
    for (session, records) in sessions.iter_mut().zip(&logs) {
        compare_closing(session, &log(records)).expect("a sheet");
    }
}

#[test]
fn whole_logs_in_many_threads() {
    let logs = logs();
    in_threads(|seed| {
        let mut random = Random::new(seed);
        for _ in 0..100 {
            let records = random.pick(&logs);
            compare_whole(records).expect("a sheet");
        }
    });
}

#[test]
fn scripts_in_many_threads() {
    in_threads(|seed| {
        let mut random = Random::new(214 + seed);
        for _ in 0..2000 {
            let plan = random_log(random.next_u64() as usize % 7, &mut random);
            Author::new(plan, 14, &mut random).play(16, &mut Seen::new());
        }
    });
}

#[test]
fn one_closed_session_is_read_by_many_threads() {
    let records = simulate_load(Load::Even, 4, Clients::Reused, 300, 215).records;
    let session = holding(&log(&records), CLOSED, 10);
    let sheet = session.sheet(SHEET_MAX).expect("a sheet");
    in_threads(|_| {
        for _ in 0..50 {
            assert_eq!(session.sheet(SHEET_MAX).as_ref(), Ok(&sheet));
            assert_eq!(session.excerpt(SHEET_MAX), Err(refused(23, 0)));
        }
    });
}
