//! The judge and the excerpt on simulated runs of up to 1,024 records whose log is changed in one
//! or two places and stays readable, held against the table of patterns and the test of orders.

use yauponroof_tests::compare::archive::Archives;
use yauponroof_tests::logs::changes::{
    a_call_later, a_return_sooner, an_outcome_changed, near_outcomes_exchanged,
    neighbours_exchanged, outcomes_exchanged, values_added_exchanged, Change, CHANGES,
};
use yauponroof_tests::logs::simulation::{runs_of_all_sizes, Run};
use yauponroof_tests::random::Random;

/// How often each run is changed in so many places.
const TIMES: usize = 4;

/// Changes each run several times, in one place or in two, and compares the archives. Each verdict
/// must be seen at least so often.
fn compare_changed(change: Change, floors: [u64; 7]) {
    let mut random = Random::new(86);
    let mut archives = Archives::new();
    for run in runs_of_all_sizes() {
        for places in [1, 2].repeat(TIMES) {
            let mut changed = run.clone();
            for _ in 0..places {
                if let Some(records) = change(&changed, &mut random) {
                    changed = Run { records, ..changed };
                }
            }
            archives.compare_records(&changed.records);
        }
    }
    archives.assert_at_least(floors);
}

#[test]
fn neighbours_change_places() {
    compare_changed(neighbours_exchanged, [900, 0, 0, 1, 0, 1, 0]);
}

#[test]
fn operations_return_sooner() {
    compare_changed(a_return_sooner, [800, 0, 0, 15, 3, 8, 2]);
}

#[test]
fn operations_are_called_later() {
    compare_changed(a_call_later, [800, 0, 0, 8, 1, 10, 4]);
}

#[test]
fn values_added_change_places() {
    compare_changed(values_added_exchanged, [250, 0, 0, 500, 20, 30, 0]);
}

#[test]
fn outcomes_change_places() {
    compare_changed(outcomes_exchanged, [250, 0, 0, 450, 0, 70, 4]);
}

#[test]
fn outcomes_of_one_remove_and_the_next_change_places() {
    compare_changed(near_outcomes_exchanged, [500, 0, 0, 60, 0, 180, 20]);
}

#[test]
fn removes_return_something_else() {
    compare_changed(an_outcome_changed, [50, 600, 90, 0, 60, 1, 15]);
}

/// A remove of each changed run never returns. The runs are of at most 256 records, for the time that
/// it takes the table to go through all that the open remove may have taken.
#[test]
fn changes_beside_a_remove_that_never_returned() {
    const MOST: usize = 256;
    let mut random = Random::new(248);
    let mut archives = Archives::new();
    for run in runs_of_all_sizes() {
        if run.records.len() > MOST {
            continue;
        }
        for change in CHANGES {
            if let Some(records) = change(&run, &mut random) {
                let changed = Run {
                    records,
                    ..run.clone()
                };
                let open = changed.with_pending_remove(&mut random);
                archives.compare_records(&open.records);
            }
        }
    }
    archives.assert_at_least([380, 30, 10, 75, 35, 7, 2]);
    assert!(archives.took() >= 140, "{archives:?}");
}
