//! Simulated runs whose log is changed in one place and stays readable, with the order in which the
//! operations of the unchanged run took effect. What the order lists is right, so that precedence
//! or the queue alone decides.

use yauponroof_tests::compare::spoilt::{compare_spoilt, Way};
use yauponroof_tests::logs::changes::{
    a_return_sooner, an_outcome_changed, neighbours_exchanged, outcomes_exchanged,
    values_added_exchanged,
};
use yauponroof_tests::logs::simulation::{
    runs_of_all_sizes, runs_with_clients_apart, runs_with_shared_slots, Run,
};
use yauponroof_tests::model::record::Record;
use yauponroof_tests::model::sheet::sheet;
use yauponroof_tests::model::writer::log;

/// Each way to change a log, and how often at least it gives yes and no.
const WAYS: [Way<Run, Vec<Record>>; 5] = [
    Way::new("neighbours exchanged", neighbours_exchanged, 500, 150),
    Way::new("a return sooner", a_return_sooner, 700, 100),
    Way::new("values added exchanged", values_added_exchanged, 100, 700),
    Way::new("outcomes exchanged", outcomes_exchanged, 100, 700),
    Way::new("an outcome changed", an_outcome_changed, 40, 700),
];

fn compare_changed(runs: &[Run]) {
    compare_spoilt(runs, &WAYS, |run, records| {
        (log(records), sheet(&run.order))
    });
}

#[test]
fn logs_changed_in_one_place() {
    compare_changed(&runs_of_all_sizes());
}

#[test]
fn logs_changed_in_one_place_with_clients_apart() {
    compare_changed(&runs_with_clients_apart());
}

#[test]
fn logs_changed_in_one_place_with_shared_slots() {
    compare_changed(&runs_with_shared_slots());
}
