//! Patterns 4 and 5 where many pairs of adds show them at once, in logs of up to 1,024 records with
//! adds that have not returned: the lowest add is listed that is stuck or overtaken, with the lowest
//! add whose value left the queue before its own.

use yauponroof_tests::compare::archive::{verdict_of, Archives};
use yauponroof_tests::logs::changes::near_outcomes_exchanged;
use yauponroof_tests::logs::simulation::{simulate_load, Clients, Load, Run};
use yauponroof_tests::logs::ticks::rising;
use yauponroof_tests::model::history::{operations, Action};
use yauponroof_tests::model::record::{
    call_add, call_remove, return_add, return_value, Record, Removed,
};
use yauponroof_tests::random::Random;

/// The verdict on the log of these records, whose ticks are made to rise.
fn verdict_on(records: &[Record]) -> (u8, Vec<u16>) {
    verdict_of(&rising(records))
}

/// Add 0, so many adds that never return, and another add, which returns or not.
fn adds_with_pending_between(between: u16, returned: bool) -> Vec<Record> {
    let mut records = vec![call_add(0, 1, 0), return_add(0, 1)];
    records.extend((1..=between + 1).map(|i| call_add(i, 1, u32::from(i))));
    if returned {
        records.push(return_add(between + 1, 1));
    }
    records
}

fn remove(value: u16) -> [Record; 2] {
    [call_remove(0, 1), return_value(0, 1, u32::from(value))]
}

#[test]
fn adds_that_never_return_between_the_two() {
    for between in [0, 1, 2, 511, 1016] {
        for returned in [true, false] {
            let (b, remove_b) = (between + 1, between + 2);
            let mut records = adds_with_pending_between(between, returned);
            records.extend(remove(b));
            assert_eq!(verdict_on(&records), (4, vec![0, b, remove_b]));
            records.extend(remove(0));
            let expected = (5, vec![0, b, remove_b, remove_b + 1]);
            assert_eq!(verdict_on(&records), expected);
        }
    }
}

/// The values of all adds between are removed too, the last one first.
#[test]
fn the_lowest_of_many_adds_that_overtook() {
    for between in [1, 2, 100, 250] {
        let b = between + 1;
        let mut records = adds_with_pending_between(between, false);
        let removes = (1..=b).rev().flat_map(remove);
        records.extend(removes);
        // The remove of value 1 is the last.
        assert_eq!(verdict_on(&records), (4, vec![0, 1, 2 * b]));
        records.extend(remove(0));
        let expected = (5, vec![0, 1, 2 * b, 2 * b + 1]);
        assert_eq!(verdict_on(&records), expected);
    }
}

/// Runs at the end of which the queue is empty, some of whose adds have not returned.
fn emptied_runs(random: &mut Random) -> Vec<Run> {
    let mut runs = Vec::new();
    for load in [Load::Even, Load::Busy] {
        for workers in [2, 4, 16, 64] {
            for n in [60, 300, 860] {
                let run = simulate_load(load, workers, Clients::Reused, n, random.next_u64());
                let drained = run.drained();
                runs.extend([0, 10, 50].map(|p| drained.with_pending_adds(p, random)));
            }
        }
    }
    runs
}

/// The records without the removes of some values, one in so many, which are then never removed.
fn without_some_removes(records: &[Record], one_in: usize, random: &mut Random) -> Vec<Record> {
    let mut kept = vec![true; records.len()];
    for operation in operations(records) {
        if let Action::Remove(Removed::Value(_)) = operation.action {
            let is_kept = random.below(one_in) > 0;
            kept[operation.call.index] = is_kept;
            kept[operation.returned.expect("a remove returns").index] = is_kept;
        }
    }
    let with_marks = records.iter().zip(kept);
    with_marks
        .filter_map(|(r, kept)| kept.then_some(*r))
        .collect()
}

#[test]
fn many_values_are_never_removed() {
    let mut random = Random::new(218);
    let mut archives = Archives::new();
    for run in emptied_runs(&mut random) {
        for one_in in [100, 30, 8, 2] {
            archives.compare_records(&without_some_removes(&run.records, one_in, &mut random));
        }
    }
    archives.assert_at_least([60, 0, 0, 0, 180, 0, 0]);
}

#[test]
fn many_values_are_overtaken() {
    let mut random = Random::new(219);
    let mut archives = Archives::new();
    for run in emptied_runs(&mut random) {
        for places in [2, 5, 10, 40] {
            let mut changed = run.clone();
            for _ in 0..places {
                if let Some(records) = near_outcomes_exchanged(&changed, &mut random) {
                    changed.records = records;
                }
            }
            archives.compare_records(&changed.records);
        }
    }
    archives.assert_at_least([100, 0, 0, 25, 0, 110, 0]);
}
