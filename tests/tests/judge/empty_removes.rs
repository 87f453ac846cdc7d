//! Empty removes put into simulated runs of a queue, most of which are seldom empty: such a remove
//! is false exactly if all of its gaps are covered, so that each is put in as long as it just is and
//! one gap longer. Many values cover a gap at once here, and chains lead through some of them.

use yauponroof_tests::compare::archive::Archives;
use yauponroof_tests::logs::insertion::{with_empty_removes, Span};
use yauponroof_tests::logs::simulation::{simulate_load, Clients, Load};
use yauponroof_tests::model::history::{operations, Action, Operation};
use yauponroof_tests::model::reader::MAX_RECORDS;
use yauponroof_tests::model::record::{Record, Removed};
use yauponroof_tests::model::sheet::ORDER;
use yauponroof_tests::model::violations::FALSE_EMPTY;
use yauponroof_tests::random::Random;

/// For each gap behind a record whether some value covers it.
fn covered_gaps(records: &[Record]) -> Vec<bool> {
    let all = operations(records);
    let removed_at = |value| {
        let remove = Action::Remove(Removed::Value(value));
        all.iter()
            .find(|o| o.action == remove)
            .map(|o| o.call.index)
    };
    let mut covered = vec![false; records.len()];
    for operation in &all {
        if let Operation {
            action: Action::Add(value),
            returned: Some(returned),
            ..
        } = *operation
        {
            let end = removed_at(value).unwrap_or(records.len());
            (returned.index..end).for_each(|gap| covered[gap] = true);
        }
    }
    covered
}

/// How late an empty remove can return that is called right before the record `from` and is false:
/// before the record with that index.
fn latest_return(covered: &[bool], from: usize) -> Option<usize> {
    let first_gap = from.checked_sub(1)?;
    let uncovered = (first_gap..covered.len()).find(|&gap| !covered[gap]);
    match uncovered {
        Some(gap) => (gap > first_gap).then_some(gap),
        None => Some(covered.len()),
    }
}

fn runs(load: Load) -> Vec<Vec<Record>> {
    let mut random = Random::new(91);
    let mut runs = Vec::new();
    for workers in [1, 2, 4, 8, 32] {
        for n in [40, 200, 700] {
            for percent in [0, 10] {
                let seed = random.next_u64();
                let run = simulate_load(load, workers, Clients::Reused, n, seed);
                runs.push(run.with_pending_adds(percent, &mut random).records);
                runs.push(run.drained().records);
            }
        }
    }
    runs
}

#[test]
fn as_long_as_it_is_false_and_one_gap_longer() {
    let mut random = Random::new(92);
    let mut archives = Archives::new();
    for records in runs(Load::Busy) {
        let covered = covered_gaps(&records);
        for from in (0..12).map(|_| random.below(records.len())) {
            let verdict_to = |to, archives: &mut Archives| {
                archives.compare_records(&with_empty_removes(&records, &[(from, to)]))
            };
            let first_true = match latest_return(&covered, from) {
                Some(to) => {
                    assert_eq!(verdict_to(to, &mut archives), FALSE_EMPTY, "{from} to {to}");
                    to + 1
                }
                None => from,
            };
            if first_true <= records.len() {
                let verdict = verdict_to(first_true, &mut archives);
                assert_eq!(verdict, ORDER, "{from} to {first_true}");
            }
        }
    }
    archives.assert_at_least([400, 0, 0, 0, 0, 0, 600]);
}

#[test]
fn many_at_once() {
    let mut random = Random::new(93);
    let mut archives = Archives::new();
    for records in runs(Load::Busy) {
        let covered = covered_gaps(&records);
        let is_false = |(from, to): Span| latest_return(&covered, from).is_some_and(|l| to <= l);
        let room = (MAX_RECORDS - records.len()) / 2;
        for keep_false in [true, false] {
            let mut spans = Vec::new();
            for _ in 0..room {
                let from = random.below(records.len() + 1);
                let span = (from, from + random.below(records.len() + 1 - from));
                if keep_false || !is_false(span) {
                    spans.push(span);
                }
            }
            let verdict = archives.compare_records(&with_empty_removes(&records, &spans));
            let any_false = spans.iter().any(|&span| is_false(span));
            assert_eq!(verdict, if any_false { FALSE_EMPTY } else { ORDER });
        }
    }
    assert_eq!(archives.seen(), [60, 0, 0, 0, 0, 0, 60]);
}

/// Where the first uncovered gap of a true one lies: the search for its chain ends there.
#[derive(Clone, Copy)]
enum Uncovered {
    First,
    Middle,
    Last,
}

/// A true one that is called right before the record `from`, if there is one, and returns at most
/// `longer` gaps after the first that is uncovered.
fn true_span(
    covered: &[bool],
    from: usize,
    longer: usize,
    random: &mut Random,
) -> Option<(Span, Uncovered)> {
    let latest = latest_return(covered, from);
    let shortest = latest.map_or(from, |to| to + 1);
    let room = covered.len().checked_sub(shortest)?;
    let more = random.below(1 + room.min(longer));
    let uncovered = match (latest, more) {
        (None, _) => Uncovered::First,
        (Some(_), 0) => Uncovered::Last,
        (Some(_), _) => Uncovered::Middle,
    };
    Some(((from, shortest + more), uncovered))
}

#[test]
fn true_ones_that_are_called_before_a_false_one() {
    let mut random = Random::new(217);
    let mut archives = Archives::new();
    let mut ends = [0; 3];
    for records in [runs(Load::Even), runs(Load::Busy)].concat() {
        let covered = covered_gaps(&records);
        for _ in 0..16 {
            let from = random.below(records.len());
            let Some(latest) = latest_return(&covered, from) else {
                continue;
            };
            let mut spans = Vec::new();
            for _ in 0..1 + random.below(6) {
                // Most are called a little before the false one, and overlap it.
                let back = *random.pick(&[5, 20, records.len()]);
                let called = from - random.below(1 + from.min(back));
                if let Some((span, end)) = true_span(&covered, called, 10, &mut random) {
                    spans.push(span);
                    ends[end as usize] += 1;
                }
            }
            let returned = from + random.below(latest + 1 - from);
            spans.push((from, returned));
            let verdict = archives.compare_records(&with_empty_removes(&records, &spans));
            assert_eq!(verdict, FALSE_EMPTY, "{spans:?}");
        }
    }
    archives.assert_at_least([0, 0, 0, 0, 0, 0, 1400]);
    assert!(ends.iter().all(|&end| end >= 500), "{ends:?}");
}
