//! Simulated runs with the order in which their operations took effect, and that order spoilt in
//! one place. The answer is never taken for granted: some spoilt orders are legal, and each kind of
//! spoiling has its own count of yes and no.

use yauponroof_tests::compare::replay::Replays;
use yauponroof_tests::compare::spoilt::{compare_spoilt, Way};
use yauponroof_tests::logs::simulation::{
    runs_of_all_sizes, runs_with_clients_apart, runs_with_shared_slots, Run,
};
use yauponroof_tests::model::history::{is_removed, operations, Action, Operation};
use yauponroof_tests::model::record::Removed;
use yauponroof_tests::model::sheet::sheet;
use yauponroof_tests::model::writer::log;
use yauponroof_tests::random::Random;
use yauponroof_tests::YES;

/// A legal order with what is known of its log.
struct Sample {
    log: Vec<u8>,
    operations: Vec<Operation>,
    order: Vec<u16>,
}

impl Sample {
    fn new(run: &Run) -> Sample {
        Sample {
            log: log(&run.records),
            operations: operations(&run.records),
            order: run.order.clone(),
        }
    }

    /// The same with the order that the judge would list: it has a pending add exactly if its value
    /// was removed.
    fn as_judged(&self) -> Sample {
        let listed = |&&number: &&u16| !self.is_pending_add(number) || self.is_removed(number);
        Sample {
            log: self.log.clone(),
            operations: self.operations.clone(),
            order: self.order.iter().filter(listed).copied().collect(),
        }
    }

    fn operation(&self, number: u16) -> &Operation {
        &self.operations[usize::from(number)]
    }

    fn is_pending_add(&self, number: u16) -> bool {
        let operation = self.operation(number);
        matches!(operation.action, Action::Add(_)) && operation.returned.is_none()
    }

    fn is_pending_remove(&self, number: u16) -> bool {
        self.operation(number).action == Action::PendingRemove
    }

    /// Whether some remove returned what this operation adds.
    fn is_removed(&self, number: u16) -> bool {
        let Action::Add(value) = self.operation(number).action else {
            return false;
        };
        is_removed(&self.operations, value)
    }

    /// A place in the order whose operation is such a one, if there is one.
    fn place_of(&self, random: &mut Random, such: impl Fn(u16) -> bool) -> Option<usize> {
        random.pick_from((0..self.order.len()).filter(|&place| such(self.order[place])))
    }
}

/// A place from 0 to `last`, in half of the cases at most 4 away from `near`.
fn place_near(near: usize, last: usize, random: &mut Random) -> usize {
    match random.below(2) {
        0 => random.below(last + 1),
        _ => (near + random.below(9)).saturating_sub(4).min(last),
    }
}

/// Takes the operation at one place and puts it at another.
fn moved(order: &[u16], from: usize, random: &mut Random) -> Vec<u16> {
    let mut order = order.to_vec();
    let number = order.remove(from);
    order.insert(place_near(from, order.len(), random), number);
    order
}

fn neighbours_exchanged(sample: &Sample, random: &mut Random) -> Option<Vec<u16>> {
    let mut order = sample.order.clone();
    let second = random.pick_from(1..order.len())?;
    order.swap(second - 1, second);
    Some(order)
}

fn two_exchanged(sample: &Sample, random: &mut Random) -> Option<Vec<u16>> {
    let mut order = sample.order.clone();
    let one = sample.place_of(random, |_| true)?;
    let other = place_near(one, order.len() - 1, random);
    order.swap(one, other);
    Some(order)
}

fn one_moved(sample: &Sample, random: &mut Random) -> Option<Vec<u16>> {
    let from = sample.place_of(random, |_| true)?;
    Some(moved(&sample.order, from, random))
}

fn an_empty_remove_moved(sample: &Sample, random: &mut Random) -> Option<Vec<u16>> {
    let is_empty = |number| sample.operation(number).action == Action::Remove(Removed::Empty);
    let from = sample.place_of(random, is_empty)?;
    Some(moved(&sample.order, from, random))
}

fn a_pending_add_moved(sample: &Sample, random: &mut Random) -> Option<Vec<u16>> {
    let from = sample.place_of(random, |number| sample.is_pending_add(number))?;
    Some(moved(&sample.order, from, random))
}

fn one_repeated(sample: &Sample, random: &mut Random) -> Option<Vec<u16>> {
    let mut order = sample.order.clone();
    let from = sample.place_of(random, |_| true)?;
    order.insert(place_near(from, order.len(), random), sample.order[from]);
    Some(order)
}

fn one_in_place_of_another(sample: &Sample, random: &mut Random) -> Option<Vec<u16>> {
    let mut order = sample.order.clone();
    let from = sample.place_of(random, |_| true)?;
    let to = place_near(from, order.len() - 1, random);
    order[to] = order[from];
    (to != from).then_some(order)
}

fn one_left_out(sample: &Sample, random: &mut Random) -> Option<Vec<u16>> {
    let mut order = sample.order.clone();
    order.remove(sample.place_of(random, |_| true)?);
    Some(order)
}

fn a_pending_add_left_out(sample: &Sample, random: &mut Random) -> Option<Vec<u16>> {
    let mut order = sample.order.clone();
    order.remove(sample.place_of(random, |number| sample.is_pending_add(number))?);
    Some(order)
}

fn a_pending_add_listed(sample: &Sample, random: &mut Random) -> Option<Vec<u16>> {
    let mut order = sample.order.clone();
    let numbers = 0..sample.operations.len() as u16;
    let unlisted = random.pick_from(numbers.filter(|number| !order.contains(number)))?;
    order.insert(place_near(order.len(), order.len(), random), unlisted);
    Some(order)
}

fn a_number_that_the_log_lacks(sample: &Sample, random: &mut Random) -> Option<Vec<u16>> {
    let mut order = sample.order.clone();
    let count = sample.operations.len() as u16;
    let lacking = [count, count + 1, count | 0x8000, 1024, 65_535];
    let place = place_near(order.len(), order.len(), random);
    order.insert(place, *random.pick(&lacking));
    Some(order)
}

fn the_pending_remove_moved(sample: &Sample, random: &mut Random) -> Option<Vec<u16>> {
    let from = sample.place_of(random, |number| sample.is_pending_remove(number))?;
    Some(moved(&sample.order, from, random))
}

fn the_pending_remove_left_out(sample: &Sample, random: &mut Random) -> Option<Vec<u16>> {
    let mut order = sample.order.clone();
    order.remove(sample.place_of(random, |number| sample.is_pending_remove(number))?);
    Some(order)
}

fn the_pending_remove_repeated(sample: &Sample, random: &mut Random) -> Option<Vec<u16>> {
    let mut order = sample.order.clone();
    let from = sample.place_of(random, |number| sample.is_pending_remove(number))?;
    order.insert(place_near(from, order.len(), random), sample.order[from]);
    Some(order)
}

/// Each way to spoil an order, and how often at least it gives yes and no.
const WAYS: [Way<Sample, Vec<u16>>; 11] = [
    Way::new("neighbours exchanged", neighbours_exchanged, 500, 1000),
    Way::new("two exchanged", two_exchanged, 250, 1500),
    Way::new("one moved", one_moved, 250, 1500),
    Way::new("an empty remove moved", an_empty_remove_moved, 250, 1000),
    Way::new("a pending add moved", a_pending_add_moved, 150, 800),
    Way::new("one repeated", one_repeated, 0, 2000),
    Way::new("one in place of another", one_in_place_of_another, 0, 1800),
    Way::new("one left out", one_left_out, 20, 2000),
    Way::new("a pending add left out", a_pending_add_left_out, 80, 1000),
    Way::new("a pending add listed", a_pending_add_listed, 150, 150),
    Way::new(
        "a number that the log lacks",
        a_number_that_the_log_lacks,
        0,
        2000,
    ),
];

/// The runs with the order in which all operations took effect, and with the judge's order.
fn samples(runs: &[Run]) -> Vec<Sample> {
    let mut samples: Vec<Sample> = runs.iter().map(Sample::new).collect();
    let judged: Vec<Sample> = samples.iter().map(Sample::as_judged).collect();
    samples.extend(judged);
    samples
}

#[test]
fn the_order_in_which_operations_took_effect_is_legal() {
    let mut replays = Replays::new();
    for runs in [
        runs_of_all_sizes(),
        runs_with_clients_apart(),
        runs_with_shared_slots(),
    ] {
        for sample in samples(&runs) {
            let answer = replays.compare(&sample.log, &sheet(&sample.order));
            assert_eq!(answer, YES);
        }
    }
    replays.assert_answered(720, 0);
}

fn compare_spoilt_orders(runs: &[Run]) {
    compare_spoilt(&samples(runs), &WAYS, |sample, order| {
        (sample.log.clone(), sheet(order))
    });
}

#[test]
fn orders_spoilt_in_one_place() {
    compare_spoilt_orders(&runs_of_all_sizes());
}

#[test]
fn orders_spoilt_in_one_place_with_clients_apart() {
    compare_spoilt_orders(&runs_with_clients_apart());
}

/// The ways to spoil an order of a log with an open remove.
const WAYS_WITH_PENDING_REMOVE: [Way<Sample, Vec<u16>>; 6] = [
    Way::new("neighbours exchanged", neighbours_exchanged, 400, 650),
    Way::new("one moved", one_moved, 150, 800),
    Way::new("one left out", one_left_out, 10, 900),
    Way::new("pending remove moved", the_pending_remove_moved, 100, 500),
    Way::new(
        "pending remove left out",
        the_pending_remove_left_out,
        50,
        500,
    ),
    Way::new(
        "pending remove repeated",
        the_pending_remove_repeated,
        0,
        1000,
    ),
];

/// The runs without the return of one remove, each.
fn with_pending_remove(runs: &[Run]) -> Vec<Run> {
    let mut random = Random::new(254);
    let lost = runs.iter().map(|run| run.with_pending_remove(&mut random));
    lost.collect()
}

#[test]
fn orders_of_logs_with_an_open_remove_spoilt_in_one_place() {
    let runs = with_pending_remove(&runs_of_all_sizes());
    let samples: Vec<Sample> = runs.iter().map(Sample::new).collect();
    let mut replays = Replays::new();
    for sample in &samples {
        let answer = replays.compare(&sample.log, &sheet(&sample.order));
        assert_eq!(answer, YES);
    }
    replays.assert_answered(120, 0);
    compare_spoilt(&samples, &WAYS_WITH_PENDING_REMOVE, |sample, order| {
        (sample.log.clone(), sheet(order))
    });
}
