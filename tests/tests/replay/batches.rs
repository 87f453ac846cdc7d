//! Precedence by ticks, on logs whose records come in batches of one tick each: within a tick nothing
//! precedes anything, wherever the records stand.

use yauponroof_tests::compare::every_order::compare_every_list;
use yauponroof_tests::compare::replay::Replays;
use yauponroof_tests::compare::spoilt::{compare_spoilt, Way};
use yauponroof_tests::logs::notation::run_in_batches;
use yauponroof_tests::logs::samples::{calls_then_returns, pending_adds};
use yauponroof_tests::logs::simulation::{runs_in_batches, Run};
use yauponroof_tests::logs::ticks::at_one_tick;
use yauponroof_tests::model::reader::MAX_RECORDS;
use yauponroof_tests::model::record::{call_remove, return_empty, Record};
use yauponroof_tests::model::sheet::sheet;
use yauponroof_tests::model::writer::log;
use yauponroof_tests::random::Random;
use yauponroof_tests::YES;

/// All orders of the run in batches that replay says yes to, lowest first.
fn legal_orders(text: &str) -> Vec<Vec<u16>> {
    let orders = compare_every_list(&run_in_batches(text), &mut Replays::new());
    orders.into_iter().collect()
}

#[test]
fn operations_of_one_tick_may_come_in_either_order() {
    let both = [[0, 1], [1, 0]];
    assert_eq!(legal_orders("A1( A1) | A2( A2)"), [[0, 1]]);
    assert_eq!(legal_orders("A1( A1) A2( A2)"), both);
    assert_eq!(legal_orders("A1( | A1) A2( | A2)"), both);
    assert_eq!(legal_orders("A1( | A1) | A2( | A2)"), [[0, 1]]);
    assert_eq!(legal_orders("R( R-) R( R-)"), both);
    assert_eq!(legal_orders("R( R7) A7( A7)"), [[1, 0]]);
    assert!(legal_orders("R( R7) | A7( A7)").is_empty());
    // The first precedes the last alone.
    let three = legal_orders("Ra( | Ra-) Rb( | Rc( Rc-) Rb-)");
    assert_eq!(three, [[0, 1, 2], [0, 2, 1], [1, 0, 2]]);
}

#[test]
fn a_pending_add_stands_before_what_returns_at_its_tick() {
    let orders = legal_orders("A1( A1) A2(");
    assert_eq!(orders, [vec![0], vec![0, 1], vec![1, 0]]);
    let later = legal_orders("A1( A1) | A2(");
    assert_eq!(later, [vec![0], vec![0, 1]]);
}

/// Empty removes, so many called at each tick, each of which returns so many ticks later. Within a
/// tick the returns stand first. So operation i precedes j exactly if j is called more than that many
/// ticks after i.
struct Stairs {
    records: Vec<Record>,
    count: usize,
    at_once: usize,
    ticks: usize,
}

impl Stairs {
    fn new(count: usize, at_once: usize, ticks: usize) -> Stairs {
        let mut records = Vec::new();
        let last_tick = (count - 1) / at_once + ticks;
        for tick in 0..=last_tick {
            let called_at = |o: &usize| o / at_once == tick;
            let returned_at = |o: &usize| o / at_once + ticks == tick;
            let returns = (0..count).filter(returned_at);
            let calls = (0..count).filter(called_at);
            let returned = |o| return_empty(o as u16, tick as u32);
            let called = |o| call_remove(o as u16, tick as u32);
            match ticks {
                0 => records.extend(calls.flat_map(|o| [called(o), returned(o)])),
                _ => records.extend(returns.map(returned).chain(calls.map(called))),
            }
        }
        Stairs {
            records,
            count,
            at_once,
            ticks,
        }
    }

    fn precedes(&self, o: usize, p: usize) -> bool {
        o / self.at_once + self.ticks < p / self.at_once
    }

    /// Exchanges two operations in the order of the calls: legal exactly if the first does not precede
    /// the second.
    fn compare_exchange(&self, first: usize, second: usize, replays: &mut Replays) {
        let mut order: Vec<u16> = (0..self.count as u16).collect();
        order.swap(first, second);
        let answer = replays.compare(&log(&self.records), &sheet(&order));
        let legal = !self.precedes(first, second);
        assert_eq!(answer == YES, legal, "{first} and {second} exchanged");
    }
}

#[test]
fn each_two_operations_exchanged() {
    let mut replays = Replays::new();
    for (at_once, ticks) in [(1, 0), (3, 0), (8, 0), (1, 1), (3, 1), (5, 2), (24, 1)] {
        let stairs = Stairs::new(24, at_once, ticks);
        for second in 1..stairs.count {
            (0..second).for_each(|first| stairs.compare_exchange(first, second, &mut replays));
        }
    }
    replays.assert_answered(600, 900);
}

#[test]
fn long_logs_with_two_operations_exchanged() {
    let mut replays = Replays::new();
    for (at_once, ticks) in [
        (2, 0),
        (64, 0),
        (256, 0),
        (1, 3),
        (64, 1),
        (300, 1),
        (512, 0),
    ] {
        let stairs = Stairs::new(MAX_RECORDS / 2, at_once, ticks);
        assert_eq!(stairs.records.len(), MAX_RECORDS);
        let mut random = Random::new(229);
        for _ in 0..60 {
            let first = random.below(stairs.count - 1);
            let far = 1 + random.below(stairs.count - 1 - first);
            for distance in [1, far.min(at_once), far] {
                stairs.compare_exchange(first, first + distance, &mut replays);
            }
        }
    }
    replays.assert_answered(600, 300);
}

/// With all records of one tick every order is legal that the queue agrees with.
#[test]
fn the_most_records_of_one_tick_in_any_order() {
    let mut random = Random::new(230);
    let mut replays = Replays::new();
    let calls = log(&at_one_tick(&calls_then_returns(MAX_RECORDS), 5));
    let pending = log(&at_one_tick(&pending_adds(MAX_RECORDS), u32::MAX));
    for _ in 0..10 {
        // Each add and then the remove of its value.
        let mut adds: Vec<u16> = (0..512).step_by(2).collect();
        random.shuffle(&mut adds);
        let pairs: Vec<u16> = adds.iter().flat_map(|&add| [add, add + 1]).collect();
        assert_eq!(replays.compare(&calls, &sheet(&pairs)), YES);
        let mut all: Vec<u16> = (0..1024).collect();
        random.shuffle(&mut all);
        assert_eq!(replays.compare(&pending, &sheet(&all)), YES);
    }
    replays.assert_answered(20, 0);
}

/// The order of a run stays legal in batches.
#[test]
fn runs_of_a_queue() {
    let mut replays = Replays::new();
    for run in runs_in_batches() {
        assert_eq!(replays.compare(&log(&run.records), &sheet(&run.order)), YES);
    }
    replays.assert_answered(120, 0);
}

fn neighbours_exchanged(run: &Run, random: &mut Random) -> Option<Vec<u16>> {
    let mut order = run.order.clone();
    let second = random.pick_from(1..order.len())?;
    order.swap(second - 1, second);
    Some(order)
}

fn near_ones_exchanged(run: &Run, random: &mut Random) -> Option<Vec<u16>> {
    let mut order = run.order.clone();
    let first = random.pick_from(0..order.len())?;
    let second = (first + 2 + random.below(6)).min(order.len() - 1);
    order.swap(first, second);
    Some(order)
}

const WAYS: [Way<Run, Vec<u16>>; 2] = [
    Way::new("neighbours exchanged", neighbours_exchanged, 450, 600),
    Way::new("near ones exchanged", near_ones_exchanged, 100, 900),
];

#[test]
fn runs_of_a_queue_with_operations_exchanged() {
    compare_spoilt(&runs_in_batches(), &WAYS, |run, order| {
        (log(&run.records), sheet(order))
    });
}
