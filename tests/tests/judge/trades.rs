//! The trades that change 3 of document 02 allows: two neighbouring records change places whole but
//! for their ticks. "Two neighbours of one tick and different clients may now trade places, a call
//! with a return included. Two calls of different ticks may trade only if no return has either tick,
//! and two returns only if no call has." The traded log is readable and its sheet has the same verdict
//! byte, also if one of its removes is open. Where a condition is not met, some verdict changes.

use std::collections::BTreeMap;

use yauponroof_tests::compare::archive::{verdict_of, Archives};
use yauponroof_tests::library::check;
use yauponroof_tests::library::outcomes::judged;
use yauponroof_tests::logs::changes::{
    a_return_sooner, an_outcome_changed, outcomes_exchanged, with_ticks_of, Change,
};
use yauponroof_tests::logs::enumerate::{
    every_log, every_log_of_paired_operations, every_log_of_paired_operations_with_pending_remove,
    every_log_with_joined_ticks, every_log_with_pending_remove, random_log,
    random_log_of_paired_operations, random_log_of_paired_operations_with_pending_remove,
    random_log_with_pending_remove,
};
use yauponroof_tests::logs::insertion::with_empty_removes;
use yauponroof_tests::logs::notation::run_in_batches;
use yauponroof_tests::logs::simulation::{simulate_load, Clients, Load, Run};
use yauponroof_tests::logs::ticks::{every_joining, in_batches};
use yauponroof_tests::model::reader;
use yauponroof_tests::model::record::Record;
use yauponroof_tests::model::writer::log;
use yauponroof_tests::random::Random;
use yauponroof_tests::Answer;

/// Whether the record with that index may trade places with the one before it.
fn may_trade(records: &[Record], at: usize) -> bool {
    let (one, other) = (records[at - 1], records[at]);
    if one.tick == other.tick {
        return one.client != other.client;
    }
    let of_either_tick = |r: &&Record| r.tick == one.tick || r.tick == other.tick;
    let mut beside = records.iter().filter(of_either_tick);
    match (one.event.is_call(), other.event.is_call()) {
        (true, true) => beside.all(|record| record.event.is_call()),
        (false, false) => !beside.any(|record| record.event.is_call()),
        _ => false,
    }
}

/// The records with the one of that index in the place of the one before it, and that one in its own.
/// Each place keeps its tick.
fn traded_at(records: &[Record], at: usize) -> Vec<Record> {
    let mut traded = records.to_vec();
    traded.swap(at - 1, at);
    with_ticks_of(records, traded)
}

/// Every log that one trade makes of these records.
fn traded(records: &[Record]) -> impl Iterator<Item = Vec<Record>> + '_ {
    let places = (1..records.len()).filter(|&at| may_trade(records, at));
    places.map(|at| traded_at(records, at))
}

fn verdict(log: &[u8]) -> u8 {
    judged(log).expect("a sheet")[1]
}

/// How many trades were made, by the verdict of the log.
#[derive(Default)]
struct Trades {
    made: [u64; 7],
}

impl Trades {
    fn compare(&mut self, records: &[Record]) {
        let before = log(records);
        let expected = verdict(&before);
        for traded in traded(records) {
            let after = log(&traded);
            assert!(reader::read(&after).is_ok(), "{traded:?}");
            assert_eq!(after.len(), before.len());
            assert_eq!(verdict(&after), expected, "{records:?} and {traded:?}");
            self.made[usize::from(expected)] += 1;
        }
    }

    /// Asserts that so many trades at least were made in logs of each verdict.
    fn assert_at_least(&self, floors: [u64; 7]) {
        let mut pairs = self.made.iter().zip(floors);
        let enough = pairs.all(|(made, floor)| *made >= floor);
        assert!(enough, "made: {:?}, not {floors:?}", self.made);
    }
}

#[test]
fn which_neighbours_trade() {
    let places = |text| -> Vec<usize> {
        let records = run_in_batches(text);
        (1..records.len())
            .filter(|&at| may_trade(&records, at))
            .collect()
    };
    // Two calls, two returns, and a call with a return, apart and within a tick.
    assert_eq!(places("A1( | R( | A1) | R1) | Ra( | Ra-)"), [1, 3]);
    assert_eq!(places("A1( R( | A1) R1) Ra( | Ra-)"), [1, 3, 4]);
    // A return has the tick of one of the calls, or a call that of one of the returns.
    assert_eq!(places("A1( | A1) A2( | A3("), [2]);
    assert_eq!(places("A1( | A2( A1)"), [2]);
    assert_eq!(places("A1( A2( | A1) | A2) A3("), [1, 4]);
    assert_eq!(places("A1( A2( A1) | A2)"), [1, 2]);
    // The call and the return of one operation.
    assert_eq!(places("A1( A1)"), [0; 0]);
}

#[test]
fn each_place_keeps_its_tick() {
    let records = run_in_batches("A1( R( | A1) R1) Ra( | Ra-)");
    let logs: Vec<Vec<Record>> = traded(&records).collect();
    let clients = |records: &[Record]| -> Vec<u16> { records.iter().map(|r| r.client).collect() };
    let ticks = |records: &[Record]| -> Vec<u32> { records.iter().map(|r| r.tick).collect() };
    assert_eq!(clients(&logs[0]), [2, 1, 1, 2, 3, 3]);
    assert_eq!(clients(&logs[1]), [1, 2, 2, 1, 3, 3]);
    assert_eq!(clients(&logs[2]), [1, 2, 1, 3, 2, 3]);
    assert!(logs.iter().all(|traded| ticks(traded) == ticks(&records)));
}

#[test]
fn every_trade_in_every_log_of_up_to_seven_records_with_rising_ticks() {
    let mut trades = Trades::default();
    every_log(7, &mut |records| trades.compare(records));
    let made = [41_757, 72_615, 13_814, 26_664, 3176, 24, 2676];
    assert_eq!(trades.made, made);
}

#[test]
fn every_trade_in_every_log_of_up_to_six_records_with_ticks_joined_in_every_way() {
    let mut trades = Trades::default();
    every_log_with_joined_ticks(6, &mut |records| {
        if let Answer::Accepted(_) = check(&log(records)) {
            trades.compare(records);
        }
    });
    let made = [140_041, 149_200, 21_598, 39_572, 5102, 0, 3776];
    assert_eq!(trades.made, made);
}

#[test]
fn every_trade_in_every_log_of_up_to_four_paired_operations() {
    let mut trades = Trades::default();
    every_log_of_paired_operations(8, &mut |records| trades.compare(records));
    let made = [24_688, 0, 0, 0, 1532, 32, 2660];
    assert_eq!(trades.made, made);
    // Up to three of them with ticks joined in every way.
    let mut trades = Trades::default();
    every_log_of_paired_operations(6, &mut |records| {
        every_joining(records, &mut |joined| trades.compare(joined));
    });
    assert_eq!(trades.made, [23_444, 0, 0, 0, 280, 0, 784]);
}

#[test]
fn every_trade_in_every_log_of_up_to_seven_records_with_an_open_remove() {
    let mut trades = Trades::default();
    every_log_with_pending_remove(7, &mut |records| trades.compare(records));
    let made = [64_770, 76_858, 10_948, 28_538, 648, 0, 1170];
    assert_eq!(trades.made, made);
}

#[test]
fn every_trade_in_every_log_of_up_to_six_records_with_an_open_remove_and_ticks_joined() {
    let mut trades = Trades::default();
    every_log_with_pending_remove(6, &mut |records| {
        every_joining(records, &mut |joined| {
            if let Answer::Accepted(_) = check(&log(joined)) {
                trades.compare(joined);
            }
        });
    });
    let made = [188_586, 142_713, 15_620, 38_570, 390, 0, 400];
    assert_eq!(trades.made, made);
}

#[test]
fn every_trade_in_every_log_of_paired_operations_with_an_open_remove() {
    let mut trades = Trades::default();
    every_log_of_paired_operations_with_pending_remove(9, &mut |records| trades.compare(records));
    let made = [271_542, 0, 0, 0, 3988, 392, 9506];
    assert_eq!(trades.made, made);
    // Up to three of them and the open remove with ticks joined in every way.
    let mut trades = Trades::default();
    every_log_of_paired_operations_with_pending_remove(7, &mut |records| {
        every_joining(records, &mut |joined| trades.compare(joined));
    });
    assert_eq!(trades.made, [422_848, 0, 0, 0, 490, 0, 3190]);
}

/// Asserts that this trade changes the verdict from one to another.
fn assert_changes(text: &str, at: usize, before: u8, after: u8) {
    let records = run_in_batches(text);
    assert!(!may_trade(&records, at), "{text}");
    assert_eq!(verdict_of(&records).0, before, "{text}");
    assert_eq!(verdict_of(&traded_at(&records, at)).0, after, "{text}");
}

#[test]
fn two_calls_do_not_trade_over_a_return_of_one_of_their_ticks() {
    // Add 0 precedes add 2 alone, and 3 is not removed. Traded, it precedes the add of 2.
    assert_changes("A1( | A1) A2( | A3( A2) A3) | R( R2)", 3, 0, 4);
    assert_changes("R( | R2) A1( | A2( A2) A1)", 3, 3, 0);
    // No return has either tick.
    let apart = run_in_batches("A1( | A1) | A2( | A3( | A2) A3) | R( R2)");
    assert!(may_trade(&apart, 3));
}

#[test]
fn two_returns_do_not_trade_over_a_call_of_one_of_their_ticks() {
    // Add 0 precedes add 2, and add 1 does not. Traded, it does, and 2 is never removed.
    let text = "A1( A2( | A1) | A2) A3( A3) | Ra( Ra1) | Rb( Rb3)";
    assert_changes(text, 3, 0, 4);
    // The empty remove precedes the add, and then the other one does, which takes its value.
    assert_changes("Ra( Rb( | Ra-) | Rb1) A1( A1)", 3, 0, 3);
    let apart = run_in_batches("A1( A2( | A1) | A2) | A3( A3) | Ra( Ra1) | Rb( Rb3)");
    assert!(may_trade(&apart, 3));
}

#[test]
fn a_call_does_not_trade_with_a_return_of_another_tick() {
    assert_changes("A1( | A1) | A2( A2) | R( R2)", 2, 4, 0);
    assert_changes("A1( | A2( | A1) | A2) | R( R2)", 2, 0, 4);
    assert_changes("A1( | A1) | R( | R-)", 2, 6, 0);
    // Within a tick they trade.
    let joined = run_in_batches("A1( | A1) A2( A2) | R( R2)");
    assert!(may_trade(&joined, 2));
}

/// Neighbours of one client: what they would make is refused, whatever their ticks are.
#[test]
fn records_of_one_client_do_not_trade() {
    // By the number of the refusal.
    let mut refused = BTreeMap::new();
    every_log_with_joined_ticks(5, &mut |records| {
        if !matches!(check(&log(records)), Answer::Accepted(_)) {
            return;
        }
        for at in (1..records.len()).filter(|&at| records[at - 1].client == records[at].client) {
            assert!(!may_trade(records, at), "{records:?}");
            let number = check(&log(&traded_at(records, at))).number();
            *refused.entry(number).or_insert(0) += 1;
        }
    });
    assert_eq!(refused, BTreeMap::from([(7, 2076), (8, 8444)]));
}

#[test]
fn every_trade_in_logs_by_chance() {
    let mut random = Random::new(94);
    let mut trades = Trades::default();
    for round in 0..4000 {
        let least = random.below(24);
        let any = random_log(least, &mut random);
        let count = 3 + random.below(10);
        let paired = random_log_of_paired_operations(count, &mut random);
        for records in [any, paired] {
            trades.compare(&records);
            let about = 2 + round % 5;
            trades.compare(&in_batches(&records, about, &mut random));
        }
    }
    trades.assert_at_least([35_000, 11_000, 17_000, 4500, 13_000, 2000, 7500]);
}

#[test]
fn every_trade_in_logs_by_chance_with_an_open_remove() {
    let mut random = Random::new(246);
    let mut trades = Trades::default();
    for round in 0..4000 {
        let least = random.below(24);
        let any = random_log_with_pending_remove(least, &mut random);
        let count = 3 + random.below(10);
        let paired = random_log_of_paired_operations_with_pending_remove(count, &mut random);
        for records in [any, paired] {
            trades.compare(&records);
            let about = 2 + round % 5;
            trades.compare(&in_batches(&records, about, &mut random));
        }
    }
    trades.assert_at_least([40_000, 7000, 15_000, 7000, 9500, 1500, 5500]);
}

/// An empty remove is put in, short enough to be false now and then.
fn an_empty_remove_put_in(run: &Run, random: &mut Random) -> Option<Vec<Record>> {
    let from = random.below(run.records.len());
    let to = run.records.len().min(from + random.below(8));
    Some(with_empty_removes(&run.records, &[(from, to)]))
}

/// A simulated run of one of these sizes with some open adds, changed in one place.
fn changed_run(sizes: &[usize], seed: u64, random: &mut Random) -> Run {
    let changes: [Change; 4] = [
        a_return_sooner,
        outcomes_exchanged,
        an_outcome_changed,
        an_empty_remove_put_in,
    ];
    let load = *random.pick(&[Load::Even, Load::Busy]);
    let n = *random.pick(sizes);
    let workers = *random.pick(&[3, 8, 64]);
    let run = simulate_load(load, workers, Clients::Reused, n, seed);
    let run = run.with_pending_adds(5, random);
    match random.pick(&changes)(&run, random) {
        Some(records) => Run { records, ..run },
        None => run,
    }
}

/// Makes ten trades, one after the other. All logs have one verdict.
fn compare_trade_after_trade(
    mut records: Vec<Record>,
    archives: &mut Archives,
    random: &mut Random,
) {
    let expected = archives.compare_records(&records);
    for _ in 0..10 {
        records = random.pick_from(traded(&records)).expect("a trade");
        assert_eq!(archives.compare_records(&records), expected, "{records:?}");
    }
}

#[test]
fn trade_after_trade_in_long_logs() {
    let mut random = Random::new(95);
    let mut archives = Archives::new();
    for round in 0..60 {
        let mut records = changed_run(&[60, 300, 1020], round, &mut random).records;
        if round % 2 == 1 {
            records = in_batches(&records, 4, &mut random);
        }
        compare_trade_after_trade(records, &mut archives, &mut random);
    }
    archives.assert_at_least([200, 50, 5, 50, 20, 30, 70]);
}

#[test]
fn trade_after_trade_in_longer_logs_with_an_open_remove() {
    let mut random = Random::new(247);
    let mut archives = Archives::new();
    for round in 0..60 {
        let run = changed_run(&[60, 120, 300], round, &mut random);
        let mut records = run.with_pending_remove(&mut random).records;
        if round % 2 == 1 {
            records = in_batches(&records, 4, &mut random);
        }
        compare_trade_after_trade(records, &mut archives, &mut random);
    }
    archives.assert_at_least([200, 20, 5, 50, 20, 0, 10]);
}
