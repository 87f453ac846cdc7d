//! Sound logs, damaged in every place, held against the model's reader: by check, and by all
//! other entries, which refuse the same logs and then write nothing. What they answer to logs that
//! stay readable is compared as well, for some of these.

use yauponroof_tests::compare::reading::Tally;
use yauponroof_tests::logs::damage::telling_values;
use yauponroof_tests::logs::insertion::with_pending_remove;
use yauponroof_tests::logs::notation::run;
use yauponroof_tests::logs::samples::{calls_then_returns, pending_adds, RUNS};
use yauponroof_tests::logs::simulation::{simulate, Clients};
use yauponroof_tests::logs::ticks::in_batches;
use yauponroof_tests::model::reader::HEADER;
use yauponroof_tests::model::record::{
    call_add, call_remove, return_add, return_empty, return_value, Event, Record,
};
use yauponroof_tests::model::writer::{log, record_bytes};
use yauponroof_tests::random::Random;

/// Two clients, one of which makes three operations; equal ticks; the values 0 and 4,294,967,295;
/// an add that does not return.
fn clients_used_again() -> Vec<Record> {
    vec![
        call_add(1, 5, 0),
        return_add(1, 5),
        call_remove(1, 6),
        call_add(2, 256, u32::MAX),
        return_value(1, 257, 0),
        call_remove(1, u32::MAX),
        return_empty(1, u32::MAX),
    ]
}

/// Document 01's runs, some with an open remove, one by hand and simulated ones, some in batches, of
/// at most 14 records.
fn short_logs() -> Vec<Vec<Record>> {
    let mut logs: Vec<Vec<Record>> = RUNS.iter().map(|(text, ..)| run(text)).collect();
    logs.push(run("A1( A1) A2( A2) Ro( R( R2)"));
    logs.push(run("Ro( A1( A1) R( R-) Ra( Ra1)"));
    logs.push(run("A1( A2( A1) Ra( Rb( A2) Rb1) Ro( Ra2) R( R-)"));
    logs.push(with_pending_remove(
        &simulate(3, Clients::OnePerOperation, 12, 2),
        5,
    ));
    logs.push(clients_used_again());
    let mut random = Random::new(222);
    for seed in 0..2 {
        for records in [
            simulate(2, Clients::Reused, 14, seed),
            simulate(3, Clients::OnePerOperation, 10, seed),
        ] {
            logs.push(in_batches(&records, 3, &mut random));
            logs.push(records);
        }
    }
    logs
}

/// Logs of some hundred records, one of them with an open remove.
fn medium_logs() -> Vec<Vec<Record>> {
    vec![
        simulate(2, Clients::Reused, 200, 11),
        with_pending_remove(&simulate(8, Clients::OnePerOperation, 200, 15), 60),
        in_batches(
            &simulate(8, Clients::Reused, 200, 12),
            6,
            &mut Random::new(223),
        ),
        simulate(64, Clients::Reused, 256, 13),
        simulate(8, Clients::OnePerOperation, 200, 14),
        pending_adds(100),
        calls_then_returns(200),
    ]
}

/// Logs of the most records, one of them with an open remove.
fn long_logs() -> Vec<Vec<Record>> {
    vec![
        simulate(64, Clients::OnePerOperation, 1024, 22),
        with_pending_remove(&simulate(8, Clients::OnePerOperation, 1022, 23), 500),
        in_batches(
            &simulate(8, Clients::Reused, 1024, 21),
            6,
            &mut Random::new(224),
        ),
    ]
}

/// The log, every beginning of it, and the log with a byte appended.
fn compare_lengths(records: &[Record], tally: &mut Tally) {
    let mut bytes = log(records);
    for length in 0..=bytes.len() {
        tally.compare(&bytes[..length]);
    }
    for left in [0, 1, 7, 11, 255] {
        bytes.push(left);
        tally.compare(&bytes);
        bytes.pop();
    }
}

/// Changes each byte of the log to each of the values that `values` names for it.
fn compare_changes<V>(records: &[Record], values: impl Fn(u8) -> V, tally: &mut Tally)
where
    V: IntoIterator<Item = u8>,
{
    let mut bytes = log(records);
    for at in 0..bytes.len() {
        let sound = bytes[at];
        for changed in values(sound) {
            bytes[at] = changed;
            tally.compare(&bytes);
        }
        bytes[at] = sound;
    }
}

fn all_values(_sound: u8) -> impl Iterator<Item = u8> {
    0..=u8::MAX
}

fn few_values(sound: u8) -> [u8; 3] {
    [sound.wrapping_sub(1), sound ^ 1, 255]
}

/// Exchanges each two neighbouring records, once with their ticks and once without.
fn compare_exchanges(records: &[Record], tally: &mut Tally) {
    for at in 1..records.len() {
        let mut exchanged = records.to_vec();
        exchanged.swap(at - 1, at);
        tally.compare(&log(&exchanged));
        exchanged[at - 1].tick = records[at - 1].tick;
        exchanged[at].tick = records[at].tick;
        tally.compare(&log(&exchanged));
    }
}

/// Leaves out each record, and doubles each, under an n that fits.
fn compare_lost_and_doubled(records: &[Record], tally: &mut Tally) {
    for at in 0..records.len() {
        let mut lost = records.to_vec();
        let record = lost.remove(at);
        tally.compare(&log(&lost));
        let mut doubled = records.to_vec();
        doubled.insert(at, record);
        tally.compare(&log(&doubled));
    }
}

/// Gives each record the client of each other one, then its event.
fn compare_mixed_up(records: &[Record], tally: &mut Tally) {
    for at in 0..records.len() {
        for other in 0..records.len() {
            let mut changed = records.to_vec();
            changed[at].client = records[other].client;
            tally.compare(&log(&changed));
            changed[at].client = records[at].client;
            changed[at].event = records[other].event;
            tally.compare(&log(&changed));
        }
    }
}

#[test]
fn short_logs_damaged_in_every_way() {
    let mut tally = Tally::of_all_entries();
    for records in short_logs() {
        compare_lengths(&records, &mut tally);
        compare_changes(&records, all_values, &mut tally);
        compare_exchanges(&records, &mut tally);
        compare_lost_and_doubled(&records, &mut tally);
        compare_mixed_up(&records, &mut tally);
    }
    tally.assert_at_least([
        60_000, 30_000, 4000, 4000, 30_000, 6000, 100_000, 600, 60_000, 80, 10,
    ]);
    tally.assert_seen(31, 30);
    let archives = tally.archives();
    archives.assert_at_least([10_000, 15_000, 300, 300, 600, 300, 900]);
    tally.pages().assert_at_least(&[(0, 25_000)]);
}

#[test]
fn medium_logs_damaged_at_every_byte() {
    let mut tally = Tally::of_all_entries();
    for records in medium_logs() {
        compare_lengths(&records, &mut tally);
        compare_changes(&records, telling_values, &mut tally);
        compare_exchanges(&records, &mut tally);
        compare_lost_and_doubled(&records, &mut tally);
    }
    tally.assert_at_least([
        25_000, 8000, 40, 25, 4000, 10_000, 30_000, 4000, 15_000, 300, 45,
    ]);
    tally.assert_seen(31, 80);
    let archives = tally.archives();
    archives.assert_at_least([1000, 1000, 0, 0, 0, 0, 0]);
    tally.pages().assert_at_least(&[(30, 2000)]);
}

#[test]
fn long_logs_cut_at_every_byte() {
    let mut tally = Tally::of_all_entries();
    for records in long_logs() {
        compare_lengths(&records, &mut tally);
    }
    tally.assert_at_least([2, 18_000, 0, 0, 0, 0, 0, 0, 0, 0, 0]);
}

#[test]
fn long_logs_changed_at_every_byte() {
    // By check alone, for the time it takes.
    let mut tally = Tally::new();
    for records in long_logs() {
        compare_changes(&records, few_values, &mut tally);
    }
    tally.assert_at_least([10_000, 30, 6, 6, 2500, 5000, 15_000, 2000, 7000, 0, 0]);
    tally.assert_seen(31, 100);
}

#[test]
fn long_logs_with_records_exchanged_lost_or_doubled() {
    let mut tally = Tally::of_all_entries();
    for records in long_logs() {
        compare_exchanges(&records, &mut tally);
        compare_lost_and_doubled(&records, &mut tally);
    }
    tally.assert_at_least([2000, 0, 0, 2048, 0, 0, 1000, 400, 700, 0, 200]);
    tally.assert_seen(31, 70);
}

/// Puts a fault somewhere that only the records before it show.
fn inject_fault(records: &mut Vec<Record>, random: &mut Random) {
    let at = random.below(records.len());
    let other = random.below(records.len());
    match random.below(6) {
        0 => records[at].tick = records[at].tick.saturating_sub(4),
        1 => records[at].client = records[other].client,
        2 => records[at].event = records[other].event,
        3 => add_again(records, at, other),
        4 => join_back(records, at),
        _ => {
            records.remove(at);
        }
    }
}

/// Gives the add called in one of the two records the value of the other, if both call add.
fn add_again(records: &mut [Record], at: usize, other: usize) {
    if let (Event::CallAdd(_), Event::CallAdd(value)) = (records[at].event, records[other].event) {
        records[at].event = Event::CallAdd(value);
    }
}

/// Gives the record, and all before it as far as the last one of its client, the tick of that one. If
/// the record is a call, its client has returned at that tick.
fn join_back(records: &mut [Record], at: usize) {
    let client = records[at].client;
    if let Some(last) = (0..at).rfind(|&before| records[before].client == client) {
        let tick = records[last].tick;
        records[last..=at].iter_mut().for_each(|r| r.tick = tick);
    }
}

#[test]
fn long_logs_with_faults_anywhere() {
    let mut random = Random::new(31);
    let mut tally = Tally::of_all_entries();
    for records in long_logs() {
        for faults in [1, 1, 2] {
            for _ in 0..1000 {
                let mut faulty = records.clone();
                (0..faults).for_each(|_| inject_fault(&mut faulty, &mut random));
                tally.compare(&log(&faulty));
            }
        }
    }
    tally.assert_at_least([800, 0, 0, 0, 0, 0, 800, 700, 1500, 120, 80]);
    tally.assert_seen(31, 200);
}

#[test]
fn a_falling_tick_is_told_wherever_it_falls() {
    let mut tally = Tally::of_all_entries();
    for records in medium_logs() {
        let sound = log(&records);
        let mut at = HEADER;
        for record in &records {
            // Each of the four bytes of the tick, made one less.
            for place in at + 4..at + 8 {
                let mut bytes = sound.clone();
                bytes[place] = bytes[place].wrapping_sub(1);
                tally.compare(&bytes);
            }
            at += record_bytes(record).len();
        }
        assert_eq!(at, sound.len());
    }
    tally.assert_at_least([500, 0, 0, 0, 0, 0, 3000, 0, 0, 0, 0]);
    tally.assert_seen(31, 15);
}
