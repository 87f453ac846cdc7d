//! Damaged logs fed to sessions, record by record: the first feed that is refused gets the number
//! and the index that reading the damaged log gets, and the session goes on afterwards as if nothing
//! had happened.

use yauponroof_tests::compare::session::{Compared, Entry, Seen};
use yauponroof_tests::compare::whole_session::compare_closing;
use yauponroof_tests::library::check;
use yauponroof_tests::logs::damage::telling_values;
use yauponroof_tests::logs::insertion::with_pending_remove;
use yauponroof_tests::logs::notation::run;
use yauponroof_tests::logs::samples::RUNS;
use yauponroof_tests::logs::simulation::{simulate, Clients};
use yauponroof_tests::logs::ticks::in_batches;
use yauponroof_tests::model::record::Record;
use yauponroof_tests::model::writer::{header, record_bytes};
use yauponroof_tests::random::Random;
use yauponroof_tests::{answered, refused, Answer};

/// The bytes of the records laid end to end.
fn joined(records: &[Vec<u8>]) -> Vec<u8> {
    [header(records.len() as u16), records.concat()].concat()
}

/// Feeds the records of a sound log, of which the one with that index is damaged. What is refused
/// first must be what check refuses. If that is the damaged record, the sound one is fed in its
/// place, and the session must end as if that alone had been fed.
fn compare(sound: &[Vec<u8>], damaged: &[u8], at: usize, seen: &mut Seen) {
    let mut records = sound.to_vec();
    records[at] = damaged.to_vec();
    let mut session = Compared::begun(joined(sound).len() + 30);
    for (index, record) in records.iter().enumerate() {
        let answer = session.feed(record);
        seen.count(Entry::Feed, answer);
        assert_eq!(answer, expected(&records[..=index]), "record {index}");
        match answer {
            Answer::Accepted(_) => {}
            _ if index == at => return compare_repaired(session, &sound[at..], sound),
            _ => return compare_rest(session, &records[index + 1..], seen),
        }
    }
    let closed = compare_closing(&mut session, &joined(&records));
    seen.count(Entry::Close, answered(&closed));
}

/// What feeding the last of these must answer if all others were accepted: what check says of the
/// log cut there. But a feed tests first that it is handed one record, and a remove that has not
/// returned is no fault of a record.
fn expected(records: &[Vec<u8>]) -> Answer {
    let (last, others) = records.split_last().expect("records");
    let length = last.first().map(|&length| 1 + usize::from(length));
    if length != Some(last.len()) {
        return refused(1, others.len() as u32);
    }
    match check(&joined(records)) {
        Answer::Accepted(_) | Answer::Refused { number: 10, .. } => {
            Answer::Accepted(last.len() as u32)
        }
        refusal => refusal,
    }
}

/// Feeds what is left of the sound records; the whole log is then held, and can be closed.
fn compare_repaired(mut session: Compared, left: &[Vec<u8>], sound: &[Vec<u8>]) {
    for record in left {
        assert_eq!(session.feed(record), Answer::Accepted(record.len() as u32));
    }
    compare_closing(&mut session, &joined(sound)).expect("a sheet");
}

/// Feeds what is left, some of which may be refused for want of the record that was.
fn compare_rest(mut session: Compared, left: &[Vec<u8>], seen: &mut Seen) {
    for record in left {
        seen.count(Entry::Feed, session.feed(record));
    }
    let log = session.held().to_vec();
    let closed = compare_closing(&mut session, &log);
    seen.count(Entry::Close, answered(&closed));
}

fn all_bytes(records: &[Record]) -> Vec<Vec<u8>> {
    records.iter().map(record_bytes).collect()
}

/// Document 01's runs, some with an open remove, and simulated ones of a few records in batches.
fn short_logs() -> Vec<Vec<Vec<u8>>> {
    let mut logs: Vec<_> = RUNS.iter().map(|(text, ..)| run(text)).collect();
    logs.push(run("Ro( A1( A1) R( R1)"));
    logs.push(run("A1( A1) A2( Ro( A2) R( R2) Rb( Rb-)"));
    let mut random = Random::new(237);
    for seed in 0..3 {
        for records in [
            simulate(2, Clients::Reused, 12, seed),
            simulate(3, Clients::OnePerOperation, 10, seed),
        ] {
            logs.push(in_batches(&records, 3, &mut random));
        }
    }
    for seed in 0..3 {
        let run = simulate(3, Clients::OnePerOperation, 8, seed);
        logs.push(with_pending_remove(&run, 3));
    }
    logs.iter().map(|records| all_bytes(records)).collect()
}

#[test]
fn each_byte_changed() {
    let mut seen = Seen::new();
    for sound in short_logs() {
        for (at, record) in sound.iter().enumerate() {
            for place in 0..record.len() {
                for changed in telling_values(record[place]) {
                    let mut damaged = record.clone();
                    damaged[place] = changed;
                    compare(&sound, &damaged, at, &mut seen);
                }
            }
        }
    }
    let feeds = [
        (0, 90_000),
        (1, 1500),
        (4, 700),
        (5, 500),
        (6, 17_000),
        (7, 300),
        (8, 3500),
        (9, 20),
        (31, 30),
    ];
    seen.assert_at_least(Entry::Feed, &feeds);
    seen.assert_at_least(Entry::Close, &[(0, 7500), (10, 1000)]);
}

#[test]
fn each_record_cut_or_made_longer() {
    let mut seen = Seen::new();
    for sound in short_logs() {
        for (at, record) in sound.iter().enumerate() {
            for length in 0..record.len() {
                compare(&sound, &record[..length], at, &mut seen);
            }
            for behind in [0, 1, 7, 11, 255] {
                let longer = [&record[..], &[behind]].concat();
                compare(&sound, &longer, at, &mut seen);
            }
            for other in &sound {
                let two = [&record[..], other].concat();
                compare(&sound, &two, at, &mut seen);
            }
        }
    }
    seen.assert_at_least(Entry::Feed, &[(0, 13_000), (1, 3300)]);
    seen.assert_at_least(Entry::Close, &[]);
}

#[test]
fn each_record_in_the_place_of_each_other() {
    let mut seen = Seen::new();
    for sound in short_logs() {
        for at in 0..sound.len() {
            for other in &sound {
                compare(&sound, other, at, &mut seen);
            }
        }
    }
    let feeds = [(0, 7000), (6, 700), (7, 250), (8, 500), (31, 20)];
    seen.assert_at_least(Entry::Feed, &feeds);
    seen.assert_at_least(Entry::Close, &[(0, 300), (10, 12)]);
}

/// A call of remove by the client of this record, at its tick.
fn called_again(record: &[u8]) -> Vec<u8> {
    let client_and_tick = &record[2..8];
    [&[7, 2], client_and_tick].concat()
}

#[test]
fn longer_logs_damaged_in_one_place() {
    let mut random = Random::new(211);
    let mut seen = Seen::new();
    let logs: Vec<Vec<Vec<u8>>> = [(2, 100), (8, 150), (64, 200)]
        .map(|(workers, n)| {
            let records = simulate(workers, Clients::Reused, n, 212);
            all_bytes(&in_batches(&records, 4, &mut random))
        })
        .to_vec();
    for _ in 0..200 {
        let sound = random.pick(&logs).clone();
        let at = random.below(sound.len());
        let damaged = match random.below(3) {
            0 => random.pick(&sound).clone(),
            1 => {
                let mut damaged = sound[at].clone();
                let place = random.below(damaged.len());
                damaged[place] = *random.pick(&telling_values(damaged[place]));
                damaged
            }
            _ => called_again(&sound[at.saturating_sub(1)]),
        };
        compare(&sound, &damaged, at, &mut seen);
    }
    let feeds = [
        (0, 17_000),
        (1, 5),
        (4, 3),
        (5, 3),
        (6, 1000),
        (7, 70),
        (8, 150),
        (31, 25),
    ];
    seen.assert_at_least(Entry::Feed, &feeds);
    seen.assert_at_least(Entry::Close, &[(0, 30), (10, 10)]);
}
