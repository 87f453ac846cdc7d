//! No entry reads outside the bytes of a lent log or writes to them. The log is laid right before
//! or right behind memory that may not be read, and may not be written itself: a stray access ends
//! the test by a signal.

use yauponroof_tests::compare::reading::Tally;
use yauponroof_tests::library::check;
use yauponroof_tests::library::fenced::{lend_long, Fenced, Place};
use yauponroof_tests::logs::insertion::with_pending_remove;
use yauponroof_tests::logs::notation::run;
use yauponroof_tests::logs::samples::{calls_then_returns, pending_adds, RUNS};
use yauponroof_tests::logs::simulation::{simulate, Clients};
use yauponroof_tests::model::writer::{header, log};
use yauponroof_tests::random::Random;
use yauponroof_tests::refused;

fn fenced_for_all() -> Fenced {
    Fenced::new(16_384)
}

/// Compares the library with the model's reader on the log, which is laid at either end of the
/// room.
fn compare(fenced: &Fenced, log: &[u8], tally: &mut Tally) {
    for place in Place::BOTH {
        fenced.lend(log, place, |bytes| {
            tally.compare(bytes);
        });
    }
}

/// Logs of a few records; all are readable but for two with two open removes.
fn short_logs() -> Vec<Vec<u8>> {
    let mut logs: Vec<Vec<u8>> = RUNS.iter().map(|(text, ..)| log(&run(text))).collect();
    logs.push(log(&run("A7( Ra( Rb( A7)")));
    logs.push(log(&run("Ra( Rb( Ra-) Rc(")));
    logs.push(log(&run("A1( A1) A2( A2) Ro( R( R2)")));
    logs.push(log(&run("A1( A1) A2( A2) R( R2) R( R1) Ro(")));
    logs.push(log(&simulate(2, Clients::Reused, 20, 1)));
    logs.push(log(&simulate(4, Clients::OnePerOperation, 20, 2)));
    logs
}

/// Logs of the most records.
fn long_logs() -> Vec<Vec<u8>> {
    vec![
        log(&simulate(8, Clients::Reused, 1024, 3)),
        log(&calls_then_returns(1024)),
        log(&pending_adds(1024)),
        log(&with_pending_remove(&pending_adds(1023), 1023)),
    ]
}

#[test]
fn whole_logs_and_no_bytes() {
    let fenced = fenced_for_all();
    let mut tally = Tally::of_all_entries();
    compare(&fenced, &[], &mut tally);
    for log in short_logs().iter().chain(&long_logs()) {
        compare(&fenced, log, &mut tally);
    }
    tally.assert_at_least([46, 2, 0, 0, 0, 0, 0, 0, 0, 0, 4]);
}

#[test]
fn logs_cut_at_every_byte() {
    let fenced = fenced_for_all();
    let mut tally = Tally::of_all_entries();
    for log in short_logs() {
        for length in 0..log.len() {
            compare(&fenced, &log[..length], &mut tally);
        }
    }
    for log in long_logs() {
        for length in (0..100).chain(log.len() - 100..log.len()) {
            compare(&fenced, &log[..length], &mut tally);
        }
    }
    tally.assert_at_least([0, 3000, 0, 0, 0, 0, 0, 0, 0, 0, 0]);
}

#[test]
fn every_length_byte_with_fewer_bytes_behind_it() {
    let fenced = fenced_for_all();
    let mut tally = Tally::of_all_entries();
    for kind in 0..=6 {
        for length in 0..=u8::MAX {
            for behind in (0..=12).chain([254, 255]) {
                let mut bytes = header(2);
                bytes.push(length);
                bytes.resize(4 + behind, kind);
                compare(&fenced, &bytes, &mut tally);
            }
        }
    }
    tally.assert_at_least([0, 40_000, 0, 0, 2000, 5000, 0, 0, 30, 0, 0]);
}

#[test]
fn damaged_logs() {
    let fenced = fenced_for_all();
    let mut random = Random::new(5);
    let short = short_logs();
    let telling: Vec<u8> = (0..=12).chain([254, 255]).collect();
    let mut tally = Tally::of_all_entries();
    for _ in 0..44_000 {
        let mut bytes = random.pick(&short).clone();
        for _ in 0..=random.below(2) {
            let at = random.below(bytes.len());
            bytes[at] = *random.pick(&telling);
        }
        if random.below(2) == 0 {
            bytes.truncate(random.below(bytes.len() + 1));
        }
        compare(&fenced, &bytes, &mut tally);
    }
    tally.assert_at_least([
        5000, 20_000, 2000, 1500, 3000, 4000, 10_000, 200, 5000, 25, 500,
    ]);
    let archives = tally.archives();
    archives.assert_at_least([600, 1000, 40, 50, 60, 40, 150]);
}

#[test]
fn random_bytes() {
    let fenced = fenced_for_all();
    let mut random = Random::new(6);
    let mut tally = Tally::of_all_entries();
    for _ in 0..40_000 {
        let mut bytes = header(random.below(4) as u16);
        bytes.extend((0..random.below(40)).map(|_| random.below(13) as u8));
        if random.below(8) == 0 {
            bytes[0] = random.below(3) as u8;
            bytes[1] = random.below(6) as u8;
        }
        compare(&fenced, &bytes, &mut tally);
    }
    // Random bytes seldom are a record that fits, so there is little of the rest.
    tally.assert_at_least([300, 20_000, 4000, 600, 15_000, 10_000, 0, 0, 400, 0, 0]);
}

#[test]
fn a_length_beyond_32_bits_is_not_cut() {
    // Cut to 32 bits the length would be that of the log of no records.
    lend_long(&header(0), (1 << 32) + 3, |bytes| {
        assert_eq!(check(bytes), refused(1, 0));
    });
}
