//! Judge, excerpt and narrow read nothing outside the lent log and the lent values, write to
//! neither, and write nothing outside the lent buffer: all three are laid right before or right
//! behind memory that may not be accessed, and what is only read may not be written.

use yauponroof_tests::compare::buffer_lengths::in_room;
use yauponroof_tests::library::fenced::{lend_long, lend_long_to_write, Fenced, Place};
use yauponroof_tests::library::outcomes::{excerpt_made, judged, narrowing_made};
use yauponroof_tests::library::{excerpt, judge, narrow};
use yauponroof_tests::logs::insertion::with_run;
use yauponroof_tests::logs::notation::run;
use yauponroof_tests::logs::samples::{
    calls_then_returns, longest_false_empty, pending_adds, refused_logs, RUNS,
};
use yauponroof_tests::logs::simulation::{simulate, Clients};
use yauponroof_tests::model::projection::values;
use yauponroof_tests::model::reader;
use yauponroof_tests::model::record::Record;
use yauponroof_tests::model::writer::{header, log};
use yauponroof_tests::random::Random;
use yauponroof_tests::{refused, Answer, Outcome};

/// Room for a log and for what is written.
struct Lender {
    log: Fenced,
    out: Fenced,
    /// How many calls wrote something, and how many were refused.
    written: u64,
    refused: u64,
}

/// Bytes enough for any log.
const ROOM: usize = 16_384;

/// A call of an entry that writes.
type Call<'a> = dyn Fn(&[u8], &mut [u8]) -> Answer + 'a;

impl Lender {
    fn new() -> Lender {
        Lender {
            log: Fenced::new(ROOM),
            out: Fenced::new(ROOM),
            written: 0,
            refused: 0,
        }
    }

    /// Makes the call with buffers as long as needed, one byte shorter, longer, and with no bytes.
    /// It must answer as it did in memory without fences.
    fn compare(&mut self, log: &[u8], unfenced: &Outcome, call: &Call) {
        let needed = unfenced.as_ref().map_or(0, Vec::len);
        for length in [0, needed.saturating_sub(1), needed, needed + 100] {
            let expected = in_room(unfenced, length);
            for log_place in Place::BOTH {
                for out_place in Place::BOTH {
                    self.log.lend(log, log_place, |log| {
                        let outcome = self.out.written(length, out_place, |out| call(log, out));
                        assert_eq!(outcome, expected, "a buffer of {length} bytes");
                    });
                }
            }
            match expected {
                Ok(_) => self.written += 1,
                Err(_) => self.refused += 1,
            }
        }
    }

    fn compare_all(&mut self, log: &[u8]) {
        self.compare(log, &judged(log), &judge);
        self.compare(log, &excerpt_made(log), &excerpt);
        let all = reader::read(log).map_or(vec![7], |records| values(&records));
        for values in [&[], &all[..1.min(all.len())], &all] {
            for place in Place::BOTH {
                self.compare_narrowing(log, values, place);
            }
        }
    }

    fn compare_narrowing(&mut self, log: &[u8], values: &[u32], place: Place) {
        let unfenced = narrowing_made(log, values);
        Fenced::new(ROOM).lend_values(values, place, |values| {
            self.compare(log, &unfenced, &|log, out| narrow(log, values, out));
        });
    }

    fn assert_at_least(&self, written: u64, refused: u64) {
        assert!(
            self.written >= written && self.refused >= refused,
            "{} calls wrote and {} were refused",
            self.written,
            self.refused
        );
    }
}

#[test]
fn the_runs_of_the_document_and_logs_that_are_refused() {
    let mut lender = Lender::new();
    for (text, ..) in RUNS {
        lender.compare_all(&log(&run(text)));
    }
    for log in refused_logs() {
        lender.compare_all(&log);
    }
    lender.compare_all(&[]);
    lender.assert_at_least(200, 500);
}

/// Logs of the most records: orders, and each pattern at the end of the log.
fn long_logs() -> Vec<Vec<Record>> {
    let mut logs = vec![
        simulate(8, Clients::Reused, 1024, 4),
        calls_then_returns(1024),
        pending_adds(1024),
        longest_false_empty(),
    ];
    for text in [
        "R( R9)",
        "A7( A7) R( R7) R( R7)",
        "R( R7) A7( A7)",
        "A1( A1) A2( A2) R( R2)",
        "A1( A1) A2( A2) R( R2) R( R1)",
        // With an open remove, which takes a value or is called too late.
        "A1( A1) A2( A2) Ro( R( R2)",
        "A1( A1) Ro( R( R-)",
        "A1( A1) R( R-) Ro(",
    ] {
        let before = 1024 - text.split_whitespace().count();
        logs.push(with_run(&pending_adds(before), &[(before, text)]));
    }
    logs
}

#[test]
fn the_longest_logs() {
    let mut lender = Lender::new();
    for records in long_logs() {
        assert_eq!(records.len(), 1024);
        lender.compare_all(&log(&records));
    }
    lender.assert_at_least(160, 160);
}

#[test]
fn damaged_logs() {
    let mut lender = Lender::new();
    let mut random = Random::new(96);
    let logs: Vec<Vec<u8>> = RUNS.iter().map(|(text, ..)| log(&run(text))).collect();
    for _ in 0..600 {
        let mut log = random.pick(&logs).clone();
        let at = random.below(log.len());
        log[at] = random.below(13) as u8;
        if random.below(3) == 0 {
            log.truncate(random.below(log.len() + 1));
        }
        lender.compare_all(&log);
    }
    lender.assert_at_least(1500, 15_000);
}

#[test]
fn a_log_longer_than_32_bits_can_tell_is_not_cut() {
    // Cut to 32 bits the length would be that of the log of no records.
    lend_long(&header(0), (1 << 32) + 3, |log| {
        assert_eq!(judge(log, &mut [0; 8]), refused(1, 0));
        assert_eq!(excerpt(log, &mut [0; 8]), refused(1, 0));
        assert_eq!(narrow(log, &[], &mut [0; 8]), refused(1, 0));
    });
}

#[test]
fn a_buffer_longer_than_32_bits_can_tell_is_long_enough() {
    // Cut to 32 bits the length would be 1.
    let length = (1 << 32) + 1;
    let log = log(&run("A1( A1) A2( A2) R( R2)"));
    let needed = log.len() as u32;
    lend_long_to_write(length, |out| {
        assert_eq!(judge(&log, out), Answer::Accepted(10));
        assert_eq!(out[..11], [1, 4, 0, 3, 0, 0, 0, 1, 0, 2, 0]);
    });
    lend_long_to_write(length, |out| {
        assert_eq!(excerpt(&log, out), Answer::Accepted(needed));
        assert_eq!(out[..log.len()], log);
    });
    lend_long_to_write(length, |out| {
        assert_eq!(narrow(&log, &[2, 1], out), Answer::Accepted(needed));
        assert_eq!(out[..log.len()], log);
    });
}
