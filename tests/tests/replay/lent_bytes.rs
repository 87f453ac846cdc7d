//! Replay reads nothing outside the lent log and the lent sheet and writes to neither: both are
//! laid right before or right behind memory that may not be read, and may not be written
//! themselves.

use yauponroof_tests::compare::replay::Replays;
use yauponroof_tests::library::fenced::{lend_long, Fenced, Place};
use yauponroof_tests::library::replay;
use yauponroof_tests::logs::notation::run;
use yauponroof_tests::logs::samples::{pending_adds, Verdict, RUNS};
use yauponroof_tests::logs::simulation::runs_of_all_sizes;
use yauponroof_tests::model::sheet::{sheet, sheet_with_k};
use yauponroof_tests::model::writer::log;
use yauponroof_tests::random::Random;
use yauponroof_tests::refused;

/// Room for a log and for a sheet.
struct Lender {
    log: Fenced,
    sheet: Fenced,
    replays: Replays,
}

impl Lender {
    fn new() -> Lender {
        Lender {
            log: Fenced::new(16_384),
            sheet: Fenced::new(131_074),
            replays: Replays::new(),
        }
    }

    /// Compares replay with the model's test of orders, log and sheet laid at either end of their
    /// room.
    fn compare(&mut self, log: &[u8], sheet: &[u8]) {
        for log_place in Place::BOTH {
            for sheet_place in Place::BOTH {
                self.log.lend(log, log_place, |log| {
                    self.sheet.lend(sheet, sheet_place, |sheet| {
                        self.replays.compare(log, sheet);
                    })
                });
            }
        }
    }
}

#[test]
fn runs_with_their_orders() {
    let mut lender = Lender::new();
    for (text, _, verdict) in RUNS {
        let order = match verdict {
            Verdict::Order(order) => order,
            Verdict::Pattern(..) => &[0, 1, 2, 3, 4],
        };
        lender.compare(&log(&run(text)), &sheet(order));
    }
    let mut random = Random::new(257);
    for run in runs_of_all_sizes() {
        lender.compare(&log(&run.records), &sheet(&run.order));
        let open = run.with_pending_remove(&mut random);
        lender.compare(&log(&open.records), &sheet(&open.order));
    }
    let all: Vec<u16> = (0..1024).collect();
    lender.compare(&log(&pending_adds(1024)), &sheet(&all));
    lender.replays.assert_answered(500, 20);
}

#[test]
fn sheets_cut_at_every_byte() {
    let mut lender = Lender::new();
    let log = log(&run("A1( A1) A2( A2) Ra( Rb( Ra2) Rb1)"));
    for order in [&[][..], &[0, 1, 3, 2], &[0, 1, 2, 3, 4, 5, 6, 7, 8]] {
        let bytes = sheet(order);
        (0..=bytes.len()).for_each(|length| lender.compare(&log, &bytes[..length]));
    }
    lender.replays.assert_answered(4, 8);
    lender.replays.assert_refused(11, 100);
}

#[test]
fn sheets_that_claim_more_than_they_hold() {
    let mut lender = Lender::new();
    let log = log(&pending_adds(3));
    for held in [&[][..], &[0], &[2, 0, 1], &[65_535; 4]] {
        for k in (0..=12).chain([255, 256, 257, 1024, 32_767, 32_768, 65_535]) {
            lender.compare(&log, &sheet_with_k(k, held));
        }
    }
    lender.replays.assert_answered(12, 4);
    lender.replays.assert_refused(11, 300);
}

#[test]
fn numbers_far_beyond_the_operations_of_the_log() {
    let mut lender = Lender::new();
    for records in [vec![], pending_adds(1), pending_adds(1024)] {
        let log = log(&records);
        for number in [0, 1, 2, 255, 256, 1023, 1024, 1025, 2048, 32_768, 65_535] {
            lender.compare(&log, &sheet(&[number]));
            lender.compare(&log, &sheet(&[0, number]));
        }
    }
    lender.replays.assert_answered(40, 150);
}

#[test]
fn the_largest_sheet() {
    let mut lender = Lender::new();
    for records in [vec![], pending_adds(1024)] {
        let log = log(&records);
        for order in [vec![0; 65_535], (0..65_535).collect()] {
            lender.compare(&log, &sheet(&order));
        }
    }
    lender.replays.assert_answered(0, 16);
}

#[test]
fn random_sheets_with_damaged_logs() {
    let mut lender = Lender::new();
    let mut random = Random::new(71);
    let logs: Vec<Vec<u8>> = RUNS.iter().map(|(text, ..)| log(&run(text))).collect();
    for _ in 0..10_000 {
        let mut log = random.pick(&logs).clone();
        if random.below(2) == 0 {
            let at = random.below(log.len());
            log[at] = random.below(13) as u8;
        }
        let order: Vec<u16> = (0..random.below(6))
            .map(|_| random.below(5) as u16)
            .collect();
        let mut bytes = sheet(&order);
        if random.below(2) == 0 {
            let at = random.below(bytes.len());
            bytes[at] = random.below(4) as u8;
        }
        lender.compare(&log, &bytes);
    }
    lender.replays.assert_answered(150, 15_000);
    lender.replays.assert_refused(11, 4000);
    for number in [1, 2, 3, 4, 5, 6, 8] {
        lender.replays.assert_refused(number, 400);
    }
}

#[test]
fn a_length_beyond_32_bits_is_not_cut() {
    // Cut to 32 bits the length would be that of the sheet of no operations.
    let log = log(&pending_adds(2));
    let length = (1usize << 32) + sheet(&[]).len();
    lend_long(&sheet(&[]), length, |bytes| {
        assert_eq!(replay(&log, bytes), refused(11, 0));
    });
}
