//! The page reads nothing outside the lent log, writes nothing to it, and writes nothing outside the
//! lent buffer: both are laid right before or right after memory that may not be accessed, and the
//! log may not be written.

use yauponroof_tests::compare::page::Pages;
use yauponroof_tests::library::fenced::{lend_long, lend_long_to_write, Fenced, Place};
use yauponroof_tests::library::page;
use yauponroof_tests::logs::notation::run;
use yauponroof_tests::logs::samples::{
    calls_then_returns, longest_false_empty, pending_adds, refused_logs, RUNS,
};
use yauponroof_tests::logs::simulation::{simulate, Clients};
use yauponroof_tests::model::page::PAGE_MAX;
use yauponroof_tests::model::reader::{self, operation_count};
use yauponroof_tests::model::writer::{header, log};
use yauponroof_tests::random::Random;
use yauponroof_tests::{refused, Answer};

/// Bytes enough for any log, and for any page.
const LOG_ROOM: usize = 16_384;
const PAGE_ROOM: usize = 8192;

/// Room for a log and for a page.
struct Lender {
    log: Fenced,
    page: Fenced,
    pages: Pages,
}

impl Lender {
    fn new() -> Lender {
        Lender {
            log: Fenced::new(LOG_ROOM),
            page: Fenced::new(PAGE_ROOM),
            pages: Pages::new(),
        }
    }

    /// Makes the page in a buffer of that length, log and buffer laid at either end of their room,
    /// and compares.
    fn compare_room(&mut self, log: &[u8], room: usize) {
        for log_place in Place::BOTH {
            for page_place in Place::BOTH {
                self.log.lend(log, log_place, |lent| {
                    let outcome = self.page.written(room, page_place, |out| page(lent, out));
                    self.pages.count(log, room, &outcome);
                });
            }
        }
    }

    /// The same with buffers as long as needed, a byte shorter and longer, and with none and most.
    fn compare(&mut self, log: &[u8]) {
        let operations = reader::read(log).map_or(0, |records| operation_count(&records));
        let needed = 81 * operations as usize;
        let lengths = [0, needed.saturating_sub(1), needed, needed + 1, PAGE_MAX];
        for room in lengths {
            self.compare_room(log, room.min(PAGE_ROOM));
        }
    }
}

#[test]
fn the_runs_of_the_document_and_logs_that_are_refused() {
    let mut lender = Lender::new();
    for (text, ..) in RUNS {
        lender.compare(&log(&run(text)));
    }
    for log in refused_logs() {
        lender.compare(&log);
    }
    lender.compare(&[]);
    lender.pages.assert_at_least(&[(0, 180), (24, 110)]);
    let input_list = (1..=10).map(|number| (number, 20));
    lender
        .pages
        .assert_at_least(&input_list.collect::<Vec<_>>());
}

#[test]
fn logs_around_63_records_and_the_longest() {
    let mut lender = Lender::new();
    for n in [1, 61, 62, 63, 64, 65, 1024] {
        lender.compare(&log(&pending_adds(n)));
    }
    for n in [2, 60, 62, 64, 1024] {
        lender.compare(&log(&calls_then_returns(n)));
        lender.compare(&log(&simulate(8, Clients::Reused, n, 214)));
    }
    lender.compare(&log(&longest_false_empty()));
    lender
        .pages
        .assert_at_least(&[(0, 100), (24, 70), (30, 90)]);
}

#[test]
fn damaged_logs() {
    let mut lender = Lender::new();
    let mut random = Random::new(215);
    let logs: Vec<Vec<u8>> = RUNS.iter().map(|(text, ..)| log(&run(text))).collect();
    for _ in 0..1000 {
        let mut log = random.pick(&logs).clone();
        let at = random.below(log.len());
        log[at] = random.below(13) as u8;
        if random.below(3) == 0 {
            log.truncate(random.below(log.len() + 1));
        }
        lender.compare(&log);
    }
    lender
        .pages
        .assert_at_least(&[(0, 500), (1, 3000), (24, 300)]);
}

#[test]
fn a_log_longer_than_32_bits_can_tell_is_not_cut() {
    // Cut to 32 bits the length would be that of the log of no records.
    lend_long(&header(0), (1 << 32) + 3, |log| {
        assert_eq!(page(log, &mut [0; 8]), refused(1, 0));
    });
}

#[test]
fn a_buffer_longer_than_32_bits_can_tell_is_long_enough() {
    // Cut to 32 bits the length would be 1.
    let log = log(&run("R( R9)"));
    lend_long_to_write((1 << 32) + 1, |out| {
        assert_eq!(page(&log, out), Answer::Accepted(81));
        assert_eq!(out[..19], *b"   0 R9          ##");
        assert_eq!(out[80..83], [b'\n', 0, 0]);
    });
}
