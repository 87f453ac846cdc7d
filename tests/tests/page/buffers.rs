//! The buffer of a page at every length from 0 to past the needed one, or for some longer pages at
//! those around the ends of their lines: below the needed length the call is refused 24 and writes
//! nothing, and from there on it writes the same bytes and leaves those after them alone.

use yauponroof_tests::compare::page::Pages;
use yauponroof_tests::library::guarded::written_twice;
use yauponroof_tests::library::page;
use yauponroof_tests::logs::enumerate::every_log;
use yauponroof_tests::logs::notation::run;
use yauponroof_tests::logs::samples::{pending_adds, RUNS};
use yauponroof_tests::logs::simulation::{simulate, Clients};
use yauponroof_tests::model::page::{LINE, PAGE_MAX};
use yauponroof_tests::model::reader::operation_count;
use yauponroof_tests::model::record::Record;
use yauponroof_tests::model::writer::log;

/// How many bytes the page of these records needs.
fn needed(records: &[Record]) -> usize {
    81 * operation_count(records) as usize
}

/// Lends buffers of these lengths; how many were long enough, and how many were not.
fn compare(records: &[Record], lengths: impl Iterator<Item = usize>) -> (u64, u64) {
    let log = log(records);
    let mut pages = Pages::new();
    for length in lengths {
        pages.compare_room(&log, length);
    }
    (pages.seen(0), pages.seen(24))
}

/// Two bytes less than the line ends, to two bytes more, for each line of a page and one beyond it;
/// and the same around 0 bytes.
fn around_lines(needed: usize) -> Vec<usize> {
    let ends = (0..=needed / LINE + 1).map(|lines| lines * LINE);
    let around = |end: usize| (end.saturating_sub(2)..=end + 2).chain([end + 40]);
    ends.flat_map(around).collect()
}

#[test]
fn every_length_for_every_log_of_up_to_four_records() {
    let mut logs = 0;
    every_log(4, &mut |records| {
        let needed = needed(records);
        let expected = (4, needed as u64);
        assert_eq!(compare(records, 0..=needed + 3), expected, "{records:?}");
        logs += 1;
    });
    assert_eq!(logs, 122);
}

#[test]
fn every_length_for_the_runs_of_the_document() {
    for (text, operations, _) in RUNS {
        let records = run(text);
        let needed = 81 * operations as usize;
        let seen = compare(&records, 0..=needed + 170);
        assert_eq!(seen, (171, needed as u64), "{text}");
        let long = [PAGE_MAX - 1, PAGE_MAX, PAGE_MAX + 1, 65_536, 1 << 20];
        assert_eq!(compare(&records, long.into_iter()), (5, 0), "{text}");
    }
}

#[test]
fn lengths_around_the_end_of_each_line() {
    for records in [
        pending_adds(62),
        pending_adds(10),
        simulate(8, Clients::Reused, 62, 205),
        simulate(3, Clients::OnePerOperation, 40, 206),
    ] {
        let needed = needed(&records);
        let lengths = around_lines(needed);
        assert!([0, 1, 80, 81, 82].iter().all(|at| lengths.contains(at)));
        let enough = lengths.iter().filter(|&&length| length >= needed).count();
        let seen = compare(&records, lengths.iter().copied());
        assert_eq!(seen, (enough as u64, (lengths.len() - enough) as u64));
        // Four lengths from the needed one on, and six around the end of one line more.
        assert_eq!(enough, 4 + 6);
    }
}

#[test]
fn every_length_for_the_longest_page() {
    let records = pending_adds(63);
    assert_eq!(compare(&records, 0..=PAGE_MAX + 20), (21, PAGE_MAX as u64));
}

#[test]
fn no_records_need_no_bytes() {
    for length in [0, 1, 80, 81, 82, PAGE_MAX] {
        let outcome = written_twice(length, |out| page(&log(&[]), out));
        assert_eq!(outcome, Ok(vec![]), "{length} bytes");
    }
}
