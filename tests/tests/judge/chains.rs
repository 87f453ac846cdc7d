//! Pattern 6 on chains of values that cover the gaps of empty removes together, up to 1,024 records
//! long, with and without a gap between two of the values. What is told is compared with what the
//! chain was made for, and with the table of patterns.

use yauponroof_tests::compare::archive::Archives;
use yauponroof_tests::library::outcomes::judged;
use yauponroof_tests::logs::chain::{chain, Chain, Last};
use yauponroof_tests::logs::insertion::{with_empty_removes, Span};
use yauponroof_tests::model::reader::MAX_RECORDS;
use yauponroof_tests::model::record::{call_add, return_add, Record};
use yauponroof_tests::model::sheet::{violation_sheet, ORDER};
use yauponroof_tests::model::violations::{Violation, FALSE_EMPTY};
use yauponroof_tests::model::writer::log;
use yauponroof_tests::random::Random;

/// Whether no value covers the gap between the records g and g + 1.
fn is_uncovered(chain: &Chain, last: Last, gap: usize) -> bool {
    let end = chain.records.len();
    gap < 1 || chain.breaks.contains(&gap) || (last == Last::Removed && gap + 2 >= end)
}

/// Whether all gaps of an empty remove are covered that is put there. Its first gap is part of the
/// one before record `from`, its last gap of the one before record `to`.
fn is_false(chain: &Chain, last: Last, (from, to): Span) -> bool {
    from > 0 && (from - 1..to).all(|gap| !is_uncovered(chain, last, gap))
}

#[test]
fn one_empty_remove_anywhere_over_a_chain_with_at_most_one_gap() {
    let mut archives = Archives::new();
    for last in [Last::Removed, Last::Kept] {
        for broken in 0..=6 {
            let chain = chain(6, last, |value| value == broken);
            for to in 0..=chain.records.len() {
                for from in 0..=to {
                    let records = with_empty_removes(&chain.records, &[(from, to)]);
                    let verdict = archives.compare_records(&records);
                    let expected = match is_false(&chain, last, (from, to)) {
                        true => FALSE_EMPTY,
                        false => ORDER,
                    };
                    assert_eq!(verdict, expected, "{last:?}, {broken}, {from} to {to}");
                }
            }
        }
    }
    assert_eq!(archives.seen(), [1863, 0, 0, 0, 0, 0, 2344]);
}

/// The longest chain that leaves room for so many empty removes.
fn longest_chain(empty_removes: usize, last: Last, breaks: impl FnMut(u32) -> bool) -> Chain {
    let of_last = if last == Last::Removed { 2 } else { 0 };
    let room = MAX_RECORDS - 2 - of_last - 2 * empty_removes;
    chain(1 + room as u32 / 4, last, breaks)
}

#[test]
fn the_longest_chain() {
    let chain = longest_chain(1, Last::Kept, |_| false);
    let records = with_empty_removes(&chain.records, &[(2, chain.records.len())]);
    assert_eq!(records.len(), MAX_RECORDS);
    // The empty remove is the second operation, and then adds and removes take turns.
    let adds = (0..).step_by(2).take(256);
    let violation = Violation {
        number: FALSE_EMPTY,
        operations: [1].into_iter().chain(adds).collect(),
    };
    assert_eq!(judged(&log(&records)), Ok(violation_sheet(&violation)));
    assert_eq!(Archives::new().compare_records(&records), FALSE_EMPTY);
}

#[test]
fn long_chains_with_one_gap() {
    let mut archives = Archives::new();
    let last_value = 255;
    for broken in [1, 2, 3, 100, 254, last_value, last_value + 1] {
        let chain = longest_chain(1, Last::Kept, |value| value == broken);
        let whole = (2, chain.records.len());
        let records = with_empty_removes(&chain.records, &[whole]);
        let expected = if broken > last_value {
            FALSE_EMPTY
        } else {
            ORDER
        };
        assert_eq!(archives.compare_records(&records), expected, "{broken}");
        // Up to the gap, which stands before this record, and from there on.
        for gap in chain.breaks.iter().map(|gap| gap + 1) {
            for (span, expected) in [
                ((2, gap - 1), FALSE_EMPTY),
                ((2, gap), ORDER),
                ((gap, whole.1), ORDER),
                ((gap + 1, whole.1), FALSE_EMPTY),
            ] {
                let records = with_empty_removes(&chain.records, &[span]);
                assert_eq!(archives.compare_records(&records), expected, "{span:?}");
            }
        }
    }
    assert_eq!(archives.seen(), [18, 0, 0, 0, 0, 0, 13]);
}

fn random_span(length: usize, random: &mut Random) -> Span {
    let from = random.below(length + 1);
    (from, from + random.below(length + 1 - from))
}

#[test]
fn many_empty_removes_and_gaps_by_chance() {
    let mut random = Random::new(89);
    let mut archives = Archives::new();
    for round in 0..300 {
        let last = *random.pick(&[Last::Removed, Last::Kept]);
        let empty_removes = 1 + random.below(340);
        let one_in = 2 + random.below(60);
        let chain = longest_chain(empty_removes, last, |_| random.below(one_in) == 0);
        // In every second round all are true but for a few by chance.
        let length = chain.records.len();
        let mut spans: Vec<Span> = Vec::new();
        while spans.len() < empty_removes {
            let span = random_span(length, &mut random);
            if round % 2 == 0 || !is_false(&chain, last, span) || random.below(1000) == 0 {
                spans.push(span);
            }
        }
        let records = with_empty_removes(&chain.records, &spans);
        let any_false = spans.iter().any(|&span| is_false(&chain, last, span));
        let expected = if any_false { FALSE_EMPTY } else { ORDER };
        assert_eq!(
            archives.compare_records(&records),
            expected,
            "round {round}"
        );
    }
    archives.assert_at_least([120, 0, 0, 0, 0, 0, 150]);
}

/// As many empty removes as values, all called when the first value is there. They return behind
/// the chain, where the queue is empty, but for the one of that number, which returns before.
fn all_but_one_true(false_one: usize) -> Vec<Record> {
    let chain = chain(170, Last::Removed, |_| false);
    let end = chain.records.len();
    let to = |number| if number == false_one { end - 2 } else { end };
    let spans: Vec<Span> = (0..170).map(|number| (2, to(number))).collect();
    with_empty_removes(&chain.records, &spans)
}

#[test]
fn many_empty_removes_over_a_long_chain_and_one_is_false() {
    let mut archives = Archives::new();
    for false_one in [0, 1, 84, 168, 169] {
        let records = all_but_one_true(false_one);
        assert_eq!(records.len(), 1020);
        assert_eq!(archives.compare_records(&records), FALSE_EMPTY);
        let sheet = judged(&log(&records)).expect("a sheet");
        // The empty remove and 170 adds.
        assert_eq!(sheet[2..4], [0, 171], "k");
        assert_eq!(sheet[4..6], [0, 1 + false_one as u8], "the empty remove");
    }
    // With no such number all are true.
    assert_eq!(archives.compare_records(&all_but_one_true(170)), ORDER);
    assert_eq!(archives.seen(), [1, 0, 0, 0, 0, 0, 5]);
}

#[test]
fn the_lowest_of_many_adds_that_are_never_removed() {
    let mut archives = Archives::new();
    let mut random = Random::new(90);
    for _ in 0..100 {
        // Behind the chain adds are called that return in any order, and some of them never.
        let chain = chain(3, Last::Removed, |_| false);
        let count = 1 + random.below(60) as u16;
        let calls = (0..count).map(|i| call_add(100 + i, 0, 1000 - u32::from(i)));
        let mut returns: Vec<Record> = (0..count).map(|i| return_add(100 + i, 0)).collect();
        random.shuffle(&mut returns);
        returns.truncate(1 + random.below(returns.len()));
        let records: Vec<Record> = chain
            .records
            .into_iter()
            .chain(calls)
            .chain(returns)
            .collect();
        let at_the_end = (records.len(), records.len());
        let records = with_empty_removes(&records, &[at_the_end]);
        assert_eq!(archives.compare_records(&records), FALSE_EMPTY);
    }
    assert_eq!(archives.seen(), [0, 0, 0, 0, 0, 0, 100]);
}
