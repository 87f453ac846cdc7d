//! Every short input over telling alphabets, held against the model's reader.

use yauponroof_tests::compare::reading::Tally;
use yauponroof_tests::hex::hex;
use yauponroof_tests::model::record::{
    call_add, call_remove, return_add, return_empty, return_value,
};
use yauponroof_tests::model::writer::{header, record_bytes};
use yauponroof_tests::Answer;

/// Compares `bytes` and everything made of it by appending up to `more` bytes of the alphabet.
fn compare_tails(bytes: &mut Vec<u8>, alphabet: &[u8], more: usize, tally: &mut Tally) {
    tally.compare(bytes);
    if more == 0 {
        return;
    }
    for &byte in alphabet {
        bytes.push(byte);
        compare_tails(bytes, alphabet, more - 1, tally);
        bytes.pop();
    }
}

/// The same, behind a beginning given in hexadecimal.
fn compare_behind(beginning: &str, alphabet: &[u8], more: usize, tally: &mut Tally) {
    compare_tails(&mut hex(beginning), alphabet, more, tally);
}

#[test]
fn every_short_byte_string() {
    let mut tally = Tally::new();
    compare_behind("", &[0, 1, 2, 3, 4, 5, 7, 11, 255], 6, &mut tally);
    assert_eq!(tally.total(), (9u64.pow(7) - 1) / 8);
    // Six bytes hold no whole record of a known kind, so there is none of 6 to 10.
    tally.assert_at_least([1, 15_000, 500_000, 30_000, 2000, 5000, 0, 0, 0, 0, 0]);
}

#[test]
fn every_header() {
    let mut tally = Tally::new();
    for version in 0..=u8::MAX {
        for n in 0..=u16::MAX {
            let mut bytes = header(n);
            bytes[0] = version;
            tally.compare(&bytes);
        }
    }
    tally.assert_at_least([1, 1024, 255 * 65_536, 64_511, 0, 0, 0, 0, 0, 0, 0]);
}

#[test]
fn every_kind_and_length() {
    let mut tally = Tally::new();
    for length in 0..=u8::MAX {
        for kind in 0..=u8::MAX {
            // Enough bytes behind the kind for any L, just enough for this L, or one too few.
            for body in [
                255,
                usize::from(length),
                usize::from(length).saturating_sub(1),
            ] {
                let mut bytes = header(1);
                bytes.push(length);
                bytes.push(kind);
                bytes.resize(4 + body, 0);
                tally.compare(&bytes);
            }
        }
    }
    tally.assert_at_least([2, 60_000, 0, 0, 120_000, 3000, 0, 0, 6, 0, 0]);
}

#[test]
fn every_field_of_a_second_record() {
    // Behind a call of remove by client 1 at tick 0x01010101.
    let first = "010002 0702000101010101";
    let mut tally = Tally::new();
    compare_behind(&format!("{first} 07"), &[0, 1, 2, 3, 5], 7, &mut tally);
    for kind in ["01", "04"] {
        compare_behind(&format!("{first} 0B{kind}"), &[0, 1, 2], 8, &mut tally);
    }
    tally.assert_at_least([
        400, 30_000, 0, 0, 15_000, 15_000, 10_000, 400, 20_000, 0, 10_000,
    ]);
}

#[test]
fn every_value_of_a_second_add() {
    let mut tally = Tally::new();
    let first = "010002 0B0100010000000101000102";
    compare_behind(
        &format!("{first} 0B01000200000001"),
        &[0, 1, 2, 255],
        5,
        &mut tally,
    );
    tally.assert_at_least([255, 1000, 0, 0, 0, 0, 0, 0, 0, 1, 0]);
}

/// Records of two clients with these ticks and two values, then some that no log may have.
fn few_records(ticks: &[u32]) -> Vec<Vec<u8>> {
    let mut records = Vec::new();
    for client in [0, 1] {
        for &tick in ticks {
            for value in [0, 7] {
                records.push(record_bytes(&call_add(client, tick, value)));
                records.push(record_bytes(&return_value(client, tick, value)));
            }
            records.push(record_bytes(&call_remove(client, tick)));
            records.push(record_bytes(&return_add(client, tick)));
            records.push(record_bytes(&return_empty(client, tick)));
        }
    }
    records.push(hex("00"));
    // An unknown kind, a remove with room for a value, an add without.
    records.push(hex("0706000000000001"));
    records.push(hex("0B0200000000000100000007"));
    records.push(hex("0701000000000001"));
    records
}

/// The records laid end to end, under a field n that fits them or is one less or one more.
fn compare_records(records: &[&[u8]], tally: &mut Tally) -> Answer {
    let n = records.len() as u16;
    let log_with = |n| {
        let mut bytes = header(n);
        records
            .iter()
            .for_each(|record| bytes.extend_from_slice(record));
        bytes
    };
    if n > 0 {
        tally.compare(&log_with(n - 1));
    }
    tally.compare(&log_with(n + 1));
    tally.compare(&log_with(n))
}

/// What is tried behind a record that is refused.
#[derive(Clone, Copy, PartialEq)]
enum BehindRefused {
    AllTheSame,
    Nothing,
}

/// Compares the records in `taken` and every sequence made of it by appending up to `more`.
fn compare_sequences<'a>(
    taken: &mut Vec<&'a [u8]>,
    all: &'a [Vec<u8>],
    more: usize,
    behind: BehindRefused,
    tally: &mut Tally,
) {
    let answer = compare_records(taken, tally);
    let goes_on = matches!(
        answer,
        Answer::Accepted(_) | Answer::Refused { number: 10, .. }
    );
    if more == 0 || (behind == BehindRefused::Nothing && !goes_on) {
        return;
    }
    for record in all {
        taken.push(record);
        compare_sequences(taken, all, more - 1, behind, tally);
        taken.pop();
    }
}

#[test]
fn every_sequence_of_four_records() {
    let mut tally = Tally::new();
    let all = few_records(&[0, 1]);
    compare_sequences(
        &mut Vec::new(),
        &all,
        4,
        BehindRefused::AllTheSame,
        &mut tally,
    );
    let logs: u64 = (0..=4).map(|n| 3 * 32u64.pow(n)).sum();
    assert_eq!(tally.total(), logs - 1);
    tally.assert_at_least([
        1300, 14_000, 0, 0, 100_000, 300_000, 250_000, 150_000, 1_500_000, 30_000, 50,
    ]);
    tally.assert_seen(31, 10_000);
}

#[test]
fn every_sequence_of_six_records_up_to_the_first_refused() {
    let mut tally = Tally::new();
    let all = few_records(&[0, 1, 2]);
    compare_sequences(&mut Vec::new(), &all, 6, BehindRefused::Nothing, &mut tally);
    tally.assert_at_least([
        54_000, 800_000, 0, 0, 30_000, 100_000, 800_000, 100_000, 250_000, 18_000, 2900,
    ]);
    tally.assert_seen(31, 70_000);
}
