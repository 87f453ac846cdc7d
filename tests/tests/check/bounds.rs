//! The ends of every range: records, bytes, clients, ticks, values.

use yauponroof_tests::compare::reading::Tally;
use yauponroof_tests::library::check;
use yauponroof_tests::logs::samples::{calls_then_returns, pending_adds};
use yauponroof_tests::logs::simulation::{simulate, Clients};
use yauponroof_tests::model::reader::{LOG_MAX, MAX_RECORDS};
use yauponroof_tests::model::record::{
    call_add, call_remove, return_add, return_empty, return_value,
};
use yauponroof_tests::model::writer::{log, log_with_n};
use yauponroof_tests::{refused, Answer};

const N: u32 = MAX_RECORDS as u32;

#[test]
fn no_bytes_at_all() {
    assert_eq!(check(&[]), refused(1, 0));
}

#[test]
fn the_longest_log_is_read() {
    let bytes = log(&pending_adds(MAX_RECORDS));
    assert_eq!(bytes.len(), LOG_MAX);
    assert_eq!(LOG_MAX, 12_291);
    assert_eq!(check(&bytes), Answer::Accepted(N));
}

#[test]
fn logs_of_the_most_records_are_read() {
    for workers in [1, 2, 8, 64, 512] {
        for clients in [Clients::Reused, Clients::OnePerOperation] {
            let bytes = log(&simulate(workers, clients, MAX_RECORDS, u64::from(workers)));
            assert_eq!(check(&bytes), Answer::Accepted(N / 2));
        }
    }
    let bytes = log(&calls_then_returns(MAX_RECORDS));
    assert_eq!(check(&bytes), Answer::Accepted(N / 2));
}

#[test]
fn more_records_than_allowed_are_refused_by_n_alone() {
    let records = pending_adds(MAX_RECORDS + 1);
    assert_eq!(check(&log(&records)), refused(3, 0));
    for n in [1025, 1026, 1280, 2048, 2049, 32_768, 65_535] {
        assert_eq!(check(&log_with_n(n, &records)), refused(3, 0));
        assert_eq!(check(&log_with_n(n, &[])), refused(3, 0));
    }
    // With n = 1,024 the record too many is bytes left.
    assert_eq!(check(&log_with_n(1024, &records)), refused(1, N));
}

#[test]
fn every_n_of_short_and_long_logs() {
    let mut tally = Tally::new();
    for size in [0, 1, 2, 255, 256, 257, MAX_RECORDS] {
        let records = pending_adds(size);
        for n in 0..=1100 {
            let answer = tally.compare(&log_with_n(n, &records));
            let n = usize::from(n);
            let told = if n > MAX_RECORDS {
                refused(3, 0)
            } else if n == size {
                Answer::Accepted(size as u32)
            } else {
                refused(1, n.min(size) as u32)
            };
            assert_eq!(answer, told, "{size} records, n = {n}");
        }
    }
    tally.assert_at_least([7, 7000, 0, 500, 0, 0, 0, 0, 0, 0, 0]);
}

#[test]
fn bytes_left_are_refused_at_every_length() {
    let mut bytes = log(&pending_adds(MAX_RECORDS));
    for left in 1..=300 {
        bytes.push(left as u8);
        assert_eq!(check(&bytes), refused(1, N), "{left} bytes left");
    }
    for length in [16_384, 65_535, 65_536, 65_537, 1 << 20] {
        bytes.resize(length, 0);
        assert_eq!(check(&bytes), refused(1, N), "{length} bytes");
    }
}

#[test]
fn bytes_left_behind_short_logs() {
    let sound = log(&simulate(2, Clients::Reused, 6, 1));
    let lengths = (sound.len() + 1..=sound.len() + 300).chain(LOG_MAX - 20..=LOG_MAX + 20);
    for length in lengths.chain([65_536, 1 << 20]) {
        let mut bytes = sound.clone();
        bytes.resize(length, 7);
        assert_eq!(check(&bytes), refused(1, 6), "{length} bytes");
        let mut empty = vec![1, 0, 0];
        empty.resize(length, 0);
        assert_eq!(check(&empty), refused(1, 0), "{length} bytes");
    }
}

#[test]
fn bytes_that_end_inside_the_last_record() {
    let bytes = log(&pending_adds(MAX_RECORDS));
    for missing in 1..=12 {
        let cut = &bytes[..bytes.len() - missing];
        assert_eq!(check(cut), refused(1, N - 1), "{missing} bytes missing");
    }
    let cut = &bytes[..bytes.len() - 13];
    assert_eq!(check(cut), refused(1, N - 2));
}

#[test]
fn the_least_and_the_greatest_clients_ticks_and_values() {
    for client in [0, 1, 255, 256, 32_767, 32_768, 65_534, 65_535] {
        for value in [0, 1, 255, 65_535, 65_536, 1 << 31, u32::MAX] {
            let bytes = log(&[
                call_add(client, 0, value),
                return_add(client, 0),
                call_remove(client, 1),
                return_value(client, u32::MAX - 1, value),
                call_remove(client, u32::MAX),
                return_empty(client, u32::MAX),
            ]);
            assert_eq!(check(&bytes), Answer::Accepted(3), "{client} {value}");
        }
    }
}

#[test]
fn clients_and_values_are_told_apart_by_every_bit() {
    for bit in 0..16 {
        let (one, other) = (0x5A5A, 0x5A5A ^ 1 << bit);
        let both = log(&[call_add(one, 1, 1), call_add(other, 1, 2)]);
        assert_eq!(check(&both), Answer::Accepted(2), "client bit {bit}");
        let stranger = log(&[call_add(one, 1, 1), return_add(other, 1)]);
        assert_eq!(check(&stranger), refused(8, 1), "client bit {bit}");
    }
    for bit in 0..32 {
        let (one, other) = (0x5A5A_5A5A, 0x5A5A_5A5A ^ 1 << bit);
        let both = log(&[call_add(1, 1, one), call_add(2, 1, other)]);
        assert_eq!(check(&both), Answer::Accepted(2), "value bit {bit}");
    }
}

#[test]
fn ticks_are_compared_as_32_unsigned_bits() {
    let pairs = [
        (0, 0),
        (0, 1),
        (255, 256),
        (65_535, 65_536),
        (0x7FFF_FFFF, 0x8000_0000),
        (0, u32::MAX),
        (u32::MAX - 1, u32::MAX),
    ];
    for (low, high) in pairs {
        let rising = log(&[call_add(1, low, 1), call_add(2, high, 2)]);
        assert_eq!(check(&rising), Answer::Accepted(2), "{low} {high}");
        if low < high {
            let falling = log(&[call_add(1, high, 1), call_add(2, low, 2)]);
            assert_eq!(check(&falling), refused(6, 1), "{high} {low}");
        }
    }
}

#[test]
fn faults_of_the_last_record_are_told_across_the_whole_log() {
    let mut records = pending_adds(MAX_RECORDS - 1);
    let last = N - 1;
    let with_last = |record| {
        let mut all = records.clone();
        all.push(record);
        check(&log(&all))
    };
    let first = records[0];
    assert_eq!(with_last(call_add(1023, 1022, 5)), Answer::Accepted(N));
    assert_eq!(with_last(call_add(1023, 1021, 5)), refused(6, last));
    assert_eq!(with_last(call_add(0, 1022, 5)), refused(7, last));
    assert_eq!(with_last(return_add(1023, 1022)), refused(8, last));
    assert_eq!(with_last(return_empty(0, 1022)), refused(8, last));
    assert_eq!(with_last(return_add(0, 1022)), Answer::Accepted(N - 1));
    assert_eq!(with_last(call_add(1023, 1022, !0)), refused(9, last));
    assert_eq!(with_last(call_remove(1023, 1022)), Answer::Accepted(N));
    // A second remove without return is told where it stands, whichever is the first.
    records[0] = call_remove(first.client, first.tick);
    assert_eq!(check(&log(&records)), Answer::Accepted(N - 1));
    records.push(call_remove(1023, 1022));
    assert_eq!(check(&log(&records)), refused(10, last));
    records[500] = call_remove(500, 500);
    assert_eq!(check(&log(&records)), refused(10, 500));
    records[0] = first;
    assert_eq!(check(&log(&records)), refused(10, last));
}
