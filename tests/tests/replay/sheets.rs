//! The form of the sheet that replay is handed: refusal 11 looks at it alone. Every refusal of the
//! log comes before it, and what the sheet lists is answered by yes or no.

use yauponroof_tests::compare::replay::Replays;
use yauponroof_tests::hex::hex;
use yauponroof_tests::library::replay;
use yauponroof_tests::logs::notation::run;
use yauponroof_tests::logs::samples::{calls_then_returns, pending_adds, refusals};
use yauponroof_tests::model::reader::MAX_RECORDS;
use yauponroof_tests::model::sheet::{sheet, sheet_with_k, HEADER};
use yauponroof_tests::model::writer::log;
use yauponroof_tests::{refused, NO, YES};

/// The sheet that lists the operations 0 to k - 1.
fn sheet_in_call_order(k: u16) -> Vec<u8> {
    sheet(&(0..k).collect::<Vec<u16>>())
}

#[test]
fn every_short_length_with_every_small_header() {
    let logs = ["", "A7( A7) R( R7)", "A1( A2( A1) A2) R( R1)"].map(|text| log(&run(text)));
    let mut replays = Replays::new();
    for log in &logs {
        for k in (0..=24).chain([255, 256, 257, 512, 768, 65_535]) {
            for (version, verdict) in (0..9).map(|pair| (pair / 3, pair % 3)) {
                let mut bytes = sheet_with_k(k, &[0, 1, 2, 3, 4, 5, 6, 7, 8]);
                bytes.resize(40, 0);
                bytes[0] = version;
                bytes[1] = verdict;
                for length in 0..=bytes.len() {
                    replays.compare(log, &bytes[..length]);
                }
            }
        }
    }
    // Of each log, one sheet lists its operations in a legal order.
    replays.assert_answered(3, 50);
    replays.assert_refused(11, 34_000);
}

#[test]
fn every_version_and_verdict() {
    let log = log(&run("A7( A7) R( R7)"));
    let mut replays = Replays::new();
    for version in 0..=u8::MAX {
        for verdict in 0..=u8::MAX {
            for order in [&[0, 1], &[1, 0]] {
                let mut bytes = sheet(order);
                bytes[0] = version;
                bytes[1] = verdict;
                replays.compare(&log, &bytes);
            }
        }
    }
    replays.assert_answered(1, 1);
    replays.assert_refused(11, 2 * 65_535);
}

#[test]
fn every_k_with_every_length_around() {
    let log = log(&pending_adds(2));
    // Every number is one that the log lacks, so that the first one decides.
    let mut bytes = vec![0xFF; HEADER + 2 * 65_535 + 4];
    let mut replays = Replays::new();
    for k in 0..=u16::MAX {
        bytes[..HEADER].copy_from_slice(&sheet_with_k(k, &[]));
        let fitting = HEADER + 2 * usize::from(k);
        for length in fitting - 4..=fitting + 4 {
            replays.compare(&log, &bytes[..length]);
        }
    }
    replays.assert_answered(1, 65_535);
    replays.assert_refused(11, 8 * 65_536);
}

#[test]
fn lengths_that_fit_k_but_for_their_high_bits() {
    let log = log(&pending_adds(2));
    let order = [1, 0];
    assert_eq!(replay(&log, &sheet(&order)), YES);
    for bit in 4..=20 {
        let mut bytes = sheet(&order);
        bytes.resize(bytes.len() + (1 << bit), 0);
        assert_eq!(replay(&log, &bytes), refused(11, 0), "bit {bit}");
    }
}

#[test]
fn the_largest_sheet() {
    let sheets = [vec![0; 65_535], vec![65_535; 65_535], (0..65_535).collect()].map(|o| sheet(&o));
    for records in [
        vec![],
        pending_adds(MAX_RECORDS),
        calls_then_returns(MAX_RECORDS),
    ] {
        let log = log(&records);
        for bytes in &sheets {
            assert_eq!(bytes.len(), 131_074);
            assert_eq!(replay(&log, bytes), NO);
            assert_eq!(replay(&log, &bytes[..131_073]), refused(11, 0));
            assert_eq!(replay(&log, &bytes[..131_072]), refused(11, 0));
            assert_eq!(replay(&log, &[&bytes[..], &[0]].concat()), refused(11, 0));
            assert_eq!(
                replay(&log, &[&bytes[..], &[0, 0]].concat()),
                refused(11, 0)
            );
        }
    }
}

#[test]
fn sheets_around_the_number_of_operations() {
    let mut replays = Replays::new();
    for n in [0, 1, 2, 255, 256, 257, 682, 683, MAX_RECORDS] {
        let log = log(&pending_adds(n));
        for k in (0..3).chain(n.saturating_sub(3)..n + 4).chain([1025, 2048]) {
            // As many of these adds as there are may be listed, and not one more.
            let answer = replays.compare(&log, &sheet_in_call_order(k as u16));
            assert_eq!(answer == YES, k <= n, "{k} of {n} adds");
        }
    }
    replays.assert_answered(50, 45);
}

#[test]
fn each_number_that_the_log_lacks() {
    let records = pending_adds(3);
    let log = log(&records);
    let mut replays = Replays::new();
    for number in 0..=u16::MAX {
        replays.compare(&log, &sheet(&[number]));
        replays.compare(&log, &sheet(&[2, number, 0]));
    }
    replays.assert_answered(4, 2 * 65_530);
}

/// Sheets that are refused, for each reason and for several at once.
fn refused_sheets() -> Vec<Vec<u8>> {
    let too_short = ["", "01", "010000"];
    let version_or_verdict = ["02000000", "01010000", "01060000", "FFFFFFFF"];
    let length = [
        "01000001",
        "0100000000",
        "010000010000FF",
        "0100FFFF",
        "0200FFFF",
    ];
    let all = too_short.iter().chain(&version_or_verdict).chain(&length);
    all.map(|text| hex(text)).collect()
}

#[test]
fn the_refusals_of_the_log_come_first() {
    let sheets = [
        vec![sheet(&[]), sheet(&[0]), sheet(&[0, 1])],
        refused_sheets(),
    ]
    .concat();
    let mut replays = Replays::new();
    for (log, refusal) in refusals() {
        for sheet in &sheets {
            assert_eq!(replays.compare(&log, sheet), refusal);
        }
    }
    (1..=10)
        .chain([31])
        .for_each(|number| replays.assert_refused(number, 15));
}

#[test]
fn a_refused_sheet_has_no_record_at_fault() {
    let mut replays = Replays::new();
    for records in [run(""), run("A7( A7) R( R7)"), pending_adds(MAX_RECORDS)] {
        for sheet in refused_sheets() {
            assert_eq!(replays.compare(&log(&records), &sheet), refused(11, 0));
        }
    }
    replays.assert_refused(11, 36);
}
