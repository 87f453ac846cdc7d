//! The judge finds an operation's return by its client, however alike the numbers of clients are,
//! and it does not matter to it which clients they are.

use yauponroof_tests::compare::archive::Archives;
use yauponroof_tests::library::outcomes::judged;
use yauponroof_tests::logs::clients::{clients_apart, DISTANCES};
use yauponroof_tests::logs::enumerate::every_log;
use yauponroof_tests::model::record::{call_add, return_add};
use yauponroof_tests::model::sheet::sheet;
use yauponroof_tests::model::writer::log;

#[test]
fn clients_that_share_a_remainder_change_nothing() {
    let mut archives = Archives::new();
    every_log(6, &mut |records| {
        for distance in DISTANCES {
            archives.compare_records(&clients_apart(records, distance));
        }
    });
    let seen = [2093, 2787, 396, 1131, 119, 0, 158].map(|seen| 3 * seen);
    assert_eq!(archives.seen(), seen);
}

/// Both clients call an add, and one of the adds returns: that one alone is listed.
fn assert_returned_is_listed(clients: [u16; 2]) {
    let [first, second] = clients;
    let calls = [call_add(first, 1, 1), call_add(second, 1, 2)];
    for returned in [0, 1] {
        let return_record = return_add(clients[usize::from(returned)], 1);
        let log = log(&[&calls[..], &[return_record]].concat());
        assert_eq!(judged(&log), Ok(sheet(&[returned])), "{clients:?}");
    }
}

#[test]
fn each_client_beside_some() {
    let mut pairs = 0;
    for one in [0, 0x5A5A] {
        for other in (0..=u16::MAX).filter(|&other| other != one) {
            assert_returned_is_listed([one, other]);
            pairs += 1;
        }
    }
    assert_eq!(pairs, 2 * 65_535);
}
