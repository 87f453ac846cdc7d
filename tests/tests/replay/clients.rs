//! Two clients whose operations overlap: a return ends the operation of its own client, however
//! alike the two numbers are.

use yauponroof_tests::compare::replay::Replays;
use yauponroof_tests::model::record::{call_add, return_add};
use yauponroof_tests::model::sheet::sheet;
use yauponroof_tests::model::writer::log;
use yauponroof_tests::{NO, YES};

/// Both clients call an add, and one of the adds returns: that one has to be listed.
fn compare_returns(clients: [u16; 2], replays: &mut Replays) {
    let [first, second] = clients;
    let calls = [call_add(first, 1, 1), call_add(second, 1, 2)];
    for (returned, pending) in [(0, 1), (1, 0)] {
        let return_record = return_add(clients[usize::from(returned)], 1);
        let log = log(&[&calls[..], &[return_record]].concat());
        let with_it = replays.compare(&log, &sheet(&[returned]));
        assert_eq!(with_it, YES, "{clients:?}, {returned} returns");
        let without_it = replays.compare(&log, &sheet(&[pending]));
        assert_eq!(without_it, NO, "{clients:?}, {returned} returns");
    }
}

#[test]
fn clients_that_share_their_low_bits() {
    let mut replays = Replays::new();
    for clients in [[0, 1024], [7, 4103], [65_535, 64_511], [3, 16_387]] {
        let [one, other] = clients;
        compare_returns(clients, &mut replays);
        compare_returns([other, one], &mut replays);
    }
    replays.assert_answered(16, 16);
}

#[test]
fn each_client_beside_some() {
    let mut replays = Replays::new();
    for one in [0, 7, 0x5A5A, u16::MAX] {
        let others = (0..=u16::MAX).filter(|&other| other != one);
        others.for_each(|other| compare_returns([one, other], &mut replays));
    }
    replays.assert_answered(8 * 65_535, 8 * 65_535);
}
