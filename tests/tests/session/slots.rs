//! Sessions that are fed values and clients that share slots of the library's maps: a feed is refused
//! exactly if the log held has that very value, or that very client is at work.

use yauponroof_tests::compare::whole_session::{compare_closing, compare_whole, fed, fed_seen};
use yauponroof_tests::logs::samples::adds_then_removes;
use yauponroof_tests::logs::simulation::{runs_with_shared_slots, simulate, Clients};
use yauponroof_tests::logs::slots::Slots;
use yauponroof_tests::model::reader::MAX_RECORDS;
use yauponroof_tests::model::record::{call_add, return_add, Record};
use yauponroof_tests::model::sheet::ORDER;
use yauponroof_tests::model::writer::{log, record_bytes};
use yauponroof_tests::refused;

/// The verdict byte on the sheet of a session that is closed on these records.
fn verdict(records: &[Record]) -> u8 {
    compare_whole(records).expect("a sheet")[1]
}

#[test]
fn runs_of_a_queue() {
    let mut closed = 0;
    let runs = runs_with_shared_slots().into_iter();
    for run in runs.filter(|run| run.records.len() <= 256) {
        assert_eq!(verdict(&run.records), ORDER);
        closed += 1;
    }
    assert!(closed >= 90, "{closed} sessions");
}

#[test]
fn the_most_records() {
    let run = simulate(64, Clients::Reused, MAX_RECORDS, 216);
    for slots in [Slots::default(), Slots::of_the_reader()] {
        assert_eq!(verdict(&slots.shared(&run)), ORDER);
    }
}

#[test]
fn a_value_that_no_add_names_or_that_is_removed_twice() {
    let slots = Slots::default();
    for (other, pattern) in [(40, 1), (0, 2), (18, 2)] {
        let taken = (0..20).map(|value| if value == 19 { other } else { value });
        let records = slots.shared(&adds_then_removes(20, taken));
        assert_eq!(verdict(&records), pattern, "{other}");
    }
}

/// Adds of these values by these clients, one by each, as far as both go.
fn pending_adds(clients: &[u16], values: &[u32]) -> Vec<Record> {
    let pairs = clients.iter().zip(values);
    pairs.map(|(&c, &value)| call_add(c, 1, value)).collect()
}

#[test]
fn each_value_is_fed_again_after_each_record() {
    let slots = Slots::default();
    let values = &slots.values[..30];
    let adds = pending_adds(&slots.clients, values);
    let (stranger, mut refusals) = (slots.clients[100], 0);
    fed_seen(&adds, |session, _| {
        let held = (session.held().len() - 3) / 12;
        for &value in &values[..held] {
            let again = record_bytes(&call_add(stranger, 1, value));
            assert_eq!(session.clone().feed(&again), refused(9, held as u32));
            refusals += 1;
        }
    });
    assert_eq!(refusals, 30 * 31 / 2);
}

#[test]
fn a_client_at_work_calls_again_and_one_that_is_not_returns() {
    refuse_what_does_not_fit(&Slots::default());
    refuse_what_does_not_fit(&Slots::of_the_reader());
}

fn refuse_what_does_not_fit(slots: &Slots) {
    let (callers, strangers) = slots.clients[..125].split_at(60);
    let adds = pending_adds(callers, &slots.values);
    let mut session = fed(&adds);
    for &client in callers {
        let call = record_bytes(&call_add(client, 1, 7));
        assert_eq!(session.feed(&call), refused(7, 60));
    }
    for &client in strangers {
        let returned = record_bytes(&return_add(client, 1));
        assert_eq!(session.feed(&returned), refused(8, 60));
    }
    // The session holds none of these.
    compare_closing(&mut session, &log(&adds)).expect("a sheet");
}
