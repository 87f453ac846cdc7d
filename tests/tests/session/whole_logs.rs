//! Longer logs handed to sessions, record by record: random ones, simulated ones, such with faults
//! put in, chains, and such with removes that have not returned. Feeding and closing must answer as
//! judging the log does, and the closed session must give the log's sheet and excerpt.

use yauponroof_tests::compare::whole_session::{compare_closing, compare_whole, holding};
use yauponroof_tests::logs::chain::{chain, Last};
use yauponroof_tests::logs::enumerate::{random_log, random_log_with_pending_remove};
use yauponroof_tests::logs::insertion::{with_empty_removes, with_run};
use yauponroof_tests::logs::notation::run;
use yauponroof_tests::logs::samples::{longest_false_empty, Verdict, RUNS};
use yauponroof_tests::logs::simulation::{simulate_load, Clients, Load};
use yauponroof_tests::model::reader::{self, Refusal, MAX_RECORDS};
use yauponroof_tests::model::record::{Event, Record};
use yauponroof_tests::model::session::OPEN;
use yauponroof_tests::model::sheet::{ORDER, SHEET_MAX};
use yauponroof_tests::model::violations::FALSE_EMPTY;
use yauponroof_tests::model::writer::{log, record_bytes};
use yauponroof_tests::random::Random;
use yauponroof_tests::{refused, Answer};

/// The verdict that a session closed on these records tells.
fn verdict(records: &[Record]) -> u8 {
    compare_whole(records).expect("a sheet")[1]
}

#[test]
fn random_logs() {
    let mut random = Random::new(206);
    let mut seen = [0; 7];
    for _ in 0..3000 {
        let records = random_log(4 + random.next_u64() as usize % 12, &mut random);
        seen[usize::from(verdict(&records))] += 1;
    }
    assert_eq!(seen, [572, 938, 682, 450, 215, 15, 128]);
}

#[test]
fn simulated_logs() {
    let mut random = Random::new(207);
    let mut orders = 0;
    for load in [Load::Even, Load::Busy] {
        for workers in [1, 3, 8, 64] {
            for n in [20, 60, 200] {
                for clients in [Clients::Reused, Clients::OnePerOperation] {
                    let run = simulate_load(load, workers, clients, n, random.next_u64());
                    let pending = run.with_pending_adds(20, &mut random);
                    for records in [run.records, pending.records] {
                        assert_eq!(verdict(&records), 0);
                        orders += 1;
                    }
                }
            }
        }
    }
    assert_eq!(orders, 96);
}

#[test]
fn simulated_logs_of_the_most_records() {
    let mut random = Random::new(208);
    for (load, workers) in [(Load::Even, 3), (Load::Busy, 8), (Load::Busy, 64)] {
        let seed = random.next_u64();
        let run = simulate_load(load, workers, Clients::Reused, MAX_RECORDS, seed);
        assert_eq!(run.records.len(), MAX_RECORDS);
        assert_eq!(verdict(&run.records), 0);
        assert_eq!(verdict(&run.with_pending_adds(10, &mut random).records), 0);
    }
}

#[test]
fn logs_with_a_fault_put_in() {
    let mut random = Random::new(209);
    let mut faults = 0;
    for (text, _, run_verdict) in RUNS {
        let Verdict::Pattern(number, _) = run_verdict else {
            continue;
        };
        for n in [40, 120, 400] {
            let run = simulate_load(Load::Even, 4, Clients::Reused, n, random.next_u64());
            let sound = run.drained().records;
            // Behind a queue that is empty then it is the only fault.
            let behind = with_run(&sound, &[(sound.len(), text)]);
            assert_eq!(verdict(&behind), number, "{text}");
            // Elsewhere it may be that of a lower number.
            let at = random.below(sound.len());
            let told = verdict(&with_run(&sound, &[(at, text)]));
            assert!(0 < told && told <= number, "{told} for {text}");
            faults += 1;
        }
    }
    assert_eq!(faults, 21);
}

#[test]
fn chains() {
    for count in [1, 2, 3, 10, 60] {
        for last in [Last::Kept, Last::Removed] {
            for broken in [1, count / 2, count] {
                let chain = chain(count, last, |value| value == broken);
                let end = chain.records.len() - if last == Last::Removed { 2 } else { 0 };
                let records = with_empty_removes(&chain.records, &[(2, end)]);
                let expected = match chain.breaks.is_empty() {
                    true => FALSE_EMPTY,
                    false => ORDER,
                };
                assert_eq!(verdict(&records), expected, "{count}, {last:?}, {broken}");
            }
        }
    }
    let longest = longest_false_empty();
    assert_eq!(longest.len(), MAX_RECORDS);
    assert_eq!(verdict(&longest), FALSE_EMPTY);
}

#[test]
fn random_logs_with_an_open_remove() {
    let mut random = Random::new(255);
    let mut seen = [0; 7];
    for _ in 0..3000 {
        let least = 4 + random.below(12);
        let records = random_log_with_pending_remove(least, &mut random);
        seen[usize::from(verdict(&records))] += 1;
    }
    assert_eq!(seen, [928, 593, 532, 669, 147, 9, 122]);
}

#[test]
fn simulated_logs_of_which_a_consumer_never_came_back() {
    let mut random = Random::new(256);
    let mut orders = 0;
    for load in [Load::Even, Load::Busy] {
        for (workers, n) in [(3, 20), (3, 200), (8, 60), (64, 200), (8, MAX_RECORDS)] {
            let run = simulate_load(load, workers, Clients::Reused, n, random.next_u64());
            let pending = run.with_pending_adds(20, &mut random);
            for run in [run, pending] {
                let open = run.with_pending_remove(&mut random);
                assert_eq!(verdict(&open.records), 0);
                orders += 1;
            }
        }
    }
    assert_eq!(orders, 20);
}

/// The records without the returns of some removes, one of so many. A client whose remove stays open
/// calls nothing more.
fn with_open_removes(records: &[Record], one_in: usize, random: &mut Random) -> Vec<Record> {
    let mut gone: Vec<u16> = Vec::new();
    let mut kept = Vec::new();
    for record in records {
        let is_lost = matches!(record.event, Event::ReturnRemove(_)) && random.below(one_in) == 0;
        if is_lost {
            gone.push(record.client);
        }
        if !gone.contains(&record.client) {
            kept.push(*record);
        }
    }
    kept
}

#[test]
fn logs_with_removes_that_have_not_returned() {
    let mut random = Random::new(210);
    let mut refusals = 0;
    for round in 0..150 {
        let n = [10, 40, 160][round % 3];
        let run = simulate_load(Load::Even, 12, Clients::Reused, n, random.next_u64());
        let records = with_open_removes(&run.records, 1 + n / 20, &mut random);
        let Err(Refusal(10, index)) = reader::read(&log(&records)) else {
            continue;
        };
        assert_eq!(compare_whole(&records), Err(refused(10, index as u32)));
        refusals += 1;
    }
    assert_eq!(refusals, 126);
}

/// The second remove without return is told, and once one has returned, the next one, until one is
/// left.
#[test]
fn a_session_can_be_closed_when_the_missing_returns_are_fed() {
    let records = run("A1( A1) Ra( Rb( A2( Rc( Rd( Rb-) Ra1) Rd-) Rc2)");
    let (open, returns) = records.split_at(7);
    let mut session = holding(&log(open), OPEN, 50);
    for (record, second) in returns.iter().zip([3, 5, 6]) {
        assert_eq!(session.close(SHEET_MAX), Err(refused(10, second)));
        let record = record_bytes(record);
        assert_eq!(session.feed(&record), Answer::Accepted(record.len() as u32));
    }
    let fed_so_far = log(&records[..10]);
    let sheet = compare_closing(&mut session.clone(), &fed_so_far).expect("a sheet");
    assert_eq!(sheet[..4], [1, 0, 0, 4]);
    let last = record_bytes(&records[10]);
    assert_eq!(session.feed(&last), Answer::Accepted(last.len() as u32));
    let sheet = compare_closing(&mut session, &log(&records)).expect("a sheet");
    assert_eq!(sheet[..4], [1, 0, 0, 6]);
}
