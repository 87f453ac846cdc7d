//! Simulated runs whose log is changed in one place and stays readable. Their ticks rise with every
//! record, and each place keeps its tick; with equal ticks a changed log might be refused with 31.

use crate::logs::simulation::Run;
use crate::model::record::{Event, Record, Removed};
use crate::random::Random;

/// A way to change the log of a run; none if the run has nothing to change in this way.
pub type Change = fn(&Run, &mut Random) -> Option<Vec<Record>>;

/// All ways.
pub const CHANGES: [Change; 7] = [
    neighbours_exchanged,
    a_return_sooner,
    a_call_later,
    values_added_exchanged,
    outcomes_exchanged,
    near_outcomes_exchanged,
    an_outcome_changed,
];

/// Neighbouring records of two clients change places. Two calls then change their numbers.
pub fn neighbours_exchanged(run: &Run, random: &mut Random) -> Option<Vec<Record>> {
    let records = &run.records;
    let at = random.below(records.len() - 1);
    let mut changed = records.to_vec();
    changed.swap(at, at + 1);
    let two_clients = records[at].client != records[at + 1].client;
    two_clients.then(|| with_ticks_of(records, changed))
}

/// An operation returns sooner than it did, and so precedes more.
pub fn a_return_sooner(run: &Run, random: &mut Random) -> Option<Vec<Record>> {
    let records = &run.records;
    let from = place_of(records, random, |event| !event.is_call())?;
    let call = (0..from).rfind(|&at| records[at].client == records[from].client)?;
    let mut changed = records.to_vec();
    let record = changed.remove(from);
    changed.insert(call + 1 + random.below(from - call), record);
    Some(with_ticks_of(records, changed))
}

/// An operation is called later than it was, and so is preceded by more.
pub fn a_call_later(run: &Run, random: &mut Random) -> Option<Vec<Record>> {
    let records = &run.records;
    let from = place_of(records, random, Event::is_call)?;
    let client = records[from].client;
    let mut behind = from + 1..records.len();
    let next = behind.find(|&at| records[at].client == client)?;
    let mut changed = records.to_vec();
    let record = changed.remove(from);
    changed.insert(from + random.below(next - from), record);
    Some(with_ticks_of(records, changed))
}

pub fn values_added_exchanged(run: &Run, random: &mut Random) -> Option<Vec<Record>> {
    exchanged(&run.records, random, is_add)
}

pub fn outcomes_exchanged(run: &Run, random: &mut Random) -> Option<Vec<Record>> {
    exchanged(&run.records, random, is_outcome)
}

/// Two removes that return one after the other change what they return.
pub fn near_outcomes_exchanged(run: &Run, random: &mut Random) -> Option<Vec<Record>> {
    let records = &run.records;
    let one = place_of(records, random, is_outcome)?;
    let mut behind = one + 1..records.len();
    let other = behind.find(|&at| is_outcome(records[at].event))?;
    let mut changed = records.to_vec();
    changed[one].event = records[other].event;
    changed[other].event = records[one].event;
    Some(changed)
}

/// A remove returns something else: empty, the least or the greatest value, or one not far off.
pub fn an_outcome_changed(run: &Run, random: &mut Random) -> Option<Vec<Record>> {
    let records = &run.records;
    let at = place_of(records, random, is_outcome)?;
    let near = match records[at].event {
        Event::ReturnRemove(Removed::Value(value)) => value ^ 1 << random.below(32),
        _ => random.next_u64() as u32,
    };
    let values = [0, u32::MAX, near].map(Removed::Value);
    let mut changed = records.clone();
    let removed = random.pick_from(values.into_iter().chain([Removed::Empty]))?;
    changed[at].event = Event::ReturnRemove(removed);
    Some(changed)
}

/// The records with the ticks that stood in their places before, so that they do not fall.
pub fn with_ticks_of(before: &[Record], mut records: Vec<Record>) -> Vec<Record> {
    let pairs = records.iter_mut().zip(before);
    pairs.for_each(|(record, old)| record.tick = old.tick);
    records
}

/// The place of a record with such an event, if there is one.
fn place_of(records: &[Record], random: &mut Random, such: fn(Event) -> bool) -> Option<usize> {
    random.pick_from((0..records.len()).filter(|&at| such(records[at].event)))
}

fn is_add(event: Event) -> bool {
    matches!(event, Event::CallAdd(_))
}

fn is_outcome(event: Event) -> bool {
    matches!(event, Event::ReturnRemove(_))
}

/// Two records of one sort change their events: what is added, or what was removed.
fn exchanged(
    records: &[Record],
    random: &mut Random,
    sort: fn(Event) -> bool,
) -> Option<Vec<Record>> {
    let one = place_of(records, random, sort)?;
    let other = place_of(records, random, sort)?;
    let mut changed = records.to_vec();
    changed[one].event = records[other].event;
    changed[other].event = records[one].event;
    Some(changed)
}
