//! All legal orders of a short log, found in another way than the test of one order: every
//! operation takes effect at one moment between its call and its return, and a pending one behind
//! its call or never. A queue is run along the ticks and all moments are tried. Within a tick all
//! operations are called that the log calls there, then some take effect, and then those return that
//! the log returns there. What a remove takes is held against the log when it returns, so that a
//! pending one may take whatever is at the front, or nothing; nothing here knows which operation
//! precedes which.

use std::collections::{BTreeMap, BTreeSet};

use crate::model::record::{Event, Record, Removed};

/// The legal orders of a readable log.
pub fn linearizations(records: &[Record]) -> BTreeSet<Vec<u16>> {
    let mut states = BTreeSet::from([State::default()]);
    for batch in records.chunk_by(|one, next| one.tick == next.tick) {
        let is_call = |record: &&Record| record.event.is_call();
        let (calls, returns): (Vec<&Record>, Vec<&Record>) = batch.iter().partition(is_call);
        let called = behind_all(states, &calls);
        states = behind_all(with_effects(called), &returns);
    }
    let ended = with_effects(states);
    ended.into_iter().map(|state| state.order).collect()
}

/// What these states become behind the records.
fn behind_all(states: BTreeSet<State>, records: &[&Record]) -> BTreeSet<State> {
    let behind = |state: State| records.iter().try_fold(state, |s, record| s.after(record));
    states.into_iter().filter_map(behind).collect()
}

/// These states and all that they become when operations take effect, one after the other.
fn with_effects(states: BTreeSet<State>) -> BTreeSet<State> {
    let mut all = BTreeSet::new();
    let mut left: Vec<State> = states.into_iter().collect();
    while let Some(state) = left.pop() {
        if all.insert(state.clone()) {
            left.extend(state.next_effects());
        }
    }
    all
}

/// How things stand at some moment.
#[derive(Clone, Default, PartialEq, Eq, PartialOrd, Ord)]
struct State {
    /// The operations that have taken effect, in that order.
    order: Vec<u16>,
    queue: Vec<u32>,
    /// What each client is at.
    at_work: BTreeMap<u16, Work>,
    calls: u16,
}

#[derive(Clone, Copy, PartialEq, Eq, PartialOrd, Ord)]
enum Work {
    /// Called, and without effect so far.
    Add {
        number: u16,
        value: u32,
    },
    Remove {
        number: u16,
    },
    /// The add has taken effect.
    Added,
    /// The remove has taken what was at the front, if there was something.
    Took(Option<u32>),
}

impl State {
    /// The state behind the record; none if the record does not agree with what happened.
    fn after(&self, record: &Record) -> Option<State> {
        let mut state = self.clone();
        let number = self.calls;
        match record.event {
            Event::CallAdd(value) => state.call(record.client, Work::Add { number, value }),
            Event::CallRemove => state.call(record.client, Work::Remove { number }),
            event => {
                let work = state.at_work.remove(&record.client)?;
                if work != work_returned_by(event) {
                    return None;
                }
            }
        }
        Some(state)
    }

    fn call(&mut self, client: u16, work: Work) {
        self.at_work.insert(client, work);
        self.calls += 1;
    }

    /// The states that this one becomes when one more operation takes effect.
    fn next_effects(&self) -> Vec<State> {
        let clients = self.at_work.keys();
        clients.filter_map(|&c| self.with_effect(c)).collect()
    }

    fn with_effect(&self, client: u16) -> Option<State> {
        let mut state = self.clone();
        let (number, done) = match self.at_work[&client] {
            Work::Add { number, value } => {
                state.queue.push(value);
                (number, Work::Added)
            }
            Work::Remove { number } if self.queue.is_empty() => (number, Work::Took(None)),
            Work::Remove { number } => (number, Work::Took(Some(state.queue.remove(0)))),
            Work::Added | Work::Took(_) => return None,
        };
        state.order.push(number);
        state.at_work.insert(client, done);
        Some(state)
    }
}

/// What a client has done when this record returns its operation.
fn work_returned_by(event: Event) -> Work {
    match event {
        Event::ReturnAdd => Work::Added,
        Event::ReturnRemove(Removed::Value(value)) => Work::Took(Some(value)),
        Event::ReturnRemove(Removed::Empty) => Work::Took(None),
        Event::CallAdd(_) | Event::CallRemove => panic!("{event:?} returns nothing"),
    }
}

#[cfg(test)]
mod tests {
    use super::linearizations;
    use crate::logs::notation::{run, run_in_batches};

    #[test]
    fn every_order_is_found() {
        let found = linearizations(&run("A1( A2( R( R2)"));
        let orders: Vec<Vec<u16>> = found.into_iter().collect();
        assert_eq!(orders, [vec![1, 0, 2], vec![1, 2], vec![1, 2, 0]]);
    }

    #[test]
    fn a_pending_remove_takes_the_front_if_there_is_one() {
        let found = linearizations(&run("A1( A1) R("));
        let orders: Vec<Vec<u16>> = found.into_iter().collect();
        assert_eq!(orders, [vec![0], vec![0, 1]]);
        let found = linearizations(&run("Ro( A1( A1) R( R-)"));
        let orders: Vec<Vec<u16>> = found.into_iter().collect();
        assert_eq!(orders, [[1, 0, 2]]);
    }

    #[test]
    fn operations_of_one_tick_come_in_any_order() {
        let found = linearizations(&run_in_batches("A1( A1) A2( A2)"));
        let orders: Vec<Vec<u16>> = found.into_iter().collect();
        assert_eq!(orders, [[0, 1], [1, 0]]);
        let apart = linearizations(&run_in_batches("A1( A1) | A2( A2)"));
        assert_eq!(apart.into_iter().collect::<Vec<_>>(), [[0, 1]]);
    }

    #[test]
    fn a_run_without_order_has_none() {
        assert!(linearizations(&run("A1( A1) R( R-)")).is_empty());
    }
}
