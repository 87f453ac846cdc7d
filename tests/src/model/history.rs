//! The operations of a readable log, taken from its records, and which of them precedes which.

use crate::model::record::{Event, Record, Removed};

/// One operation. Operations are numbered from 0 in the order of their call records.
#[derive(Clone, Copy, Debug, PartialEq, Eq)]
pub struct Operation {
    pub action: Action,
    pub call: Stamp,
    /// None of an operation that is pending (document 01: open).
    pub returned: Option<Stamp>,
}

/// Where a call or a return stands.
#[derive(Clone, Copy, Debug, PartialEq, Eq)]
pub struct Stamp {
    /// The index of the record in the log.
    pub index: usize,
    pub tick: u32,
    /// How many records are taken before this one, in the sequence in which gaps lie between them.
    pub place: usize,
}

/// What an operation does to the queue.
#[derive(Clone, Copy, Debug, PartialEq, Eq)]
pub enum Action {
    /// Puts the value at the back.
    Add(u32),
    /// Takes the value from the front, or meets an empty queue.
    Remove(Removed),
    /// A remove that has not returned. "It may stand in an order once or be left out; where it
    /// stands, it takes the front value if there is one and otherwise changes nothing." (Change 4 of
    /// document 02.)
    PendingRemove,
}

/// The operations of a readable log, in number order.
pub fn operations(records: &[Record]) -> Vec<Operation> {
    let stamps = stamps(records);
    (0..records.len())
        .filter_map(|index| operation_called_at(records, &stamps, index))
        .collect()
}

/// The stamp of each record. "Records are taken by tick, within a tick the calls before the returns,
/// else as they stand."
fn stamps(records: &[Record]) -> Vec<Stamp> {
    let mut taken: Vec<(usize, &Record)> = records.iter().enumerate().collect();
    taken.sort_by_key(|(index, record)| (record.tick, !record.event.is_call(), *index));
    let stamp = |(place, (index, record)): (usize, (usize, &Record))| Stamp {
        index,
        tick: record.tick,
        place,
    };
    let mut stamps: Vec<Stamp> = taken.into_iter().enumerate().map(stamp).collect();
    stamps.sort_by_key(|stamp| stamp.index);
    stamps
}

/// The operation that this record calls; its return is the next record of its client.
fn operation_called_at(records: &[Record], stamps: &[Stamp], call: usize) -> Option<Operation> {
    let client = records[call].client;
    let returned = (call + 1..records.len()).find(|&later| records[later].client == client);
    let action = match records[call].event {
        Event::CallAdd(value) => Action::Add(value),
        Event::CallRemove => match returned.map(|returned| records[returned].event) {
            Some(Event::ReturnRemove(removed)) => Action::Remove(removed),
            Some(event) => panic!("{event:?} returns no remove"),
            None => Action::PendingRemove,
        },
        Event::ReturnAdd | Event::ReturnRemove(_) => return None,
    };
    Some(Operation {
        action,
        call: stamps[call],
        returned: returned.map(|returned| stamps[returned]),
    })
}

/// Change 3 of document 02: "An operation precedes another exactly if its return's tick is lower than
/// the other's call's tick."
pub fn precedes(o: &Operation, p: &Operation) -> bool {
    o.returned
        .is_some_and(|returned| returned.tick < p.call.tick)
}

/// Whether some remove is pending. A readable log has at most one.
pub fn has_pending_remove(operations: &[Operation]) -> bool {
    operations
        .iter()
        .any(|operation| operation.action == Action::PendingRemove)
}

/// Whether some remove took the value.
pub fn is_removed(operations: &[Operation], value: u32) -> bool {
    let remove = Action::Remove(Removed::Value(value));
    operations
        .iter()
        .any(|operation| operation.action == remove)
}

#[cfg(test)]
mod tests {
    use super::{operations, precedes, Action, Operation, Stamp};
    use crate::model::record::{call_add, call_remove, return_add, return_value, Record, Removed};

    /// The operations of which the first precedes the second.
    fn preceding(records: &[Record]) -> Vec<(usize, usize)> {
        let all = operations(records);
        let numbers = 0..all.len();
        let pairs = numbers
            .clone()
            .flat_map(|o| numbers.clone().map(move |p| (o, p)));
        pairs.filter(|&(o, p)| precedes(&all[o], &all[p])).collect()
    }

    #[test]
    fn operations_are_called_and_returned_by_their_client() {
        let records = [
            call_remove(7, 1),
            call_add(8, 2, 5),
            return_value(7, 3, 5),
            call_add(7, 4, 6),
            return_add(7, 5),
        ];
        let stamp = |index: usize| Stamp {
            index,
            tick: index as u32 + 1,
            place: index,
        };
        let operation = |action, call, returned: Option<usize>| Operation {
            action,
            call: stamp(call),
            returned: returned.map(stamp),
        };
        assert_eq!(
            operations(&records),
            [
                operation(Action::Remove(Removed::Value(5)), 0, Some(2)),
                operation(Action::Add(5), 1, None),
                operation(Action::Add(6), 3, Some(4)),
            ]
        );
        assert_eq!(preceding(&records), [(0, 2)]);
    }

    #[test]
    fn a_remove_that_has_not_returned_is_pending() {
        let records = [call_remove(7, 1), call_add(8, 2, 5), return_add(8, 3)];
        let all = operations(&records);
        assert_eq!(all[0].action, Action::PendingRemove);
        assert_eq!(all[0].returned, None);
        assert_eq!(preceding(&records), []);
    }

    #[test]
    fn within_a_tick_nothing_precedes_and_calls_are_taken_before_returns() {
        let records = [
            call_add(1, 5, 10),
            call_add(2, 7, 20),
            return_add(1, 7),
            call_add(3, 7, 30),
            return_add(3, 7),
            call_add(1, 8, 40),
        ];
        let all = operations(&records);
        let places = |number: usize| {
            let Operation { call, returned, .. } = all[number];
            (call.place, returned.map(|returned| returned.place))
        };
        assert_eq!(places(0), (0, Some(3)));
        assert_eq!(places(1), (1, None));
        assert_eq!(places(2), (2, Some(4)));
        assert_eq!(places(3), (5, None));
        assert_eq!(preceding(&records), [(0, 3), (2, 3)]);
    }
}
