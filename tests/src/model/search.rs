//! Whether a short log has a legal order (a linearization), by trying: operations are placed one
//! after the other in every way that precedence and the queue allow (the search of Wing and Gong,
//! with Lowe's memory of where it has been). It knows nothing of patterns, nor of what the judge tries
//! for a pending remove: that is placed as any other operation, or never.

use std::collections::HashSet;

use crate::model::history::{precedes, Action, Operation};
use crate::model::record::Removed;

/// The most operations that can be told apart in a state.
const MOST_OPERATIONS: usize = 32;

/// Whether some order is legal for these operations of a readable log.
pub fn has_linearization(operations: &[Operation]) -> bool {
    let search = Search::new(operations);
    let mut seen = HashSet::new();
    let mut left = vec![State::default()];
    while let Some(state) = left.pop() {
        if search.is_done(&state) {
            return true;
        }
        if seen.insert(state.clone()) {
            left.extend(search.next(&state));
        }
    }
    false
}

/// Which operations are placed, a bit for each, and what they leave in the queue, as far as that is
/// ever reached.
#[derive(Clone, Default, PartialEq, Eq, Hash)]
struct State {
    placed: u32,
    queue: Vec<u32>,
}

struct Search<'a> {
    operations: &'a [Operation],
    /// For each operation those that precede it.
    preceding: Vec<u32>,
    returned: u32,
    pending_removes: u32,
    removed: HashSet<u32>,
}

impl<'a> Search<'a> {
    fn new(operations: &'a [Operation]) -> Search<'a> {
        assert!(operations.len() <= MOST_OPERATIONS);
        let removed_value = |operation: &Operation| match operation.action {
            Action::Remove(Removed::Value(value)) => Some(value),
            _ => None,
        };
        let preceding = |p| bits(operations, |o| precedes(o, p));
        Search {
            operations,
            preceding: operations.iter().map(preceding).collect(),
            returned: bits(operations, |o| o.returned.is_some()),
            pending_removes: bits(operations, |o| o.action == Action::PendingRemove),
            removed: operations.iter().filter_map(removed_value).collect(),
        }
    }

    /// Whether every returned operation is placed. Pending ones may be left out.
    fn is_done(&self, state: &State) -> bool {
        self.returned & !state.placed == 0
    }

    /// The states that this one becomes when one more operation is placed.
    fn next(&self, state: &State) -> Vec<State> {
        let numbers = 0..self.operations.len();
        numbers.filter_map(|o| self.place(state, o)).collect()
    }

    fn place(&self, state: &State, number: usize) -> Option<State> {
        let placed = state.placed | 1 << number;
        let is_new = placed != state.placed;
        let is_preceded = self.preceding[number] & !state.placed != 0;
        if !is_new || is_preceded {
            return None;
        }
        let mut queue = run(&state.queue, self.operations[number].action)?;
        queue.truncate(self.reached(&queue, placed));
        Some(State { placed, queue })
    }

    /// How much of the queue can ever be reached. Behind a value that no remove returned nothing is,
    /// unless a pending remove that is not placed takes that value.
    fn reached(&self, queue: &[u32], placed: u32) -> usize {
        let takers = (self.pending_removes & !placed).count_ones() as usize;
        let stays = |&place: &usize| !self.removed.contains(&queue[place]);
        let mut staying = (0..queue.len()).filter(stays);
        staying.nth(takers).map_or(queue.len(), |last| last + 1)
    }
}

/// The queue behind the operation; none if the operation cannot have met this queue.
fn run(queue: &[u32], action: Action) -> Option<Vec<u32>> {
    match action {
        Action::Add(value) => Some([queue, &[value]].concat()),
        Action::Remove(Removed::Value(value)) => {
            let (front, behind) = queue.split_first()?;
            (*front == value).then(|| behind.to_vec())
        }
        Action::Remove(Removed::Empty) => queue.is_empty().then(Vec::new),
        Action::PendingRemove => Some(queue.iter().skip(1).copied().collect()),
    }
}

/// A bit for each such operation.
fn bits(operations: &[Operation], such: impl Fn(&Operation) -> bool) -> u32 {
    let numbers = (0..operations.len()).filter(|&o| such(&operations[o]));
    numbers.fold(0, |bits, o| bits | 1 << o)
}

#[cfg(test)]
mod tests {
    use super::has_linearization;
    use crate::logs::enumerate::{
        every_log, every_log_with_joined_ticks, every_log_with_pending_remove,
    };
    use crate::model::all_linearizations::linearizations;
    use crate::model::history::operations;
    use crate::model::reader;
    use crate::model::record::Record;
    use crate::model::writer::log;

    /// Whether the log has an order, by the search and by trying all moments.
    fn compared(records: &[Record]) -> bool {
        let has = has_linearization(&operations(records));
        assert_eq!(has, !linearizations(records).is_empty(), "{records:?}");
        has
    }

    #[test]
    fn it_finds_an_order_exactly_where_trying_all_moments_does() {
        let mut found = [0, 0];
        every_log(6, &mut |records| found[usize::from(compared(records))] += 1);
        assert_eq!(found, [4591, 2093]);
    }

    #[test]
    fn it_does_so_with_ticks_joined_in_every_way() {
        let mut found = [0, 0];
        every_log_with_joined_ticks(5, &mut |records| {
            if reader::read(&log(records)).is_ok() {
                found[usize::from(compared(records))] += 1;
            }
        });
        assert_eq!(found, [5250, 4392]);
    }

    #[test]
    fn it_does_so_with_a_pending_remove() {
        let mut found = [0, 0];
        every_log_with_pending_remove(6, &mut |records| {
            found[usize::from(compared(records))] += 1;
        });
        assert_eq!(found, [3922, 2871]);
    }
}
