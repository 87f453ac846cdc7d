//! The verdict on the operations of a readable log, by the table of patterns. Of a pending remove
//! change 4 of document 02 says: "The judge first tries it left out, then as the remove of each value
//! added and not otherwise removed, lowest add first, and lists the first success. If none succeeds,
//! the pattern is the one found with it left out."

use crate::model::history::{is_removed, Action, Operation};
use crate::model::record::Removed;
use crate::model::violations::{first_violation, Violation};

/// The verdict, and what it is about.
#[derive(Clone, Debug, PartialEq, Eq)]
pub enum Judgement {
    /// An order of these operations. Among them a pending remove is one still if it is left out, and
    /// otherwise the remove of the value that it took.
    Order(Vec<Operation>),
    Pattern(Violation),
}

/// The verdict on these operations.
pub fn judgement(operations: &[Operation]) -> Judgement {
    let Some(violation) = first_violation(operations) else {
        return Judgement::Order(operations.to_vec());
    };
    let mut fates = fates(operations);
    match fates.find(|fate| first_violation(fate).is_none()) {
        Some(fate) => Judgement::Order(fate),
        None => Judgement::Pattern(violation),
    }
}

/// The operations with the pending remove as the remove of each value that was added and not
/// otherwise removed, lowest add first. It still has not returned. None if there is no such remove.
pub fn fates(operations: &[Operation]) -> impl Iterator<Item = Vec<Operation>> + '_ {
    let is_pending = |operation: &Operation| operation.action == Action::PendingRemove;
    let pending = operations.iter().position(is_pending);
    pending.into_iter().flat_map(move |remove| {
        let free = free_values(operations);
        free.map(move |value| {
            with_action(operations, remove, Action::Remove(Removed::Value(value)))
        })
    })
}

/// The values that were added and not removed, lowest add first.
fn free_values(operations: &[Operation]) -> impl Iterator<Item = u32> + '_ {
    let added = operations
        .iter()
        .filter_map(|operation| match operation.action {
            Action::Add(value) => Some(value),
            _ => None,
        });
    added.filter(|&value| !is_removed(operations, value))
}

fn with_action(operations: &[Operation], number: usize, action: Action) -> Vec<Operation> {
    let mut changed = operations.to_vec();
    changed[number].action = action;
    changed
}

#[cfg(test)]
mod tests {
    use super::{fates, judgement, Judgement};
    use crate::logs::enumerate::{
        every_log_of_paired_operations_with_pending_remove, every_log_with_pending_remove,
    };
    use crate::logs::notation::run;
    use crate::logs::ticks::every_joining;
    use crate::model::all_linearizations::linearizations;
    use crate::model::history::{operations, Action};
    use crate::model::linearization::judged_operations;
    use crate::model::reader;
    use crate::model::record::{Record, Removed};
    use crate::model::search::has_linearization;
    use crate::model::violations::first_violation;
    use crate::model::writer::log;

    /// The operations of the order, whatever their order is, or else the pattern's number and list.
    fn judged(text: &str) -> Result<Vec<u16>, (u8, Vec<u16>)> {
        match judgement(&operations(&run(text))) {
            Judgement::Order(settled) => Ok(judged_operations(&settled)),
            Judgement::Pattern(violation) => Err((violation.number, violation.operations)),
        }
    }

    #[test]
    fn a_pending_remove_is_left_out_where_that_succeeds() {
        assert_eq!(judged("R("), Ok(vec![]));
        assert_eq!(judged("A7( A7) R("), Ok(vec![0]));
        assert_eq!(judged("A1( Ro( Ra( Ra1) A1)"), Ok(vec![0, 2]));
    }

    #[test]
    fn a_pending_remove_takes_a_value_where_that_alone_succeeds() {
        assert_eq!(judged("A1( A1) A2( A2) Ro( R( R2)"), Ok(vec![0, 1, 2, 3]));
        assert_eq!(judged("A1( A1) Ro( R( R-)"), Ok(vec![0, 1, 2]));
    }

    #[test]
    fn a_pattern_is_that_with_the_pending_remove_left_out() {
        assert_eq!(judged("Ro( R( R9)"), Err((1, vec![1])));
        let two_stuck = "A1( A1) A2( A2) A3( A3) Ro( R( R3)";
        assert_eq!(judged(two_stuck), Err((4, vec![0, 2, 4])));
        // It is called behind the empty remove.
        assert_eq!(judged("A1( A1) R( R-) Ro("), Err((6, vec![1, 0])));
    }

    #[test]
    fn fates_come_with_the_lowest_add_first() {
        let all = operations(&run("A5( A4( A3( Ra( A2( Ro( Ra4)"));
        let taken: Vec<Action> = fates(&all).map(|fate| fate[5].action).collect();
        let expected = [5, 3, 2].map(|value| Action::Remove(Removed::Value(value)));
        assert_eq!(taken, expected);
        assert_eq!(fates(&operations(&run("A1( R( R-)"))).count(), 0);
    }

    /// How often each verdict was seen: an order with the pending remove left out, one that lists it,
    /// and a pattern.
    #[derive(Debug, Default, PartialEq, Eq)]
    struct Seen {
        left_out: u64,
        took: u64,
        pattern: u64,
    }

    impl Seen {
        /// Holds the verdict against the search and, for few records, against trying all moments.
        /// Both know nothing of patterns and of fates.
        fn compare(&mut self, records: &[Record]) {
            const FEW: usize = 7;
            let operations = operations(records);
            let judgement = judgement(&operations);
            let has_order = matches!(judgement, Judgement::Order(_));
            assert_eq!(has_order, has_linearization(&operations), "{records:?}");
            if records.len() <= FEW {
                let has_any = !linearizations(records).is_empty();
                assert_eq!(has_order, has_any, "{records:?}");
            }
            match judgement {
                Judgement::Order(settled) if settled == operations => self.left_out += 1,
                Judgement::Order(_) => self.took += 1,
                Judgement::Pattern(_) => self.pattern += 1,
            }
        }
    }

    #[test]
    fn an_order_exists_exactly_where_the_searches_find_one() {
        let mut seen = Seen::default();
        every_log_with_pending_remove(6, &mut |records| seen.compare(records));
        let expected = Seen {
            left_out: 2717,
            took: 154,
            pattern: 3922,
        };
        assert_eq!(seen, expected);
    }

    #[test]
    fn it_does_so_with_ticks_joined_in_every_way() {
        let mut seen = Seen::default();
        every_log_with_pending_remove(5, &mut |records| {
            every_joining(records, &mut |joined| {
                if reader::read(&log(joined)).is_ok() {
                    seen.compare(joined);
                }
            });
        });
        let expected = Seen {
            left_out: 5113,
            took: 100,
            pattern: 3988,
        };
        assert_eq!(seen, expected);
    }

    #[test]
    fn it_does_so_with_paired_operations() {
        let mut seen = Seen::default();
        every_log_of_paired_operations_with_pending_remove(9, &mut |records| seen.compare(records));
        let expected = Seen {
            left_out: 50_699,
            took: 7474,
            pattern: 4604,
        };
        assert_eq!(seen, expected);
    }

    /// So it does not matter to the verdict in which order the fates are tried.
    #[test]
    fn at_most_one_fate_succeeds_and_never_that_of_a_pending_add() {
        let mut succeeded = 0;
        let mut compare = |records: &[Record]| {
            let all = operations(records);
            if first_violation(&all).is_none() {
                return;
            }
            let fates = fates(&all).filter(|fate| first_violation(fate).is_none());
            let taken: Vec<u32> = fates.filter_map(|fate| value_taken(&fate)).collect();
            assert!(taken.len() <= 1, "{taken:?} for {records:?}");
            let is_add = |value| move |o: &&super::Operation| o.action == Action::Add(value);
            for value in taken {
                let add = all.iter().find(is_add(value)).expect("its add");
                assert!(add.returned.is_some(), "{value} for {records:?}");
                succeeded += 1;
            }
        };
        every_log_with_pending_remove(7, &mut compare);
        every_log_of_paired_operations_with_pending_remove(9, &mut compare);
        assert_eq!(succeeded, 9190);
    }

    /// The value that a remove which has not returned took.
    fn value_taken(fate: &[super::Operation]) -> Option<u32> {
        let pending = fate.iter().filter(|operation| operation.returned.is_none());
        let mut taken = pending.filter_map(|operation| match operation.action {
            Action::Remove(Removed::Value(value)) => Some(value),
            _ => None,
        });
        taken.next()
    }
}
