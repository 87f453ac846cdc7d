//! The six patterns (violations), read off document 01's table. For each pattern all occurrences
//! are gone through and the lowest list is kept.

use std::collections::HashMap;

use crate::model::history::{precedes, Action, Operation};
use crate::model::record::Removed;

/// A pattern of the table with the operations that it lists.
#[derive(Clone, Debug, PartialEq, Eq)]
pub struct Violation {
    pub number: u8,
    pub operations: Vec<u16>,
}

/// The number of the pattern false empty.
pub const FALSE_EMPTY: u8 = 6;

/// "The lowest number that occurs is reported. Among its occurrences the lowest list of operation
/// numbers is taken, compared left to right." None if no pattern occurs. A pending remove is left
/// out.
pub fn first_violation(operations: &[Operation]) -> Option<Violation> {
    let table = Table::new(operations);
    (1..=6).find_map(|number| {
        let operations = table.lowest_list(number)?;
        Some(Violation { number, operations })
    })
}

/// The lowest list that was offered, compared left to right.
#[derive(Default)]
struct Lowest(Option<Vec<u16>>);

impl Lowest {
    fn offer(&mut self, list: &[u16]) {
        if self.0.as_deref().is_none_or(|lowest| list < lowest) {
            self.0 = Some(list.to_vec());
        }
    }
}

/// The operations by what they do.
struct Table<'a> {
    operations: &'a [Operation],
    /// Each add and its value.
    adds: Vec<(u16, u32)>,
    /// Each remove that returned a value, and the value.
    removes: Vec<(u16, u32)>,
    empty_removes: Vec<u16>,
    add_of: HashMap<u32, u16>,
    removes_of: HashMap<u32, Vec<u16>>,
}

/// A value whose add has returned: it covers the gaps from `from` to just before `reach`. Gap g
/// lies between the records at the places g and g + 1.
struct Cover {
    add: u16,
    from: usize,
    reach: usize,
}

/// How far a value reaches that is never removed.
const TO_THE_END: usize = usize::MAX;

impl<'a> Table<'a> {
    fn new(operations: &'a [Operation]) -> Table<'a> {
        let mut table = Table {
            operations,
            adds: Vec::new(),
            removes: Vec::new(),
            empty_removes: Vec::new(),
            add_of: HashMap::new(),
            removes_of: HashMap::new(),
        };
        for (number, operation) in (0..).zip(operations) {
            match operation.action {
                Action::Add(value) => {
                    table.adds.push((number, value));
                    table.add_of.insert(value, number);
                }
                Action::Remove(Removed::Value(value)) => {
                    table.removes.push((number, value));
                    table.removes_of.entry(value).or_default().push(number);
                }
                Action::Remove(Removed::Empty) => table.empty_removes.push(number),
                // What it took is not known, so that it is in no pattern.
                Action::PendingRemove => {}
            }
        }
        table
    }

    /// The lowest list of the pattern, if it occurs.
    fn lowest_list(&self, number: u8) -> Option<Vec<u16>> {
        let mut lowest = Lowest::default();
        match number {
            1 => self.unknown(&mut lowest),
            2 => self.twice(&mut lowest),
            3 => self.early(&mut lowest),
            4 => self.stuck(&mut lowest),
            5 => self.overtaken(&mut lowest),
            6 => self.false_empty(&mut lowest),
            _ => panic!("no pattern has the number {number}"),
        }
        lowest.0
    }

    fn operation(&self, number: u16) -> &Operation {
        &self.operations[usize::from(number)]
    }

    fn precedes(&self, o: u16, p: u16) -> bool {
        precedes(self.operation(o), self.operation(p))
    }

    fn removes_of(&self, value: u32) -> &[u16] {
        self.removes_of.get(&value).map_or(&[], Vec::as_slice)
    }

    /// "A remove whose value no add of the log names. Lists the remove."
    fn unknown(&self, lowest: &mut Lowest) {
        for &(remove, value) in &self.removes {
            if !self.add_of.contains_key(&value) {
                lowest.offer(&[remove]);
            }
        }
    }

    /// "Two removes of one value. Lists both, lower number first."
    fn twice(&self, lowest: &mut Lowest) {
        for &(first, value) in &self.removes {
            for &second in self.removes_of(value) {
                if first < second {
                    lowest.offer(&[first, second]);
                }
            }
        }
    }

    /// "A remove that precedes the add of its value. Lists remove, add."
    fn early(&self, lowest: &mut Lowest) {
        for &(remove, value) in &self.removes {
            if let Some(&add) = self.add_of.get(&value) {
                if self.precedes(remove, add) {
                    lowest.offer(&[remove, add]);
                }
            }
        }
    }

    /// "Add a precedes add b, b is removed, a never is. Lists add a, add b, remove b."
    fn stuck(&self, lowest: &mut Lowest) {
        for &(a, value_a) in &self.adds {
            for &(b, value_b) in &self.adds {
                if self.precedes(a, b) && self.removes_of(value_a).is_empty() {
                    for &remove_b in self.removes_of(value_b) {
                        lowest.offer(&[a, b, remove_b]);
                    }
                }
            }
        }
    }

    /// "Add a precedes add b, and remove b precedes remove a. Lists add a, add b, remove b, remove
    /// a."
    fn overtaken(&self, lowest: &mut Lowest) {
        for &(a, value_a) in &self.adds {
            for &(b, value_b) in &self.adds {
                if !self.precedes(a, b) {
                    continue;
                }
                for &remove_a in self.removes_of(value_a) {
                    for &remove_b in self.removes_of(value_b) {
                        if self.precedes(remove_b, remove_a) {
                            lowest.offer(&[a, b, remove_b, remove_a]);
                        }
                    }
                }
            }
        }
    }

    /// "An empty remove, every gap of which is covered. Lists the empty remove, then the adds of a
    /// chain."
    fn false_empty(&self, lowest: &mut Lowest) {
        let covers = self.covers();
        for &remove in &self.empty_removes {
            if let Some(chain) = chain(self.operation(remove), &covers) {
                lowest.offer(&[&[remove], &chain[..]].concat());
            }
        }
    }

    /// "A value covers the gaps from its add's return to its remove's call, or to the end if it is
    /// never removed." No value has two removes where pattern 2 does not occur.
    fn covers(&self) -> Vec<Cover> {
        let cover = |&(add, value): &(u16, u32)| {
            let remove = self.removes_of(value).first();
            Some(Cover {
                add,
                from: self.operation(add).returned?.place,
                reach: remove.map_or(TO_THE_END, |&r| self.operation(r).call.place),
            })
        };
        self.adds.iter().filter_map(cover).collect()
    }
}

/// "The value covering the first gap that reaches furthest, then the same for the first gap beyond
/// it, until all are covered. Never removed reaches furthest; among several of those, the lowest
/// add." None if some gap of the remove is not covered.
fn chain(remove: &Operation, covers: &[Cover]) -> Option<Vec<u16>> {
    let returned = remove.returned.expect("an empty remove has returned");
    let mut chain = Vec::new();
    let mut first_beyond = remove.call.place;
    for gap in remove.call.place..returned.place {
        let covering = covers.iter().filter(|c| c.from <= gap && gap < c.reach);
        let furthest = covering.min_by_key(|c| (TO_THE_END - c.reach, c.add))?;
        if gap == first_beyond {
            chain.push(furthest.add);
            first_beyond = furthest.reach;
        }
    }
    Some(chain)
}

#[cfg(test)]
mod tests {
    use super::first_violation;
    use crate::logs::enumerate::{
        every_log, every_log_of_paired_operations, every_log_with_joined_ticks,
    };
    use crate::logs::notation::{run, run_in_batches};
    use crate::model::history::operations;
    use crate::model::reader;
    use crate::model::record::Record;
    use crate::model::search::has_linearization;
    use crate::model::writer::log;

    fn first(text: &str) -> Option<(u8, Vec<u16>)> {
        let violation = first_violation(&operations(&run(text)))?;
        Some((violation.number, violation.operations))
    }

    #[test]
    fn each_pattern_is_found() {
        assert_eq!(first("R( R9)"), Some((1, vec![0])));
        assert_eq!(first("A7( A7) R( R7) R( R7)"), Some((2, vec![1, 2])));
        assert_eq!(first("R( R7) A7( A7)"), Some((3, vec![0, 1])));
        assert_eq!(first("A1( A1) A2( A2) R( R2)"), Some((4, vec![0, 1, 2])));
        let overtaken = "A1( A1) A2( A2) R( R2) R( R1)";
        assert_eq!(first(overtaken), Some((5, vec![0, 1, 2, 3])));
        let chained = "A1( A1) Ra( A2( A2) Rb( Rb1) Ra-) R( R2)";
        assert_eq!(first(chained), Some((6, vec![1, 0, 2])));
        assert_eq!(first("A1( A1) Ra( A2( Rb( A2) Rb1) Ra-) R( R2)"), None);
    }

    #[test]
    fn a_pattern_occurs_exactly_where_no_order_is_found() {
        let mut logs = 0;
        let mut compare = |records: &[Record]| {
            let operations = operations(records);
            let has_order = has_linearization(&operations);
            assert_eq!(
                first_violation(&operations).is_none(),
                has_order,
                "{records:?}"
            );
            logs += 1;
        };
        every_log(6, &mut compare);
        every_log_of_paired_operations(8, &mut compare);
        every_log_with_joined_ticks(5, &mut |records| {
            if reader::read(&log(records)).is_ok() {
                compare(records);
            }
        });
        assert_eq!(logs, 6684 + 7045 + 9642);
    }

    #[test]
    fn the_lowest_number_comes_before_the_lowest_list() {
        assert_eq!(first("A0( A0) R( R-) R( R9)"), Some((1, vec![2])));
    }

    #[test]
    fn within_a_tick_calls_are_taken_before_returns() {
        let first = |text| first_violation(&operations(&run_in_batches(text)));
        let listed = |text| first(text).map(|violation| violation.operations);
        assert_eq!(listed("A1( A1) | R( R-)"), Some(vec![1, 0]));
        assert_eq!(listed("A1( | A1) R( R-)"), None);
        let furthest = "A1( A2( A1) A2) | Re( Re-) | Ra( Ra1) Rb( Rb2)";
        assert_eq!(listed(furthest), Some(vec![2, 1]));
    }

    #[test]
    fn a_chain_goes_by_how_far_values_reach() {
        // Value 2 is removed behind value 1, and behind the empty remove.
        let both = "A1( A2( A1) A2) Re( Re-) Ra( Ra1) Rb( Rb2)";
        assert_eq!(first(both), Some((6, vec![2, 1])));
        // Neither is removed, so the lowest add is taken.
        assert_eq!(first("A1( A2( A2) A1) R( R-)"), Some((6, vec![2, 0])));
    }
}
