//! Whether an order is legal (a linearization), written straight from document 01's "Legal orders" and
//! what change 4 of document 02 says of an open remove.

use std::collections::VecDeque;

use crate::model::history::{is_removed, operations, precedes, Action, Operation};
use crate::model::reader::{self, Refusal};
use crate::model::record::Removed;
use crate::model::sheet::order_on;
use crate::{refused, Answer, NO, YES};

/// Whether the order is legal for these operations.
pub fn is_linearization(operations: &[Operation], order: &[u16]) -> bool {
    lists_what_it_must(operations, order)
        && keeps_precedence(operations, order)
        && runs_on_a_queue(operations, order)
}

/// What the library's replay must answer for this log and this sheet.
pub fn expected(log: &[u8], sheet: &[u8]) -> Answer {
    let records = match reader::read(log) {
        Ok(records) => records,
        Err(Refusal(number, index)) => return refused(number, index as u32),
    };
    match order_on(sheet) {
        None => refused(11, 0),
        Some(order) if is_linearization(&operations(&records), &order) => YES,
        Some(_) => NO,
    }
}

/// "It lists every returned operation exactly once, each open add at most once and nothing else." An
/// open remove "may stand in an order once or be left out".
fn lists_what_it_must(operations: &[Operation], order: &[u16]) -> bool {
    let known = |&number: &u16| usize::from(number) < operations.len();
    let often_enough = |(number, operation): (usize, &Operation)| {
        let times = order.iter().filter(|&&o| usize::from(o) == number).count();
        match operation.returned {
            Some(_) => times == 1,
            None => times <= 1,
        }
    };
    order.iter().all(known) && operations.iter().enumerate().all(often_enough)
}

/// "No operation comes before one that precedes it."
fn keeps_precedence(operations: &[Operation], order: &[u16]) -> bool {
    let operation = |place: usize| &operations[usize::from(order[place])];
    let mut pairs =
        (0..order.len()).flat_map(|later| (0..later).map(move |sooner| (sooner, later)));
    pairs.all(|(sooner, later)| !precedes(operation(later), operation(sooner)))
}

/// "Run from an empty queue, each add puts its value at the back, each remove with a value takes
/// that value from the front and each empty remove meets an empty queue." An open remove "takes the
/// front value if there is one and otherwise changes nothing".
fn runs_on_a_queue(operations: &[Operation], order: &[u16]) -> bool {
    let mut queue = VecDeque::new();
    order
        .iter()
        .all(|&number| match operations[usize::from(number)].action {
            Action::Add(value) => {
                queue.push_back(value);
                true
            }
            Action::Remove(Removed::Value(value)) => queue.pop_front() == Some(value),
            Action::Remove(Removed::Empty) => queue.is_empty(),
            Action::PendingRemove => {
                queue.pop_front();
                true
            }
        })
}

/// Whether the order lists the operations that the judge lists, in whatever order.
pub fn lists_what_the_judge_lists(operations: &[Operation], order: &[u16]) -> bool {
    let mut listed = order.to_vec();
    listed.sort();
    listed == judged_operations(operations)
}

/// The operations that an order of the judge lists. "The judge lists an open add exactly if its value
/// was removed." An open remove is left out, unless it is told as the remove of a value.
pub fn judged_operations(operations: &[Operation]) -> Vec<u16> {
    let is_listed = |operation: &Operation| match operation.action {
        Action::Add(value) => operation.returned.is_some() || is_removed(operations, value),
        Action::Remove(_) => true,
        Action::PendingRemove => false,
    };
    let numbered = (0..).zip(operations);
    let listed = numbered.filter(|(_, operation)| is_listed(operation));
    listed.map(|(number, _)| number).collect()
}
