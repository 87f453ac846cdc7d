//! Holds replay against the model on lists of operation numbers, all of them for one log. The model
//! has two ways to tell the legal orders, and these are held against each other as well.

use std::collections::BTreeSet;

use crate::compare::replay::Replays;
use crate::model::all_linearizations::linearizations;
use crate::model::reader::operation_count;
use crate::model::record::Record;
use crate::model::sheet::sheet;
use crate::model::writer::log;
use crate::YES;

/// Compares the answers to every list of at most m + 1 numbers from 0 to m, where the log has m
/// operations. So lists with repeats and with a number that the log lacks are among them. Returns
/// the lists with the answer yes.
pub fn compare_every_list(records: &[Record], replays: &mut Replays) -> BTreeSet<Vec<u16>> {
    let m = operation_count(records) as u16;
    let longest = usize::from(m) + 1;
    compare_lists(records, replays, |list| {
        let allowed = if list.len() < longest { 0..m + 1 } else { 0..0 };
        allowed.collect()
    })
}

/// Compares the answers to every list of operations of the log without repeats. Returns the lists
/// with the answer yes.
pub fn compare_every_arrangement(records: &[Record], replays: &mut Replays) -> BTreeSet<Vec<u16>> {
    let m = operation_count(records) as u16;
    compare_lists(records, replays, |list| {
        (0..m).filter(|number| !list.contains(number)).collect()
    })
}

/// Compares the answers to the lists that grow out of the empty one by what `next` allows. Those
/// with the answer yes must be the orders that trying all moments finds.
fn compare_lists(
    records: &[Record],
    replays: &mut Replays,
    next: impl Fn(&[u16]) -> Vec<u16>,
) -> BTreeSet<Vec<u16>> {
    let log = log(records);
    let mut legal = BTreeSet::new();
    visit_lists(&mut Vec::new(), &next, &mut |list| {
        if replays.compare(&log, &sheet(list)) == YES {
            legal.insert(list.to_vec());
        }
    });
    assert_eq!(legal, linearizations(records), "left: yes, for {records:?}");
    legal
}

fn visit_lists(
    list: &mut Vec<u16>,
    next: &impl Fn(&[u16]) -> Vec<u16>,
    visit: &mut impl FnMut(&[u16]),
) {
    visit(list);
    for number in next(list) {
        list.push(number);
        visit_lists(list, next, visit);
        list.pop();
    }
}
