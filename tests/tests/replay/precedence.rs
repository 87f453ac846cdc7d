//! Logs on which precedence alone decides: nothing is ever removed, or nothing is ever added, so
//! that the queue agrees with every order.

use yauponroof_tests::compare::replay::Replays;
use yauponroof_tests::logs::ticks::rising;
use yauponroof_tests::model::record::{call_add, call_remove, return_add, return_empty, Record};
use yauponroof_tests::model::sheet::sheet;
use yauponroof_tests::model::writer::log;
use yauponroof_tests::{NO, YES};

/// What all operations of a log do.
#[derive(Clone, Copy)]
enum All {
    Add,
    MeetEmpty,
}

impl All {
    const BOTH: [All; 2] = [All::Add, All::MeetEmpty];

    /// The call of an operation whose number is its client's and its value.
    fn call(self, number: usize) -> Record {
        match self {
            All::Add => call_add(number as u16, 1, number as u32),
            All::MeetEmpty => call_remove(number as u16, 1),
        }
    }

    fn returned(self, number: usize) -> Record {
        match self {
            All::Add => return_add(number as u16, 1),
            All::MeetEmpty => return_empty(number as u16, 1),
        }
    }
}

/// `count` operations, each of which returns right before the one that is called `width` + 1 after
/// it. So operation i precedes j exactly if j is more than `width` above i.
struct Staircase {
    /// All of one tick; in the log the ticks rise.
    records: Vec<Record>,
    count: usize,
    width: usize,
}

impl Staircase {
    fn new(count: usize, width: usize, all: All) -> Staircase {
        let mut records = Vec::new();
        for step in 0..=count + width {
            if step > width {
                records.push(all.returned(step - width - 1));
            }
            if step < count {
                records.push(all.call(step));
            }
        }
        Staircase {
            records,
            count,
            width,
        }
    }

    fn log(&self) -> Vec<u8> {
        log(&rising(&self.records))
    }

    fn call_order(&self) -> Vec<u16> {
        (0..self.count as u16).collect()
    }

    /// Exchanges two operations: legal exactly if the first does not precede the second.
    fn compare_exchange(&self, first: usize, second: usize, replays: &mut Replays) {
        let mut order = self.call_order();
        order.swap(first, second);
        let answer = replays.compare(&self.log(), &sheet(&order));
        let legal = second - first <= self.width;
        assert_eq!(answer == YES, legal, "{first} and {second} exchanged");
    }

    /// Moves one operation: legal exactly if it precedes none of those that it comes behind, and
    /// none of those that come behind it precedes it.
    fn compare_move(&self, from: usize, to: usize, replays: &mut Replays) {
        let mut order = self.call_order();
        let moved = order.remove(from);
        order.insert(to, moved);
        let answer = replays.compare(&self.log(), &sheet(&order));
        let legal = from.abs_diff(to) <= self.width;
        assert_eq!(answer == YES, legal, "{from} moved to {to}");
    }
}

/// Staircases of 24 operations, from those that come one after the other to wide ones.
fn short_stairs() -> Vec<Staircase> {
    let widths = (0..=5).flat_map(|width| All::BOTH.map(|all| (width, all)));
    widths
        .map(|(width, all)| Staircase::new(24, width, all))
        .collect()
}

#[test]
fn each_two_operations_exchanged() {
    let mut replays = Replays::new();
    for stairs in short_stairs() {
        for second in 1..stairs.count {
            (0..second).for_each(|first| stairs.compare_exchange(first, second, &mut replays));
        }
    }
    replays.assert_answered(600, 2500);
}

#[test]
fn each_operation_moved_to_each_place() {
    let mut replays = Replays::new();
    for stairs in short_stairs() {
        for from in 0..stairs.count {
            (0..stairs.count).for_each(|to| stairs.compare_move(from, to, &mut replays));
        }
    }
    replays.assert_answered(1500, 5000);
}

#[test]
fn long_logs_with_two_operations_exchanged() {
    let mut replays = Replays::new();
    for all in All::BOTH {
        for width in [0, 1, 7, 300] {
            let stairs = Staircase::new(512, width, all);
            let last = stairs.count - width - 2;
            for first in (0..last).step_by(40).chain([last]) {
                for distance in [1, width.max(1), width + 1] {
                    stairs.compare_exchange(first, first + distance, &mut replays);
                }
            }
        }
    }
    replays.assert_answered(120, 100);
}

#[test]
fn a_pending_add_stands_anywhere_behind_what_precedes_it() {
    let mut replays = Replays::new();
    for width in 0..=3 {
        let stairs = Staircase::new(12, width, All::Add);
        // It is called right behind the last of the others, of which width + 1 have not returned.
        let last = All::Add.call(stairs.count - 1);
        let last_call = stairs.records.iter().position(|record| *record == last);
        let mut records = stairs.records.clone();
        records.insert(last_call.unwrap() + 1, All::Add.call(stairs.count));
        for place in 0..=stairs.count {
            let mut order = stairs.call_order();
            order.insert(place, stairs.count as u16);
            let answer = replays.compare(&log(&rising(&records)), &sheet(&order));
            let legal = place + width + 1 >= stairs.count;
            assert_eq!(answer == YES, legal, "place {place}, width {width}");
        }
    }
    replays.assert_answered(14, 30);
}

/// It takes the front value of a queue from which nobody else takes, or finds none.
#[test]
fn a_pending_remove_stands_anywhere_behind_what_precedes_it() {
    let mut replays = Replays::new();
    for all in All::BOTH {
        for width in 0..=3 {
            let stairs = Staircase::new(12, width, all);
            let last = all.call(stairs.count - 1);
            let last_call = stairs.records.iter().position(|record| *record == last);
            let mut records = stairs.records.clone();
            let open = All::MeetEmpty.call(stairs.count);
            records.insert(last_call.unwrap() + 1, open);
            let log = log(&rising(&records));
            for place in 0..=stairs.count {
                let mut order = stairs.call_order();
                order.insert(place, stairs.count as u16);
                let answer = replays.compare(&log, &sheet(&order));
                let legal = place + width + 1 >= stairs.count;
                assert_eq!(answer == YES, legal, "place {place}, width {width}");
                // It may be left out, and may not stand there twice.
                order.insert(stairs.count, stairs.count as u16);
                assert_eq!(replays.compare(&log, &sheet(&order)), NO);
            }
            let without = sheet(&stairs.call_order());
            assert_eq!(replays.compare(&log, &without), YES);
        }
    }
    replays.assert_answered(36, 60);
}

#[test]
fn an_operation_that_overlaps_all_others_stands_anywhere() {
    let mut replays = Replays::new();
    for all in All::BOTH {
        // The operations of the staircase come one after the other, so only the long one moves.
        let stairs = Staircase::new(30, 0, all);
        let long = stairs.count;
        let mut records = stairs.records.clone();
        records.insert(1, all.call(long));
        records.push(all.returned(long));
        for place in 0..=stairs.count {
            // The long one is called second, so it has the number 1 and the others behind it rise.
            let mut order: Vec<u16> = (0..=stairs.count as u16).filter(|&o| o != 1).collect();
            order.insert(place, 1);
            let log = log(&rising(&records));
            assert_eq!(replays.compare(&log, &sheet(&order)), YES);
        }
    }
    replays.assert_answered(62, 0);
}
