//! Replay, on a log and a sheet: held against the tests' own test of orders.

use yauponroof_tests::compare::replay::Replays;
use yauponroof_tests::library::fenced::{Fenced, Place};
use yauponroof_tests::library::outcomes::judged;
use yauponroof_tests::model::sheet::{order_on, sheet};

use crate::choices::Choices;
use crate::damage::damage_byte;
use crate::reached::Reached;

/// Hands the log and the sheet to replay and compares.
pub fn compare_replay(log: &[u8], sheet: &[u8], place: Place, reached: &mut Reached) {
    let fences = [log, sheet].map(|bytes| Fenced::new(bytes.len()));
    fences[0].lend(log, place, |log| {
        fences[1].lend(sheet, place, |sheet| {
            reached.count_replay(Replays::new().compare(log, sheet));
        });
    });
}

/// Changes to an order in a few places, and to a byte of its sheet. Many choices are none.
pub struct Changes {
    of_order: [(u8, u8, u8); 3],
    of_sheet: (u8, u8, u8),
}

impl Changes {
    pub fn new(how: &mut Choices) -> Changes {
        let mut change = || (how.byte(), how.byte(), how.byte());
        Changes {
            of_order: [change(), change(), change()],
            of_sheet: change(),
        }
    }

    /// A sheet for the log: of the order that the judge lists, or else of all operations in the order
    /// of their calls, with these changes.
    pub fn sheet_for(&self, log: &[u8], operations: u16) -> Vec<u8> {
        let listed = judged(log).ok().and_then(|sheet| order_on(&sheet));
        let mut order = listed.unwrap_or_else(|| (0..operations).collect());
        for (way, one, other) in self.of_order {
            let number = u16::from(other) % (operations + 1);
            change_order(&mut order, way, usize::from(one), number);
        }
        let mut sheet = sheet(&order);
        let (way, place, byte) = self.of_sheet;
        damage_byte(&mut sheet, way, place, byte);
        sheet
    }
}

/// Neighbours trade places; an operation is left out, moved to the end, listed there once more, or
/// has another one in its place; or one is put in.
fn change_order(order: &mut Vec<u16>, way: u8, place: usize, number: u16) {
    let at = place % order.len().max(1);
    match way % 8 {
        1 if at > 0 => order.swap(at - 1, at),
        2 if !order.is_empty() => {
            order.remove(at);
        }
        3 if !order.is_empty() => order[at..].rotate_left(1),
        4 => order.extend(order.get(at).copied()),
        5 if !order.is_empty() => order[at] = number,
        6 => order.insert(place % (order.len() + 1), number),
        _ => {}
    }
}
