//! Answers as the vectors write them, and when another one is as good.

use yauponroof_tests::compare::replay::Replays;
use yauponroof_tests::hex::digits;
use yauponroof_tests::model::sheet::{order_on, verdict_on, ORDER};
use yauponroof_tests::{refused, Answer, YES};

/// Whether an answer is that of the line; if it is not, what is wrong with it.
pub type Agreement = Result<(), String>;

pub fn same(given: &str, told: &str) -> Agreement {
    match given == told {
        true => Ok(()),
        false => Err(format!("the answer is {given}")),
    }
}

pub fn refusal(answer: &Answer) -> String {
    match answer {
        Answer::Refused { number, index } => format!("refused {number} {index}"),
        other => panic!("no refusal: {other:?}"),
    }
}

/// Replay says yes to a sheet with an order, and refuses one with a pattern.
pub fn is_upheld(log: &[u8], sheet: &[u8]) -> Agreement {
    let expected = match verdict_on(sheet) {
        Some((ORDER, _)) => YES,
        _ => refused(11, 0),
    };
    match Replays::new().compare(log, sheet) {
        answer if answer == expected => Ok(()),
        answer => Err(format!("replay says {answer:?} to {}", digits(sheet))),
    }
}

/// Both sheets have an order over the same operations, and replay says yes to both.
pub fn is_as_good(log: &[u8], given: &[u8], told: &[u8]) -> Agreement {
    is_upheld(log, given)?;
    is_upheld(log, told)?;
    let [listed, expected] = [given, told].map(|sheet| {
        let mut operations = order_on(sheet)?;
        operations.sort();
        Some(operations)
    });
    match listed.is_some() && listed == expected {
        true => Ok(()),
        false => Err(format!("the sheet {} has other operations", digits(given))),
    }
}
