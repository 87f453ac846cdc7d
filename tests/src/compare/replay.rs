//! Holds replay against the model's test of orders.

use crate::compare::counts::Counts;
use crate::hex::show;
use crate::library::replay;
use crate::model::linearization;
use crate::{Answer, NO, YES};

/// How often replay gave each answer: yes, no, and the refusals by their numbers.
#[derive(Debug, Default)]
pub struct Replays {
    yes: u64,
    no: u64,
    refused: Counts,
}

impl Replays {
    pub fn new() -> Replays {
        Replays::default()
    }

    /// Compares the library's answer with that of the test of orders, and counts it.
    pub fn compare(&mut self, log: &[u8], sheet: &[u8]) -> Answer {
        let expected = linearization::expected(log, sheet);
        let answer = replay(log, sheet);
        assert_eq!(
            answer,
            expected,
            "left: the library, for the log {} and the sheet {}",
            show(log),
            show(sheet)
        );
        match answer {
            YES => self.yes += 1,
            NO => self.no += 1,
            Answer::Accepted(other) => panic!("replay answers {other}"),
            Answer::Refused { number, .. } => self.refused[number as usize] += 1,
        }
        answer
    }

    /// Asserts that yes and no were each seen at least so often.
    pub fn assert_answered(&self, yes: u64, no: u64) {
        assert!(
            self.yes >= yes && self.no >= no,
            "yes was seen {} times and no {} times, not {yes} and {no}",
            self.yes,
            self.no
        );
    }

    /// Asserts that the refusal was seen at least so often.
    pub fn assert_refused(&self, number: usize, floor: u64) {
        let seen = self.refused[number];
        assert!(
            seen >= floor,
            "refusal {number} was seen {seen} times, not {floor}; seen: {:?}",
            self.refused
        );
    }
}
