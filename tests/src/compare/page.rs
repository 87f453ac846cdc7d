//! Holds the pages that the library writes against the model's.

use crate::compare::counts::Counts;
use crate::hex::show;
use crate::library::guarded::written_twice;
use crate::library::outcomes::{page_made, PAGE_ROOM};
use crate::library::page;
use crate::model::page::expected;
use crate::{answered, Answer, Outcome};

/// How often each answer was given.
#[derive(Debug, Default)]
pub struct Pages {
    seen: Counts,
}

impl Pages {
    pub fn new() -> Pages {
        Pages::default()
    }

    /// Makes the page in a buffer that is long enough for any, compares it, and counts the answer.
    pub fn compare(&mut self, log: &[u8]) -> Answer {
        self.count(log, PAGE_ROOM, &page_made(log))
    }

    /// The same with a buffer of that length.
    pub fn compare_room(&mut self, log: &[u8], room: usize) -> Answer {
        let outcome = written_twice(room, |out| page(log, out));
        self.count(log, room, &outcome)
    }

    /// Compares and counts what the library gave for the log with a buffer of that length.
    pub fn count(&mut self, log: &[u8], room: usize, outcome: &Outcome) -> Answer {
        let expected = expected(log, room);
        assert!(
            *outcome == expected,
            "the library gives\n{}\nand not\n{}\nfor {room} bytes and the log {}",
            text(outcome),
            text(&expected),
            show(log)
        );
        let answer = answered(outcome);
        self.seen[answer.number()] += 1;
        answer
    }

    /// How often the answer of that number was given; 0 is accepted.
    pub fn seen(&self, number: usize) -> u64 {
        self.seen[number]
    }

    /// Asserts that the answers of these numbers were given at least so often.
    pub fn assert_at_least(&self, floors: &[(usize, u64)]) {
        for &(number, floor) in floors {
            let seen = self.seen[number];
            assert!(
                seen >= floor,
                "answer {number} was given {seen} times, not {floor} (0 is accepted): {:?}",
                self.seen
            );
        }
    }
}

/// The page as it is to be looked at, or the refusal.
fn text(outcome: &Outcome) -> String {
    match outcome {
        Ok(page) => String::from_utf8_lossy(page).into_owned(),
        Err(refusal) => format!("{refusal:?}"),
    }
}
