//! Holds the reading of logs against the model's reader: by check, and by all other entries as well
//! if that is wanted.

use crate::compare::archive::Archives;
use crate::compare::counts::Counts;
use crate::compare::narrowing::compare_some_narrowing;
use crate::compare::page::Pages;
use crate::hex::show;
use crate::library::guarded::written;
use crate::library::{check, excerpt, judge, narrow, page, replay};
use crate::model::sheet::sheet;
use crate::model::{linearization, reader};
use crate::{refused, Answer};

/// How often check gave each answer.
#[derive(Debug, Default)]
pub struct Tally {
    seen: Counts,
    entries: Entries,
    archives: Archives,
    pages: Pages,
}

/// The entries that are handed each log.
#[derive(Debug, Default, PartialEq, Eq)]
enum Entries {
    #[default]
    Check,
    All,
}

impl Tally {
    pub fn new() -> Tally {
        Tally::default()
    }

    /// A tally that hands each log to all other entries as well. They have to refuse what check
    /// refuses; what they answer to readable logs is compared too, for some of these.
    pub fn of_all_entries() -> Tally {
        Tally {
            entries: Entries::All,
            ..Tally::default()
        }
    }

    /// Compares the library's answer with the reader's, and counts it.
    pub fn compare(&mut self, log: &[u8]) -> Answer {
        let expected = reader::expected(log);
        let answer = check(log);
        assert_eq!(
            answer,
            expected,
            "left: the library, for the log {}",
            show(log)
        );
        if self.entries == Entries::All {
            self.compare_others(log, answer);
        }
        self.seen[answer.number()] += 1;
        answer
    }

    fn compare_others(&mut self, log: &[u8], checked: Answer) {
        compare_replay(log, checked);
        match checked {
            Answer::Accepted(_) if self.is_to_be_judged(log) => {
                self.archives.compare(log);
                compare_some_narrowing(log);
                self.pages.compare(log);
            }
            Answer::Accepted(_) => {}
            refusal => assert_nothing_written(log, refusal),
        }
    }

    /// Of the readable logs one in 3 is judged, and of the longer ones one in 17, for the time it
    /// takes. The numbers are odd, since many tests hand in each log in two places.
    fn is_to_be_judged(&self, log: &[u8]) -> bool {
        const SHORT: usize = 400;
        let one_in = if log.len() <= SHORT { 3 } else { 17 };
        self.seen[0] % one_in == 0
    }

    /// How often each verdict was given on the readable logs that were judged.
    pub fn archives(&self) -> &Archives {
        &self.archives
    }

    /// How often a page was given for these, and refused.
    pub fn pages(&self) -> &Pages {
        &self.pages
    }

    pub fn total(&self) -> u64 {
        self.seen.total()
    }

    /// Asserts that each answer was seen as often as its floor says: accepted first, then 1 to 10.
    pub fn assert_at_least(&self, floors: [u64; 11]) {
        for (answer, floor) in floors.into_iter().enumerate() {
            self.assert_seen(answer, floor);
        }
    }

    /// Asserts that the answer of that number was seen at least so often.
    pub fn assert_seen(&self, answer: usize, floor: u64) {
        let seen = self.seen[answer];
        assert!(
            seen >= floor,
            "answer {answer} was seen {seen} times, not {floor} (0 is accepted); seen: {:?}",
            self.seen
        );
    }

    /// How often the answer of that number was seen.
    pub fn seen(&self, answer: usize) -> u64 {
        self.seen[answer]
    }
}

/// Hands the log to replay, with a sheet of no operations and with no bytes for a sheet. A refusal
/// of the log comes before what is to be said of either.
fn compare_replay(log: &[u8], checked: Answer) {
    let (order, none) = match checked {
        Answer::Accepted(_) => (linearization::expected(log, &sheet(&[])), refused(11, 0)),
        refusal => (refusal, refusal),
    };
    let answers = (replay(log, &sheet(&[])), replay(log, &[]));
    assert_eq!(
        answers,
        (order, none),
        "left: the library, for the log {}",
        show(log)
    );
}

/// Hands a log that check refuses to the entries that write. They have to refuse it in the same way
/// and write nothing.
fn assert_nothing_written(log: &[u8], refusal: Answer) {
    const ROOM: usize = 8;
    let outcomes = [
        written(ROOM, |sheet| judge(log, sheet)),
        written(ROOM, |out| excerpt(log, out)),
        written(ROOM, |out| narrow(log, &[0, 7], out)),
        written(ROOM, |out| page(log, out)),
    ];
    for outcome in outcomes {
        assert_eq!(outcome, Err(refusal), "for the log {}", show(log));
    }
}
