//! A log of the grid, the calls that are measured on it, and what they have to answer.

use yauponroof_tests::library::{judge, replay};
use yauponroof_tests::model::history::{operations, Operation};
use yauponroof_tests::model::reader::LOG_MAX;
use yauponroof_tests::model::sheet::{sheet, ORDER, SHEET_MAX};
use yauponroof_tests::model::writer;
use yauponroof_tests::{Answer, YES};

use crate::logs::Sample;
use crate::measured::{
    measured_check, measured_judge, measured_read, measured_replay, measured_search,
    measured_session,
};
use crate::search::{Limit, Outcome};

/// What is measured.
#[derive(Clone, Copy, Debug, PartialEq, Eq)]
pub enum Entry {
    Read,
    Check,
    Judge,
    Replay,
    Session,
    Search(Limit),
}

/// What a measured call answers.
pub enum Told {
    Sum(u64),
    Answer(Answer),
    Outcome(Outcome),
}

/// Whether a call came to its end.
#[derive(Clone, Copy, Debug, PartialEq, Eq)]
pub enum Ended {
    Done,
    GaveUp,
}

/// What the measured calls write to.
pub struct Room {
    buffer: [u8; LOG_MAX],
    sheet: [u8; SHEET_MAX],
}

impl Room {
    pub fn empty() -> Room {
        Room {
            buffer: [0; LOG_MAX],
            sheet: [0; SHEET_MAX],
        }
    }
}

pub struct Case {
    sample: Sample,
    log: Vec<u8>,
    operations: Vec<Operation>,
    /// The judge's sheet.
    sheet: Vec<u8>,
}

impl Case {
    /// The log of the sample, which must be judged as its kind says.
    pub fn new(sample: Sample) -> Case {
        let records = sample.log();
        let log = writer::log(&records);
        let case = Case {
            sample,
            operations: operations(&records),
            sheet: judged(&log),
            log,
        };
        assert_eq!(records.len(), sample.records, "{sample:?}");
        assert!(
            sample.kind.fits(case.verdict()),
            "{sample:?}: {:?}",
            case.sheet
        );
        case
    }

    /// 0 for an order, or the number of a pattern.
    pub fn verdict(&self) -> u8 {
        self.sheet[1]
    }

    /// Whether the entry has something to do: only an order is replayed.
    pub fn takes(&self, entry: Entry) -> bool {
        entry != Entry::Replay || self.verdict() == ORDER
    }

    /// Calls the entry.
    pub fn call(&self, entry: Entry, room: &mut Room) -> Told {
        let Room { buffer, sheet } = room;
        match entry {
            Entry::Read => Told::Sum(measured_read(&self.log)),
            Entry::Check => Told::Answer(measured_check(&self.log)),
            Entry::Judge => Told::Answer(measured_judge(&self.log, sheet)),
            Entry::Replay => Told::Answer(measured_replay(&self.log, &self.sheet)),
            Entry::Session => Told::Answer(measured_session(&self.log, buffer, sheet)),
            Entry::Search(limit) => Told::Outcome(measured_search(&self.operations, limit)),
        }
    }

    pub fn sample(&self) -> Sample {
        self.sample
    }

    pub fn operations(&self) -> &[Operation] {
        &self.operations
    }

    /// How the call of the entry ended. What it told must agree with the judge's sheet.
    pub fn ended(&self, entry: Entry, told: &Told, room: &Room) -> Ended {
        let agrees = match (entry, told) {
            (Entry::Read, Told::Sum(sum)) => *sum == self.sum(),
            (Entry::Check, Told::Answer(answer)) => *answer == accepted(self.operations.len()),
            (Entry::Judge | Entry::Session, Told::Answer(answer)) => {
                *answer == accepted(self.sheet.len()) && room.sheet.starts_with(&self.sheet)
            }
            (Entry::Replay, Told::Answer(answer)) => *answer == YES,
            (Entry::Search(_), Told::Outcome(outcome)) => match outcome {
                Outcome::Order(order) => replay(&self.log, &sheet(order)) == YES,
                Outcome::NoOrder => self.verdict() != ORDER,
                Outcome::GaveUp => return Ended::GaveUp,
            },
            _ => false,
        };
        assert!(
            agrees,
            "{entry:?} is at odds with the judge on {:?}",
            self.sample
        );
        Ended::Done
    }

    /// Calls the entry once; how that ended.
    pub fn tried(&self, entry: Entry) -> Ended {
        let mut room = Room::empty();
        let told = self.call(entry, &mut room);
        self.ended(entry, &told, &room)
    }

    fn sum(&self) -> u64 {
        self.log.iter().copied().map(u64::from).sum()
    }
}

fn accepted(number: usize) -> Answer {
    Answer::Accepted(number as u32)
}

/// The sheet that the judge writes for the log.
fn judged(log: &[u8]) -> Vec<u8> {
    let mut sheet = vec![0; SHEET_MAX];
    match judge(log, &mut sheet) {
        Answer::Accepted(length) => sheet.truncate(length as usize),
        refused => panic!("a log that cannot be judged: {refused:?}"),
    }
    sheet
}

#[cfg(test)]
mod tests {
    use super::{Case, Ended, Entry, Room};
    use crate::logs::{Kind, Sample, KINDS};
    use crate::search::Limit;

    fn small(kind: Kind) -> Case {
        Case::new(Sample::first(kind, 64, 4))
    }

    #[test]
    fn all_entries_agree_with_the_judge_on_small_logs() {
        let search = Entry::Search(Limit::Configurations(usize::MAX));
        let always = [
            Entry::Read,
            Entry::Check,
            Entry::Judge,
            Entry::Session,
            search,
        ];
        for kind in KINDS {
            let case = small(kind);
            for entry in always {
                assert_eq!(case.tried(entry), Ended::Done, "{kind:?}, {entry:?}");
            }
            assert_eq!(case.takes(Entry::Replay), kind == Kind::Sound);
        }
        assert_eq!(small(Kind::Sound).tried(Entry::Replay), Ended::Done);
    }

    #[test]
    fn a_search_that_gives_up_is_told() {
        let search = Entry::Search(Limit::Configurations(1));
        assert_eq!(small(Kind::Sound).tried(search), Ended::GaveUp);
    }

    #[test]
    #[should_panic(expected = "at odds with the judge")]
    fn a_search_that_is_at_odds_with_the_judge_is_told() {
        use super::{Outcome, Told};
        let search = Entry::Search(Limit::Configurations(1));
        let told = Told::Outcome(Outcome::NoOrder);
        small(Kind::Sound).ended(search, &told, &Room::empty());
    }
}
