//! The logs that are measured: runs of a simulated queue, sound or with one fault put in.

use yauponroof_tests::logs::insertion::{with_empty_removes, with_run};
use yauponroof_tests::logs::simulation::{simulate_load, Clients, Load};
use yauponroof_tests::model::history::operations;
use yauponroof_tests::model::record::Record;
use yauponroof_tests::model::violations::first_violation;

/// What is wrong with a log.
#[derive(Clone, Copy, Debug, PartialEq, Eq)]
pub enum Kind {
    Sound,
    /// A value overtakes another, behind the first twentieth of the records.
    FaultyEarly,
    /// The same, before the last twentieth.
    FaultyLate,
    /// A remove returns empty behind the middle, though the queue is never empty during it.
    FalseEmpty,
}

pub const KINDS: [Kind; 4] = [
    Kind::Sound,
    Kind::FaultyEarly,
    Kind::FaultyLate,
    Kind::FalseEmpty,
];

impl Kind {
    pub fn name(self) -> &'static str {
        match self {
            Kind::Sound => "sound",
            Kind::FaultyEarly => "faulty-early",
            Kind::FaultyLate => "faulty-late",
            Kind::FalseEmpty => "false-empty",
        }
    }

    /// Whether a log of this kind may be judged so: 0 for an order, or the number of a pattern. Where
    /// a value overtakes others that are never removed, these are stuck, and that is told.
    pub fn fits(self, verdict: u8) -> bool {
        match self {
            Kind::Sound => verdict == 0,
            Kind::FaultyEarly | Kind::FaultyLate => verdict == 4 || verdict == 5,
            Kind::FalseEmpty => verdict == 6,
        }
    }
}

/// A log of the grid.
#[derive(Clone, Copy, Debug, PartialEq, Eq)]
pub struct Sample {
    pub kind: Kind,
    pub records: usize,
    /// The clients at work at once. What is put in has clients of its own.
    pub clients: u16,
    /// Tells the logs of one kind and size apart.
    pub number: u64,
}

/// The sizes of the grid: all numbers of records with all numbers of clients that leave each client
/// two operations.
pub const RECORDS: [usize; 5] = [64, 128, 256, 512, 1024];
pub const CLIENTS: [u16; 6] = [2, 4, 8, 16, 32, 64];

/// Whether so many records leave each client two operations.
pub fn suffice(records: usize, clients: u16) -> bool {
    records >= 4 * usize::from(clients)
}

/// The overtaking that is put in.
const OVERTAKING: &str = "A0( A0) A1( A1) R( R1) R( R0)";
const OVERTAKING_RECORDS: usize = 8;

impl Sample {
    /// The first log of this kind and size.
    pub fn first(kind: Kind, records: usize, clients: u16) -> Sample {
        Sample {
            kind,
            records,
            clients,
            number: 0,
        }
    }

    pub fn log(&self) -> Vec<Record> {
        match self.kind {
            Kind::Sound => self.run(Load::Even, self.records),
            Kind::FaultyEarly => self.with_overtaking(|length| length / 20),
            Kind::FaultyLate => self.with_overtaking(|length| length - length / 20),
            Kind::FalseEmpty => self.with_false_empty(),
        }
    }

    /// A run of a correct queue with so many records.
    fn run(&self, load: Load, records: usize) -> Vec<Record> {
        let size = 100 * self.records as u64 + u64::from(self.clients);
        let seed = 1_000_000 * self.number + size;
        simulate_load(load, self.clients, Clients::Reused, records, seed).records
    }

    fn with_overtaking(&self, place: impl Fn(usize) -> usize) -> Vec<Record> {
        let run = self.run(Load::Even, self.records - OVERTAKING_RECORDS);
        with_run(&run, &[(place(run.len()), OVERTAKING)])
    }

    /// A run of a queue that is seldom empty, with an empty remove put in. It spans as many records
    /// as there are clients, at the first place behind the middle where it is false; if there is
    /// none, it spans half as many, and so on.
    fn with_false_empty(&self) -> Vec<Record> {
        let run = self.run(Load::Busy, self.records - 2);
        let half = |&length: &usize| (length > 0).then_some(length / 2);
        let lengths = std::iter::successors(Some(usize::from(self.clients)), half);
        let spans = |length| (run.len() / 2..run.len() - length).map(move |at| (at, at + length));
        let mut put_in = lengths
            .flat_map(spans)
            .map(|span| with_empty_removes(&run, &[span]));
        put_in
            .find(|records| is_false_empty(records))
            .expect("a queue with a value in it behind the middle")
    }
}

fn is_false_empty(records: &[Record]) -> bool {
    first_violation(&operations(records)).is_some_and(|violation| violation.number == 6)
}

#[cfg(test)]
mod tests {
    use super::{suffice, Sample, CLIENTS, KINDS, RECORDS};
    use yauponroof_tests::model::history::operations;
    use yauponroof_tests::model::violations::first_violation;

    /// Held against the tests' table of patterns, up to 256 records.
    #[test]
    fn every_log_is_of_its_kind() {
        for kind in KINDS {
            for records in RECORDS.into_iter().filter(|&records| records <= 256) {
                for clients in CLIENTS.into_iter().filter(|&c| suffice(records, c)) {
                    let sample = Sample::first(kind, records, clients);
                    let log = sample.log();
                    assert_eq!(log.len(), records, "{sample:?}");
                    let verdict = first_violation(&operations(&log)).map_or(0, |v| v.number);
                    assert!(kind.fits(verdict), "{sample:?}: {verdict}");
                }
            }
        }
    }
}
