//! How long the measured calls take on one log. They are made in turns, so that a machine that is
//! slower for a while is so for all of them, and the median is told.

use std::time::{Duration, Instant};

use crate::case::{Case, Ended, Entry, Room};

/// How often each entry has its turn, unless its time is up.
const TURNS: usize = 15;

/// In one turn an entry is called as often as fits into this time, and at least once.
const TURN: Duration = Duration::from_micros(500);

/// An entry whose turns have taken this time together has no more of them, once it has had a few.
const TIME: Duration = Duration::from_millis(500);
const FEW: usize = 3;

/// For each entry the median of the seconds that a call takes. None if the entry gives up, or has
/// nothing to do on this log.
pub fn medians<const N: usize>(case: &Case, entries: [Entry; N]) -> [Option<f64>; N] {
    let mut all = entries.map(|entry| Series::begun(case, entry));
    for _ in 0..TURNS {
        for series in all.iter_mut().flatten() {
            series.take_turn();
        }
    }
    all.map(|series| series.map(Series::median))
}

/// The turns of one entry.
struct Series<'a> {
    case: &'a Case,
    entry: Entry,
    room: Room,
    /// How many calls make a turn.
    calls: u32,
    /// For each turn the seconds of a call.
    seconds: Vec<f64>,
    spent: Duration,
}

impl<'a> Series<'a> {
    /// An entry that has had no turn yet.
    fn begun(case: &'a Case, entry: Entry) -> Option<Series<'a>> {
        let mut series = Series {
            case,
            entry,
            room: Room::empty(),
            calls: 1,
            seconds: Vec::new(),
            spent: Duration::ZERO,
        };
        if !case.takes(entry) {
            return None;
        }
        let (ended, time) = series.timed();
        series.calls = (TURN.as_nanos() / time.as_nanos().max(1)).clamp(1, 10_000) as u32;
        (ended == Ended::Done).then_some(series)
    }

    /// Makes the calls of a turn, and looks at what the last one told.
    fn timed(&mut self) -> (Ended, Duration) {
        self.room = Room::empty();
        let start = Instant::now();
        for _ in 1..self.calls {
            self.case.call(self.entry, &mut self.room);
        }
        let told = self.case.call(self.entry, &mut self.room);
        let time = start.elapsed();
        (self.case.ended(self.entry, &told, &self.room), time)
    }

    fn take_turn(&mut self) {
        if self.spent < TIME || self.seconds.len() < FEW {
            let (_, time) = self.timed();
            self.spent += time;
            self.seconds
                .push(time.as_secs_f64() / f64::from(self.calls));
        }
    }

    fn median(mut self) -> f64 {
        self.seconds.sort_by(f64::total_cmp);
        self.seconds[self.seconds.len() / 2]
    }
}
