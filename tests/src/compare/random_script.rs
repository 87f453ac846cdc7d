//! An author of scripts of sessions. Steps are written by chance, one after the other, with an eye
//! on how the session stands, so that lengths come near those that matter.

use std::collections::VecDeque;

use crate::compare::script::{play, Step};
use crate::compare::session::{Compared, Seen};
use crate::model::reader::HEADER;
use crate::model::record::{
    call_add, call_remove, return_add, return_empty, return_value, Event, Record,
};
use crate::model::session::{State, CLOSED};
use crate::model::writer::{log, record_bytes};
use crate::random::Random;

/// Writes a script by chance.
pub struct Author<'a> {
    random: &'a mut Random,
    /// The records of a log.
    plan: Vec<Record>,
    /// Those of the plan that were not fed so far.
    planned: VecDeque<Record>,
    is_begun: bool,
    /// What takes tampering back, the last first.
    repairs: Vec<Step>,
    /// Of so many steps one tampers, and a few others are not what a sound session does.
    one_in: usize,
}

/// Stages, and numbers that are none.
const STAGES: [u32; 9] = [0, 1, 0, 1, 2, 256, 257, 1 << 16, u32::MAX];

/// Length bytes, and numbers near them.
const LENGTHS: [u8; 10] = [0, 1, 6, 7, 8, 10, 11, 12, 40, 255];

/// Kinds, and numbers that are none.
const KINDS: [u8; 8] = [0, 1, 2, 3, 4, 5, 6, 255];

impl<'a> Author<'a> {
    /// An author who mostly feeds the records of this plan and closes, and who tampers in one step
    /// of so many.
    pub fn new(plan: Vec<Record>, one_in: usize, random: &'a mut Random) -> Author<'a> {
        Author {
            random,
            planned: plan.iter().copied().collect(),
            plan,
            is_begun: false,
            repairs: Vec::new(),
            one_in,
        }
    }

    /// Writes a script of so many steps and plays it. Counts the answers.
    pub fn play(&mut self, steps: usize, seen: &mut Seen) {
        let fill = *self.random.pick(&[0xAA, 0x55, 0, 1, 0xFF]);
        let mut session = Compared::filled(self.length(), fill);
        let mut script = Script(Vec::new());
        for _ in 0..steps {
            let step = self.next(session.state());
            script.0.push(step.clone());
            if let Some((entry, answer)) = play(&mut session, &step).answer() {
                seen.count(entry, answer);
            }
        }
    }

    /// A length for the buffer: mostly enough for the plan, or nearly so.
    fn length(&mut self) -> usize {
        let needed = log(&self.plan).len();
        match self.random.below(10) {
            0 => self.random.below(HEADER + 3),
            1 => self.random.below(needed),
            2 | 3 => needed - self.random.below(needed.min(14)),
            4 => needed,
            _ => needed + self.random.below(60),
        }
    }

    fn next(&mut self, state: &State) -> Step {
        if !self.is_begun && self.random.below(20) > 0 {
            return self.begin();
        }
        if !self.repairs.is_empty() && self.random.below(2) == 0 {
            return self.repairs.pop().expect("a repair");
        }
        if state.session.stage == CLOSED && self.random.below(6) == 0 {
            return self.begin();
        }
        match self.random.below(self.one_in) {
            0 => self.tampering(state),
            1 | 2 => Step::Feed(self.damaged_record()),
            3 if self.random.below(8) == 0 => self.begin(),
            3 => Step::Close(self.room_for_sheet(state)),
            4 => Step::Sheet(self.room_for_sheet(state)),
            5 => Step::Excerpt(self.room_for_excerpt(state)),
            _ => self.go_on(state),
        }
    }

    /// What a sound session does next: feeding, then closing and what comes behind it.
    fn go_on(&mut self, state: &State) -> Step {
        match self.planned.front() {
            Some(record) => {
                let record = record_bytes(record);
                // A record that is fed between tampering and its repair may be fed again.
                if self.repairs.is_empty() {
                    self.planned.pop_front();
                }
                Step::Feed(record)
            }
            None if state.session.stage != CLOSED => Step::Close(self.room_for_sheet(state)),
            None if self.random.below(2) == 0 => Step::Sheet(self.room_for_sheet(state)),
            None => Step::Excerpt(self.room_for_excerpt(state)),
        }
    }

    /// The plan is then fed from its first record on.
    fn begin(&mut self) -> Step {
        self.is_begun = true;
        self.planned = self.plan.iter().copied().collect();
        Step::Begin
    }

    /// A record by one of few clients at about the tick of the next one, on one of few values.
    fn any_record(&mut self) -> Record {
        let next = self.planned.front().or(self.plan.last());
        let tick = next.map_or(0, |record| record.tick);
        let client = self.random.below(4) as u16;
        let value = self.random.below(5) as u32;
        match self.random.below(5) {
            0 => call_add(client, tick, value),
            1 => call_remove(client, tick),
            2 => return_add(client, tick),
            3 => return_value(client, tick, value),
            _ => return_empty(client, tick),
        }
    }

    /// The next record, one of the plan that was fed or is to come, or any other one.
    fn some_record(&mut self) -> Record {
        let planned = match self.random.below(3) {
            0 => self.planned.front().copied(),
            1 => self.random.pick_from(self.plan.iter().copied()),
            _ => None,
        };
        planned.unwrap_or_else(|| self.any_record())
    }

    /// Bytes to feed that are seldom a record which the session takes.
    fn damaged_record(&mut self) -> Vec<u8> {
        let record = self.some_record();
        let other = self.some_record();
        let mut bytes = record_bytes(&record);
        match self.random.below(14) {
            0 => bytes.clear(),
            1 => bytes.truncate(self.random.below(bytes.len())),
            2 => bytes.resize(bytes.len() + 1 + self.random.below(3), 7),
            3 => bytes.extend(record_bytes(&other)),
            4 => bytes[0] = *self.random.pick(&LENGTHS),
            5 => {
                bytes[0] = *self.random.pick(&LENGTHS);
                bytes.resize(1 + usize::from(bytes[0]), 0);
            }
            6 => bytes[1] = *self.random.pick(&KINDS),
            7 => bytes = vec![0; 1 + self.random.below(2)],
            8 => bytes = record_bytes(&self.sooner(record)),
            9 => {
                bytes = record_bytes(&Record {
                    client: other.client,
                    ..record
                })
            }
            10 => {
                bytes = record_bytes(&Record {
                    event: other.event,
                    ..record
                })
            }
            11 => bytes = record_bytes(&self.added_again(record)),
            12 => bytes = record_bytes(&self.called_again(record)),
            _ => {}
        }
        bytes
    }

    /// A new client calls to add a value of the plan, in place of the record.
    fn added_again(&mut self, record: Record) -> Record {
        const NEW_CLIENT: u16 = 999;
        let added = self.plan.iter().filter_map(|record| match record.event {
            Event::CallAdd(value) => Some(value),
            _ => None,
        });
        let value = self.random.pick_from(added).unwrap_or(0);
        call_add(NEW_CLIENT, record.tick, value)
    }

    /// The client of the last record that was fed calls at its tick, in place of the record.
    fn called_again(&mut self, record: Record) -> Record {
        let fed = self.plan.len() - self.planned.len();
        let last = fed.checked_sub(1).map_or(record, |last| self.plan[last]);
        call_remove(last.client, last.tick)
    }

    /// The record a few ticks sooner.
    fn sooner(&mut self, record: Record) -> Record {
        let sooner = 1 + self.random.below(4) as u32;
        Record {
            tick: record.tick.saturating_sub(sooner),
            ..record
        }
    }

    /// A length for a sheet: mostly what is needed, or nearly so.
    fn room_for_sheet(&mut self, state: &State) -> usize {
        self.near(state.sheet_length())
    }

    fn room_for_excerpt(&mut self, state: &State) -> usize {
        self.near(state.excerpt_length())
    }

    fn near(&mut self, needed: usize) -> usize {
        match self.random.below(8) {
            0 => self.random.below(needed),
            1 | 2 => needed - 1,
            3 => needed + 1 + self.random.below(20),
            _ => needed,
        }
    }

    /// Changes the session or its buffer, and notes what takes that back.
    fn tampering(&mut self, state: &State) -> Step {
        match self.random.below(4) {
            0 => {
                self.repairs.push(Step::Stage(state.session.stage));
                Step::Stage(*self.random.pick(&STAGES))
            }
            1 => {
                self.repairs.push(Step::Used(state.session.used));
                Step::Used(self.other_used(state))
            }
            2 if !state.buffer.is_empty() => self.poke(state),
            _ => self.other_length(state),
        }
    }

    fn other_used(&mut self, state: &State) -> u32 {
        let used = state.session.used;
        let length = state.buffer.len() as u32;
        let near = used
            .wrapping_add(self.random.below(27) as u32)
            .wrapping_sub(13);
        let numbers = [
            0,
            2,
            3,
            used.wrapping_sub(1),
            used.wrapping_add(1),
            used.wrapping_add(1 << 16),
            length,
            length.wrapping_add(1),
            near,
            u32::MAX,
        ];
        *self.random.pick(&numbers)
    }

    /// Other bytes in one or two places, mostly among the used ones.
    fn poke(&mut self, state: &State) -> Step {
        let length = state.buffer.len();
        let at = match self.random.below(4) {
            0 => self.random.below(length),
            1 => self.random.below(length.min(HEADER)),
            _ => self.random.below(length.min(state.used().max(1))),
        };
        let end = length.min(at + 1 + self.random.below(2));
        self.repairs
            .push(Step::Poke(at, state.buffer[at..end].to_vec()));
        let other = |_| self.random.below(13) as u8;
        Step::Poke(at, (at..end).map(other).collect())
    }

    /// A longer or a shorter buffer, mostly one that is filled or nearly so.
    fn other_length(&mut self, state: &State) -> Step {
        let length = state.buffer.len();
        let used = state.used().min(length);
        let other = match self.random.below(4) {
            0 => self.random.below(length + 20),
            1 => used.saturating_sub(1 + self.random.below(3)),
            _ => used + self.random.below(14),
        };
        let lost = &state.buffer[other.min(length)..];
        self.repairs
            .push(Step::Poke(length - lost.len(), lost.to_vec()));
        self.repairs.push(Step::Lend(length));
        Step::Lend(other)
    }
}

/// The steps that were played so far, shown if an assertion fails.
struct Script(Vec<Step>);

impl Drop for Script {
    fn drop(&mut self) {
        const LAST: usize = 30;
        if std::thread::panicking() {
            let shown = self.0.len().saturating_sub(LAST);
            println!("the last steps of {}: {:?}", self.0.len(), &self.0[shown..]);
        }
    }
}
