//! Scripts of sessions: the calls, and tampering between them.

use crate::compare::session::{Compared, Entry};
use crate::model::session::State;
use crate::{answered, Answer, Outcome};

/// One step of a script.
#[derive(Clone, Debug, PartialEq, Eq)]
pub enum Step {
    Begin,
    Feed(Vec<u8>),
    /// With a sheet of that many bytes.
    Close(usize),
    Sheet(usize),
    /// With that many bytes for the excerpt.
    Excerpt(usize),
    /// Sets the stage.
    Stage(u32),
    /// Sets the used bytes.
    Used(u32),
    /// Sets bytes of the buffer, from there on.
    Poke(usize, Vec<u8>),
    /// Lends a buffer of another length; what it has more is zeros.
    Lend(usize),
}

/// What a step gave.
#[derive(Clone, Debug, PartialEq, Eq)]
pub enum Given {
    Answered(Entry, Answer),
    /// The bytes that were written, or the refusal.
    Wrote(Entry, Outcome),
    /// Tampering gives nothing.
    Nothing,
}

impl Given {
    /// The entry that was called, and what it answered.
    pub fn answer(&self) -> Option<(Entry, Answer)> {
        match self {
            Given::Answered(entry, answer) => Some((*entry, *answer)),
            Given::Wrote(entry, outcome) => Some((*entry, answered(outcome))),
            Given::Nothing => None,
        }
    }
}

/// Plays a step and compares.
pub fn play(session: &mut Compared, step: &Step) -> Given {
    match step {
        Step::Begin => Given::Answered(Entry::Begin, session.begin()),
        Step::Feed(record) => Given::Answered(Entry::Feed, session.feed(record)),
        Step::Close(room) => Given::Wrote(Entry::Close, session.close(*room)),
        Step::Sheet(room) => Given::Wrote(Entry::Sheet, session.sheet(*room)),
        Step::Excerpt(room) => Given::Wrote(Entry::Excerpt, session.excerpt(*room)),
        tampering => {
            session.tamper(|state| change(state, tampering));
            Given::Nothing
        }
    }
}

fn change(state: &mut State, tampering: &Step) {
    match tampering {
        Step::Stage(stage) => state.session.stage = *stage,
        Step::Used(used) => state.session.used = *used,
        Step::Poke(at, bytes) => state.buffer[*at..at + bytes.len()].copy_from_slice(bytes),
        Step::Lend(length) => state.buffer.resize(*length, 0),
        call => panic!("{call:?} is no tampering"),
    }
}
