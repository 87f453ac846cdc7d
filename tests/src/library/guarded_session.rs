//! A session of the library in memory with guards: words before and behind its two numbers, and
//! bytes before and behind the buffer that is lent with it. All guards must keep their contents, and
//! so must a record that is fed.

use crate::library::guarded::{written_twice, GUARD};
use crate::library::{begin, close, feed, session_excerpt, session_sheet};
use crate::model::session::State;
use crate::{Answer, Outcome, Session};

/// What the words around the two numbers are.
const GUARD_WORDS: [u32; 4] = [0x6B5A_4938; 4];

/// The two numbers between words that no call may change.
#[repr(C)]
#[derive(Clone, Debug, PartialEq, Eq)]
struct Numbers {
    before: [u32; 4],
    session: Session,
    behind: [u32; 4],
}

/// A session of the library, and the buffer that is lent with it.
#[derive(Clone, Debug, PartialEq, Eq)]
pub struct GuardedSession {
    numbers: Numbers,
    /// The guards, and the buffer between them.
    bytes: Vec<u8>,
    /// What the guards are, and the bytes of a buffer that was never written to.
    fill: u8,
}

impl GuardedSession {
    /// A session that was not begun, open with no used bytes, and a buffer of that many bytes, all
    /// of them `fill`.
    pub fn new(length: usize, fill: u8) -> GuardedSession {
        let session = Session { stage: 0, used: 0 };
        let numbers = Numbers {
            before: GUARD_WORDS,
            session,
            behind: GUARD_WORDS,
        };
        GuardedSession {
            numbers,
            bytes: vec![fill; GUARD + length + GUARD],
            fill,
        }
    }

    /// How the session and its buffer stand. Asserts that the guards are as they were.
    pub fn state(&self) -> State {
        let words = [self.numbers.before, self.numbers.behind];
        assert_eq!(words, [GUARD_WORDS; 2], "the words around a session");
        let (before, rest) = self.bytes.split_at(GUARD);
        let (buffer, behind) = rest.split_at(rest.len() - GUARD);
        assert_eq!(before, [self.fill; GUARD], "before the buffer");
        assert_eq!(behind, [self.fill; GUARD], "behind the buffer");
        State {
            session: self.numbers.session,
            buffer: buffer.to_vec(),
        }
    }

    /// Makes the session and its buffer another one, which need not have the same length.
    pub fn become_state(&mut self, state: &State) {
        let guard = [self.fill; GUARD];
        self.numbers.session = state.session;
        self.bytes = [&guard, &state.buffer[..], &guard].concat();
    }

    /// The two numbers and the buffer, to be lent to a call.
    fn parts(&mut self) -> (&mut Session, &mut [u8]) {
        let end = self.bytes.len() - GUARD;
        (&mut self.numbers.session, &mut self.bytes[GUARD..end])
    }

    fn buffer(&self) -> &[u8] {
        &self.bytes[GUARD..self.bytes.len() - GUARD]
    }

    pub fn begin(&mut self) -> Answer {
        let (session, buffer) = self.parts();
        begin(session, buffer)
    }

    pub fn feed(&mut self, record: &[u8]) -> Answer {
        let lent = record.to_vec();
        let (session, buffer) = self.parts();
        let answer = feed(session, buffer, &lent);
        assert_eq!(lent, record, "the record that was fed");
        answer
    }

    /// Closes with a sheet of that length. It is done twice, over different bytes of the sheet.
    pub fn close(&mut self, room: usize) -> Outcome {
        let mut closed = Vec::new();
        let outcome = written_twice(room, |sheet| {
            let mut lent = self.clone();
            let (session, buffer) = lent.parts();
            let answer = close(session, buffer, sheet);
            closed.push(lent);
            answer
        });
        assert_eq!(closed[0], closed[1], "two closings of one session");
        self.clone_from(&closed[0]);
        outcome
    }

    pub fn sheet(&self, room: usize) -> Outcome {
        let session = &self.numbers.session;
        written_twice(room, |sheet| session_sheet(session, self.buffer(), sheet))
    }

    pub fn excerpt(&self, room: usize) -> Outcome {
        let session = &self.numbers.session;
        written_twice(room, |out| session_excerpt(session, self.buffer(), out))
    }
}
