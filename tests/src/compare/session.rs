//! Holds sessions of the library against the model's: after every call the answer, what was
//! written, the session and every byte of its buffer.

use crate::compare::counts::Counts;
use crate::hex::show;
use crate::library::guarded::FILLS;
use crate::library::guarded_session::GuardedSession;
use crate::library::outcomes::{excerpt_made, judged};
use crate::model::judged_log::JudgedLog;
use crate::model::session::State;
use crate::{Answer, Outcome};

/// A session of the library and the one that it must be.
#[derive(Clone)]
pub struct Compared {
    lent: GuardedSession,
    expected: State,
}

impl Compared {
    /// A session that was not begun, with a buffer of that many bytes.
    pub fn new(length: usize) -> Compared {
        Compared::filled(length, FILLS[0])
    }

    /// The same with a buffer of such bytes.
    pub fn filled(length: usize, fill: u8) -> Compared {
        let lent = GuardedSession::new(length, fill);
        let expected = lent.state();
        Compared { lent, expected }
    }

    /// A session that was begun, with a buffer of that many bytes, which are enough.
    pub fn begun(length: usize) -> Compared {
        let mut session = Compared::new(length);
        assert_eq!(session.begin(), Answer::Accepted(3));
        session
    }

    pub fn begin(&mut self) -> Answer {
        let expected = self.expected.begin();
        let answer = self.lent.begin();
        assert_eq!(answer, expected, "left: the library, to begin");
        self.compare_state("begin");
        answer
    }

    pub fn feed(&mut self, record: &[u8]) -> Answer {
        let expected = self.expected.feed(record);
        let answer = self.lent.feed(record);
        assert_eq!(
            answer,
            expected,
            "left: the library, to feed {} behind {}",
            show(record),
            show(&self.expected.buffer)
        );
        self.compare_state("feed");
        answer
    }

    /// Closes with a sheet of that length.
    pub fn close(&mut self, room: usize) -> Outcome {
        let expected = self.expected.close(room);
        let outcome = self.lent.close(room);
        self.compare_sheet(&outcome, expected);
        self.compare_state("close");
        outcome
    }

    pub fn sheet(&self, room: usize) -> Outcome {
        let outcome = self.lent.sheet(room);
        self.compare_sheet(&outcome, self.expected.sheet(room));
        self.compare_state("sheet");
        outcome
    }

    pub fn excerpt(&self, room: usize) -> Outcome {
        let outcome = self.lent.excerpt(room);
        let expected = self.expected.excerpt(room);
        assert_eq!(
            outcome,
            expected,
            "left: the library's excerpt, of {}",
            show(&self.expected.buffer)
        );
        if outcome.is_ok() {
            assert_eq!(excerpt_made(self.held()), outcome, "left: of the whole log");
        }
        self.compare_state("excerpt");
        outcome
    }

    /// A sheet must tell the verdict, and be the bytes that the library's judge writes for the log
    /// held; so closing and the sheet of a closed session give the same bytes.
    fn compare_sheet(&self, outcome: &Outcome, expected: Result<JudgedLog, Answer>) {
        match (outcome, expected) {
            (Ok(sheet), Ok(verdict)) => {
                let log = self.held();
                assert!(
                    verdict.is_told_by(sheet),
                    "{} for {}",
                    show(sheet),
                    show(log)
                );
                assert_eq!(judged(log).as_ref(), Ok(sheet), "left: judged");
            }
            (outcome, expected) => assert_eq!(
                outcome.as_ref().err(),
                expected.as_ref().err(),
                "left: the library, for a sheet of {}",
                show(&self.expected.buffer)
            ),
        }
    }

    fn compare_state(&self, call: &str) {
        let state = self.lent.state();
        let expected = &self.expected;
        assert_eq!(state.session, expected.session, "left: after {call}");
        assert!(
            state.buffer == expected.buffer,
            "after {call} the buffer is {}, not {}",
            show(&state.buffer),
            show(&expected.buffer)
        );
    }

    /// How the session and its buffer stand: as the model has it, which every call has
    /// compared with the library's.
    pub fn state(&self) -> &State {
        &self.expected
    }

    /// Changes the session or its buffer from outside, as no call does.
    pub fn tamper(&mut self, change: impl FnOnce(&mut State)) {
        change(&mut self.expected);
        self.lent.become_state(&self.expected);
    }

    /// The used bytes of the buffer, in the same way.
    pub fn held(&self) -> &[u8] {
        self.expected.log().expect("used bytes of the buffer")
    }
}

/// The functions that take a session.
#[derive(Clone, Copy, Debug, PartialEq, Eq)]
pub enum Entry {
    Begin,
    Feed,
    Close,
    Sheet,
    Excerpt,
}

/// How often each entry gave each answer.
#[derive(Debug, Default)]
pub struct Seen([Counts; 5]);

impl Seen {
    pub fn new() -> Seen {
        Seen::default()
    }

    pub fn count(&mut self, entry: Entry, answer: Answer) {
        self.0[entry as usize][answer.number()] += 1;
    }

    /// Asserts that the entry gave answers of these numbers at least so often, and no others.
    pub fn assert_at_least(&self, entry: Entry, floors: &[(usize, u64)]) {
        for (number, seen) in self.0[entry as usize].by_number() {
            let floor = floors.iter().find(|floor| floor.0 == number);
            match floor {
                Some(&(_, floor)) => assert!(
                    seen >= floor,
                    "{entry:?} gave answer {number} {seen} times, not {floor} (0 is accepted): {self:?}"
                ),
                None => assert_eq!(seen, 0, "{entry:?} gave answer {number}: {self:?}"),
            }
        }
    }
}
