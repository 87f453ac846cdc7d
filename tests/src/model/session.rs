//! Sessions as document 01 tells them.

use crate::model::judged_log::JudgedLog;
use crate::model::reader::{self, Refusal, HEADER, MAX_RECORDS};
use crate::model::record::Record;
use crate::model::sheet;
use crate::model::writer::header;
use crate::{refused, Answer, Outcome, Session};

/// The stages of a session.
pub const OPEN: u32 = 0;
pub const CLOSED: u32 = 1;

/// A session and the buffer that is lent with it.
#[derive(Clone, Debug, PartialEq, Eq)]
pub struct State {
    pub session: Session,
    pub buffer: Vec<u8>,
}

impl State {
    /// The state as if it were closed.
    fn as_closed(&self) -> State {
        let mut closed = self.clone();
        closed.session.stage = CLOSED;
        closed
    }

    /// How long the sheet is once the session is closed; if it cannot be, that of a sheet that lists
    /// nothing.
    pub fn sheet_length(&self) -> usize {
        let sheet = self.as_closed().sheet(usize::MAX);
        sheet.map_or(sheet::HEADER, |judged| judged.sheet_length())
    }

    /// The same of the excerpt, and of a log without records.
    pub fn excerpt_length(&self) -> usize {
        let excerpt = self.as_closed().excerpt(usize::MAX);
        excerpt.map_or(HEADER, |bytes| bytes.len())
    }

    /// "Beginning writes 01 00 00", and "24: under 3 bytes at beginning". How the session stood
    /// before does not matter.
    pub fn begin(&mut self) -> Answer {
        if self.buffer.len() < HEADER {
            return refused(24, 0);
        }
        self.buffer[..HEADER].copy_from_slice(&header(0));
        self.session = Session {
            stage: OPEN,
            used: HEADER as u32,
        };
        Answer::Accepted(HEADER as u32)
    }

    /// "Feed: 25, 20, 21, the input list, 24."
    pub fn feed(&mut self, record: &[u8]) -> Answer {
        if self.held().is_none() {
            return refused(25, 0);
        }
        if self.session.stage == CLOSED {
            return refused(20, 0);
        }
        if self.count() == MAX_RECORDS {
            return refused(21, 0);
        }
        if let Some(number) = self.turned_down(record) {
            return refused(number, self.count() as u32);
        }
        if self.used() + record.len() > self.buffer.len() {
            return refused(24, 0);
        }
        self.append(record);
        Answer::Accepted(record.len() as u32)
    }

    /// "Others: 25, then 20 or 22, then the input list, 23, 24." Of the input list 10 is left for a
    /// session that is open. Change 4 puts 32 before 23.
    pub fn close(&mut self, room: usize) -> Result<JudgedLog, Answer> {
        let held = self.held().ok_or(refused(25, 0))?;
        if self.session.stage == CLOSED {
            return Err(refused(20, 0));
        }
        let records = held.map_err(|index| refused(10, index as u32))?;
        let judged = JudgedLog::of(records);
        judged.fits(room)?;
        self.session.stage = CLOSED;
        Ok(judged)
    }

    pub fn sheet(&self, room: usize) -> Result<JudgedLog, Answer> {
        let judged = self.closed()?;
        judged.fits(room)?;
        Ok(judged)
    }

    pub fn excerpt(&self, room: usize) -> Outcome {
        let excerpt = self.closed()?.excerpt()?;
        match room < excerpt.len() {
            true => Err(refused(24, 0)),
            false => Ok(excerpt),
        }
    }

    /// The verdict that a closed session tells, or 25 or 22.
    fn closed(&self) -> Result<JudgedLog, Answer> {
        let held = self.held().ok_or(refused(25, 0))?;
        if self.session.stage == OPEN {
            return Err(refused(22, 0));
        }
        Ok(JudgedLog::of(
            held.expect("a closed session's log is readable"),
        ))
    }

    /// The records held, or the index of the second remove without return. None if "the session's
    /// stage or used bytes do not fit its buffer, or the bytes are no readable log (open session:
    /// readable but for 10)".
    fn held(&self) -> Option<Result<Vec<Record>, usize>> {
        match (reader::read(self.log()?), self.session.stage) {
            (Ok(records), OPEN | CLOSED) => Some(Ok(records)),
            (Err(Refusal(10, index)), OPEN) => Some(Err(index)),
            _ => None,
        }
    }

    /// The used bytes, if the buffer has that many.
    pub fn log(&self) -> Option<&[u8]> {
        self.buffer.get(..self.used())
    }

    /// What the input list says against a record, for a session that fits. "A feed makes its whole
    /// test for 1, bytes behind the record included, before the rest of the list."
    fn turned_down(&self, record: &[u8]) -> Option<u32> {
        if !is_one_record(record) {
            return Some(1);
        }
        let mut longer = self.clone();
        longer.buffer.truncate(self.used());
        longer.append(record);
        match reader::read(&longer.buffer) {
            Ok(_) | Err(Refusal(10, _)) => None,
            Err(Refusal(number, index)) => {
                assert_eq!(index, self.count(), "the records held are not at fault");
                Some(number)
            }
        }
    }

    /// "Each accepted feed alters only these, the count in the lent buffer and the bytes just behind
    /// the used ones."
    fn append(&mut self, record: &[u8]) {
        let used = self.used();
        let count = self.count() as u16 + 1;
        self.buffer[..HEADER].copy_from_slice(&header(count));
        let end = self.buffer.len().min(used + record.len());
        self.buffer.splice(used..end, record.iter().copied());
        self.session.used += record.len() as u32;
    }

    /// How many records are held.
    pub fn count(&self) -> usize {
        usize::from(u16::from_be_bytes([self.buffer[1], self.buffer[2]]))
    }

    pub fn used(&self) -> usize {
        self.session.used as usize
    }
}

/// "For a feed: not exactly one record" is 1: a length byte L and L bytes behind it.
fn is_one_record(record: &[u8]) -> bool {
    let length = record.first().map(|&length| 1 + usize::from(length));
    length == Some(record.len())
}
