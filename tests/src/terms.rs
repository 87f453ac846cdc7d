//! The terms in which the library and the model are compared: what a call answers and writes, and
//! the numbers of a session.

/// What a call of the library answers.
#[derive(Clone, Copy, Debug, PartialEq, Eq)]
pub enum Answer {
    /// The number that the call returns.
    Accepted(u32),
    /// A refusal of the documents with the index of the record at fault.
    Refused { number: u32, index: u32 },
}

impl Answer {
    /// The number of the refusal; 0 is accepted.
    pub fn number(self) -> usize {
        match self {
            Answer::Accepted(_) => 0,
            Answer::Refused { number, .. } => number as usize,
        }
    }
}

/// The numbers of all answers are below this: 32 is the highest of a refusal.
pub const NUMBERS: usize = 32 + 1;

/// A refusal, in short.
pub fn refused(number: u32, index: u32) -> Answer {
    Answer::Refused { number, index }
}

/// Replay's answer to an order that is legal for the log, and to any other.
pub const YES: Answer = Answer::Accepted(1);
pub const NO: Answer = Answer::Accepted(0);

/// The bytes that a call says it wrote, or its refusal.
pub type Outcome = Result<Vec<u8>, Answer>;

/// What the call answered.
pub fn answered(outcome: &Outcome) -> Answer {
    match outcome {
        Ok(bytes) => Answer::Accepted(bytes.len() as u32),
        Err(refusal) => *refusal,
    }
}

/// What the library keeps of a session: the numbers that its callers hold for it.
#[repr(C)]
#[derive(Clone, Copy, Debug, PartialEq, Eq)]
pub struct Session {
    /// 0 open, 1 closed.
    pub stage: u32,
    /// How many bytes of the lent buffer hold the log.
    pub used: u32,
}
