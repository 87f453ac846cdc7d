//! What the library is held against: document 01, and the landed changes of document 02, written a
//! second time, from the documents alone and for reading, not for speed. Nothing here depends on the
//! library or on code that calls it, so that the two cannot share a mistake; the unit tests use
//! `logs` as well.

pub mod all_linearizations;
pub mod history;
pub mod judged_log;
pub mod judgement;
pub mod linearization;
pub mod page;
pub mod projection;
pub mod reader;
pub mod record;
pub mod search;
pub mod session;
pub mod sheet;
pub mod violations;
pub mod writer;
