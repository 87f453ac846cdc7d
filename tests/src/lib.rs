//! What the tests, the fuzz target and the bench share. `model` says what is right: document 01 and
//! the landed changes of document 02, written a second time. `logs` makes logs, `library` hands them
//! to the library, and `compare` holds what it answers and writes against the model. Each folder says
//! what it may depend on.

pub mod compare;
pub mod hex;
pub mod library;
pub mod logs;
pub mod model;
pub mod random;
mod terms;

pub use terms::{answered, refused, Answer, Outcome, Session, NO, NUMBERS, YES};
