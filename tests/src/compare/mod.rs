//! Holds what the library answers and writes against the model, and counts the answers, so that a
//! test whose logs no longer reach some answer is noticed. It depends on all other folders, and
//! none of them on it.

pub mod archive;
pub mod buffer_lengths;
pub mod counts;
pub mod every_order;
pub mod narrowing;
pub mod page;
pub mod random_script;
pub mod reading;
pub mod replay;
pub mod script;
pub mod session;
pub mod spoilt;
pub mod threads;
pub mod whole_session;
