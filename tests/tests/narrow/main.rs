//! Narrowing to values.

mod bounds;
mod buffers;
mod document;
mod every_log;
mod random;
mod refusals;
