//! The page: its lines, its buffers and its refusals. Many more logs are handed to it by the tests
//! of check.

mod bounds;
mod buffers;
mod columns;
mod damaged;
mod document;
mod every_log;
mod fields;
mod lent_buffers;
mod random;
mod refusals;
mod values;
