//! Sessions, which are fed one record at a time.

mod buffers;
mod damaged;
mod document;
mod every_log;
mod full;
mod lent_buffers;
mod random;
mod refusals;
mod repeated_ticks;
mod slots;
mod threads;
mod whole_logs;
