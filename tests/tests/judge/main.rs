//! The judge. With each log that has a pattern the excerpt is compared as well.

mod batches;
mod blocked;
mod bounds;
mod buffers;
mod chains;
mod changed_logs;
mod clients;
mod document;
mod empty_removes;
mod equal_ticks;
mod every_log;
mod faults;
mod lent_buffers;
mod one_tick;
mod pending_remove;
mod random;
mod refusals;
mod simulated;
mod slots;
mod threads;
mod trades;
mod uncovered_gaps;
mod values;
