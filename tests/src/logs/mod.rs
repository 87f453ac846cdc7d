//! What makes logs, of the model's records: by hand, every short one, by chance, of a simulated
//! queue, and with something changed or put in. Nothing here depends on the library or on
//! comparisons.

pub mod chain;
pub mod changes;
pub mod clients;
pub mod damage;
pub mod enumerate;
pub mod insertion;
pub mod notation;
pub mod samples;
pub mod simulation;
pub mod slots;
pub mod ticks;
