//! How logs are read: by check, and by all other entries, which refuse the same logs.

mod bounds;
mod damaged;
mod document;
mod exhaustive;
mod lent_bytes;
mod repeated_ticks;
mod slots;
