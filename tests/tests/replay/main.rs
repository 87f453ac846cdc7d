//! Replay, which tests orders.

mod batches;
mod bounds;
mod clients;
mod document;
mod every_order;
mod lent_bytes;
mod precedence;
mod random;
mod sheets;
mod spoilt_logs;
mod spoilt_orders;
