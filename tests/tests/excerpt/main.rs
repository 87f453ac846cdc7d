//! The excerpt: what it keeps, its buffers and its refusals. Many more excerpts are compared by the
//! tests of the judge.

mod buffers;
mod document;
mod refusals;
