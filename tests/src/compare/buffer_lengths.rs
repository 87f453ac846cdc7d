//! Holds calls that are lent buffers of other lengths against what they give with enough bytes.

use crate::library::guarded::written_twice;
use crate::{refused, Answer, Outcome};

/// What a call gives with a buffer of that length, if it gives this with enough bytes.
pub fn in_room(enough: &Outcome, length: usize) -> Outcome {
    match enough {
        Ok(bytes) if length < bytes.len() => Err(refused(24, 0)),
        outcome => outcome.clone(),
    }
}

/// Lends buffers of these lengths to a call that gives this with enough bytes: below what is needed
/// it is refused 24 and writes nothing, and from there on it writes the same bytes and leaves those
/// behind them alone. How many were long enough.
pub fn compare_lengths(
    enough: &Outcome,
    lengths: impl Iterator<Item = usize>,
    mut call: impl FnMut(&mut [u8]) -> Answer,
) -> usize {
    let is_enough = |&length: &usize| {
        let outcome = written_twice(length, &mut call);
        assert_eq!(outcome, in_room(enough, length), "{length} bytes");
        outcome.is_ok()
    };
    lengths.filter(is_enough).count()
}
