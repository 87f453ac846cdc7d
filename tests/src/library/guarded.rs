//! Buffers for the library to write to. Guard bytes before and behind a buffer, and those in it
//! that are not written, must keep their contents.

use crate::{Answer, Outcome};

/// How many guard bytes stand on each side of a buffer.
pub const GUARD: usize = 16;

/// What all bytes are before a call.
pub const FILLS: [u8; 2] = [0xAA, 0x55];

/// Lends `length` bytes to a call: the bytes that it says it wrote, or its refusal. Asserts that
/// all others are as before; of a refused call, all.
pub fn written(length: usize, call: impl FnOnce(&mut [u8]) -> Answer) -> Outcome {
    written_over(FILLS[0], length, call)
}

/// The same, twice: a byte that is written is noticed whatever it is, and what a call answers and
/// writes must not depend on what the buffer held before.
pub fn written_twice(length: usize, mut call: impl FnMut(&mut [u8]) -> Answer) -> Outcome {
    let [one, other] = FILLS.map(|fill| written_over(fill, length, &mut call));
    assert_eq!(one, other, "two calls over different bytes");
    one
}

fn written_over(fill: u8, length: usize, call: impl FnOnce(&mut [u8]) -> Answer) -> Outcome {
    let mut bytes = vec![fill; GUARD + length + GUARD];
    let answer = call(&mut bytes[GUARD..GUARD + length]);
    told(&bytes, GUARD, length, fill, answer)
}

/// What a call told that was lent `length` of these bytes, from `at` on. All were `fill` before.
pub fn told(bytes: &[u8], at: usize, length: usize, fill: u8, answer: Answer) -> Outcome {
    let (count, outcome) = match answer {
        Answer::Accepted(count) => (count as usize, Ok(())),
        refusal => (0, Err(refusal)),
    };
    assert!(count <= length, "{count} bytes written into {length}");
    let (before, rest) = bytes.split_at(at);
    let (written, behind) = rest.split_at(count);
    let is_unchanged = |bytes: &[u8]| bytes.iter().all(|&byte| byte == fill);
    assert!(is_unchanged(before), "bytes before a buffer were changed");
    assert!(
        is_unchanged(behind),
        "bytes behind the {count} written ones were changed, in a buffer of {length}: {answer:?}"
    );
    outcome.map(|()| written.to_vec())
}
