//! Lengths of buffers around the one that is needed.

/// The length that is needed, one more or one less, or a small one.
pub fn near(needed: usize, choice: u8) -> usize {
    match choice % 8 {
        0..=2 => needed,
        3 => needed + 1,
        4 | 5 => needed.saturating_sub(1),
        _ => usize::from(choice / 8),
    }
}
