//! What bytes of a log are damaged to.

/// Neighbours of the sound byte, each kind, both lengths, and the ends of the range.
pub fn telling_values(sound: u8) -> [u8; 12] {
    let below = sound.wrapping_sub(1);
    let above = sound.wrapping_add(1);
    [below, above, 0, 1, 2, 3, 4, 5, 6, 7, 11, 255]
}
