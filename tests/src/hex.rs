//! Bytes as text, in hexadecimal digits.

/// The bytes that a text of hexadecimal digits stands for; spaces do not count.
pub fn hex(text: &str) -> Vec<u8> {
    let digits: Vec<u8> = text
        .chars()
        .filter(|c| !c.is_whitespace())
        .map(|c| c.to_digit(16).expect("a hexadecimal digit") as u8)
        .collect();
    assert!(digits.len() % 2 == 0, "half a byte in {text:?}");
    digits
        .chunks(2)
        .map(|pair| pair[0] << 4 | pair[1])
        .collect()
}

/// The digits of bytes; a dot for none.
pub fn digits(bytes: &[u8]) -> String {
    match bytes {
        [] => ".".to_string(),
        _ => bytes.iter().map(|byte| format!("{byte:02x}")).collect(),
    }
}

/// The same for a message, cut where it is long.
pub fn show(bytes: &[u8]) -> String {
    const SHOWN: usize = 400;
    match bytes.get(..SHOWN) {
        Some(shown) if shown.len() < bytes.len() => {
            format!("{}... ({} bytes)", digits(shown), bytes.len())
        }
        _ => digits(bytes),
    }
}
