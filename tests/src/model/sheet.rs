//! Verdict sheets as bytes: the version, 1; the verdict, 0 for an order or the number of a pattern;
//! k in two bytes; then k operation numbers of two bytes each.

use crate::model::violations::Violation;

pub const VERSION: u8 = 1;
pub const ORDER: u8 = 0;
pub const HEADER: usize = 4;

/// The most operations that an order of the judge can list: of three records, one calls an add and
/// two are the remove of its value.
pub const MOST_JUDGED: usize = 682;

/// The most bytes that the judge can write.
pub const SHEET_MAX: usize = HEADER + 2 * MOST_JUDGED;

/// The sheet of this order.
pub fn sheet(order: &[u16]) -> Vec<u8> {
    let k = u16::try_from(order.len()).expect("a sheet of at most 65,535 operations");
    sheet_with_k(k, order)
}

/// The sheet of this order with a field k that need not fit it.
pub fn sheet_with_k(k: u16, order: &[u16]) -> Vec<u8> {
    let [high, low] = k.to_be_bytes();
    let mut bytes = vec![VERSION, ORDER, high, low];
    for number in order {
        bytes.extend(number.to_be_bytes());
    }
    bytes
}

/// The sheet of this pattern.
pub fn violation_sheet(violation: &Violation) -> Vec<u8> {
    let mut bytes = sheet(&violation.operations);
    bytes[1] = violation.number;
    bytes
}

/// The verdict byte of a sheet and the operations that it lists; none if the bytes are no sheet.
pub fn verdict_on(sheet: &[u8]) -> Option<(u8, Vec<u16>)> {
    if sheet.len() < HEADER || sheet[0] != VERSION {
        return None;
    }
    let number = |at: usize| u16::from_be_bytes([sheet[at], sheet[at + 1]]);
    let k = usize::from(number(2));
    if sheet.len() != HEADER + 2 * k {
        return None;
    }
    let listed = (0..k).map(|place| number(HEADER + 2 * place));
    Some((sheet[1], listed.collect()))
}

/// The order on a sheet; none if replay has to refuse the sheet: it "has under 4 bytes, version
/// not 1, verdict not 0, or length not 4 + 2k".
pub fn order_on(sheet: &[u8]) -> Option<Vec<u16>> {
    match verdict_on(sheet)? {
        (ORDER, order) => Some(order),
        _ => None,
    }
}
