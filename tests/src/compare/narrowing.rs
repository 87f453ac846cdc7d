//! Holds narrowing by the library against the model's.

use crate::hex::show;
use crate::library::outcomes::narrowing_made;
use crate::model::projection::{narrowed, values};
use crate::model::{reader, writer};

/// Narrows a readable log to these values and compares the bytes, which are returned.
pub fn compare_narrowing(log: &[u8], values: &[u32]) -> Vec<u8> {
    let records = reader::read(log).expect("a readable log");
    let expected = writer::log(&narrowed(&records, values));
    assert_eq!(
        narrowing_made(log, values).as_ref(),
        Ok(&expected),
        "left: the library, for the values {values:?} and the log {}",
        show(log)
    );
    expected
}

/// Narrows a readable log to every second of its values and compares the bytes.
pub fn compare_some_narrowing(log: &[u8]) {
    let records = reader::read(log).expect("a readable log");
    let every_second: Vec<u32> = values(&records).into_iter().step_by(2).collect();
    compare_narrowing(log, &every_second);
}
