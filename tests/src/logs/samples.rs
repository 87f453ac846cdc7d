//! Logs to start from: the runs of document 01, logs of one shape, and a log for each refusal.

use crate::hex::hex;
use crate::logs::chain::{chain, Last};
use crate::logs::insertion::with_empty_removes;
use crate::logs::notation::run;
use crate::logs::ticks::rising;
use crate::model::record::{call_add, call_remove, return_add, return_empty, return_value, Record};
use crate::model::writer::log;
use crate::{refused, Answer};

/// What document 01 says of a run, or change 4 of document 02 of the one of a lone open remove.
pub enum Verdict {
    /// An order. No other one over the same operations is legal, in these runs.
    Order(&'static [u16]),
    /// A pattern, by its number, and the operations that it lists.
    Pattern(u8, &'static [u16]),
}

use Verdict::{Order, Pattern};

/// The runs of document 01 that the reader accepts, each with its number of operations and its
/// verdict.
pub const RUNS: [(&str, u32, Verdict); 16] = [
    ("", 0, Order(&[])),
    ("R(", 1, Order(&[])),
    ("A7( A7) R( R7)", 2, Order(&[0, 1])),
    ("R( A7( R7) A7)", 2, Order(&[1, 0])),
    ("R( R7) A7( A7)", 2, Pattern(3, &[0, 1])),
    ("A7( R( R7)", 2, Order(&[0, 1])),
    ("A7( R( R-)", 2, Order(&[1])),
    ("A1( A1) A2( A2) R( R2)", 3, Pattern(4, &[0, 1, 2])),
    ("A1( A2( A1) A2) R( R2)", 3, Order(&[1, 0, 2])),
    (
        "A1( A1) A2( A2) R( R2) R( R1)",
        4,
        Pattern(5, &[0, 1, 2, 3]),
    ),
    ("A1( A1) A2( A2) Ra( Rb( Ra2) Rb1)", 4, Order(&[0, 1, 3, 2])),
    (
        "A1( A1) Ra( A2( A2) Rb( Rb1) Ra-) R( R2)",
        5,
        Pattern(6, &[1, 0, 2]),
    ),
    (
        "A1( A1) Ra( A2( Rb( A2) Rb1) Ra-) R( R2)",
        5,
        Order(&[0, 3, 1, 2, 4]),
    ),
    ("A0( A0) R( R-)", 2, Pattern(6, &[1, 0])),
    ("R( R9)", 1, Pattern(1, &[0])),
    ("A7( A7) R( R7) R( R7)", 3, Pattern(2, &[1, 2])),
];

/// Document 01's example of "The program": the second run, by client 1 at ticks 1 to 4.
pub const PROGRAM_EXAMPLE: &str = "01 00 04 \
    0B 01 00 01 00 00 00 01 00 00 00 07 \
    07 03 00 01 00 00 00 02 \
    07 02 00 01 00 00 00 03 \
    0B 04 00 01 00 00 00 04 00 00 00 07";

/// `n` adds that never return, a client each; with n = 1,024 the longest readable log.
pub fn pending_adds(n: usize) -> Vec<Record> {
    (0..n)
        .map(|i| call_add(i as u16, i as u32, !(i as u32)))
        .collect()
}

/// Half of the records call, alternately add and remove, and the other half return, a client each:
/// all at one tick, and at the next.
pub fn calls_then_returns(n: usize) -> Vec<Record> {
    let half = n / 2;
    let calls = (0..half).map(|i| match i % 2 {
        0 => call_add(i as u16, 1, i as u32),
        _ => call_remove(i as u16, 1),
    });
    let returns = (0..half).map(|i| match i % 2 {
        0 => return_add(i as u16, 2),
        _ => return_value(i as u16, 2, i as u32 - 1),
    });
    calls.chain(returns).collect()
}

/// A log for each refusal of a log, in the order in which they are tested: 1 to 7, 31, 8 to 10.
pub fn refusals() -> Vec<(Vec<u8>, Answer)> {
    let add = call_add(1, 5, 1);
    vec![
        (hex("01"), refused(1, 0)),
        (hex("020000"), refused(2, 0)),
        (hex("010401"), refused(3, 0)),
        (hex("01000103090000"), refused(4, 0)),
        (hex("01000100"), refused(5, 0)),
        (log(&[add, call_add(2, 4, 2)]), refused(6, 1)),
        (log(&[add, call_remove(1, 5)]), refused(7, 1)),
        (
            log(&[add, return_add(1, 5), call_remove(1, 5)]),
            refused(31, 2),
        ),
        (log(&[add, return_empty(1, 5)]), refused(8, 1)),
        (log(&run("A7( A7) A7(")), refused(9, 2)),
        (log(&run("Ra( A7( A7) Rb( Rb7) Rc(")), refused(10, 5)),
    ]
}

/// The same logs alone.
pub fn refused_logs() -> Vec<Vec<u8>> {
    refusals().into_iter().map(|(log, _)| log).collect()
}

/// The log of an add of 7 by client 1 at tick 5 that has not returned.
pub fn open_add() -> Vec<u8> {
    log(&[call_add(1, 5, 7)])
}

/// Records that are refused behind that add, each with the number. Most of them would also be
/// refused for what comes later in the list of refusals.
pub const REFUSED_BEHIND_OPEN_ADD: [(&str, u32); 14] = [
    // L is 0.
    ("00", 5),
    // An unknown kind comes before an L that is not the kind's.
    ("0109", 4),
    ("03090000", 4),
    ("0700000100000004", 4),
    ("0B0600010000000400000007", 4),
    // An L that is not the kind's comes before a fallen tick and an open call.
    ("0101", 5),
    ("0701000100000004", 5),
    ("0B0200010000000400000007", 5),
    // A fallen tick comes before what the client has open, and before a value added again.
    ("0702000100000004", 6),
    ("0B0100020000000400000007", 6),
    ("0703000900000004", 6),
    // An open call comes before a value added again.
    ("0B0100010000000500000007", 7),
    ("0705000100000005", 8),
    ("0B0100020000000500000007", 9),
];

/// Adds one after the other, then removes one after the other that take these values, all by one
/// client.
pub fn adds_then_removes(count: u32, taken: impl Iterator<Item = u32>) -> Vec<Record> {
    let adds = (0..count).flat_map(|value| [call_add(1, 1, value), return_add(1, 1)]);
    let removes = taken.flat_map(|value| [call_remove(1, 1), return_value(1, 1, value)]);
    rising(&adds.chain(removes).collect::<Vec<_>>())
}

/// Adds that never return, a client each, then removes one after the other that take these values.
pub fn pending_adds_removed(count: u16, taken: impl Iterator<Item = u16>) -> Vec<Record> {
    let adds = (0..count).map(|i| call_add(i, 1, u32::from(i)));
    let removes = taken.flat_map(|value| {
        let client = count + value;
        [
            call_remove(client, 1),
            return_value(client, 1, u32::from(value)),
        ]
    });
    rising(&adds.chain(removes).collect::<Vec<_>>())
}

/// A log of the most records with a false empty remove that lists all of its adds, so that its
/// excerpt is the whole log.
pub fn longest_false_empty() -> Vec<Record> {
    let chain = chain(256, Last::Kept, |_| false).records;
    with_empty_removes(&chain, &[(2, chain.len())])
}
