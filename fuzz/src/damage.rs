//! Damage to a log that was readable: to one of its records, and to two of its bytes.

use yauponroof_tests::model::record::Record;
use yauponroof_tests::model::writer::log;

use crate::choices::Choices;

/// Where the damage is, and of which sort. Most choices are none.
pub struct Damage {
    record: (u8, u8),
    bytes: [(u8, u8, u8); 2],
}

impl Damage {
    pub fn new(how: &mut Choices) -> Damage {
        Damage {
            record: (how.byte(), how.byte()),
            bytes: [(); 2].map(|()| (how.byte(), how.byte(), how.byte())),
        }
    }

    /// The log of these records with the damage.
    pub fn done_to(&self, mut records: Vec<Record>) -> Vec<u8> {
        let (way, place) = self.record;
        damage_record(&mut records, way, place);
        let mut bytes = log(&records);
        for (way, place, byte) in self.bytes {
            damage_byte(&mut bytes, way, place, byte);
        }
        bytes
    }
}

/// A record is left out, stands there twice, trades places with the next, tells the client or the
/// event of the next, or has the tick of the last one of its client.
fn damage_record(records: &mut Vec<Record>, way: u8, place: u8) {
    if records.is_empty() {
        return;
    }
    let at = usize::from(place) % records.len();
    let next = (at + 1) % records.len();
    match way % 16 {
        1 | 2 => {
            records.remove(at);
        }
        3 => records.insert(at, records[at]),
        4 => records.swap(at, next),
        5 => records[at].client = records[next].client,
        6 => records[at].event = records[next].event,
        7 => join_back(records, at),
        _ => {}
    }
}

/// Gives the record, and all before it as far as the last one of its client, the tick of that one.
fn join_back(records: &mut [Record], at: usize) {
    let client = records[at].client;
    if let Some(last) = (0..at).rfind(|&before| records[before].client == client) {
        let tick = records[last].tick;
        records[last..=at].iter_mut().for_each(|r| r.tick = tick);
    }
}

/// A byte is another one, comes in, is left out, or is where the bytes end.
pub fn damage_byte(bytes: &mut Vec<u8>, way: u8, place: u8, byte: u8) {
    let at = usize::from(place) % bytes.len();
    match way % 32 {
        1 | 2 => bytes[at] = byte % 16,
        3 => bytes[at] = byte,
        4 => bytes.insert(at, byte),
        5 if bytes.len() > 1 => {
            bytes.remove(at);
        }
        6 => bytes.truncate(at.max(1)),
        7 => bytes.push(byte),
        _ => {}
    }
}
