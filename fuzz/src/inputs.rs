//! What inputs are made into.

use yauponroof_tests::library::fenced::Place;
use yauponroof_tests::model::reader::operation_count;
use yauponroof_tests::model::writer::log;

use crate::choices::Choices;
use crate::damage::Damage;
use crate::logs::Calls;
use crate::orders::{compare_replay, Changes};
use crate::reached::Reached;
use crate::scripts::Player;
use crate::writer::{written_records, Writer};

/// What an input is made into, which its first byte tells.
#[derive(Clone, Copy)]
pub enum Kind {
    /// A log, byte for byte.
    Log,
    /// A sheet and a log, byte for byte.
    Sheet,
    /// A log that is written record by record, and may then be damaged.
    WrittenLog,
    /// Such a log without damage, and an order of its operations.
    WrittenOrder,
    /// A script of a session.
    Script,
}

pub const KINDS: [Kind; 5] = [
    Kind::Log,
    Kind::Sheet,
    Kind::WrittenLog,
    Kind::WrittenOrder,
    Kind::Script,
];

/// How many bytes behind the first one tell how all is done, and not what.
pub const HOW: usize = 17;

/// Compares what an input is made into.
pub fn compare(input: &[u8], reached: &mut Reached) {
    let mut what = Choices::new(input);
    let kind = what.pick(&KINDS);
    let mut how = what.split(HOW);
    match kind {
        Kind::Log => Calls::new(&mut how).compare(what.rest(), reached),
        Kind::Sheet => {
            let place = how.pick(&Place::BOTH);
            let sheet = what.split(usize::from(how.byte())).rest();
            compare_replay(what.rest(), sheet, place, reached);
        }
        Kind::WrittenLog => {
            let records = written_records(Writer::new(&mut how), what);
            let calls = Calls::new(&mut how);
            let damage = Damage::new(&mut how);
            calls.compare(&damage.done_to(records), reached);
        }
        Kind::WrittenOrder => {
            let records = written_records(Writer::new(&mut how), what);
            let place = how.pick(&Place::BOTH);
            let changes = Changes::new(&mut how);
            let log = log(&records);
            let sheet = changes.sheet_for(&log, operation_count(&records) as u16);
            compare_replay(&log, &sheet, place, reached);
        }
        Kind::Script => Player::new(how, reached).play(what),
    }
}
