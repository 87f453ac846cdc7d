//! Lines of replay.

use yauponroof_tests::compare::replay::Replays;
use yauponroof_tests::{NO, YES};

use crate::answers::{refusal, same, Agreement};
use crate::lines::{bytes, Line};

pub fn play_replay(line: &Line) -> Agreement {
    let answer = match Replays::new().compare(&line.log(), &bytes(line.field(1))) {
        YES => "yes".to_string(),
        NO => "no".to_string(),
        other => refusal(&other),
    };
    same(&answer, line.answer)
}
