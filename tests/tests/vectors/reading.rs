//! The reader, on the log of every line that hands one in: each tells whether the log is readable.

use yauponroof_tests::compare::reading::Tally;
use yauponroof_tests::{refused, Answer};

use crate::level::landed_level;
use crate::lines::{lines, number, vectors, Line};

/// The level of the change that brings refusal 31.
const FIRST_WITH_31: u32 = 3;

#[test]
fn the_reader_answers_as_the_vectors_say() {
    let Some(text) = vectors() else { return };
    let level = landed_level();
    let mut tally = Tally::of_all_entries();
    for line in lines(&text).filter(|line| line.levels.contains(&level)) {
        if hands_in_a_log(&line) {
            let read = tally.compare(&line.log());
            assert!(agrees(read, line.answer), "{read:?}, for {}", line.text);
        }
    }
    tally.assert_at_least([1; 11]);
    tally.assert_seen(31, u64::from(level >= FIRST_WITH_31));
}

fn hands_in_a_log(line: &Line) -> bool {
    let entries = ["judge", "excerpt", "narrow", "page", "replay", "program"];
    entries.contains(&line.entry) && !line.is_coded()
}

fn agrees(read: Answer, answer: &str) -> bool {
    let words: Vec<&str> = answer.split_whitespace().collect();
    match words[..] {
        // These are refusals of a log that has been read.
        ["refused", "11" | "23" | "24" | "30" | "32", _] => matches!(read, Answer::Accepted(_)),
        ["refused", refusal, index] => read == refused(number(refusal), number(index)),
        ["log", _, "records", operations, ..] => read == Answer::Accepted(number(operations)),
        ["wrote", _] | ["yes"] | ["no"] => matches!(read, Answer::Accepted(_)),
        _ => panic!("an answer of no known form: {answer}"),
    }
}
