//! Lines of sessions: steps, what each of them answers, and how the session stands in the end.

use yauponroof_tests::compare::script::{play, Given, Step};
use yauponroof_tests::compare::session::{Compared, Entry};
use yauponroof_tests::hex::digits;
use yauponroof_tests::model::reader::LOG_MAX;
use yauponroof_tests::model::sheet::order_on;
use yauponroof_tests::Answer;

use crate::answers::{is_as_good, refusal, same, Agreement};
use crate::lines::{bytes, number, Line};

/// An answer as the vectors write it, and the log that the session held after it.
struct Answered {
    text: String,
    held: Vec<u8>,
}

pub fn play_session(line: &Line) -> Agreement {
    let given = played(&line.fields);
    let told = without_bookmarks(line.answer);
    let told: Vec<&str> = told.split("; ").collect();
    if given.len() != told.len() {
        return Err(format!("there are {} answers", given.len()));
    }
    let mut answers = given.iter().zip(told);
    answers.try_for_each(|(given, told)| agrees(given, told, line.any_order))
}

fn agrees(given: &Answered, told: &str, any_order: bool) -> Agreement {
    match (order_in(&given.text), order_in(told)) {
        (Some(sheet), Some(expected)) if any_order => is_as_good(&given.held, &sheet, &expected),
        _ => same(&given.text, told),
    }
}

/// The sheet that was written, if it has an order.
fn order_in(answer: &str) -> Option<Vec<u8>> {
    let (entry, written) = answer.split_once(' ')?;
    let is_sheet = matches!(entry, "close" | "sheet") && !written.starts_with("refused");
    let sheet = is_sheet.then(|| bytes(written))?;
    order_on(&sheet).is_some().then_some(sheet)
}

/// Plays the steps of a line, the first of which lends the buffer.
fn played(steps: &[&str]) -> Vec<Answered> {
    let (buffer, steps) = steps.split_first().expect("a buffer");
    let mut session = lent_session(buffer);
    let mut answers = Vec::new();
    for step in steps.iter().map(|word| step(word)) {
        let text = told(&play(&mut session, &step));
        let held = session.state().log().unwrap_or(&[]).to_vec();
        answers.extend(text.map(|text| Answered { text, held }));
    }
    let state = session.state();
    let (stage, used) = (state.session.stage, state.session.used);
    let text = format!("state {stage} {used} {}", digits(&state.buffer));
    let held = Vec::new();
    answers.push(Answered { text, held });
    answers
}

/// A session with the buffer that the first word of a line lends.
fn lent_session(word: &str) -> Compared {
    match word.split_once(':') {
        Some(("len", length)) => Compared::filled(number(length), 0xAA),
        Some(("buf", digits)) => {
            let lent = bytes(digits);
            let mut session = Compared::new(lent.len());
            session.tamper(|state| state.buffer = lent);
            session
        }
        _ => panic!("no buffer is lent by {word}"),
    }
}

/// The step that a word of a line stands for.
fn step(word: &str) -> Step {
    let fields: Vec<&str> = word.split(':').collect();
    match fields[..] {
        ["begin"] => Step::Begin,
        ["feed", record] => Step::Feed(bytes(record)),
        ["close"] => Step::Close(LOG_MAX),
        ["close", length] => Step::Close(number(length)),
        ["sheet"] => Step::Sheet(LOG_MAX),
        ["sheet", length] => Step::Sheet(number(length)),
        ["excerpt"] => Step::Excerpt(LOG_MAX),
        ["excerpt", length] => Step::Excerpt(number(length)),
        ["stage", stage] => Step::Stage(number(stage)),
        ["used", used] => Step::Used(number(used)),
        ["poke", at, poked] => Step::Poke(number(at), bytes(poked)),
        _ => panic!("a step of no known form: {word}"),
    }
}

/// What a step answered, as the vectors write it; tampering answers nothing.
fn told(given: &Given) -> Option<String> {
    let (entry, _) = given.answer()?;
    let name = match entry {
        Entry::Begin => "begin",
        Entry::Feed => "feed",
        Entry::Close => "close",
        Entry::Sheet => "sheet",
        Entry::Excerpt => "excerpt",
    };
    let answer = match given {
        Given::Answered(_, Answer::Accepted(count)) => count.to_string(),
        Given::Wrote(_, Ok(bytes)) => digits(bytes),
        Given::Answered(_, answer) | Given::Wrote(_, Err(answer)) => refusal(answer),
        Given::Nothing => return None,
    };
    Some(format!("{name} {answer}"))
}

/// The answer of a line without the bookmarks, the third word of the state: sessions have none
/// before change 12, so none is set.
fn without_bookmarks(answer: &str) -> String {
    let (answers, state) = answer.rsplit_once("state ").expect("a state");
    let fields: Vec<&str> = state.split_whitespace().collect();
    let [stage, used, bookmarks, buffer] = fields[..] else {
        panic!("a state of no known form: {state}");
    };
    assert_eq!(bookmarks, "-,-,-,-,-,-,-,-", "the bookmarks of {state}");
    format!("{answers}state {stage} {used} {buffer}")
}
