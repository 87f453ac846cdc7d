//! Which answers the library has given, so that a run that no longer reaches some answer is noticed.

use yauponroof_tests::compare::archive::Archives;
use yauponroof_tests::{Answer, NUMBERS};

/// What is counted: the answers of an entry, and what accepted ones tell.
#[derive(Clone, Copy)]
pub enum Of {
    Check,
    Replay,
    /// 0 for no, 1 for yes.
    Replayed,
    Judge,
    Verdict,
    /// 1 for an order that lists an open remove.
    Took,
    Excerpt,
    Narrow,
    Page,
    /// 0 for a page of no lines, 1 for one that has some.
    Lines,
    Begin,
    Feed,
    Close,
    Sheet,
    SessionExcerpt,
}

/// The name of each, and the numbers that are to be reached. Of an answer 0 is accepted, and the
/// others are refusals. 21 of a feed is not: no input here holds 1,024 records. Refused logs are counted
/// at yr_check and yr_replay; that the other calls refuse them alike is compared.
const TO_REACH: [(&str, &[usize]); 15] = [
    ("yr_check", &[0, 1, 2, 3, 4, 5, 6, 7, 8, 9, 10, 31]),
    ("yr_replay", &[0, 1, 2, 3, 4, 5, 6, 7, 8, 9, 10, 11, 31]),
    ("yr_replay, no and yes", &[0, 1]),
    ("yr_judge", &[0, 24]),
    ("yr_judge, verdict", &[0, 1, 2, 3, 4, 5, 6]),
    ("yr_judge, an open remove listed", &[1]),
    ("yr_excerpt", &[0, 23, 24, 32]),
    ("yr_narrow", &[0, 24]),
    ("yr_page", &[0, 24, 30]),
    ("yr_page, no lines and some", &[0, 1]),
    ("yr_begin", &[0, 24]),
    ("yr_feed", &[0, 1, 4, 5, 6, 7, 8, 9, 20, 24, 25, 31]),
    ("yr_close", &[0, 10, 20, 24, 25]),
    ("yr_sheet", &[0, 22, 24, 25]),
    ("yr_session_excerpt", &[0, 22, 23, 24, 25, 32]),
];

/// How often each number was reached.
pub struct Reached([[u64; NUMBERS]; TO_REACH.len()]);

impl Reached {
    pub const fn new() -> Reached {
        Reached([[0; NUMBERS]; TO_REACH.len()])
    }

    pub fn count(&mut self, of: Of, answer: Answer) {
        self.0[of as usize][answer.number()] += 1;
    }

    pub fn count_replay(&mut self, answer: Answer) {
        self.count(Of::Replay, answer);
        if let Answer::Accepted(says) = answer {
            self.0[Of::Replayed as usize][says as usize] += 1;
        }
    }

    pub fn count_page(&mut self, answer: Answer) {
        self.count(Of::Page, answer);
        if let Answer::Accepted(bytes) = answer {
            self.0[Of::Lines as usize][usize::from(bytes > 0)] += 1;
        }
    }

    pub fn count_verdicts(&mut self, archives: &Archives) {
        let verdicts = self.0[Of::Verdict as usize].iter_mut();
        verdicts
            .zip(archives.seen())
            .for_each(|(verdict, times)| *verdict += times);
        self.0[Of::Took as usize][1] += archives.took();
    }

    /// Prints how often each number was reached, and last 'N passed, M failed'; whether all were.
    pub fn report(&self) -> bool {
        let mut missed = 0;
        for ((name, numbers), times) in TO_REACH.iter().zip(&self.0) {
            let text = |&number: &usize| format!(" {number}: {}", times[number]);
            println!("{name}:{}", numbers.iter().map(text).collect::<String>());
            missed += numbers.iter().filter(|&&number| times[number] == 0).count();
        }
        let all: usize = TO_REACH.iter().map(|(_, numbers)| numbers.len()).sum();
        println!("{} passed, {missed} failed", all - missed);
        missed == 0
    }
}
