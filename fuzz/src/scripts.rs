//! Scripts of sessions: calls that are mostly those of a sound session, with tampering before some
//! of them. After every call all is held against the tests' own session.

use yauponroof_tests::compare::script::{play, Step};
use yauponroof_tests::compare::session::{Compared, Entry};
use yauponroof_tests::model::record::{call_remove, Record};
use yauponroof_tests::model::session::{CLOSED, OPEN};
use yauponroof_tests::model::writer::record_bytes;

use crate::choices::Choices;
use crate::reached::{Of, Reached};
use crate::rooms::near;
use crate::writer::Writer;

/// The choices that begin a step of each sort, without tampering.
pub const FEED: [u8; 2] = [0, 16];
pub const CLOSE: [u8; 2] = [0, 24];
pub const SHEET: [u8; 2] = [0, 28];
pub const EXCERPT: [u8; 2] = [0, 30];

/// The most steps of a script.
const MOST_STEPS: usize = 60;

/// Stages, and numbers that are none.
const STAGES: [u32; 5] = [OPEN, CLOSED, 2, 256, u32::MAX];

/// Who plays a script: the session, and who writes what is fed to it.
pub struct Player<'a> {
    session: Compared,
    writer: Writer,
    /// The writer from the first record on.
    first: Writer,
    /// The record that was fed last of those that were accepted.
    last_fed: Option<Record>,
    reached: &'a mut Reached,
}

impl<'a> Player<'a> {
    /// Mostly with a session that was begun.
    pub fn new(mut how: Choices, reached: &'a mut Reached) -> Player<'a> {
        let writer = Writer::new(&mut how);
        let mut player = Player {
            session: Compared::new(2 * usize::from(!how.byte())),
            first: writer.clone(),
            writer,
            last_fed: None,
            reached,
        };
        if how.below(32) < 31 {
            player.begin();
        }
        player
    }

    /// Plays the script that all choices make.
    pub fn play(&mut self, mut choices: Choices) {
        for _ in 0..MOST_STEPS {
            if !choices.is_empty() {
                self.step(&mut choices);
            }
        }
    }

    /// One call. Where there is tampering before it, that is mostly taken back behind it.
    fn step(&mut self, choices: &mut Choices) {
        let before = (self.session.clone(), self.writer.clone());
        let way = choices.below(64);
        if way >= 48 {
            self.tamper(choices);
        }
        if way >= 56 {
            self.tamper(choices);
        }
        self.call(choices);
        if way >= 49 {
            (self.session, self.writer) = before;
        }
    }

    fn call(&mut self, choices: &mut Choices) {
        let is_closed = self.session.state().session.stage == CLOSED;
        match choices.below(32) {
            0..=3 if is_closed => self.begin(),
            4..=7 if is_closed => self.sheet(choices),
            8..=15 if is_closed => self.excerpt(choices),
            0..=19 => self.feed(choices),
            20..=22 => self.feed_damaged(choices),
            23 => self.begin(),
            24 | 25 => self.close(choices),
            26 | 27 => self.finish(choices),
            28 | 29 => self.sheet(choices),
            _ => self.excerpt(choices),
        }
    }

    fn play_step(&mut self, step: Step) {
        if let Some((entry, answer)) = play(&mut self.session, &step).answer() {
            self.reached.count(counted(entry), answer);
        }
    }

    fn begin(&mut self) {
        self.writer = self.first.clone();
        self.play_step(Step::Begin);
    }

    fn feed(&mut self, choices: &mut Choices) {
        let mut writer = self.writer.clone();
        if let Some(record) = writer.record(choices) {
            self.feed_from(writer, &record);
        }
    }

    /// Feeds a record, and whether it is accepted. If so, this is how the writer goes on.
    fn feed_from(&mut self, writer: Writer, record: &Record) -> bool {
        let used = self.session.state().used();
        self.play_step(Step::Feed(record_bytes(record)));
        let is_accepted = self.session.state().used() != used;
        if is_accepted {
            self.writer = writer;
            self.last_fed = Some(*record);
        }
        is_accepted
    }

    /// Feeds the returns that removes lack, as far as they are accepted, and closes.
    fn finish(&mut self, choices: &mut Choices) {
        let mut writer = self.writer.clone();
        while let Some(record) = writer.lacking_return(choices) {
            if !self.feed_from(writer.clone(), &record) {
                break;
            }
        }
        self.close(choices);
    }

    /// Feeds bytes that are seldom a record which the session takes.
    fn feed_damaged(&mut self, choices: &mut Choices) {
        let record = self.writer.clone().record(choices);
        let mut bytes = record.map_or(vec![0], |record| record_bytes(&record));
        let at = choices.below(bytes.len());
        match (choices.below(5), self.last_fed) {
            (0, _) => bytes.truncate(at),
            (1, _) => bytes.resize(bytes.len() + 1 + at, 0),
            (2, _) => bytes[at] = choices.byte(),
            // The client of the last record calls at its tick.
            (3, Some(last)) => bytes = record_bytes(&call_remove(last.client, last.tick)),
            _ => {
                bytes[0] = at as u8;
                bytes.resize(1 + at, 0);
            }
        }
        self.play_step(Step::Feed(bytes));
    }

    fn close(&mut self, choices: &mut Choices) {
        let needed = self.session.state().sheet_length();
        self.play_step(Step::Close(near(needed, choices.byte())));
    }

    fn sheet(&mut self, choices: &mut Choices) {
        let needed = self.session.state().sheet_length();
        self.play_step(Step::Sheet(near(needed, choices.byte())));
    }

    fn excerpt(&mut self, choices: &mut Choices) {
        let needed = self.session.state().excerpt_length();
        self.play_step(Step::Excerpt(near(needed, choices.byte())));
    }

    fn tamper(&mut self, choices: &mut Choices) {
        let state = self.session.state();
        let (used, length) = (state.used(), state.buffer.len());
        let step = match choices.below(4) {
            0 => Step::Stage(choices.pick(&STAGES)),
            1 => Step::Used(near(used, choices.byte()) as u32),
            2 if length > 0 => Step::Poke(choices.below(length), vec![choices.byte() % 16]),
            _ => Step::Lend(near(used, choices.byte())),
        };
        self.play_step(step);
    }
}

fn counted(entry: Entry) -> Of {
    match entry {
        Entry::Begin => Of::Begin,
        Entry::Feed => Of::Feed,
        Entry::Close => Of::Close,
        Entry::Sheet => Of::Sheet,
        Entry::Excerpt => Of::SessionExcerpt,
    }
}
