//! All entries that take a log, on one log: held against the tests' own reader, their table of
//! patterns, their search for an order where the log is short, their excerpts, narrowings and pages.

use yauponroof_tests::compare::buffer_lengths::in_room;
use yauponroof_tests::compare::narrowing::compare_narrowing;
use yauponroof_tests::compare::page::Pages;
use yauponroof_tests::compare::reading::Tally;
use yauponroof_tests::hex::show;
use yauponroof_tests::library::fenced::{Fenced, Place};
use yauponroof_tests::library::guarded::written_twice;
use yauponroof_tests::library::outcomes::{excerpt_made, judged, narrowing_made};
use yauponroof_tests::library::{excerpt, judge, narrow};
use yauponroof_tests::model::history::operations;
use yauponroof_tests::model::judgement::{judgement, Judgement};
use yauponroof_tests::model::page::LINE;
use yauponroof_tests::model::projection::values;
use yauponroof_tests::model::reader::{self, operation_count};
use yauponroof_tests::model::record::Record;
use yauponroof_tests::model::search::has_linearization;
use yauponroof_tests::{answered, Answer, Outcome};

use crate::choices::Choices;
use crate::reached::{Of, Reached};
use crate::rooms::near;

/// The search is quick for so few operations.
const FEW: usize = 12;

/// A value that few logs have.
const OTHER_VALUE: u32 = 999;

/// How the entries are called: where what they read lies, how long the buffers are that they write
/// to, and which values the log is narrowed to, a bit for each of eight.
pub struct Calls {
    place: Place,
    room: u8,
    narrowed_to: u8,
}

impl Calls {
    pub fn new(how: &mut Choices) -> Calls {
        Calls {
            place: how.pick(&Place::BOTH),
            room: how.byte(),
            narrowed_to: how.byte(),
        }
    }

    /// Hands the log to all entries and compares.
    pub fn compare(&self, log: &[u8], reached: &mut Reached) {
        Fenced::new(log.len()).lend(log, self.place, |log| {
            // Of the logs that a tally compares, the first one is judged too.
            let mut tally = Tally::of_all_entries();
            reached.count(Of::Check, tally.compare(log));
            reached.count_verdicts(tally.archives());
            if let Ok(records) = reader::read(log) {
                compare_with_search(log, &records);
                self.compare_rooms(log, reached);
                self.compare_narrowings(log, &self.values(&records), reached);
                self.compare_page(log, operation_count(&records), reached);
            }
        });
    }

    /// The judge and the excerpt, with other lengths of their buffers.
    fn compare_rooms(&self, log: &[u8], reached: &mut Reached) {
        let sheet = self.compare_room(judged(log), |sheet| judge(log, sheet));
        reached.count(Of::Judge, sheet);
        let kept = self.compare_room(excerpt_made(log), |out| excerpt(log, out));
        reached.count(Of::Excerpt, kept);
    }

    /// Narrowing to these values, and the same.
    fn compare_narrowings(&self, log: &[u8], values: &[u32], reached: &mut Reached) {
        let fenced = Fenced::new(size_of_val(values));
        fenced.lend_values(values, self.place, |values| {
            compare_narrowing(log, values);
            let made = narrowing_made(log, values);
            let kept = self.compare_room(made, |out| narrow(log, values, out));
            reached.count(Of::Narrow, kept);
        });
    }

    /// The page, with another length of its buffer.
    fn compare_page(&self, log: &[u8], operations: u32, reached: &mut Reached) {
        let room = near(LINE * operations as usize, self.room);
        reached.count_page(Pages::new().compare_room(log, room));
    }

    /// With another length of its buffer a call gives what it gives with enough bytes, or 24.
    fn compare_room(&self, enough: Outcome, call: impl FnMut(&mut [u8]) -> Answer) -> Answer {
        let room = near(enough.as_ref().map_or(0, Vec::len), self.room);
        let outcome = written_twice(room, call);
        assert_eq!(
            outcome,
            in_room(&enough, room),
            "left: the library, with {room} bytes"
        );
        answered(&outcome)
    }

    /// One value that the log seldom has, then some of the log's, and the last of them once more.
    fn values(&self, records: &[Record]) -> Vec<u32> {
        let is_chosen = |(at, _): &(usize, u32)| self.narrowed_to >> (at % 8) & 1 == 1;
        let of_log = values(records).into_iter().enumerate().filter(is_chosen);
        let mut values = vec![OTHER_VALUE];
        values.extend(of_log.map(|(_, value)| value));
        values.extend(values.last().copied());
        values
    }
}

/// A pattern is told exactly if the search finds no order.
fn compare_with_search(log: &[u8], records: &[Record]) {
    let operations = operations(records);
    if operations.len() <= FEW {
        let has_order = has_linearization(&operations);
        let is_order = matches!(judgement(&operations), Judgement::Order(_));
        assert_eq!(is_order, has_order, "of {}", show(log));
    }
}
