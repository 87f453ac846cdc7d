//! The file of the vectors, and its lines:
//!
//!     LO-HI ENTRY REQUEST => ANSWER
//!
//! The answer is that of the levels LO to HI. Bytes are hexadecimal; a dot stands for none.

use std::io::{stderr, Write};
use std::ops::RangeInclusive;
use std::path::Path;
use std::str::FromStr;

use yauponroof_tests::hex::hex;
use yauponroof_tests::model::reader::LOG_MAX;

use crate::program::INPUT_MAX;

pub struct Line<'a> {
    pub text: &'a str,
    pub levels: RangeInclusive<u32>,
    pub entry: &'a str,
    /// The words of the request.
    pub fields: Vec<&'a str>,
    pub answer: &'a str,
    /// Another legal order over the same operations is as good as that of the answer: a question
    /// mark follows it.
    pub any_order: bool,
}

impl<'a> Line<'a> {
    pub fn parse(text: &'a str) -> Line<'a> {
        let (request, answer) = text.split_once(" => ").expect("a request and an answer");
        let mut words = request.split_whitespace();
        let levels = words.next().expect("the levels of the answer");
        let (lowest, highest) = levels.split_once('-').expect("two levels");
        Line {
            text,
            levels: number(lowest)..=number(highest),
            entry: words.next().expect("an entry"),
            fields: words.collect(),
            answer: answer.strip_suffix(" ?").unwrap_or(answer),
            any_order: answer.ends_with(" ?"),
        }
    }

    pub fn field(&self, place: usize) -> &'a str {
        let field = self.fields.get(place);
        field.unwrap_or_else(|| panic!("field {place} is missing: {}", self.text))
    }

    /// The log, of a line that hands one in as a whole. The program reads no more bytes than it has
    /// room for.
    pub fn log(&self) -> Vec<u8> {
        let mut log = bytes(self.field(0));
        if self.entry == "program" {
            log.truncate(INPUT_MAX);
        }
        log
    }

    /// Whether the line hands in a table of codes, which is for the coded entries.
    pub fn is_coded(&self) -> bool {
        matches!(self.last_fields(), [table, ..] if *table != "-")
    }

    /// The length of the buffer that the line lends; without one the buffer is long enough.
    pub fn lent(&self) -> usize {
        match self.last_fields() {
            [] | ["-"] | ["-", "-"] => LOG_MAX,
            ["-", length] => number(length),
            other => panic!("fields of no known form, {other:?}: {}", self.text),
        }
    }

    /// The table and the length of the buffer, which follow the log and what is asked of it. Both
    /// may be left off.
    fn last_fields(&self) -> &[&'a str] {
        let others = match self.entry {
            "judge" | "excerpt" | "page" => 1,
            "narrow" | "replay" => 2,
            _ => self.fields.len(),
        };
        self.fields.get(others..).unwrap_or(&[])
    }
}

/// The bytes that a field stands for.
pub fn bytes(field: &str) -> Vec<u8> {
    match field {
        "." => Vec::new(),
        digits => hex(digits),
    }
}

pub fn number<T: FromStr>(field: &str) -> T {
    let number = field.parse();
    number.unwrap_or_else(|_| panic!("a decimal number, not {field}"))
}

/// The text of the vectors, if they are there.
pub fn vectors() -> Option<String> {
    let path = Path::new(env!("CARGO_MANIFEST_DIR")).join("../../shared/vectors/vectors.txt");
    if !path.is_file() {
        say(&format!("skipped, {} is not there", path.display()));
        return None;
    }
    Some(std::fs::read_to_string(path).expect("the vectors"))
}

/// The lines that are no comments.
pub fn lines(text: &str) -> impl Iterator<Item = Line<'_>> {
    let is_comment = |text: &&str| text.is_empty() || text.starts_with('#');
    text.lines()
        .filter(move |text| !is_comment(text))
        .map(Line::parse)
}

/// Writes a line past the capture of the test's output, so that it is seen.
pub fn say(text: &str) {
    writeln!(stderr(), "vectors: {text}").unwrap();
}
