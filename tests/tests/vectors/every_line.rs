//! Plays every line of the landed level and counts them, so that none is lost.

use std::collections::BTreeMap;

use crate::answers::Agreement;
use crate::level::landed_level;
use crate::lines::{lines, say, vectors, Line};
use crate::program::play_program;
use crate::replay::play_replay;
use crate::session::play_session;
use crate::written::{play_excerpt, play_judge, play_narrow, play_page};

type Player = fn(&Line) -> Agreement;

/// The entries that are played.
const PLAYERS: [(&str, Player); 7] = [
    ("judge", play_judge),
    ("excerpt", play_excerpt),
    ("narrow", play_narrow),
    ("page", play_page),
    ("replay", play_replay),
    ("program", play_program),
    ("session", play_session),
];

/// The names of the lines of the landed level that are not played, sorted. A change that brings an
/// entry plays its lines or names them here.
const SKIPPED: [&str; 0] = [];

/// The level that brings an entry, and how many lines of it the vectors have there at least,
/// whatever level has landed.
const AT_FIRST_LEVEL: [(&str, u32, usize); 7] = [
    ("judge", 0, 900),
    ("excerpt", 0, 157),
    ("narrow", 0, 124),
    ("page", 1, 65),
    ("replay", 0, 119),
    ("program", 0, 101),
    ("session", 0, 80),
];

/// The level with all changes.
const LAST_LEVEL: u32 = 14;

/// How many lines there are of each name.
#[derive(Default)]
struct Counts(BTreeMap<String, usize>);

impl Counts {
    fn add(&mut self, line: &Line) {
        *self.0.entry(name(line)).or_default() += 1;
    }

    fn of(&self, name: &str) -> usize {
        self.0.get(name).copied().unwrap_or(0)
    }

    fn total(&self) -> usize {
        self.0.values().sum()
    }

    /// Such as "judge 900, narrow 124".
    fn show(&self) -> String {
        let counts = self.0.iter().map(|(name, count)| format!("{name} {count}"));
        counts.collect::<Vec<_>>().join(", ")
    }
}

/// The name of a line's entry, which is another one where a table of codes is handed in.
fn name(line: &Line) -> String {
    match line.is_coded() {
        true => format!("coded {}", line.entry),
        false => line.entry.to_string(),
    }
}

/// Plays the line; none if its entry is not played.
pub fn play(line: &Line) -> Option<Agreement> {
    let name = name(line);
    let (_, play) = PLAYERS.iter().find(|(entry, _)| *entry == name)?;
    Some(play(line))
}

#[test]
fn every_line_of_the_landed_level_is_played() {
    let Some(text) = vectors() else { return };
    let level = landed_level();
    let [mut played, mut skipped] = [Counts::default(), Counts::default()];
    let mut wrong = Vec::new();
    for line in lines(&text).filter(|line| line.levels.contains(&level)) {
        match play(&line) {
            Some(agreement) => {
                played.add(&line);
                wrong.extend(agreement.err().map(|why| format!("{why}: {}", line.text)));
            }
            None => skipped.add(&line),
        }
    }
    say(&format!("level {level}, played: {}", played.show()));
    if skipped.total() > 0 {
        say(&format!("level {level}, skipped: {}", skipped.show()));
    }
    assert!(wrong.is_empty(), "wrong answers:\n{}", wrong.join("\n"));
    assert_eq!(skipped.0.keys().collect::<Vec<_>>(), SKIPPED, "skipped");
    assert_eq!(played.total() + skipped.total(), count_at(level, &text));
    for (entry, _) in PLAYERS {
        assert!(played.of(entry) > 0, "no line of {entry} was played");
    }
}

/// How many lines begin with a range that holds the level, counted without parsing them.
fn count_at(level: u32, text: &str) -> usize {
    let highest = |lowest| (level..=LAST_LEVEL).map(move |high| format!("{lowest}-{high} "));
    let ranges: Vec<String> = (0..=level).flat_map(highest).collect();
    let holds = |line: &&str| ranges.iter().any(|range| line.starts_with(range));
    text.lines().filter(holds).count()
}

#[test]
fn no_line_of_the_level_that_brings_an_entry_is_lost() {
    let Some(text) = vectors() else { return };
    for (entry, level, floor) in AT_FIRST_LEVEL {
        let is_counted = |line: &Line| name(line) == entry && line.levels.contains(&level);
        let count = lines(&text).filter(is_counted).count();
        assert!(
            count >= floor,
            "{count} lines of {entry} at level {level}, not {floor}"
        );
    }
}
