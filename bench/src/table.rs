//! The table: how long the library's calls and the search take on logs of the grid, for each one of
//! the bare reading.

use std::time::Duration;

use crate::case::{Case, Entry};
use crate::logs::{Sample, KINDS};
use crate::search::Limit;
use crate::timing::medians;

/// The records and clients of the rows: all numbers of records with 8 clients, and all numbers of
/// clients with 1,024 records.
const SIZES: [(usize, u16); 10] = [
    (64, 8),
    (128, 8),
    (256, 8),
    (512, 8),
    (1024, 2),
    (1024, 4),
    (1024, 8),
    (1024, 16),
    (1024, 32),
    (1024, 64),
];

const HEADS: [&str; 12] = [
    "kind",
    "records",
    "clients",
    "verdict",
    "read/us",
    "judge/us",
    "check",
    "judge",
    "replay",
    "session",
    "search",
    "search/judge",
];

/// Measures a log of each kind and size, and prints a row for each. A search gives up at the limit.
pub fn print(limit: Duration) {
    println!("{}", row(HEADS));
    for kind in KINDS {
        for (records, clients) in SIZES {
            let case = Case::new(Sample::first(kind, records, clients));
            let cells = cells(&case, measured(&case, limit), limit);
            println!("{}", row(cells.each_ref().map(String::as_str)));
        }
    }
}

fn row(cells: [&str; 12]) -> String {
    let [kind, records, clients, verdict, read, judge, ratios @ ..] = cells;
    let log = format!("{kind:<12} {records:>7} {clients:>7} {verdict:<9} {read:>7} {judge:>8}");
    let [check, judge, replay, session, search, slower] = ratios;
    format!("{log} {check:>6} {judge:>6} {replay:>6} {session:>7} {search:>8} {slower:>12}")
}

/// The seconds of a call of each entry, in the order of the columns; none if it gives up, or has
/// nothing to do.
fn measured(case: &Case, limit: Duration) -> [Option<f64>; 6] {
    medians(
        case,
        [
            Entry::Read,
            Entry::Check,
            Entry::Judge,
            Entry::Replay,
            Entry::Session,
            Entry::Search(Limit::Time(limit)),
        ],
    )
}

fn cells(case: &Case, seconds: [Option<f64>; 6], limit: Duration) -> [String; 12] {
    let [read, check, judge, replay, session, search] = seconds;
    let read = read.expect("the bare reading ends");
    let judge = judge.expect("the judge ends");
    let for_each_read = |seconds: Option<f64>, otherwise: &str| match seconds {
        Some(seconds) => figures(seconds / read),
        None => otherwise.to_string(),
    };
    let slower = match search {
        Some(seconds) => figures(seconds / judge),
        None => format!(">{}", figures(limit.as_secs_f64() / judge)),
    };
    let sample = case.sample();
    [
        sample.kind.name().to_string(),
        sample.records.to_string(),
        sample.clients.to_string(),
        verdict(case),
        format!("{:.2}", 1e6 * read),
        format!("{:.0}", 1e6 * judge),
        for_each_read(check, "-"),
        for_each_read(Some(judge), "-"),
        for_each_read(replay, "-"),
        for_each_read(session, "-"),
        for_each_read(search, "gave up"),
        slower,
    ]
}

fn verdict(case: &Case) -> String {
    match case.verdict() {
        0 => "order".to_string(),
        number => format!("pattern {number}"),
    }
}

/// A ratio with as many digits as it deserves.
fn figures(ratio: f64) -> String {
    match ratio {
        _ if ratio < 0.95 => format!("{ratio:.2}"),
        _ if ratio < 9.5 => format!("{ratio:.1}"),
        _ => format!("{ratio:.0}"),
    }
}

#[cfg(test)]
mod tests {
    use std::time::Duration;

    use super::{cells, figures, measured, row, HEADS};
    use crate::case::Case;
    use crate::logs::{Kind, Sample};

    const LIMIT: Duration = Duration::from_secs(2);

    fn sound() -> Case {
        Case::new(Sample::first(Kind::Sound, 64, 8))
    }

    #[test]
    fn times_are_told_for_each_one_of_the_bare_reading() {
        let seconds = [2e-6, 8e-6, 50e-6, 30e-6, 1e-3, 4e-4].map(Some);
        assert_eq!(
            cells(&sound(), seconds, LIMIT),
            ["sound", "64", "8", "order", "2.00", "50", "4.0", "25", "15", "500", "200", "8.0"]
        );
    }

    #[test]
    fn a_search_that_gives_up_has_taken_its_limit() {
        let mut seconds = [2e-6, 8e-6, 50e-6, 30e-6, 1e-3, 4e-4].map(Some);
        seconds[5] = None;
        let cells = cells(&sound(), seconds, LIMIT);
        assert_eq!(cells[10..], ["gave up", ">40000"]);
    }

    /// Which entries end does not depend on the clock: with no time at all a search gives up when it
    /// first looks at it.
    #[test]
    fn what_gives_up_or_has_nothing_to_do_is_not_measured() {
        let case = Case::new(Sample::first(Kind::FalseEmpty, 256, 16));
        let is_measured = measured(&case, Duration::ZERO).map(|seconds| seconds.is_some());
        assert_eq!(is_measured, [true, true, true, false, true, false]);
        let cells = cells(&case, [1.0; 6].map(Some), LIMIT);
        assert_eq!(cells[..4], ["false-empty", "256", "16", "pattern 6"]);
    }

    #[test]
    fn cells_stand_below_their_heads() {
        let cells = [
            "sound", "64", "8", "order", "0.18", "4", "8.7", "24", "15", "334", "44", "1.9",
        ];
        assert_eq!(
            [row(HEADS), row(cells)],
            [
                "kind         records clients verdict   read/us judge/us  check  judge replay session   search search/judge",
                "sound             64       8 order        0.18        4    8.7     24     15     334       44          1.9",
            ]
        );
    }

    #[test]
    fn ratios_have_few_digits() {
        assert_eq!(
            [0.123, 1.26, 12.6, 1234.5].map(figures),
            ["0.12", "1.3", "13", "1234"]
        );
    }
}
