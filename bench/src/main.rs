//! Measures the library on logs of a simulated queue, beside the search of Wing and Gong with Lowe's
//! cache and the bare reading of the bytes. `bench/compare` builds and calls it:
//!
//!     compare table SECONDS                          prints the times; the limit of a search
//!     compare reach [no-cache]                       prints on how many logs the search ends, with
//!                                                    its cache or without
//!     compare reach sets                             prints how many sets of placed operations it
//!                                                    has been in where it does not end
//!     compare count ENTRY KIND RECORDS CLIENTS MOST  calls one entry once, for callgrind to count;
//!                                                    the most configurations of a search
//!
//! Whatever is measured must agree with the judge; if it does not, the program panics.

mod cache;
mod call_list;
mod case;
mod logs;
mod measured;
mod placed;
mod queue;
mod reach;
mod search;
mod table;
mod timing;

use std::process::ExitCode;
use std::time::Duration;

use case::{Case, Ended, Entry};
use logs::{Sample, KINDS};
use search::Limit;

fn main() -> ExitCode {
    let arguments: Vec<String> = std::env::args().skip(1).collect();
    let words: Vec<&str> = arguments.iter().map(String::as_str).collect();
    match run(&words) {
        Some(()) => ExitCode::SUCCESS,
        None => {
            eprintln!("usage: compare table SECONDS");
            eprintln!("       compare reach [no-cache | sets]");
            eprintln!("       compare count ENTRY KIND RECORDS CLIENTS MOST");
            ExitCode::from(2)
        }
    }
}

/// Does what the words say; none if they say nothing that can be done.
fn run(words: &[&str]) -> Option<()> {
    match words {
        ["table", seconds] => {
            let limit = Duration::try_from_secs_f64(seconds.parse().ok()?).ok()?;
            table::print(limit);
        }
        ["reach"] => reach::print_ended(),
        ["reach", "no-cache"] => reach::print_ended_without_cache(),
        ["reach", "sets"] => reach::print_sets(),
        ["count", entry, kind, records, clients, most] => {
            let kind = KINDS.into_iter().find(|known| known.name() == *kind)?;
            let sample = Sample::first(kind, records.parse().ok()?, clients.parse().ok()?);
            count(entry_named(entry, most.parse().ok()?)?, sample);
        }
        _ => return None,
    }
    Some(())
}

fn entry_named(name: &str, most: usize) -> Option<Entry> {
    match name {
        "read" => Some(Entry::Read),
        "check" => Some(Entry::Check),
        "judge" => Some(Entry::Judge),
        "replay" => Some(Entry::Replay),
        "session" => Some(Entry::Session),
        "search" => Some(Entry::Search(Limit::Configurations(most))),
        _ => None,
    }
}

/// Calls the entry once, if the log has something for it, and prints how that ended.
fn count(entry: Entry, sample: Sample) {
    let case = Case::new(sample);
    let how = match case.takes(entry).then(|| case.tried(entry)) {
        Some(Ended::Done) => "done",
        Some(Ended::GaveUp) => "gave-up",
        None => "nothing",
    };
    println!("{} {how}", case.verdict());
}
