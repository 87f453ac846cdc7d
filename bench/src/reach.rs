//! How far the search reaches: on how many logs of each kind and size it ends within a number of
//! configurations, with its cache and without, and how many sets of placed operations it has been in
//! where it does not end. All of that depends on the logs alone, and not on the machine.

use crate::cache::{Cache, Memory, NoCache};
use crate::case::{Case, Ended, Entry, Room, Told};
use crate::logs::{suffice, Kind, Sample, CLIENTS, KINDS, RECORDS};
use crate::search::{search, Limit};

/// How many logs there are of each kind and size.
const LOGS: u64 = 10;

/// The most configurations of a search.
const MOST: usize = 200_000;
const LIMIT: Limit = Limit::Configurations(MOST);

pub fn print_ended() {
    println!("of {LOGS} logs each, those on which the search ends within {MOST} configurations\n");
    print_grid(ended::<Cache>);
}

pub fn print_ended_without_cache() {
    println!("of {LOGS} logs each, those on which the search without its cache ends within {MOST}");
    println!("configurations\n");
    print_grid(ended::<NoCache>);
}

pub fn print_sets() {
    println!("of {LOGS} logs each, the most sets of placed operations among the {MOST}");
    println!("configurations of a search that gives up\n");
    print_grid(most_sets);
}

/// Prints a row for each kind and number of records, with a cell for each number of clients.
fn print_grid(cell: impl Fn(&mut dyn Iterator<Item = Case>) -> String) {
    let heads = CLIENTS.map(|clients| format!("by {clients}"));
    println!("{}", row("kind", "records", heads));
    for kind in KINDS {
        for records in RECORDS {
            let cells = CLIENTS.map(|clients| match suffice(records, clients) {
                true => cell(&mut cases(kind, records, clients)),
                false => "-".to_string(),
            });
            println!("{}", row(kind.name(), &records.to_string(), cells));
        }
    }
}

fn row(kind: &str, records: &str, cells: [String; CLIENTS.len()]) -> String {
    let padded = cells.map(|cell| format!("{cell:>6}"));
    format!("{kind:<12} {records:>7} {}", padded.concat())
}

/// The logs of this kind and size.
fn cases(kind: Kind, records: usize, clients: u16) -> impl Iterator<Item = Case> {
    (0..LOGS).map(move |number| {
        Case::new(Sample {
            number,
            ..Sample::first(kind, records, clients)
        })
    })
}

/// On how many of the logs the search ends.
fn ended<M: Memory + Default>(cases: &mut dyn Iterator<Item = Case>) -> String {
    let ends = |case: &Case| searched(case, &mut M::default()) == Ended::Done;
    cases.filter(ends).count().to_string()
}

/// The most sets of placed operations among the configurations of a search that gives up.
fn most_sets(cases: &mut dyn Iterator<Item = Case>) -> String {
    let sets = |case: Case| {
        let mut cache = Cache::default();
        let ended = searched(&case, &mut cache);
        (ended == Ended::GaveUp).then(|| cache.sets())
    };
    let most = cases.filter_map(sets).max();
    most.map_or("-".to_string(), |most| most.to_string())
}

/// Searches a log; how that ended.
fn searched(case: &Case, memory: &mut impl Memory) -> Ended {
    let told = Told::Outcome(search(case.operations(), memory, LIMIT));
    case.ended(Entry::Search(LIMIT), &told, &Room::empty())
}

#[cfg(test)]
mod tests {
    use super::{cases, ended, most_sets, row};
    use crate::cache::{Cache, NoCache};
    use crate::logs::Kind;

    #[test]
    fn cells_tell_where_searches_end_and_what_they_have_been_in() {
        let tell = |kind, clients| {
            let cases = || cases(kind, 64, clients);
            [
                ended::<Cache>(&mut cases()),
                ended::<NoCache>(&mut cases()),
                most_sets(&mut cases()),
            ]
        };
        assert_eq!(tell(Kind::Sound, 2), ["10", "10", "-"]);
        assert_eq!(tell(Kind::FalseEmpty, 8), ["3", "0", "652"]);
    }

    #[test]
    fn cells_stand_below_their_heads() {
        let cells = ["10", "9", "8", "7", "0", "-"].map(str::to_string);
        assert_eq!(
            row("faulty-early", "1024", cells),
            "faulty-early    1024     10     9     8     7     0     -"
        );
    }
}
