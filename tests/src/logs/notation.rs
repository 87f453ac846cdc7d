//! Document 01's notation for runs: "A7( A7) R( R7)".
//!
//! `A7(` calls add of 7, `A7)` returns it; `R(` calls remove, `R7)` and `R-)` return it; letters
//! behind R tell removes apart, as in `Ra(`, `Ra2)`. Ticks rise by one from 1, and each operation
//! has a client of its own, numbered from 1 in the order of the calls. In a run in batches the tick
//! rises where a bar stands, and nowhere else: "A7( A7) | R( R7)".

use std::collections::HashMap;

use crate::logs::ticks::rising;
use crate::model::record::{Event, Record, Removed};

/// The records of a run.
pub fn run(text: &str) -> Vec<Record> {
    rising(&run_in_batches(text))
}

/// The records of a run in batches: those between two bars have one tick.
pub fn run_in_batches(text: &str) -> Vec<Record> {
    let mut clients = Clients::default();
    let mut records = Vec::new();
    for (tick, batch) in (1..).zip(text.split('|')) {
        for word in batch.split_whitespace() {
            let (client, event) = parse_event(word, &mut clients);
            records.push(Record {
                client,
                tick,
                event,
            });
        }
    }
    records
}

/// The clients of the operations that have been called and not returned, by name: "A7", "Ra".
#[derive(Default)]
struct Clients {
    open: HashMap<String, u16>,
    given: u16,
}

impl Clients {
    /// A call under a name that is still open, as in "A7( A7(", takes a client of its own as well.
    fn call(&mut self, name: &str) -> u16 {
        self.given += 1;
        self.open.insert(name.to_string(), self.given);
        self.given
    }

    fn close(&mut self, name: &str) -> u16 {
        let client = self.open.remove(name);
        client.unwrap_or_else(|| panic!("{name} returns and was not called"))
    }
}

fn parse_event(word: &str, clients: &mut Clients) -> (u16, Event) {
    if let Some(name) = word.strip_suffix('(') {
        let event = match name.strip_prefix('A') {
            Some(value) => Event::CallAdd(number(value)),
            None => Event::CallRemove,
        };
        return (clients.call(name), event);
    }
    let named = word
        .strip_suffix(')')
        .unwrap_or_else(|| panic!("{word} is no event"));
    if named.starts_with('A') {
        return (clients.close(named), Event::ReturnAdd);
    }
    let outcome_at = named
        .find(|c: char| c == '-' || c.is_ascii_digit())
        .unwrap_or_else(|| panic!("{word} tells no outcome"));
    let (name, outcome) = named.split_at(outcome_at);
    let removed = match outcome {
        "-" => Removed::Empty,
        value => Removed::Value(number(value)),
    };
    (clients.close(name), Event::ReturnRemove(removed))
}

fn number(text: &str) -> u32 {
    text.parse()
        .unwrap_or_else(|_| panic!("{text:?} is no value"))
}

#[cfg(test)]
mod tests {
    use super::{run, run_in_batches};
    use crate::model::record::{call_add, call_remove, return_add, return_empty, return_value};

    #[test]
    fn a_run_becomes_its_records() {
        assert_eq!(
            run("A7( Ra( A7) R( R-) Ra7)"),
            [
                call_add(1, 1, 7),
                call_remove(2, 2),
                return_add(1, 3),
                call_remove(3, 4),
                return_empty(3, 5),
                return_value(2, 6, 7),
            ]
        );
    }

    #[test]
    fn the_tick_rises_where_a_bar_stands() {
        assert_eq!(
            run_in_batches("A7( R( | A7) R7)"),
            [
                call_add(1, 1, 7),
                call_remove(2, 1),
                return_add(1, 2),
                return_value(2, 2, 7),
            ]
        );
    }

    #[test]
    #[should_panic(expected = "returns and was not called")]
    fn a_return_without_call_is_no_run() {
        run("A7( R7)");
    }
}
