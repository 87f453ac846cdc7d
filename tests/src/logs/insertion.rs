//! Operations put into a log between its records: short runs in document 01's notation, empty removes,
//! and a remove that does not return. The ticks of what is made rise with every record, so that all
//! stand where they are put.

use std::collections::HashSet;

use crate::logs::clients::new_client;
use crate::logs::notation::run;
use crate::logs::ticks::rising;
use crate::model::projection::values;
use crate::model::record::{call_remove, return_empty, Record};

/// Part of a run, and the place that it is put at: right before the record with that index, or at
/// the end.
pub type Part<'a> = (usize, &'a str);

/// The records with a run put in, part by part; the places do not fall. Its clients are new ones,
/// and so are its values: 0 becomes the least value that the log does not have, and so on.
pub fn with_run(records: &[Record], parts: &[Part]) -> Vec<Record> {
    let texts: Vec<&str> = parts.iter().map(|&(_, text)| text).collect();
    let mut put_in = made_new(run(&texts.join(" ")), records).into_iter();
    let mut all: Vec<Record> = Vec::new();
    let mut from = 0;
    for &(at, text) in parts {
        all.extend(&records[from..at]);
        all.extend(put_in.by_ref().take(text.split_whitespace().count()));
        from = at;
    }
    all.extend(&records[from..]);
    rising(&all)
}

/// The run with clients and values that the records do not have.
fn made_new(run: Vec<Record>, records: &[Record]) -> Vec<Record> {
    let above = new_client(records);
    let used: HashSet<u32> = values(records).into_iter().collect();
    let new_value = |number: u32| {
        let mut unused = (0..).filter(|value| !used.contains(value));
        unused.nth(number as usize).expect("values enough")
    };
    let renamed = |record: &Record| Record {
        client: above + record.client,
        event: record.event.with_value(new_value),
        ..*record
    };
    run.iter().map(renamed).collect()
}

/// Where an empty remove is put: called right before the record with the first index, and returned
/// right before that with the second, or at the end.
pub type Span = (usize, usize);

/// The records with empty removes put in, each by a client of its own. Of those that are put at one
/// place, the calls come first.
pub fn with_empty_removes(records: &[Record], spans: &[Span]) -> Vec<Record> {
    let clients = new_client(records)..;
    let by: Vec<(u16, Span)> = clients.zip(spans.iter().copied()).collect();
    let mut all: Vec<Record> = Vec::new();
    for at in 0..=records.len() {
        let calls = by.iter().filter(|(_, span)| span.0 == at);
        all.extend(calls.map(|&(client, _)| call_remove(client, 0)));
        let returns = by.iter().filter(|(_, span)| span.1 == at);
        all.extend(returns.map(|&(client, _)| return_empty(client, 0)));
        all.extend(records.get(at));
    }
    rising(&all)
}

/// The records with the call of a remove put in right before the record with that index, or at the
/// end. It is made by a new client and does not return.
pub fn with_pending_remove(records: &[Record], at: usize) -> Vec<Record> {
    let mut all = records.to_vec();
    all.insert(at, call_remove(new_client(records), 0));
    rising(&all)
}

#[cfg(test)]
mod tests {
    use super::{with_empty_removes, with_pending_remove, with_run};
    use crate::model::record::{call_add, call_remove, return_add, return_empty, return_value};

    #[test]
    fn a_run_is_put_in_part_by_part() {
        let records = [call_add(5, 10, 1), return_add(5, 20)];
        let expected = [
            call_add(7, 1, 0),
            call_add(5, 2, 1),
            return_add(7, 3),
            call_remove(8, 4),
            return_add(5, 5),
            return_value(8, 6, 2),
        ];
        let parts = [(0, "A0("), (1, "A0) R("), (2, "R1)")];
        assert_eq!(with_run(&records, &parts), expected);
    }

    #[test]
    fn a_pending_remove_is_put_in_at_its_place() {
        let records = [call_add(5, 10, 1), return_add(5, 20)];
        let expected = [call_add(5, 1, 1), call_remove(6, 2), return_add(5, 3)];
        assert_eq!(with_pending_remove(&records, 1), expected);
        assert_eq!(with_pending_remove(&records, 2)[2], call_remove(6, 3));
    }

    #[test]
    fn empty_removes_are_put_in_at_their_places() {
        let records = [call_add(5, 10, 1), return_add(5, 20)];
        let expected = [
            call_remove(6, 1),
            call_add(5, 2, 1),
            call_remove(7, 3),
            return_empty(7, 4),
            return_add(5, 5),
            return_empty(6, 6),
        ];
        assert_eq!(with_empty_removes(&records, &[(0, 2), (1, 1)]), expected);
    }
}
