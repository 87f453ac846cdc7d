//! Other ticks for the records of a log: such that rise with every record, so that precedence goes by
//! where the records stand, and such that are equal for batches of neighbouring records, which then
//! tell no order.

use std::collections::HashSet;

use crate::model::record::Record;
use crate::random::Random;

/// The records with ticks that rise by one.
pub fn rising(records: &[Record]) -> Vec<Record> {
    with_ticks(records, 1..)
}

/// The records, all of one tick.
pub fn at_one_tick(records: &[Record], tick: u32) -> Vec<Record> {
    with_ticks(records, std::iter::repeat(tick))
}

fn with_ticks(records: &[Record], ticks: impl IntoIterator<Item = u32>) -> Vec<Record> {
    let with_tick = |(record, tick): (&Record, u32)| Record { tick, ..*record };
    records.iter().zip(ticks).map(with_tick).collect()
}

/// Calls `visit` with the records with their ticks joined in every way: each record has the tick of
/// the one before it or one more. Some of these logs are refused with 31.
pub fn every_joining(records: &[Record], visit: &mut impl FnMut(&[Record])) {
    let joints = records.len().saturating_sub(1);
    for rises in 0..1u32 << joints {
        let ticks = (0..records.len()).map(|at| (rises & ((1 << at) - 1)).count_ones());
        visit(&with_ticks(records, ticks));
    }
}

/// The records as a recorder gives them that collects them in batches, each with one tick. A batch
/// has about so many records, by chance; but a client that has returned in a batch calls again only
/// in a later one, so that a log that was readable stays so.
pub fn in_batches(records: &[Record], about: usize, random: &mut Random) -> Vec<Record> {
    // Ticks of which one, two or all four bytes matter.
    let mut tick = *random.pick(&[0, 250, 65_530, u32::MAX - 4 * records.len() as u32]);
    let mut returned = HashSet::new();
    let mut ticks = Vec::new();
    for record in records {
        let calls_again = record.event.is_call() && returned.contains(&record.client);
        if calls_again || random.below(about) == 0 {
            tick += 1 + random.below(3) as u32;
            returned.clear();
        }
        if !record.event.is_call() {
            returned.insert(record.client);
        }
        ticks.push(tick);
    }
    with_ticks(records, ticks)
}

#[cfg(test)]
mod tests {
    use super::{every_joining, in_batches};
    use crate::logs::notation::run;
    use crate::logs::simulation::{simulate, Clients};
    use crate::model::reader;
    use crate::model::record::Record;
    use crate::model::writer::log;
    use crate::random::Random;

    fn ticks(records: &[Record]) -> Vec<u32> {
        records.iter().map(|record| record.tick).collect()
    }

    #[test]
    fn ticks_are_joined_in_every_way() {
        let mut joined = Vec::new();
        every_joining(&run("A1( A2( A1)"), &mut |records| {
            joined.push(ticks(records))
        });
        joined.sort();
        assert_eq!(joined, [[0, 0, 0], [0, 0, 1], [0, 1, 1], [0, 1, 2]]);
        let mut none = 0;
        every_joining(&[], &mut |_| none += 1);
        assert_eq!(none, 1);
    }

    #[test]
    fn batches_of_a_readable_log_are_readable() {
        let mut random = Random::new(220);
        for about in [1, 2, 8, 1000] {
            let records = simulate(4, Clients::Reused, 200, 1);
            let batched = in_batches(&records, about, &mut random);
            assert!(reader::read(&log(&batched)).is_ok(), "{about}");
            let batches = batched.chunk_by(|one, next| one.tick == next.tick);
            let largest = batches.map(<[Record]>::len).max();
            assert_eq!(largest == Some(1), about == 1, "{about}");
        }
    }
}
