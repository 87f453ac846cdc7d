//! The search of Wing and Gong for a legal order (a linearization), with Lowe's cache or without. It
//! places one operation after the other. Next may come any operation that was called before the first
//! return of one that is not placed, or at its tick; they are tried in the order of their calls. If none of them can
//! come next, the latest one is taken back. What Lowe added is to remember every configuration, so
//! that none is entered twice. The search knows a queue only as something that operations are run on.

use std::time::{Duration, Instant};

use yauponroof_tests::model::history::Operation;

use crate::cache::Memory;
use crate::call_list::{CallList, Event};
use crate::placed::Placed;
use crate::queue::Queue;

/// What a search comes to.
#[derive(Clone, Debug, PartialEq, Eq)]
pub enum Outcome {
    /// A legal order.
    Order(Vec<u16>),
    /// There is none.
    NoOrder,
    /// The limit was reached.
    GaveUp,
}

/// Where a search gives up.
#[derive(Clone, Copy, Debug, PartialEq, Eq)]
pub enum Limit {
    Time(Duration),
    Configurations(usize),
}

/// Searches for a legal order of these operations of a readable log. What it has entered stays in the
/// memory.
pub fn search(operations: &[Operation], memory: &mut impl Memory, limit: Limit) -> Outcome {
    let start = Instant::now();
    let mut search = Search::new(operations, memory);
    let mut at = search.list.first();
    while search.to_return > 0 {
        match search.list.event(at) {
            Event::Call(number) if search.place(number) => {
                if is_reached(limit, start, search.memory.entered()) {
                    return Outcome::GaveUp;
                }
                at = search.list.first();
            }
            Event::Call(_) => at = search.list.behind(at),
            Event::Barrier => match search.take_back() {
                Some(call) => at = search.list.behind(call),
                None => return Outcome::NoOrder,
            },
        }
    }
    Outcome::Order(search.order)
}

/// Whether a search that has been in so many configurations has to end. The clock is read seldom.
fn is_reached(limit: Limit, start: Instant, configurations: usize) -> bool {
    const SELDOM: usize = 1024;
    match limit {
        Limit::Time(most) => configurations % SELDOM == 0 && start.elapsed() >= most,
        Limit::Configurations(most) => configurations >= most,
    }
}

/// How a search stands.
struct Search<'a, M> {
    operations: &'a [Operation],
    /// The calls and returns of the operations that are not placed.
    list: CallList,
    /// The operations that are placed, first to last.
    order: Vec<u16>,
    placed: Placed,
    queue: Queue,
    memory: &'a mut M,
    /// How many operations have returned and are not placed. Pending ones may be left out.
    to_return: usize,
}

impl<'a, M: Memory> Search<'a, M> {
    fn new(operations: &'a [Operation], memory: &'a mut M) -> Search<'a, M> {
        Search {
            operations,
            list: CallList::new(operations),
            order: Vec::with_capacity(operations.len()),
            placed: Placed::none_of(operations.len()),
            queue: Queue::new(operations.len()),
            memory,
            to_return: operations.iter().filter(|o| o.returned.is_some()).count(),
        }
    }

    /// Places the operation, if the queue allows it and it leads to a new configuration; whether it
    /// did.
    fn place(&mut self, number: u16) -> bool {
        let operation = &self.operations[usize::from(number)];
        if !self.queue.run(operation.action) {
            return false;
        }
        self.placed.insert(number);
        if !self.memory.enter(&self.placed, &self.queue) {
            self.placed.remove(number);
            self.queue.take_back(operation.action);
            return false;
        }
        self.list.lift(operation);
        self.order.push(number);
        self.to_return -= usize::from(operation.returned.is_some());
        true
    }

    /// Takes back the latest operation, if one is placed; the list's entry of its call.
    fn take_back(&mut self) -> Option<usize> {
        let number = self.order.pop()?;
        let operation = &self.operations[usize::from(number)];
        self.to_return += usize::from(operation.returned.is_some());
        self.placed.remove(number);
        self.queue.take_back(operation.action);
        Some(self.list.put_back(operation))
    }
}

#[cfg(test)]
mod tests {
    use std::time::Duration;

    use yauponroof_tests::logs::changes::near_outcomes_exchanged;
    use yauponroof_tests::logs::enumerate::{
        every_log, every_log_with_joined_ticks, every_log_with_pending_remove, random_log,
        random_log_of_paired_operations, random_log_of_paired_operations_with_pending_remove,
    };
    use yauponroof_tests::logs::samples::calls_then_returns;
    use yauponroof_tests::logs::simulation::{simulate_run, Clients};
    use yauponroof_tests::logs::ticks::in_batches;
    use yauponroof_tests::model::history::operations;
    use yauponroof_tests::model::linearization::is_linearization;
    use yauponroof_tests::model::reader;
    use yauponroof_tests::model::record::Record;
    use yauponroof_tests::model::search::has_linearization;
    use yauponroof_tests::model::writer::log;
    use yauponroof_tests::random::Random;

    use super::{search, Limit, Outcome};
    use crate::cache::{Cache, NoCache};

    const NO_LIMIT: Limit = Limit::Configurations(usize::MAX);

    /// Counts the logs with an order and those without.
    #[derive(Default)]
    struct Seen {
        orders: usize,
        no_orders: usize,
    }

    impl Seen {
        /// Holds the search, with its cache and without, against that of the tests.
        fn compare(&mut self, records: &[Record]) {
            let operations = operations(records);
            let has_order = has_linearization(&operations);
            for outcome in [
                search(&operations, &mut Cache::default(), NO_LIMIT),
                search(&operations, &mut NoCache::default(), NO_LIMIT),
            ] {
                let agrees = match outcome {
                    Outcome::Order(order) => has_order && is_linearization(&operations, &order),
                    Outcome::NoOrder => !has_order,
                    Outcome::GaveUp => panic!("there was no limit"),
                };
                assert!(agrees, "{records:?}");
            }
            self.orders += usize::from(has_order);
            self.no_orders += usize::from(!has_order);
        }

        fn assert_at_least(&self, orders: usize, no_orders: usize) {
            assert!(self.orders >= orders, "{} orders", self.orders);
            assert!(self.no_orders >= no_orders, "{} without", self.no_orders);
        }
    }

    #[test]
    fn every_short_log() {
        let mut seen = Seen::default();
        every_log(6, &mut |records| seen.compare(records));
        assert_eq!((seen.orders, seen.no_orders), (2093, 4591));
    }

    #[test]
    fn every_shorter_log_with_ticks_joined_in_every_way() {
        let mut seen = Seen::default();
        every_log_with_joined_ticks(5, &mut |records| {
            if reader::read(&log(records)).is_ok() {
                seen.compare(records);
            }
        });
        assert_eq!((seen.orders, seen.no_orders), (4392, 5250));
    }

    #[test]
    fn every_short_log_with_an_open_remove() {
        let mut seen = Seen::default();
        every_log_with_pending_remove(6, &mut |records| seen.compare(records));
        assert_eq!((seen.orders, seen.no_orders), (2871, 3922));
    }

    #[test]
    fn random_logs_with_an_open_remove() {
        let mut random = Random::new(305);
        let mut seen = Seen::default();
        for _ in 0..3000 {
            let count = 1 + random.below(9);
            let records = random_log_of_paired_operations_with_pending_remove(count, &mut random);
            seen.compare(&records);
            seen.compare(&in_batches(&records, 3, &mut random));
        }
        seen.assert_at_least(2000, 500);
    }

    #[test]
    fn random_logs() {
        let mut random = Random::new(301);
        let mut seen = Seen::default();
        for _ in 0..20_000 {
            let least = 2 + random.below(16);
            seen.compare(&random_log(least, &mut random));
        }
        seen.assert_at_least(2000, 2000);
    }

    #[test]
    fn random_logs_of_paired_operations() {
        let mut random = Random::new(302);
        let mut seen = Seen::default();
        for _ in 0..5000 {
            let count = 1 + random.below(11);
            let records = random_log_of_paired_operations(count, &mut random);
            seen.compare(&records);
            seen.compare(&in_batches(&records, 3, &mut random));
        }
        seen.assert_at_least(2000, 2000);
    }

    /// Runs of a correct queue of which some adds stay pending, and the same with two outcomes
    /// exchanged.
    #[test]
    fn simulated_runs_with_pending_adds() {
        let mut random = Random::new(303);
        let mut seen = Seen::default();
        for round in 0..1000 {
            let workers = 1 + random.below(5) as u16;
            let run = simulate_run(workers, Clients::Reused, 24, random.next_u64());
            let pending = run.with_pending_adds(10 * (round % 4), &mut random);
            seen.compare(&pending.records);
            if let Some(changed) = near_outcomes_exchanged(&pending, &mut random) {
                seen.compare(&changed);
            }
        }
        seen.assert_at_least(1000, 100);
    }

    #[test]
    fn it_gives_up_at_its_limit() {
        let operations = operations(&calls_then_returns(1024));
        let searched = |limit| search(&operations, &mut Cache::default(), limit);
        assert!(matches!(searched(NO_LIMIT), Outcome::Order(_)));
        assert_eq!(searched(Limit::Configurations(511)), Outcome::GaveUp);
    }

    #[test]
    fn it_gives_up_when_its_time_is_up() {
        let operations = operations(&simulate_run(8, Clients::Reused, 1024, 304).records);
        let limit = Limit::Time(Duration::ZERO);
        let outcome = search(&operations, &mut Cache::default(), limit);
        assert_eq!(outcome, Outcome::GaveUp);
    }
}
