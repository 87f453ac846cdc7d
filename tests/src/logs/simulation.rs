//! Runs of a correct queue: the records of their log, and the order in which the operations took
//! effect.

use std::collections::{HashMap, VecDeque};

use crate::logs::clients::{clients_apart, new_client};
use crate::logs::slots::Slots;
use crate::logs::ticks::in_batches;
use crate::model::history::{operations, Action, Operation};
use crate::model::record::{
    call_add, call_remove, return_add, return_empty, return_value, Event, Record, Removed,
};
use crate::random::Random;

/// Who makes the calls of a simulated run.
#[derive(Clone, Copy, PartialEq, Eq)]
pub enum Clients {
    /// Each client makes one operation after the other.
    Reused,
    /// Each operation has a client of its own.
    OnePerOperation,
}

/// How full the queue of a simulated run is.
#[derive(Clone, Copy, Default, PartialEq, Eq)]
pub enum Load {
    /// Adds and removes are as likely, so that the queue is often empty.
    #[default]
    Even,
    /// An add is called wherever few values are in the queue, so that it seldom is empty.
    Busy,
}

/// The `n` records of a run of a correct queue with `workers` clients at work at once.
pub fn simulate(workers: u16, clients: Clients, n: usize, seed: u64) -> Vec<Record> {
    simulate_run(workers, clients, n, seed).records
}

/// A run of a correct queue with `workers` clients at work at once and `n` records, n even. Every
/// operation returns. Each takes effect at some moment between its call and its return. Ticks rise
/// with every record, by more or less.
pub fn simulate_run(workers: u16, clients: Clients, n: usize, seed: u64) -> Run {
    simulate_load(Load::Even, workers, clients, n, seed)
}

/// The same with a queue as full as the load says.
pub fn simulate_load(load: Load, workers: u16, clients: Clients, n: usize, seed: u64) -> Run {
    assert!(n % 2 == 0, "every operation has two records");
    let mut random = Random::new(seed);
    let mut simulation = Simulation {
        load,
        ..Simulation::default()
    };
    let idle = |client| Worker {
        client,
        number: 0,
        work: None,
    };
    let mut workers: Vec<Worker> = (0..workers).map(idle).collect();
    while simulation.run.records.len() < n {
        let chosen = random.below(workers.len());
        simulation.step(&mut workers[chosen], clients, n, &mut random);
    }
    simulation.run
}

/// Runs of up to 1,024 records, with few and with many clients, with and without pending adds.
pub fn runs_of_all_sizes() -> Vec<Run> {
    let mut random = Random::new(41);
    let mut runs = Vec::new();
    for n in [16, 64, 256, 1024] {
        for workers in [1, 2, 3, 8, 64] {
            for clients in [Clients::Reused, Clients::OnePerOperation] {
                let run = simulate_run(workers, clients, n, random.next_u64());
                let pending = [0, 10, 60].map(|p| run.with_pending_adds(p, &mut random));
                runs.extend(pending);
            }
        }
    }
    runs
}

/// The runs of all sizes with their clients numbered 1,024 apart.
pub fn runs_with_clients_apart() -> Vec<Run> {
    let runs = runs_of_all_sizes().into_iter();
    runs.map(|run| run.with_clients_apart(1024)).collect()
}

/// The runs of all sizes with values that share one slot of the library's map, and clients that
/// share few.
pub fn runs_with_shared_slots() -> Vec<Run> {
    let slots = Slots::default();
    let mut runs = runs_of_all_sizes();
    for run in &mut runs {
        run.records = slots.shared(&run.records);
    }
    runs
}

/// The runs of all sizes in small and in large batches.
pub fn runs_in_batches() -> Vec<Run> {
    let mut random = Random::new(221);
    let runs = runs_of_all_sizes()
        .into_iter()
        .zip([3, 40].into_iter().cycle());
    runs.map(|(run, about)| run.in_batches(about, &mut random))
        .collect()
}

/// What a simulation leaves.
#[derive(Clone, Default)]
pub struct Run {
    pub records: Vec<Record>,
    /// The operations in the order in which they took effect, which is a legal one.
    pub order: Vec<u16>,
}

impl Run {
    /// The run without the return records of some adds, about `percent` in a hundred. A client
    /// whose add stays pending calls nothing more, so a new one goes on in its place.
    pub fn with_pending_adds(&self, percent: usize, random: &mut Random) -> Run {
        let mut new_clients = new_client(&self.records)..;
        let mut in_place_of: HashMap<u16, u16> = HashMap::new();
        let mut records = Vec::new();
        for record in &self.records {
            if record.event == Event::ReturnAdd && random.below(100) < percent {
                let new_client = new_clients.next().expect("clients enough");
                in_place_of.insert(record.client, new_client);
            } else {
                let client = *in_place_of.get(&record.client).unwrap_or(&record.client);
                records.push(Record { client, ..*record });
            }
        }
        Run {
            records,
            order: self.order.clone(),
        }
    }

    /// The run without the return record of one remove, if it has one. Its client calls nothing more,
    /// so a new one goes on in its place. The order stays legal: the remove took the front value, or
    /// there was none.
    pub fn with_pending_remove(&self, random: &mut Random) -> Run {
        let is_return = |&at: &usize| matches!(self.records[at].event, Event::ReturnRemove(_));
        let mut run = self.clone();
        if let Some(at) = random.pick_from((0..self.records.len()).filter(is_return)) {
            let stays = run.records.remove(at).client;
            let goes_on = new_client(&self.records);
            let behind = run.records[at..].iter_mut();
            let by_it = behind.filter(|record| record.client == stays);
            by_it.for_each(|record| record.client = goes_on);
        }
        run
    }

    /// The run with removes at its end, one after the other, that take what was left in the queue.
    pub fn drained(&self) -> Run {
        let mut run = self.clone();
        let client = new_client(&self.records);
        let mut ticks = run.records.last().map_or(0, |record| record.tick + 1)..;
        let mut next_tick = || ticks.next().expect("ticks enough");
        let operations = operations(&self.records);
        for (number, value) in
            (operations.len() as u16..).zip(left_in_queue(&operations, &run.order))
        {
            run.records.push(call_remove(client, next_tick()));
            run.records.push(return_value(client, next_tick(), value));
            run.order.push(number);
        }
        run
    }

    /// The run as a recorder gives it that collects records in batches of about so many, each with
    /// one tick. Less precedes than before, so the order stays legal.
    pub fn in_batches(&self, about: usize, random: &mut Random) -> Run {
        Run {
            records: in_batches(&self.records, about, random),
            order: self.order.clone(),
        }
    }

    /// The run with its clients numbered that far apart, as far as 16 bits allow.
    fn with_clients_apart(&self, distance: u16) -> Run {
        Run {
            records: clients_apart(&self.records, distance),
            order: self.order.clone(),
        }
    }
}

/// The values that an order leaves in the queue, the front first.
fn left_in_queue(operations: &[Operation], order: &[u16]) -> VecDeque<u32> {
    let mut queue = VecDeque::new();
    for &number in order {
        match operations[usize::from(number)].action {
            Action::Add(value) => queue.push_back(value),
            Action::Remove(_) | Action::PendingRemove => drop(queue.pop_front()),
        }
    }
    queue
}

struct Worker {
    client: u16,
    /// The number of its latest operation.
    number: u16,
    work: Option<Work>,
}

/// An operation at work in a simulated run.
enum Work {
    Add {
        value: u32,
        done: bool,
    },
    /// The outcome is there once the remove has taken effect.
    Remove {
        outcome: Option<Removed>,
    },
}

/// The state of a simulated run.
#[derive(Default)]
struct Simulation {
    load: Load,
    run: Run,
    queue: VecDeque<u32>,
    tick: u32,
    calls: usize,
}

impl Simulation {
    /// Lets a worker call if it is idle and `n` records leave room for the call and the return;
    /// or else lets its operation take effect, or else return.
    fn step(&mut self, worker: &mut Worker, clients: Clients, n: usize, random: &mut Random) {
        self.tick += 1 + random.below(3) as u32;
        worker.work = match worker.work.take() {
            None if 2 * self.calls < n => {
                worker.number = self.calls as u16;
                if clients == Clients::OnePerOperation {
                    worker.client = worker.number;
                }
                Some(self.call(worker.client, random))
            }
            None => None,
            Some(work) => self.advance(worker, work),
        };
    }

    /// Takes effect if it has not, or else returns; what is then left of the operation.
    fn advance(&mut self, worker: &Worker, work: Work) -> Option<Work> {
        match work {
            Work::Add { value, done: false } => {
                self.queue.push_back(value);
                self.run.order.push(worker.number);
                Some(Work::Add { value, done: true })
            }
            Work::Remove { outcome: None } => {
                let taken = self.queue.pop_front();
                self.run.order.push(worker.number);
                let outcome = Some(taken.map_or(Removed::Empty, Removed::Value));
                Some(Work::Remove { outcome })
            }
            Work::Add { done: true, .. } => {
                self.log(return_add(worker.client, self.tick));
                None
            }
            Work::Remove {
                outcome: Some(removed),
            } => {
                self.log(match removed {
                    Removed::Value(value) => return_value(worker.client, self.tick, value),
                    Removed::Empty => return_empty(worker.client, self.tick),
                });
                None
            }
        }
    }

    fn call(&mut self, client: u16, random: &mut Random) -> Work {
        // An odd factor keeps the values apart and spreads them over all 32 bits.
        let value = (self.calls as u32).wrapping_mul(0x9E37_79B1);
        self.calls += 1;
        if self.is_to_fill() || random.below(2) == 0 {
            self.log(call_add(client, self.tick, value));
            Work::Add { value, done: false }
        } else {
            self.log(call_remove(client, self.tick));
            Work::Remove { outcome: None }
        }
    }

    fn is_to_fill(&self) -> bool {
        const FEW: usize = 3;
        self.load == Load::Busy && self.queue.len() < FEW
    }

    fn log(&mut self, record: Record) {
        self.run.records.push(record);
    }
}
