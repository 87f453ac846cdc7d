//! Readable logs of few records, every one or one by chance. Clients and values are numbered from 0
//! in the order in which they first appear, so that no two logs differ by these names alone; ticks
//! rise by one where they are not joined.

use crate::logs::ticks::every_joining;
use crate::model::record::{Event, Record, Removed};
use crate::random::Random;

/// Calls `visit` with every readable log of at most `most` records in which all removes return, up to
/// the naming of clients and values, and with rising ticks only.
pub fn every_log(most: usize, visit: &mut impl FnMut(&[Record])) {
    visit_from(&Partial::default(), most, visit);
}

/// The same for the logs in which one remove does not return. The two together are all readable ones.
pub fn every_log_with_pending_remove(most: usize, visit: &mut impl FnMut(&[Record])) {
    visit_from(&Partial::default().with_pending_remove(), most, visit);
}

/// The same logs with their ticks joined in every way: each record has the tick of the one before it
/// or one more. Some of these logs are refused with 31, and all others are readable.
pub fn every_log_with_joined_ticks(most: usize, visit: &mut impl FnMut(&[Record])) {
    every_log(most, &mut |records| every_joining(records, visit));
}

/// The logs of `every_log` in which each operation has a client of its own, which are far fewer. Who
/// makes a call matters only to find its return.
pub fn every_log_of_new_clients(most: usize, visit: &mut impl FnMut(&[Record])) {
    visit_from(&Partial::of_new_clients(), most, visit);
}

/// The same for the logs in which one remove does not return.
pub fn every_log_of_new_clients_with_pending_remove(
    most: usize,
    visit: &mut impl FnMut(&[Record]),
) {
    visit_from(
        &Partial::of_new_clients().with_pending_remove(),
        most,
        visit,
    );
}

/// The same for those logs of new clients in which every operation returns, and every remove meets
/// an empty queue or takes a value whose add was called before and that no other remove took.
pub fn every_log_of_paired_operations(most: usize, visit: &mut impl FnMut(&[Record])) {
    visit_from(&Partial::paired(), most, visit);
}

/// The same for the logs in which one remove does not return, and all other operations do.
pub fn every_log_of_paired_operations_with_pending_remove(
    most: usize,
    visit: &mut impl FnMut(&[Record]),
) {
    visit_from(&Partial::paired().with_pending_remove(), most, visit);
}

fn visit_from(partial: &Partial, more: usize, visit: &mut impl FnMut(&[Record])) {
    let lacking = partial.lacking();
    if lacking == 0 {
        visit(&partial.records);
    }
    if 0 < more && lacking <= more {
        for next in partial.extensions() {
            visit_from(&next, more - 1, visit);
        }
    }
}

/// A readable log that chance makes one record longer until it has at least `least`. All of its
/// removes return.
pub fn random_log(least: usize, random: &mut Random) -> Vec<Record> {
    random_from(Partial::default(), least, random)
}

/// The same for a log in which one remove does not return.
pub fn random_log_with_pending_remove(least: usize, random: &mut Random) -> Vec<Record> {
    random_from(Partial::default().with_pending_remove(), least, random)
}

fn random_from(mut partial: Partial, least: usize, random: &mut Random) -> Vec<Record> {
    while partial.records.len() < least || partial.lacking() > 0 {
        partial = random.pick(&partial.extensions()).clone();
    }
    partial.records
}

/// A log of `count` operations as `every_log_of_paired_operations` has them, by chance.
pub fn random_log_of_paired_operations(count: usize, random: &mut Random) -> Vec<Record> {
    random_paired(Partial::paired(), 2 * count, random)
}

/// A log of `count` operations as `every_log_of_paired_operations_with_pending_remove` has them, by
/// chance.
pub fn random_log_of_paired_operations_with_pending_remove(
    count: usize,
    random: &mut Random,
) -> Vec<Record> {
    let partial = Partial::paired().with_pending_remove();
    random_paired(partial, 2 * count - 1, random)
}

/// Makes the paired operations by chance until there are so many records.
fn random_paired(mut partial: Partial, most: usize, random: &mut Random) -> Vec<Record> {
    while partial.records.len() < most {
        let extensions = partial.extensions().into_iter();
        let ending = extensions.filter(|next| next.records.len() + next.lacking() <= most);
        partial = random.pick_from(ending).expect("a call or a return");
    }
    partial.records
}

/// Which clients may call.
#[derive(Clone, Copy, Default, PartialEq)]
enum Callers {
    #[default]
    AnyIdle,
    New,
}

/// How operations may end.
#[derive(Clone, Copy, Default, PartialEq)]
enum Outcomes {
    #[default]
    Any,
    /// Adds return as well, and no remove takes what was not called to be added or is taken.
    Paired,
}

/// What a client is at.
#[derive(Clone, Copy, PartialEq)]
enum Client {
    Idle,
    Adding,
    Removing,
}

/// The first records of a log; removes may be pending.
#[derive(Clone, Default)]
struct Partial {
    callers: Callers,
    outcomes: Outcomes,
    /// How many removes do not return.
    pending_removes: usize,
    records: Vec<Record>,
    clients: Vec<Client>,
    /// For each value that has appeared, whether it was added.
    added: Vec<bool>,
}

impl Partial {
    /// No records, to become those of operations by new clients.
    fn of_new_clients() -> Partial {
        Partial {
            callers: Callers::New,
            ..Partial::default()
        }
    }

    /// No records, to become those of paired operations by new clients.
    fn paired() -> Partial {
        Partial {
            outcomes: Outcomes::Paired,
            ..Partial::of_new_clients()
        }
    }

    /// The same, to become a log in which one remove does not return.
    fn with_pending_remove(self) -> Partial {
        Partial {
            pending_removes: 1,
            ..self
        }
    }

    fn count(&self, at_work: Client) -> usize {
        let is_at_it = |client: &&Client| **client == at_work;
        self.clients.iter().filter(is_at_it).count()
    }

    /// How many records are lacking before this is a log as it is wanted: the returns of operations,
    /// and the call of a remove that does not return.
    fn lacking(&self) -> usize {
        let removes = self.count(Client::Removing);
        let adds = match self.outcomes {
            Outcomes::Any => 0,
            Outcomes::Paired => self.count(Client::Adding),
        };
        adds + removes.abs_diff(self.pending_removes)
    }

    /// This with one more record, in every way. The last client and the last value are new ones.
    fn extensions(&self) -> Vec<Partial> {
        let mut all = Vec::new();
        for client in 0..=self.clients.len() {
            match self.clients.get(client).unwrap_or(&Client::Idle) {
                Client::Idle if !self.may_call(client) => {}
                Client::Idle => {
                    all.extend(
                        self.values_to_add()
                            .map(|v| self.with(client, Event::CallAdd(v))),
                    );
                    all.push(self.with(client, Event::CallRemove));
                }
                Client::Adding => all.push(self.with(client, Event::ReturnAdd)),
                Client::Removing => {
                    let events = self.removed().map(Event::ReturnRemove);
                    all.extend(events.map(|event| self.with(client, event)));
                }
            }
        }
        all
    }

    fn values_to_add(&self) -> impl Iterator<Item = u32> + '_ {
        let not_added = |&value: &usize| self.added.get(value) != Some(&true);
        (0..=self.added.len()).filter(not_added).map(|v| v as u32)
    }

    /// What a remove may return now. The last value is a new one.
    fn removed(&self) -> impl Iterator<Item = Removed> + '_ {
        let values = (0..=self.added.len() as u32).map(Removed::Value);
        values
            .filter(|&value| self.outcomes == Outcomes::Any || self.holds(value))
            .chain([Removed::Empty])
    }

    /// Whether the value was called to be added and was not removed.
    fn holds(&self, value: Removed) -> bool {
        let Removed::Value(number) = value else {
            return false;
        };
        let taken = Event::ReturnRemove(value);
        self.added.get(number as usize) == Some(&true)
            && self.records.iter().all(|record| record.event != taken)
    }

    fn may_call(&self, client: usize) -> bool {
        self.callers == Callers::AnyIdle || client == self.clients.len()
    }

    fn with(&self, client: usize, event: Event) -> Partial {
        let mut next = self.clone();
        if client == self.clients.len() {
            next.clients.push(Client::Idle);
        }
        next.clients[client] = match event {
            Event::CallAdd(value) => {
                *next.appear(value) = true;
                Client::Adding
            }
            Event::CallRemove => Client::Removing,
            Event::ReturnRemove(Removed::Value(value)) => {
                next.appear(value);
                Client::Idle
            }
            Event::ReturnAdd | Event::ReturnRemove(Removed::Empty) => Client::Idle,
        };
        next.records.push(Record {
            client: client as u16,
            tick: self.records.len() as u32,
            event,
        });
        next
    }

    /// Notes that the value has appeared; whether it was added.
    fn appear(&mut self, value: u32) -> &mut bool {
        let value = value as usize;
        if value == self.added.len() {
            self.added.push(false);
        }
        &mut self.added[value]
    }
}

#[cfg(test)]
mod tests {
    use super::{
        every_log, every_log_of_paired_operations_with_pending_remove,
        every_log_with_pending_remove, random_log_of_paired_operations_with_pending_remove,
        random_log_with_pending_remove,
    };
    use crate::model::history::{operations, Action, Operation};
    use crate::model::reader;
    use crate::model::record::Record;
    use crate::model::writer::log;
    use crate::random::Random;

    /// How many removes of the log, which has to be readable, do not return.
    fn pending_removes(records: &[Record]) -> usize {
        assert!(reader::read(&log(records)).is_ok(), "{records:?}");
        let is_pending = |operation: &Operation| operation.action == Action::PendingRemove;
        let all = operations(records).into_iter();
        all.filter(is_pending).count()
    }

    #[test]
    fn one_remove_is_pending_or_none() {
        let mut logs = [0; 3];
        every_log(5, &mut |records| {
            assert_eq!(pending_removes(records), 0);
            logs[0] += 1;
        });
        every_log_with_pending_remove(5, &mut |records| {
            assert_eq!(pending_removes(records), 1);
            logs[1] += 1;
        });
        every_log_of_paired_operations_with_pending_remove(7, &mut |records| {
            assert_eq!(pending_removes(records), 1);
            logs[2] += 1;
        });
        assert_eq!(logs, [832, 779, 1982]);
    }

    #[test]
    fn one_remove_is_pending_in_logs_by_chance() {
        let mut random = Random::new(258);
        for least in 0..60 {
            let any = random_log_with_pending_remove(least, &mut random);
            assert_eq!(pending_removes(&any), 1);
            assert!(any.len() >= least);
        }
        for count in 1..30 {
            let paired = random_log_of_paired_operations_with_pending_remove(count, &mut random);
            assert_eq!(pending_removes(&paired), 1);
            assert_eq!(operations(&paired).len(), count);
        }
    }
}
