//! A writer of readable logs: a few clients, whose operations overlap, and ticks that are often equal.
//! What a remove returns is mostly what a correct queue could give it, so that many logs have an order
//! or nearly do. In some logs one remove never returns.

use yauponroof_tests::model::reader;
use yauponroof_tests::model::record::{
    call_add, call_remove, return_add, return_empty, return_value, Record,
};
use yauponroof_tests::model::writer::log;

use crate::choices::Choices;

/// How many clients there are.
const CLIENTS: usize = 6;

/// The most records of a log, but for the returns that its removes lack then.
const MOST_RECORDS: usize = 100;

/// How far apart clients and values are numbered, so that all bytes of their fields matter.
const CLIENT_STEPS: [u16; 4] = [1, 255, 1024, 8192];
const VALUE_STEPS: [u32; 4] = [1, u32::MAX, 0x0100_0001, 1 << 20];

/// Where ticks begin.
const FIRST_TICKS: [u32; 4] = [0, 1, 0x00FF_FFFE, u32::MAX - 2];

/// The records of a readable log, from all choices.
pub fn written_records(mut writer: Writer, mut choices: Choices) -> Vec<Record> {
    let mut records = Vec::new();
    while !choices.is_empty() && records.len() < MOST_RECORDS {
        records.extend(writer.record(&mut choices));
    }
    while let Some(record) = writer.lacking_return(&mut choices) {
        records.push(record);
    }
    assert!(reader::read(&log(&records)).is_ok(), "{records:?}");
    records
}

/// What a client is at.
#[derive(Clone, Copy, PartialEq, Eq)]
enum Work {
    Idle,
    Add,
    Remove,
}

/// Writes one record after the other.
#[derive(Clone)]
pub struct Writer {
    /// How many removes do not return in the end: none or one.
    stay_open: usize,
    client_step: u16,
    value_step: u32,
    tick: u32,
    work: [Work; CLIENTS],
    /// The tick of the last return of each client that has returned.
    returned: [Option<u32>; CLIENTS],
    /// How many adds were called. The values are numbered in that order.
    added: u32,
    /// The numbers of the values that were added and that no remove has returned.
    left: Vec<u32>,
    /// The number of the value that was last returned.
    last_removed: u32,
}

impl Writer {
    /// A writer of a log from its first record on.
    pub fn new(how: &mut Choices) -> Writer {
        Writer {
            stay_open: how.below(2),
            client_step: how.pick(&CLIENT_STEPS),
            value_step: how.pick(&VALUE_STEPS),
            tick: how.pick(&FIRST_TICKS),
            work: [Work::Idle; CLIENTS],
            returned: [None; CLIENTS],
            added: 0,
            left: Vec::new(),
            last_removed: 0,
        }
    }

    /// The next record, from one byte: which client, what it does, and whether the tick rises. It also
    /// rises before a call at the tick of its client's last return; where it cannot, there is none.
    pub fn record(&mut self, choices: &mut Choices) -> Option<Record> {
        let byte = choices.byte();
        let client = usize::from(byte) % CLIENTS;
        let choice = usize::from(byte) / CLIENTS;
        self.tick = self.tick.saturating_add((choice % 3 % 2) as u32);
        if self.work[client] == Work::Idle && self.returned[client] == Some(self.tick) {
            self.tick = self.tick.checked_add(1)?;
        }
        Some(match self.work[client] {
            Work::Idle if choice % 2 == 0 => self.call_add(client),
            Work::Idle => self.call_remove(client),
            Work::Add => self.return_add(client),
            Work::Remove => self.return_remove(client, choice),
        })
    }

    /// The return of a remove that lacks it, if there is one beside those that stay open.
    pub fn lacking_return(&mut self, choices: &mut Choices) -> Option<Record> {
        let is_open = |&client: &usize| self.work[client] == Work::Remove;
        let client = (0..CLIENTS).filter(is_open).nth(self.stay_open)?;
        let choice = usize::from(choices.byte());
        Some(self.return_remove(client, choice))
    }

    fn call_add(&mut self, client: usize) -> Record {
        self.work[client] = Work::Add;
        self.left.push(self.added);
        self.added += 1;
        call_add(self.client(client), self.tick, self.value(self.added - 1))
    }

    fn call_remove(&mut self, client: usize) -> Record {
        self.work[client] = Work::Remove;
        call_remove(self.client(client), self.tick)
    }

    fn return_add(&mut self, client: usize) -> Record {
        self.end(client);
        return_add(self.client(client), self.tick)
    }

    fn return_remove(&mut self, client: usize, choice: usize) -> Record {
        self.end(client);
        match self.removed(choice) {
            Some(number) => {
                self.last_removed = number;
                return_value(self.client(client), self.tick, self.value(number))
            }
            None => return_empty(self.client(client), self.tick),
        }
    }

    /// The client's operation returns.
    fn end(&mut self, client: usize) {
        self.work[client] = Work::Idle;
        self.returned[client] = Some(self.tick);
    }

    /// The number of the value that a remove returns; none for empty. Mostly it is the one that was
    /// added first of those that are left, or the second or third. Seldom it is one that was returned
    /// before, the one that is added next, or one that may never be added.
    fn removed(&mut self, choice: usize) -> Option<u32> {
        match choice % 16 {
            0..=6 => self.take(0),
            7 | 8 => self.take(1),
            9 => self.take(2),
            10 => Some(self.last_removed),
            11 => Some(self.added),
            12 => Some(self.added + 2),
            _ => None,
        }
    }

    fn take(&mut self, place: usize) -> Option<u32> {
        (place < self.left.len()).then(|| self.left.remove(place))
    }

    fn client(&self, client: usize) -> u16 {
        self.client_step.wrapping_mul(client as u16)
    }

    /// The value with that number.
    fn value(&self, number: u32) -> u32 {
        self.value_step.wrapping_mul(number)
    }
}
