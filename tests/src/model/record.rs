//! The records of a log, and short ways to make them.

/// What a record tells.
#[derive(Clone, Copy, Debug, PartialEq, Eq)]
pub enum Event {
    CallAdd(u32),
    CallRemove,
    ReturnAdd,
    ReturnRemove(Removed),
}

impl Event {
    pub fn is_call(self) -> bool {
        matches!(self, Event::CallAdd(_) | Event::CallRemove)
    }

    /// The event with another value in the place of its own, if it has one.
    pub fn with_value(self, other: impl FnOnce(u32) -> u32) -> Event {
        match self {
            Event::CallAdd(value) => Event::CallAdd(other(value)),
            Event::ReturnRemove(Removed::Value(value)) => {
                Event::ReturnRemove(Removed::Value(other(value)))
            }
            event => event,
        }
    }
}

/// What a returned remove carries.
#[derive(Clone, Copy, Debug, PartialEq, Eq)]
pub enum Removed {
    Value(u32),
    Empty,
}

#[derive(Clone, Copy, Debug, PartialEq, Eq)]
pub struct Record {
    pub client: u16,
    pub tick: u32,
    pub event: Event,
}

pub fn call_add(client: u16, tick: u32, value: u32) -> Record {
    record(client, tick, Event::CallAdd(value))
}

pub fn call_remove(client: u16, tick: u32) -> Record {
    record(client, tick, Event::CallRemove)
}

pub fn return_add(client: u16, tick: u32) -> Record {
    record(client, tick, Event::ReturnAdd)
}

pub fn return_value(client: u16, tick: u32, value: u32) -> Record {
    record(client, tick, Event::ReturnRemove(Removed::Value(value)))
}

pub fn return_empty(client: u16, tick: u32) -> Record {
    record(client, tick, Event::ReturnRemove(Removed::Empty))
}

fn record(client: u16, tick: u32, event: Event) -> Record {
    Record {
        client,
        tick,
        event,
    }
}
