//! Inputs to start from: samples of the tests, byte for byte and as the choices by which they are
//! written here, and inputs of every kind by chance.

use std::path::Path;
use std::{fs, io};

use yauponroof_tests::hex::hex;
use yauponroof_tests::logs::chain::{chain, Last};
use yauponroof_tests::logs::insertion::with_empty_removes;
use yauponroof_tests::logs::notation::run;
use yauponroof_tests::logs::samples::{refused_logs, Verdict, PROGRAM_EXAMPLE, RUNS};
use yauponroof_tests::logs::simulation::{simulate, Clients};
use yauponroof_tests::model::record::{Event, Record, Removed};
use yauponroof_tests::model::sheet::sheet;
use yauponroof_tests::model::writer::log;
use yauponroof_tests::random::Random;

use crate::choices::Choices;
use crate::inputs::{Kind, HOW, KINDS};
use crate::scripts::{CLOSE, EXCERPT, FEED, SHEET};
use crate::writer::Writer;

/// How many inputs of each kind there are by chance, and how many bytes they have behind the first.
const BY_CHANCE: usize = 8;
const LENGTH: usize = 60;

/// Writes all to a folder, each to a file of its own.
pub fn write(folder: &Path) -> io::Result<()> {
    let inputs = [by_chance(), samples(), written_samples()].concat();
    for (number, input) in inputs.iter().enumerate() {
        fs::write(folder.join(format!("{number:03}")), input)?;
    }
    Ok(())
}

/// Inputs of every kind, with any bytes behind the first.
fn by_chance() -> Vec<Vec<u8>> {
    let mut random = Random::new(2);
    let mut input = |kind| {
        let any = (0..LENGTH).map(|_| random.next_u64() as u8);
        [kind as u8].into_iter().chain(any).collect()
    };
    let kinds = KINDS.into_iter().flat_map(|kind| [kind; BY_CHANCE]);
    kinds.map(&mut input).collect()
}

/// The runs of document 01, and a log for each refusal.
fn samples() -> Vec<Vec<u8>> {
    let mut inputs = vec![read(&hex(PROGRAM_EXAMPLE))];
    for (text, _, verdict) in RUNS {
        let log = log(&run(text));
        if let Verdict::Order(order) = verdict {
            inputs.push(replayed(&log, &sheet(order)));
        }
        inputs.push(read(&log));
    }
    for log in refused_logs() {
        inputs.push(read(&log));
        inputs.push(replayed(&log, &sheet(&[])));
    }
    inputs
}

/// Runs of a correct queue, and chains of values under an empty remove. From some of the runs a remove
/// never came back.
fn written_samples() -> Vec<Vec<u8>> {
    let runs = (0..4).map(|seed| simulate(3, Clients::Reused, 24, seed));
    let chains = [
        (Last::Kept, 9),
        (Last::Kept, 2),
        (Last::Removed, 9),
        (Last::Removed, 2),
    ];
    let chains = chains.map(|(last, broken)| {
        let chain = chain(4, last, |value| value == broken).records;
        with_empty_removes(&chain, &[(2, chain.len())])
    });
    let records = runs.chain(chains);
    let returned = records.flat_map(|records| written(&[0], &choices_for(&records)));
    let open = (0..4).flat_map(|seed| written(&[1], &choices_for(&run_with_open_remove(seed))));
    returned.chain(open).collect()
}

/// A run of a correct queue without the return of its last remove, which no client follows.
fn run_with_open_remove(seed: u64) -> Vec<Record> {
    let mut records = simulate(3, Clients::Reused, 24, seed);
    let is_return = |record: &Record| matches!(record.event, Event::ReturnRemove(_));
    let last = records.iter().rposition(is_return).expect("a remove");
    let client = records.remove(last).client;
    let tail = records.split_off(last);
    records.extend(tail.iter().filter(|record| record.client != client));
    records
}

/// The inputs that write these records and hand their log to all entries, their order to replay, and
/// themselves to a session. How they are written begins with these bytes.
fn written(how: &[u8], choices: &[u8]) -> [Vec<u8>; 3] {
    let steps = choices
        .iter()
        .flat_map(|&choice| [FEED[0], FEED[1], choice]);
    let script: Vec<u8> = steps
        .chain(CLOSE)
        .chain([0])
        .chain(SHEET)
        .chain([0])
        .chain(EXCERPT)
        .collect();
    [
        input(Kind::WrittenLog, how, choices),
        input(Kind::WrittenOrder, how, choices),
        input(Kind::Script, how, &script),
    ]
}

/// The choices by which a writer writes such records: by the same clients, with ticks that rise by one
/// from 1, and with the values numbered in the order of their adds.
fn choices_for(records: &[Record]) -> Vec<u8> {
    let mut writer = Writer::new(&mut Choices::new(&[]));
    let mut choices = Vec::new();
    for (tick, record) in (1..).zip(records) {
        let such = Record {
            client: record.client,
            tick,
            event: with_value_numbered(record.event, records),
        };
        let (choice, next) = choice_for(such, &writer).expect("a choice for each record");
        choices.push(choice);
        writer = next;
    }
    choices
}

/// The choice by which the writer writes that record, and how it goes on.
fn choice_for(such: Record, writer: &Writer) -> Option<(u8, Writer)> {
    (0..=255).find_map(|choice| {
        let mut next = writer.clone();
        let written = next.record(&mut Choices::new(&[choice]))?;
        (written == such).then_some((choice, next))
    })
}

/// The event with the number of its value, if it has one: how many adds are called before that of
/// the value.
fn with_value_numbered(event: Event, records: &[Record]) -> Event {
    let number = |value| {
        let is_call = |record: &&Record| matches!(record.event, Event::CallAdd(_));
        let mut calls = records.iter().filter(is_call);
        let found = calls.position(|record| record.event == Event::CallAdd(value));
        found.expect("an add of the value") as u32
    };
    match event {
        Event::CallAdd(value) => Event::CallAdd(number(value)),
        Event::ReturnRemove(Removed::Value(value)) => {
            Event::ReturnRemove(Removed::Value(number(value)))
        }
        other => other,
    }
}

/// The input that hands this log to all entries.
fn read(log: &[u8]) -> Vec<u8> {
    input(Kind::Log, &[0, 0, 1], log)
}

/// The input that hands this log and this sheet to replay.
fn replayed(log: &[u8], sheet: &[u8]) -> Vec<u8> {
    input(Kind::Sheet, &[0, sheet.len() as u8], &[sheet, log].concat())
}

/// An input of that kind. How all is done begins with these bytes, and zeros come behind them.
fn input(kind: Kind, how: &[u8], what: &[u8]) -> Vec<u8> {
    let zeros = vec![0; HOW - how.len()];
    [&[kind as u8], how, &zeros, what].concat()
}
