//! Reading and writing records: sizes, heads, values, all 32-bit little-endian.

use crate::event::{Event, CHAIN};

/// The most events that a record holds.
pub const MOST_EVENTS: usize = 4000;

/// The most sources and the most events that a reader takes.
#[derive(Clone, Copy, Debug, PartialEq, Eq)]
pub struct Limits {
    pub sources: u32,
    pub events: usize,
}

/// The big player's reader takes all that questions 2 and 3 let pass.
pub const BOARD: Limits = Limits {
    sources: 255,
    events: MOST_EVENTS,
};

/// The compact player's reader, for short records on little memory.
pub const COMPACT: Limits = Limits {
    sources: 63,
    events: 500,
};

impl Limits {
    /// The bytes of the longest record.
    pub fn longest(self) -> usize {
        8 + 8 * self.events
    }
}

#[derive(Clone, Debug, PartialEq, Eq)]
pub struct Record {
    pub sources: u32,
    pub events: Vec<Event>,
}

/// The number of the question that was answered no, and the place.
#[derive(Clone, Copy, Debug, PartialEq, Eq)]
pub struct Refusal {
    pub number: u32,
    pub place: usize,
}

fn refuse<T>(number: u32) -> Result<T, Refusal> {
    Err(Refusal { number, place: 0 })
}

fn word_at(bytes: &[u8], place: usize) -> u32 {
    let four = &bytes[4 * place..4 * place + 4];
    u32::from_le_bytes([four[0], four[1], four[2], four[3]])
}

/// What is asked of an event in a record: the number of the first question that it fails, or none.
pub type Check = fn(Event) -> Result<(), u32>;

/// The reader's check: questions 6 and 7.
pub fn may_be_read(event: Event) -> Result<(), u32> {
    event.action().map(|_| ())
}

/// The writer's check: question 6, then 27 for the retired kind, then 7.
pub fn may_be_written(event: Event) -> Result<(), u32> {
    match event.action() {
        Err(6) => Err(6),
        _ if event.kind() == CHAIN => Err(27),
        asked => asked.map(|_| ()),
    }
}

/// Asks event by event; the first that fails decides.
fn walk(events: &[Event], check: Check) -> Result<(), Refusal> {
    for (place, &event) in events.iter().enumerate() {
        if let Err(number) = check(event) {
            return Err(Refusal { number, place });
        }
    }
    Ok(())
}

/// Reads a record within the reader's limits; `room` is how many events the destination holds.
pub fn read(bytes: &[u8], limits: Limits, room: usize) -> Result<Record, Refusal> {
    if bytes.len() < 8 {
        return refuse(1);
    }
    let count = word_at(bytes, 0);
    let sources = word_at(bytes, 1);
    if !(2..=255).contains(&sources) {
        return refuse(2);
    }
    if sources > limits.sources {
        return refuse(22);
    }
    if count as usize > MOST_EVENTS {
        return refuse(3);
    }
    let count = count as usize;
    if count > limits.events {
        return refuse(23);
    }
    if bytes.len() != 8 + 8 * count {
        return refuse(4);
    }
    if count > room {
        return refuse(5);
    }
    let events: Vec<Event> = (0..count)
        .map(|place| Event {
            head: word_at(bytes, 2 + place),
            value: word_at(bytes, 2 + count + place),
        })
        .collect();
    walk(&events, may_be_read)?;
    Ok(Record { sources, events })
}

/// Writes a record; `room` is how many bytes the destination holds.
pub fn write(sources: u32, heads: &[u32], values: &[u32], room: usize) -> Result<Vec<u8>, Refusal> {
    write_by(may_be_written, sources, heads, values, room)
}

/// The same, with the check of the events as a parameter.
pub fn write_by(
    check: Check,
    sources: u32,
    heads: &[u32],
    values: &[u32],
    room: usize,
) -> Result<Vec<u8>, Refusal> {
    if !(2..=255).contains(&sources) {
        return refuse(2);
    }
    if heads.len() > MOST_EVENTS {
        return refuse(3);
    }
    if heads.len() != values.len() {
        return refuse(4);
    }
    if 8 + 8 * heads.len() > room {
        return refuse(5);
    }
    let pairs = heads.iter().zip(values);
    let events: Vec<Event> = pairs.map(|(&head, &value)| Event { head, value }).collect();
    walk(&events, check)?;
    Ok(lay_out(heads.len() as u32, sources, heads, values))
}

/// The bytes of a record without any check.
pub fn lay_out(count: u32, sources: u32, heads: &[u32], values: &[u32]) -> Vec<u8> {
    let sizes = [count, sources];
    let words = sizes.iter().chain(heads).chain(values);
    words.flat_map(|word| word.to_le_bytes()).collect()
}

fn heads_and_values(record: &Record) -> (Vec<u32>, Vec<u32>) {
    let events = record.events.iter();
    events.map(|event| (event.head, event.value)).unzip()
}

/// The bytes of a whole record without any check. Old records, with kind 7, are made so.
pub fn bytes_of(record: &Record) -> Vec<u8> {
    let (heads, values) = heads_and_values(record);
    lay_out(heads.len() as u32, record.sources, &heads, &values)
}

/// Writes a whole record.
pub fn write_record(record: &Record) -> Result<Vec<u8>, Refusal> {
    let (heads, values) = heads_and_values(record);
    write(record.sources, &heads, &values, BOARD.longest())
}

/// The record of four sources and ten events whose print the specification lists.
pub fn listing() -> Record {
    let pairs = [
        (0x0002_2008, 1),
        (0x0002_0008, 5),
        (0x0000_0000, 4),
        (0x0005_0000, 0),
        (0x0009_0000, 1),
        (0x0005_0000, 0),
        (0x0006_0000, 0),
        (0x0008_0000, 0),
        (0x0009_0000, 0),
        (0x0008_0000, 0),
    ];
    let events = pairs
        .iter()
        .map(|&(head, value)| Event { head, value })
        .collect();
    Record { sources: 4, events }
}
