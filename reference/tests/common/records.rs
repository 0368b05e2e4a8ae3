//! Records for the tests: laid out, generated, and where they are refused.

#![allow(dead_code)]

use reference::event::Event;
use reference::generate::FAMILIES;
use reference::random::Random;
use reference::record::{self, lay_out, Limits, Refusal};
use std::collections::BTreeMap;

pub fn reading(bytes: &[u8], limits: Limits) -> Option<(u32, usize)> {
    let refusal = record::read(bytes, limits, limits.events).err();
    refusal.map(|Refusal { number, place }| (number, place))
}

/// A record of so many sources.
pub fn laid_out(sources: u32, events: &[(u32, u32)]) -> Vec<u8> {
    let heads: Vec<u32> = events.iter().map(|event| event.0).collect();
    let values: Vec<u32> = events.iter().map(|event| event.1).collect();
    lay_out(events.len() as u32, sources, &heads, &values)
}

pub fn family_of(name: &str, rounds: u64, limits: Limits) -> Vec<Vec<u8>> {
    let (_, build) = FAMILIES.iter().find(|found| found.0 == name).unwrap();
    let record = |round| build(&mut Random::for_index(1, round), limits);
    (0..rounds).map(record).collect()
}

/// The event at which a record is refused with 6 or 7.
pub fn refused_at(bytes: &[u8], limits: Limits) -> Option<(u32, Event)> {
    let (number, place) = reading(bytes, limits)?;
    let word = |place: usize| {
        let four = bytes[4 * place..4 * place + 4].try_into().unwrap();
        u32::from_le_bytes(four)
    };
    let head = word(2 + place);
    let value = word(2 + word(0) as usize + place);
    Some((number, Event { head, value }))
}

/// What the records of a family met, by name.
#[derive(Default)]
pub struct Met {
    pub times: BTreeMap<String, u32>,
}

impl Met {
    pub fn count(&mut self, name: impl Into<String>) {
        *self.times.entry(name.into()).or_default() += 1;
    }

    pub fn count_if(&mut self, yes: bool, name: &str) {
        if yes {
            self.count(name);
        }
    }

    pub fn times(&self, name: &str) -> u32 {
        self.times.get(name).copied().unwrap_or(0)
    }

    pub fn at_least(&self, least: u32, name: &str) {
        let times = self.times(name);
        assert!(times >= least, "{name}: {times}");
    }
}
