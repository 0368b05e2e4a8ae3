//! The print of a record.

use crate::event::{CHAIN, KINDS, LOOK};
use crate::machine::Machine;
use crate::record::{self, Limits, Record};
use std::fmt::Write;

/// What a playing showed, for a summary of many playings.
#[derive(Clone, Debug, Default)]
pub struct Tally {
    pub events: u64,
    /// How often each refusal number was printed.
    pub refusals: [u64; 28],
    /// Accepted events by kind.
    pub accepted: [u64; KINDS as usize],
    pub chains_served: u64,
    /// Looks that didn't answer 0.
    pub looks_found: u64,
    pub deepest: usize,
}

impl Tally {
    pub fn add(&mut self, other: &Tally) {
        self.events += other.events;
        for (sum, more) in self.refusals.iter_mut().zip(other.refusals) {
            *sum += more;
        }
        for (sum, more) in self.accepted.iter_mut().zip(other.accepted) {
            *sum += more;
        }
        self.chains_served += other.chains_served;
        self.looks_found += other.looks_found;
        self.deepest = self.deepest.max(other.deepest);
    }
}

/// The text that a player of these limits prints for the bytes of a record, good or bad.
pub fn print(bytes: &[u8], limits: Limits) -> String {
    play(bytes, limits).0
}

pub fn play(bytes: &[u8], limits: Limits) -> (String, Tally) {
    let mut text = String::new();
    let mut tally = Tally::default();
    match record::read(bytes, limits, limits.events) {
        Ok(record) => play_record(&record, &mut text, &mut tally),
        Err(refusal) => {
            tally.refusals[refusal.number as usize] += 1;
            line(
                &mut text,
                format_args!("refused {} at {}", refusal.number, refusal.place),
            );
        }
    }
    (text, tally)
}

fn play_record(record: &Record, text: &mut String, tally: &mut Tally) {
    let (mut machine, _) = Machine::power_on(record.sources);
    line(
        text,
        format_args!("sources {} events {}", record.sources, record.events.len()),
    );
    for (index, &event) in record.events.iter().enumerate() {
        let outcome = machine.play(event);
        let kind = event.kind();
        line(
            text,
            format_args!("{index} {kind} {} {}", outcome.answer, outcome.refusal),
        );

        tally.events += 1;
        tally.refusals[outcome.refusal as usize] += 1;
        if outcome.refusal == 0 {
            tally.accepted[kind as usize] += 1;
            tally.chains_served += u64::from(kind == CHAIN && outcome.answer != 0);
            tally.looks_found += u64::from(kind == LOOK && outcome.answer != 0);
        }
        tally.deepest = tally.deepest.max(machine.handlers.len());
    }
    let (open, level) = (machine.handlers.len(), machine.current_rank().0);
    line(
        text,
        format_args!("end open {open} level {level} margin {}", machine.margin()),
    );
}

fn line(text: &mut String, words: std::fmt::Arguments) {
    text.write_fmt(words).expect("a string takes all text");
    text.push('\n');
}
