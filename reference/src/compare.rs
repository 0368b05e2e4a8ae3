//! Runs another player on generated records and compares the prints.

use crate::event::KINDS;
use crate::generate::{generate, FAMILIES};
use crate::player::{self, Tally};
use crate::program::{shown, ways, Program};
use crate::record::{self, Limits};

const NAMES: [&str; KINDS as usize] = [
    "sample",
    "load",
    "store",
    "CSR read",
    "CSR write",
    "take",
    "open",
    "chain",
    "return",
    "set mask",
    "clock",
    "error",
    "look",
    "commit",
];

/// What is compared: a program, and how many inputs of which seed it gets.
pub struct Comparison<'a> {
    pub program: Program<'a>,
    pub count: u64,
    pub seed: u64,
}

impl Comparison<'_> {
    pub(crate) fn check(&self) -> Result<(), String> {
        if self.count == 0 {
            return Err("COUNT is 0: nothing would be compared".to_string());
        }
        Ok(())
    }
}

/// Where the program and this one part.
pub struct Difference {
    pub seed: u64,
    pub index: u64,
    /// What the program was given: a record or a text.
    pub what: &'static str,
    pub family: &'static str,
    pub input: Vec<u8>,
    pub in_pieces: bool,
    /// The first that is different, as both wrote it, or how else the program ended.
    pub reason: String,
}

/// What all the records showed, in all and by family.
pub struct Summary {
    pub count: u64,
    pub all: Tally,
    pub families: Vec<(&'static str, u64, Tally)>,
}

pub enum Verdict<S> {
    Alike(Box<S>),
    Different(Difference),
}

/// Compares record after record with this player of the same limits, up to the first difference.
pub fn compare(comparison: &Comparison, limits: Limits) -> Result<Verdict<Summary>, String> {
    comparison.check()?;
    let none = |&(name, _): &(&'static str, _)| (name, 0, Tally::default());
    let mut summary = Summary {
        count: comparison.count,
        all: Tally::default(),
        families: FAMILIES.iter().map(none).collect(),
    };
    for index in 0..comparison.count {
        let generated = generate(comparison.seed, index, limits);
        let record = &generated.bytes;
        let (expected, tally) = player::play(record, limits);
        for &in_pieces in ways(index) {
            let reason = match comparison.program.run(record, in_pieces, false)? {
                Ok(written) => difference(record, limits, expected.as_bytes(), &written.output),
                Err(ending) => Some(format!("the player: {ending}")),
            };
            if let Some(reason) = reason {
                return Ok(Verdict::Different(Difference {
                    seed: comparison.seed,
                    index,
                    what: "record",
                    family: generated.family,
                    input: generated.bytes,
                    in_pieces,
                    reason,
                }));
            }
        }
        summary.all.add(&tally);
        for (name, records, sum) in &mut summary.families {
            if *name == generated.family {
                *records += 1;
                sum.add(&tally);
            }
        }
    }
    Ok(Verdict::Alike(Box::new(summary)))
}

fn difference(record: &[u8], limits: Limits, expected: &[u8], printed: &[u8]) -> Option<String> {
    if printed == expected {
        return None;
    }
    let mine: Vec<&[u8]> = expected.split_inclusive(|&byte| byte == b'\n').collect();
    let theirs: Vec<&[u8]> = printed.split_inclusive(|&byte| byte == b'\n').collect();
    let mut place = 0;
    while mine.get(place).is_some() && mine.get(place) == theirs.get(place) {
        place += 1;
    }
    let line = |lines: &[&[u8]]| shown(lines.get(place).unwrap_or(&&b""[..]));
    Some(format!(
        "line {}, {}\n  reference {}\n  player    {}",
        place + 1,
        what_line(record, limits, place),
        line(&mine),
        line(&theirs)
    ))
}

/// What a line of a record's print is about; lines count from 0 here.
fn what_line(record: &[u8], limits: Limits, line: usize) -> String {
    let events = match record::read(record, limits, limits.events) {
        Ok(record) => record.events,
        Err(_) if line == 0 => return "the line of the refusal".to_string(),
        Err(_) => return "after the line of the refusal".to_string(),
    };
    if line == 0 {
        return "the first line".to_string();
    }
    let index = line - 1;
    match events.get(index) {
        Some(event) => format!("event {index}, {event}"),
        None if index == events.len() => "the last line".to_string(),
        None => "after the last line".to_string(),
    }
}

impl Difference {
    pub fn text(&self) -> String {
        let pieces = if self.in_pieces {
            ", fed in pieces"
        } else {
            ""
        };
        format!(
            "seed {}, {} {}, family {}{pieces}: different\n{}\n",
            self.seed, self.what, self.index, self.family, self.reason
        )
    }
}

impl Summary {
    pub fn text(&self) -> String {
        let mut lines = vec![format!("compared {} records: alike", self.count)];
        for (name, records, tally) in &self.families {
            let refused: u64 = tally.refusals[1..].iter().sum();
            lines.push(format!(
                "family {name}: records {records} events {} refusals {refused} deepest {}",
                tally.events, tally.deepest
            ));
        }
        for (kind, name) in NAMES.iter().enumerate() {
            lines.push(format!(
                "kind {kind} ({name}): accepted {}",
                self.all.accepted[kind]
            ));
        }
        lines.push(format!("chains served: {}", self.all.chains_served));
        lines.push(format!("looks not 0: {}", self.all.looks_found));
        for (number, times) in self.all.refusals.iter().enumerate().skip(1) {
            if *times > 0 {
                lines.push(format!("refusal {number}: {times}"));
            }
        }
        lines.join("\n") + "\n"
    }
}
