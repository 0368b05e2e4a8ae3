//! Runs a converter of texts on generated texts and compares the records and the messages.

use crate::compare::{Comparison, Difference, Verdict};
use crate::program::{shown, ways, Output};
use crate::text::{to_record, Fault};
use crate::texts::{make, FAMILIES};

/// How many texts came out in each way, in the order of `SORTS`.
pub type Counts = [u64; SORTS.len()];

pub const SORTS: [&str; 10] = [
    "accepted",
    "more than 1,048,576 bytes",
    "not N",
    "not HEAD:VALUE",
    "a head of fewer than eight digits",
    "more than 4,000 events",
    "refused 2",
    "refused 6",
    "refused 7",
    "refused 27",
];

/// The place in `SORTS` of what became of a text.
pub fn sort(result: &Result<Vec<u8>, Fault>) -> usize {
    match result {
        Ok(_) => 0,
        Err(Fault::TooLong) => 1,
        Err(Fault::Sources { .. }) => 2,
        Err(Fault::Event { .. }) => 3,
        Err(Fault::ShortHead { .. }) => 4,
        Err(Fault::TooMany { .. }) => 5,
        Err(Fault::Question { refusal, .. }) => match refusal.number {
            2 => 6,
            6 => 7,
            27 => 9,
            _ => 8,
        },
    }
}

/// What became of the texts, in all and by family.
pub struct Summary {
    pub count: u64,
    pub all: Counts,
    pub families: Vec<(&'static str, Counts)>,
}

/// What this converter writes: a record, or a message.
pub fn output(result: &Result<Vec<u8>, Fault>) -> Output {
    match result {
        Ok(record) => Output {
            output: record.clone(),
            errors: Vec::new(),
        },
        Err(fault) => Output {
            output: Vec::new(),
            errors: format!("{fault}\n").into_bytes(),
        },
    }
}

/// Compares text after text, up to the first difference.
pub fn compare_text(comparison: &Comparison) -> Result<Verdict<Summary>, String> {
    comparison.check()?;
    let mut summary = Summary {
        count: comparison.count,
        all: Counts::default(),
        families: FAMILIES
            .iter()
            .map(|&(name, _)| (name, Counts::default()))
            .collect(),
    };
    for index in 0..comparison.count {
        let text = make(comparison.seed, index);
        let result = to_record(&text.bytes);
        let expected = output(&result);
        for &in_pieces in ways(index) {
            let reason = match comparison.program.run(&text.bytes, in_pieces, true)? {
                Ok(written) => difference(&expected, &written),
                Err(ending) => Some(format!("the converter: {ending}")),
            };
            if let Some(reason) = reason {
                return Ok(Verdict::Different(Difference {
                    seed: comparison.seed,
                    index,
                    what: "text",
                    family: text.family,
                    input: text.bytes,
                    in_pieces,
                    reason,
                }));
            }
        }
        let place = sort(&result);
        summary.all[place] += 1;
        for (name, counts) in &mut summary.families {
            if *name == text.family {
                counts[place] += 1;
            }
        }
    }
    Ok(Verdict::Alike(Box::new(summary)))
}

fn difference(expected: &Output, written: &Output) -> Option<String> {
    let mut lines = Vec::new();
    if written.errors != expected.errors {
        lines.push("standard error".to_string());
        lines.push(format!("  reference {}", shown(&expected.errors)));
        lines.push(format!("  converter {}", shown(&written.errors)));
    }
    let (mine, theirs) = (&expected.output, &written.output);
    if mine != theirs {
        let alike = mine.iter().zip(theirs).take_while(|(a, b)| a == b).count();
        let byte = |bytes: &[u8]| match bytes.get(alike) {
            Some(byte) => format!("0x{byte:02x} ({} bytes in all)", bytes.len()),
            None => format!("nothing ({} bytes in all)", bytes.len()),
        };
        lines.push(format!("standard output, byte {alike} from 0"));
        lines.push(format!("  reference {}", byte(mine)));
        lines.push(format!("  converter {}", byte(theirs)));
    }
    if lines.is_empty() {
        None
    } else {
        Some(lines.join("\n"))
    }
}

impl Summary {
    pub fn text(&self) -> String {
        let mut lines = vec![format!("compared {} texts: alike", self.count)];
        for (name, counts) in &self.families {
            let texts: u64 = counts.iter().sum();
            lines.push(format!(
                "family {name}: texts {texts} accepted {}",
                counts[0]
            ));
        }
        for (name, times) in SORTS.iter().zip(self.all) {
            lines.push(format!("{name}: {times}"));
        }
        lines.join("\n") + "\n"
    }
}
