//! The record of a text: a line for N in decimal, then one for each event, its head and value in
//! hexadecimal, the head in eight digits.

use crate::record::{
    self, may_be_read, may_be_written, Check, Record, Refusal, BOARD, MOST_EVENTS,
};
use std::fmt;

/// The most bytes that a text has.
pub const MOST_BYTES: usize = 1_048_576;

/// The digits of a head.
pub const HEAD_DIGITS: usize = 8;

/// Why a text makes no record. Lines count from 1.
#[derive(Clone, Copy, Debug, PartialEq, Eq)]
pub enum Fault {
    TooLong,
    Sources { line: usize },
    Event { line: usize },
    ShortHead { line: usize },
    TooMany { line: usize },
    Question { refusal: Refusal, line: usize },
}

impl fmt::Display for Fault {
    fn fmt(&self, text: &mut fmt::Formatter) -> fmt::Result {
        match self {
            Fault::TooLong => write!(text, "refused: the text has more than 1,048,576 bytes"),
            Fault::Sources { line } => write!(
                text,
                "refused at line {line}: not N, one to three decimal digits"
            ),
            Fault::Event { line } => write!(
                text,
                "refused at line {line}: not HEAD:VALUE in hexadecimal"
            ),
            Fault::ShortHead { line } => write!(
                text,
                "refused at line {line}: the head has fewer than eight digits"
            ),
            Fault::TooMany { line } => {
                write!(text, "refused at line {line}: more than 4,000 events")
            }
            Fault::Question { refusal, line } => {
                let Refusal { number, place } = refusal;
                let words = match number {
                    2 => "N is not 2 to 255",
                    6 => "the kind is not 0 to 13",
                    27 => "kind 7 is no longer written: chain by look and commit, 12 and 13",
                    _ => "an address or a value that the kind does not use is not 0",
                };
                write!(text, "refused {number} at {place} (line {line}): {words}")
            }
        }
    }
}

/// The bytes of the record that a text makes.
pub fn to_record(text: &[u8]) -> Result<Vec<u8>, Fault> {
    convert(text, may_be_written)
}

/// The same for an old record, which may have kind 7.
pub fn to_old_record(text: &[u8]) -> Result<Vec<u8>, Fault> {
    convert(text, may_be_read)
}

fn convert(text: &[u8], check: Check) -> Result<Vec<u8>, Fault> {
    if text.len() > MOST_BYTES {
        return Err(Fault::TooLong);
    }
    let lines: Vec<&[u8]> = text.split_inclusive(|&byte| byte == b'\n').collect();
    let mut said = (1..)
        .zip(lines.iter().map(|line| trim(without_end(line))))
        .filter(|(_, words)| !words.is_empty());

    let after = lines.len() + 1;
    let (first, words) = said.next().ok_or(Fault::Sources { line: after })?;
    let sources = decimal(words).ok_or(Fault::Sources { line: first })?;
    let (mut heads, mut values, mut places) = (Vec::new(), Vec::new(), Vec::new());
    for (line, words) in said {
        if heads.len() == MOST_EVENTS {
            return Err(Fault::TooMany { line });
        }
        let (head, value) = parts(words).ok_or(Fault::Event { line })?;
        if head.digits < HEAD_DIGITS {
            return Err(Fault::ShortHead { line });
        }
        heads.push(head.number);
        values.push(value.number);
        places.push(line);
    }

    let written = record::write_by(check, sources, &heads, &values, BOARD.longest());
    written.map_err(|refusal| {
        let line = match refusal.number {
            2 => first,
            _ => places[refusal.place],
        };
        Fault::Question { refusal, line }
    })
}

/// A line without its line feed, one carriage return before that, and its comment.
fn without_end(line: &[u8]) -> &[u8] {
    let line = line.strip_suffix(b"\n").unwrap_or(line);
    let line = line.strip_suffix(b"\r").unwrap_or(line);
    let comment = line.iter().position(|&byte| byte == b'#');
    &line[..comment.unwrap_or(line.len())]
}

/// Drops blanks and tabs at both ends.
fn trim(mut words: &[u8]) -> &[u8] {
    while let [b' ' | b'\t', rest @ ..] | [rest @ .., b' ' | b'\t'] = words {
        words = rest;
    }
    words
}

fn decimal(digits: &[u8]) -> Option<u32> {
    number(digits, 3, 10)
}

/// A head or a value as it is written: its number, and in how many digits.
struct Part {
    number: u32,
    digits: usize,
}

/// The head and the value of a line, one to eight digits each.
fn parts(words: &[u8]) -> Option<(Part, Part)> {
    let colon = words.iter().position(|&byte| byte == b':')?;
    let head = part(trim(&words[..colon]))?;
    let value = part(trim(&words[colon + 1..]))?;
    Some((head, value))
}

fn part(digits: &[u8]) -> Option<Part> {
    Some(Part {
        number: number(digits, 8, 16)?,
        digits: digits.len(),
    })
}

/// The number of 1 to `most` digits.
fn number(digits: &[u8], most: usize, base: u32) -> Option<u32> {
    if digits.is_empty() || digits.len() > most {
        return None;
    }
    let mut number = 0;
    for &digit in digits {
        number = base * number + char::from(digit).to_digit(base)?;
    }
    Some(number)
}

/// The text of a record in its plainest form.
pub fn canonical(record: &Record) -> Vec<u8> {
    let mut text = format!("{}\n", record.sources);
    for event in &record.events {
        text += &format!("{event}\n");
    }
    text.into_bytes()
}
