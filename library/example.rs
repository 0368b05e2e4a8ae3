//! Plays the ten-event record of document 01 by both calls and prints what they answer: the print by `play`, then the same lines from `numbers`. library/run
//! compiles and runs it.

use std::fmt::Write as _;
use std::io::{self, Write as _};
use std::process::ExitCode;

/// The bytes that are enough for the print of a record with so many events.
const fn print_size(events: usize) -> usize {
    143 + 23 * events
}

/// What no call has written yet.
const MARK: u8 = 0x5a;

/// The numbers of a record, in the order of `veer_eh1_end` in veer_eh1.h.
#[repr(C)]
#[derive(Default)]
struct End {
    refusal: i32,
    place: i32,
    sources: i32,
    events: i32,
    open: i32,
    level: i32,
    margin: i32,
}

extern "C" {
    // A slice of Rattle is a pointer and a length.
    fn veer_eh1_play(record: *const u8, record_length: usize, print: *mut u8, print_length: usize) -> usize;
    fn veer_eh1_numbers(
        record: *const u8,
        record_length: usize,
        answers: *mut u32,
        answers_length: usize,
        refusals: *mut u8,
        refusals_length: usize,
        end: *mut End,
    ) -> u8;
}

/// Plays a record. The print stands in the first bytes of `print`, and the answer is its length, or 0 if `print` is too short.
fn play(record: &[u8], print: &mut [u8]) -> usize {
    // Sound for any two slices: the call reads the one and writes the other, both within their lengths, and keeps neither.
    unsafe { veer_eh1_play(record.as_ptr(), record.len(), print.as_mut_ptr(), print.len()) }
}

/// Plays a record. What its events answer and what they are refused with stands in the first places of the two slices, if the refusal of `End` is 0.
fn numbers(record: &[u8], answers: &mut [u32], refusals: &mut [u8]) -> End {
    let mut end = End::default();
    // Sound for any three slices, as above; `end` is seven numbers of 32 bits.
    unsafe {
        veer_eh1_numbers(
            record.as_ptr(),
            record.len(),
            answers.as_mut_ptr(),
            answers.len(),
            refusals.as_mut_ptr(),
            refusals.len(),
            &mut end,
        )
    };
    end
}

const SOURCES: u32 = 4;

/// Head and value of each event.
const EVENTS: [(u32, u32); 10] = [
    (0x0002_2008, 1),
    (0x0002_0008, 5),
    (0x0000_0000, 4),
    (0x0005_0000, 0),
    (0x0009_0000, 1),
    (0x0005_0000, 0),
    (0x0006_0000, 0),
    (0x0008_0000, 0),
    (0x0009_0000, 0),
    (0x0008_0000, 0),
];

/// Numbers of 32 bits, lowest byte first: the number of events, N, the heads, the values.
fn record() -> Vec<u8> {
    let sizes = [EVENTS.len() as u32, SOURCES];
    let heads = EVENTS.iter().map(|event| event.0);
    let values = EVENTS.iter().map(|event| event.1);
    sizes.into_iter().chain(heads).chain(values).flat_map(u32::to_le_bytes).collect()
}

/// The lines of the print, from the numbers.
fn lines(end: &End, answers: &[u32], refusals: &[u8]) -> String {
    if end.refusal != 0 {
        return format!("refused {} at {}\n", end.refusal, end.place);
    }
    let mut lines = format!("sources {} events {}\n", end.sources, end.events);
    for (i, ((head, _), (answer, refusal))) in EVENTS.iter().zip(answers.iter().zip(refusals)).enumerate() {
        writeln!(lines, "{i} {} {answer} {refusal}", head >> 16).expect("a String takes every text");
    }
    lines + &format!("end open {} level {} margin {}\n", end.open, end.level, end.margin)
}

fn main() -> ExitCode {
    let record = record();
    let n = EVENTS.len();
    // One place more than is used, which must stay as it was.
    let mut print = vec![MARK; print_size(n) + 1];
    let mut answers = vec![u32::from(MARK); n + 1];
    let mut refusals = vec![MARK; n + 1];
    let short = play(&record, &mut print[..print_size(n) - 1]) == 0
        && numbers(&record, &mut answers[..n - 1], &mut refusals).refusal == 5
        && numbers(&record, &mut answers, &mut refusals[..n - 1]).refusal == 5;
    let untouched = print.iter().chain(&refusals).all(|&byte| byte == MARK) && answers.iter().all(|&answer| answer == u32::from(MARK));
    if !short || !untouched {
        eprintln!("example: an array that is too short was used");
        return ExitCode::FAILURE;
    }
    let length = play(&record, &mut print[..print_size(n)]);
    let end = numbers(&record, &mut answers, &mut refusals);
    if length == 0 || print[length..].iter().any(|&byte| byte != MARK) || answers[n] != u32::from(MARK) || refusals[n] != MARK {
        eprintln!("example: the print did not fit, or what lies after it was changed");
        return ExitCode::FAILURE;
    }
    let text = lines(&end, &answers, &refusals);
    match io::stdout().write_all(&[&print[..length], text.as_bytes()].concat()) {
        Ok(()) => ExitCode::SUCCESS,
        Err(error) => {
            eprintln!("example: {error}");
            ExitCode::FAILURE
        }
    }
}
