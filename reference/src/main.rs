//! Commands: play, text, lay-out, generate, compare, compare-text, listing, bench-record, and
//! play-compact, generate-compact, compare-compact for the compact player.

use reference::compare::{compare, Comparison, Difference, Verdict};
use reference::compare_text::compare_text;
use reference::generate::{bench_record, generate};
use reference::player;
use reference::program::Program;
use reference::record::{listing, write_record, Limits, BOARD, COMPACT, MOST_EVENTS};
use reference::text::{to_old_record, to_record, Fault, MOST_BYTES};
use std::fs;
use std::io::{self, Read, Write};
use std::path::PathBuf;
use std::process::ExitCode;

const USAGE: &str = "\
usage: reference play < RECORD
       reference play-compact < RECORD
       reference text < TEXT > RECORD
       reference lay-out < TEXT > RECORD
       reference generate SEED INDEX OUTFILE
       reference generate-compact SEED INDEX OUTFILE
       reference compare PLAYER COUNT SEED [ARGUMENT OF PLAYER]...
       reference compare-compact PLAYER COUNT SEED [ARGUMENT OF PLAYER]...
       reference compare-text CONVERTER COUNT SEED [ARGUMENT OF CONVERTER]...
       reference listing OUTFILE
       reference bench-record samples|mixed|nested|added EVENTS OUTFILE";

type Failure = Box<dyn std::error::Error>;

fn main() -> ExitCode {
    let arguments: Vec<String> = std::env::args().skip(1).collect();
    let words: Vec<&str> = arguments.iter().map(String::as_str).collect();
    let result = match words[..] {
        ["play"] => play(BOARD),
        ["play-compact"] => play(COMPACT),
        ["text"] => text(to_record),
        ["lay-out"] => text(to_old_record),
        ["generate", seed, index, file] => generate_file(seed, index, file, BOARD),
        ["generate-compact", seed, index, file] => generate_file(seed, index, file, COMPACT),
        ["compare", player, count, seed, ..] => {
            compare_players(player, count, seed, &arguments[4..], BOARD)
        }
        ["compare-compact", player, count, seed, ..] => {
            compare_players(player, count, seed, &arguments[4..], COMPACT)
        }
        ["compare-text", converter, count, seed, ..] => {
            compare_converters(converter, count, seed, &arguments[4..])
        }
        ["listing", file] => write_listing(file),
        ["bench-record", name, events, file] => write_bench_record(name, events, file),
        _ => Err(USAGE.into()),
    };
    result.unwrap_or_else(|failure| {
        eprintln!("{failure}");
        ExitCode::from(2)
    })
}

fn number(word: &str) -> Result<u64, Failure> {
    word.parse()
        .map_err(|_| format!("not a number: {word}").into())
}

fn program_path(name: &str) -> Result<PathBuf, Failure> {
    fs::canonicalize(name).map_err(|error| format!("cannot find {name}: {error}").into())
}

/// Standard input, of which no more than `most` bytes are read.
fn input(most: u64) -> Result<Vec<u8>, Failure> {
    let mut bytes = Vec::new();
    match io::stdin().lock().take(most).read_to_end(&mut bytes) {
        Ok(_) => Ok(bytes),
        Err(error) => Err(format!("cannot read standard input: {error}").into()),
    }
}

fn say(bytes: &[u8]) -> Result<(), Failure> {
    let mut output = io::stdout().lock();
    let written = output.write_all(bytes).and_then(|()| output.flush());
    written.map_err(|error| format!("cannot write standard output: {error}").into())
}

fn write_file(file: &str, bytes: &[u8]) -> Result<(), Failure> {
    fs::write(file, bytes).map_err(|error| format!("cannot write {file}: {error}").into())
}

fn play(limits: Limits) -> Result<ExitCode, Failure> {
    let bytes = input(u64::MAX)?;
    say(player::print(&bytes, limits).as_bytes())?;
    Ok(ExitCode::SUCCESS)
}

fn text(convert: fn(&[u8]) -> Result<Vec<u8>, Fault>) -> Result<ExitCode, Failure> {
    // One byte more than a text may have tells that it is too long.
    match convert(&input(MOST_BYTES as u64 + 1)?) {
        Ok(record) => {
            say(&record)?;
            Ok(ExitCode::SUCCESS)
        }
        Err(fault) => {
            eprintln!("{fault}");
            Ok(ExitCode::FAILURE)
        }
    }
}

fn generate_file(seed: &str, index: &str, file: &str, limits: Limits) -> Result<ExitCode, Failure> {
    let generated = generate(number(seed)?, number(index)?, limits);
    write_file(file, &generated.bytes)?;
    let size = generated.bytes.len();
    say(format!("family {}: {size} bytes\n", generated.family).as_bytes())?;
    Ok(ExitCode::SUCCESS)
}

fn compare_players(
    player: &str,
    count: &str,
    seed: &str,
    arguments: &[String],
    limits: Limits,
) -> Result<ExitCode, Failure> {
    let path = &program_path(player)?;
    let comparison = Comparison {
        program: Program { path, arguments },
        count: number(count)?,
        seed: number(seed)?,
    };
    match compare(&comparison, limits)? {
        Verdict::Alike(summary) => alike(&summary.text()),
        Verdict::Different(found) => different(&found, "difference.rec"),
    }
}

fn compare_converters(
    converter: &str,
    count: &str,
    seed: &str,
    arguments: &[String],
) -> Result<ExitCode, Failure> {
    let path = &program_path(converter)?;
    let comparison = Comparison {
        program: Program { path, arguments },
        count: number(count)?,
        seed: number(seed)?,
    };
    match compare_text(&comparison)? {
        Verdict::Alike(summary) => alike(&summary.text()),
        Verdict::Different(found) => different(&found, "difference.txt"),
    }
}

fn alike(summary: &str) -> Result<ExitCode, Failure> {
    say(summary.as_bytes())?;
    Ok(ExitCode::SUCCESS)
}

fn different(found: &Difference, file: &str) -> Result<ExitCode, Failure> {
    say(found.text().as_bytes())?;
    write_file(file, &found.input)?;
    say(format!("the {} is in {file}\n", found.what).as_bytes())?;
    Ok(ExitCode::FAILURE)
}

fn write_listing(file: &str) -> Result<ExitCode, Failure> {
    let bytes = write_record(&listing()).map_err(|refusal| format!("{refusal:?}"))?;
    write_file(file, &bytes)?;
    Ok(ExitCode::SUCCESS)
}

fn write_bench_record(name: &str, events: &str, file: &str) -> Result<ExitCode, Failure> {
    let events = number(events)?;
    if events > MOST_EVENTS as u64 {
        return Err(format!("a record holds at most {MOST_EVENTS} events").into());
    }
    let bytes = bench_record(name, events as usize).ok_or(USAGE)?;
    write_file(file, &bytes)?;
    Ok(ExitCode::SUCCESS)
}
