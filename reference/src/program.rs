//! Another program, run on given bytes.

use crate::random::Random;
use std::io::{Read, Write};
use std::path::Path;
use std::process::{ChildStdin, Command, Stdio};
use std::sync::mpsc;
use std::thread;
use std::time::{Duration, Instant};

/// A program that has not ended its output after so long is taken to hang.
const PATIENCE: Duration = Duration::from_secs(60);

/// The most bytes of a line or message that a report shows.
const SHOWN: usize = 300;

pub struct Program<'a> {
    pub path: &'a Path,
    pub arguments: &'a [String],
}

/// What a program wrote. Standard error is empty here unless it was asked for.
pub struct Output {
    pub output: Vec<u8>,
    pub errors: Vec<u8>,
}

/// What a program wrote, or in what other way it ended.
pub type Written = Result<Output, String>;

impl Program<'_> {
    /// Runs the program; standard error is kept, or goes where this program's goes. The error is a
    /// failure to run it at all.
    pub fn run(&self, input: &[u8], in_pieces: bool, keep_errors: bool) -> Result<Written, String> {
        let name = self.path.display();
        let mut command = Command::new(self.path);
        command.args(self.arguments);
        command.stdin(Stdio::piped()).stdout(Stdio::piped());
        if keep_errors {
            command.stderr(Stdio::piped());
        }
        let mut child = command
            .spawn()
            .map_err(|error| format!("cannot start {name}: {error}"))?;
        let stdin = child.stdin.take().expect("standard input is piped");
        let stdout = child.stdout.take().expect("standard output is piped");

        let bytes = input.to_vec();
        let writer = thread::spawn(move || feed(stdin, &bytes, in_pieces));
        let output = collect(stdout);
        let errors = child.stderr.take().map(collect);
        let deadline = Instant::now() + PATIENCE;
        let left = || deadline.saturating_duration_since(Instant::now());
        let output = output.recv_timeout(left());
        let errors = match errors {
            Some(errors) => errors.recv_timeout(left()),
            None => Ok(Ok(Vec::new())),
        };

        let late = output.is_err() || errors.is_err();
        if late {
            child
                .kill()
                .map_err(|error| format!("cannot stop {name}: {error}"))?;
        }
        let status = child
            .wait()
            .map_err(|error| format!("cannot wait for {name}: {error}"))?;
        let (output, errors) = match (output, errors) {
            (Ok(output), Ok(errors)) => (output, errors),
            _ => return Ok(Err(format!("no end of output in {} s", PATIENCE.as_secs()))),
        };
        writer.join().expect("the writing thread ends");
        if status.code().is_none() {
            return Ok(Err(format!("ended by {status}")));
        }
        let unread = |error| format!("cannot read what {name} wrote: {error}");
        Ok(Ok(Output {
            output: output.map_err(unread)?,
            errors: errors.map_err(unread)?,
        }))
    }
}

type Bytes = std::io::Result<Vec<u8>>;

/// Reads a pipe to its end, beside other work.
fn collect(mut pipe: impl Read + Send + 'static) -> mpsc::Receiver<Bytes> {
    let (sender, receiver) = mpsc::channel();
    thread::spawn(move || {
        let mut bytes = Vec::new();
        let result = pipe.read_to_end(&mut bytes).map(|_| bytes);
        // The receiver is gone if it lost patience.
        let _ = sender.send(result);
    });
    receiver
}

/// Gives the input to the program, which may stop reading early, so failures don't count.
fn feed(mut stdin: ChildStdin, input: &[u8], in_pieces: bool) {
    if !in_pieces {
        let _ = stdin.write_all(input);
        return;
    }
    let mut random = Random::new(input.len() as u64);
    let largest = 9.max(input.len() as u32 / 5000);
    let mut rest = input;
    let mut pieces = 0;
    while !rest.is_empty() {
        let size = (random.between(1, largest) as usize).min(rest.len());
        let (piece, after) = rest.split_at(size);
        if stdin.write_all(piece).is_err() {
            return;
        }
        rest = after;
        pieces += 1;
        // A pause lets the program read what is there, less than it asked for.
        if pieces <= 20 || after.len() < 20 || random.chance(1, 100) {
            thread::sleep(Duration::from_micros(50));
        }
    }
}

/// Whether input `index` is given whole only, or also in pieces.
pub fn ways(index: u64) -> &'static [bool] {
    if index % 16 == 0 {
        &[false, true]
    } else {
        &[false]
    }
}

/// Bytes as a report shows them: quoted, with escapes, long ones cut.
pub fn shown(bytes: &[u8]) -> String {
    if bytes.is_empty() {
        return "nothing".to_string();
    }
    let start = &bytes[..bytes.len().min(SHOWN)];
    let more = if start.len() < bytes.len() {
        format!(" and more, {} bytes in all", bytes.len())
    } else {
        String::new()
    };
    format!("\"{}\"{more}", start.escape_ascii())
}
