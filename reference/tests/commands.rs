//! The program itself: its commands, comparisons with itself, and what it says of failures.

use reference::compare::{compare, Comparison, Difference, Verdict};
use reference::compare_text::compare_text;
use reference::generate::{generate, FAMILIES};
use reference::program::Program;
use reference::record::{lay_out, Limits, BOARD, COMPACT};
use reference::text::to_record;
use reference::texts;
use std::fs;
use std::io::Write;
use std::path::{Path, PathBuf};
use std::process::{Command, Output, Stdio};

const PROGRAM: &str = env!("CARGO_BIN_EXE_reference");

/// An empty folder to run in, one for each test.
fn folder(name: &str) -> PathBuf {
    let folder = Path::new(env!("CARGO_TARGET_TMPDIR")).join(name);
    let _ = fs::remove_dir_all(&folder);
    fs::create_dir_all(&folder).unwrap();
    folder
}

fn run(folder: &Path, arguments: &[&str], input: &[u8]) -> Output {
    let mut child = Command::new(PROGRAM)
        .args(arguments)
        .current_dir(folder)
        .stdin(Stdio::piped())
        .stdout(Stdio::piped())
        .stderr(Stdio::piped())
        .spawn()
        .unwrap();
    // A command that reads nothing may have ended.
    let _ = child.stdin.take().unwrap().write_all(input);
    child.wait_with_output().unwrap()
}

fn ended(output: &Output, status: i32, errors: &str) {
    assert_eq!(String::from_utf8_lossy(&output.stderr), errors);
    assert_eq!(output.status.code(), Some(status));
}

/// The difference that a player shows which is this one followed by a filter.
fn filtered(filter: &str, count: u64) -> Difference {
    let arguments = ["-c".to_string(), format!("'{PROGRAM}' play | {filter}")];
    let comparison = Comparison {
        program: Program {
            path: Path::new("/bin/sh"),
            arguments: &arguments,
        },
        count,
        seed: 1,
    };
    match compare(&comparison, BOARD).unwrap() {
        Verdict::Alike(_) => panic!("{filter} should make a difference"),
        Verdict::Different(found) => found,
    }
}

/// The summary of `count` records that one of this program's own players prints alike.
fn alike(player: &str, count: u64, limits: Limits) -> String {
    let comparison = Comparison {
        program: Program {
            path: Path::new(PROGRAM),
            arguments: &[player.to_string()],
        },
        count,
        seed: 1,
    };
    match compare(&comparison, limits).unwrap() {
        Verdict::Alike(summary) => summary.text(),
        Verdict::Different(found) => panic!("{}", found.text()),
    }
}

#[test]
fn its_own_player_is_alike() {
    let count = 2 * FAMILIES.len() as u64;
    let text = alike("play", count, BOARD);
    assert!(text.starts_with(&format!("compared {count} records: alike\n")));
    for (name, _) in FAMILIES {
        assert!(text.contains(&format!("family {name}: records 2 ")));
    }
    assert!(text.contains("\nkind 9 (set mask): accepted "));
    assert!(text.contains("\nkind 10 (clock): accepted "));
    assert!(text.contains("\nkind 11 (error): accepted "));
    assert!(text.contains("\nkind 12 (look): accepted "));
    assert!(text.contains("\nkind 13 (commit): accepted "));
    assert!(!text.contains("\nrefusal 22: ") && !text.contains("\nrefusal 23: "));
    for number in [24, 25, 26] {
        assert!(text.contains(&format!("\nrefusal {number}: ")));
    }
    assert!(text.contains("\nlooks not 0: "));
}

#[test]
fn its_own_compact_player_is_alike() {
    // Every family twice, and half as many more about the limits.
    let rounds = 2 * FAMILIES.len() as u64;
    let count = rounds + rounds / 2;
    let text = alike("play-compact", count, COMPACT);
    assert!(text.starts_with(&format!("compared {count} records: alike\n")));
    for (name, _) in FAMILIES {
        let records = match *name {
            "limits" => 2 + rounds / 2,
            _ => 2,
        };
        let start = format!("family {name}: records {records} ");
        assert!(text.contains(&start), "{start}");
    }
    assert!(text.contains("\nkind 10 (clock): accepted "));
    assert!(text.contains("\nkind 11 (error): accepted "));
    assert!(text.contains("\nkind 12 (look): accepted "));
    assert!(text.contains("\nkind 13 (commit): accepted "));
    assert!(text.contains("\nrefusal 22: ") && text.contains("\nrefusal 23: "));
}

#[test]
fn the_players_differ_in_their_limits() {
    let folder = folder("limits");
    let report = |command: &str, player: &str| {
        let output = run(&folder, &[command, PROGRAM, "400", "1", player], b"");
        ended(&output, 1, "");
        String::from_utf8(output.stdout).unwrap()
    };
    let refused = |text: &str, by: &str| {
        let line = |number: &u32| format!("\n  {by} \"refused {number} at 0\\n\"\n");
        [22, 23].iter().any(|number| text.contains(&line(number)))
    };
    let text = report("compare", "play-compact");
    assert!(text.contains("\nline 1, the first line\n"), "{text}");
    assert!(refused(&text, "player   "), "{text}");
    let text = report("compare-compact", "play");
    assert!(
        text.contains("\nline 1, the line of the refusal\n"),
        "{text}"
    );
    assert!(refused(&text, "reference"), "{text}");
}

#[test]
fn play_compact_prints_what_play_does_within_its_limits() {
    let folder = folder("play");
    let printed = |command: &str, bytes: &[u8]| {
        let output = run(&folder, &[command], bytes);
        ended(&output, 0, "");
        String::from_utf8(output.stdout).unwrap()
    };
    // Samples of all lines.
    let record = |sources, events: usize| {
        let (heads, values) = (vec![0; events], vec![u32::MAX; events]);
        lay_out(events as u32, sources, &heads, &values)
    };
    let full = record(63, 500);
    let text = printed("play-compact", &full);
    assert!(text.starts_with("sources 63 events 500\n0 0 0 0\n"));
    assert!(text.ends_with("\n499 0 0 0\nend open 0 level 0 margin 0\n"));
    assert_eq!(printed("play", &full), text);
    for (sources, events, refused) in [
        (64, 500, "refused 22 at 0\n"),
        (63, 501, "refused 23 at 0\n"),
        (255, 4000, "refused 22 at 0\n"),
    ] {
        let bytes = record(sources, events);
        assert_eq!(printed("play-compact", &bytes), refused);
        let start = format!("sources {sources} events {events}\n");
        assert!(printed("play", &bytes).starts_with(&start));
    }
    // More input than the longest record.
    for more in [1, 2, 8, 100_000] {
        let mut longer = full.clone();
        longer.resize(full.len() + more, 0);
        assert_eq!(printed("play-compact", &longer), "refused 4 at 0\n");
    }
}

#[test]
fn generate_writes_the_record() {
    let folder = folder("generate");
    for (command, limits) in [("generate", BOARD), ("generate-compact", COMPACT)] {
        for index in ["3", "4", "27"] {
            let output = run(&folder, &[command, "1", index, "out"], b"");
            ended(&output, 0, "");
            let generated = generate(1, index.parse().unwrap(), limits);
            assert_eq!(fs::read(folder.join("out")).unwrap(), generated.bytes);
            let size = generated.bytes.len();
            let line = format!("family {}: {size} bytes\n", generated.family);
            assert_eq!(String::from_utf8(output.stdout).unwrap(), line);
        }
    }
}

#[test]
fn another_print_is_a_difference() {
    let found = filtered("cat >/dev/null", 3);
    assert_eq!((found.index, found.family), (0, "no events"));
    assert_eq!(
        found.text(),
        "seed 1, record 0, family no events: different\nline 1, the first line\n  \
        reference \"sources 31 events 0\\n\"\n  player    nothing\n"
    );
}

#[test]
fn a_difference_names_what_its_line_is_about() {
    let found = filtered("sed 's/^end.*/end/'", 3);
    assert!(found.reason.starts_with("line 2, the last line\n"));
    assert!(found.reason.ends_with("\n  player    \"end\\n\""));
    let found = filtered("sed '$a more'", 3);
    assert!(found.reason.starts_with("line 3, after the last line\n"));
    let found = filtered("sed 's/^refused.*/refused/'", 40);
    assert!(found
        .reason
        .starts_with("line 1, the line of the refusal\n"));
    assert!(found.reason.ends_with("\n  player    \"refused\\n\""));
    // The first event of the first record that has one.
    let found = filtered("sed '2s/^0 .*/0 9 0 99/'", 40);
    assert_eq!((found.index, found.family), (1, "one event"));
    let head = u32::from_le_bytes(found.input[8..12].try_into().unwrap());
    let value = u32::from_le_bytes(found.input[12..16].try_into().unwrap());
    let start = format!("line 2, event 0, {head:08x}:{value:x}\n  reference \"0 ");
    assert!(found.reason.starts_with(&start), "{}", found.reason);
}

#[test]
fn an_end_by_a_signal_is_a_difference() {
    let found = filtered("cat >/dev/null; kill -9 $$", 1);
    assert!(found.reason.starts_with("the player: ended by signal: 9"));
}

#[test]
fn compare_writes_the_record_and_its_report() {
    let folder = folder("compare");
    for (command, limits) in [("compare", BOARD), ("compare-compact", COMPACT)] {
        let output = run(&folder, &[command, PROGRAM, "3", "2", "listing"], b"");
        assert_eq!(output.status.code(), Some(1));
        let text = String::from_utf8(output.stdout).unwrap();
        assert!(text.starts_with("seed 2, record 0, family no events: different\n"));
        assert!(text.ends_with("\nthe record is in difference.rec\n"));
        let record = fs::read(folder.join("difference.rec")).unwrap();
        assert_eq!(record, generate(2, 0, limits).bytes);
    }
    // The seed gives another record to each.
    assert_ne!(generate(2, 0, BOARD).bytes, generate(2, 0, COMPACT).bytes);
}

#[test]
fn a_count_of_0_is_an_error() {
    let folder = folder("count");
    for (command, argument) in [
        ("compare", "play"),
        ("compare-compact", "play-compact"),
        ("compare-text", "text"),
    ] {
        let output = run(&folder, &[command, PROGRAM, "0", "1", argument], b"");
        ended(&output, 2, "COUNT is 0: nothing would be compared\n");
        assert!(output.stdout.is_empty());
    }
}

#[test]
fn failures_name_the_file() {
    let folder = folder("failures");
    let missing = "No such file or directory (os error 2)";
    for arguments in [
        &["generate", "1", "0", "none/out"][..],
        &["generate-compact", "1", "0", "none/out"],
        &["listing", "none/out"],
        &["bench-record", "mixed", "10", "none/out"],
    ] {
        let output = run(&folder, arguments, b"");
        ended(&output, 2, &format!("cannot write none/out: {missing}\n"));
    }
    for command in ["compare", "compare-compact", "compare-text"] {
        let output = run(&folder, &[command, "none/player", "1", "1"], b"");
        ended(&output, 2, &format!("cannot find none/player: {missing}\n"));
        // A file that is no program.
        fs::write(folder.join("plain"), "").unwrap();
        let output = run(&folder, &[command, "plain", "1", "1"], b"");
        let path = folder.join("plain").canonicalize().unwrap();
        let denied = "Permission denied (os error 13)";
        let message = format!("cannot start {}: {denied}\n", path.display());
        ended(&output, 2, &message);
    }
    for (command, file) in [
        ("compare", "difference.rec"),
        ("compare-text", "difference.txt"),
    ] {
        fs::create_dir(folder.join(file)).unwrap();
        let output = run(&folder, &[command, "/bin/sh", "1", "1", "-c", ":"], b"");
        let message = format!("cannot write {file}: Is a directory (os error 21)\n");
        ended(&output, 2, &message);
        assert!(output.stdout.starts_with(b"seed 1, "));
    }
}

#[test]
fn text_writes_the_record_or_the_message() {
    let folder = folder("text");
    let output = run(&folder, &["text"], b"4 # sources\r\n00050000:0");
    ended(&output, 0, "");
    assert_eq!(output.stdout, b"\x01\0\0\0\x04\0\0\0\0\0\x05\0\0\0\0\0");
    let output = run(&folder, &["text"], b"4\n00050000;0\n");
    let message = "refused at line 2: not HEAD:VALUE in hexadecimal\n";
    ended(&output, 1, message);
    assert!(output.stdout.is_empty());
    let output = run(&folder, &["text"], &vec![b'\n'; 2_000_000]);
    let message = "refused: the text has more than 1,048,576 bytes\n";
    ended(&output, 1, message);
}

#[test]
fn both_say_that_a_head_is_short() {
    let folder = folder("short head");
    for command in ["text", "lay-out"] {
        let output = run(&folder, &[command], b"4\n00050000:0\n50000:0\n0:0\n");
        let message = "refused at line 3: the head has fewer than eight digits\n";
        ended(&output, 1, message);
        assert!(output.stdout.is_empty());
    }
}

#[test]
fn lay_out_makes_old_records_of_texts() {
    let folder = folder("lay-out");
    let old = b"4\n00050000:0\n00070000:0 # chain\n";
    let output = run(&folder, &["text"], old);
    let words = "kind 7 is no longer written: chain by look and commit, 12 and 13";
    ended(&output, 1, &format!("refused 27 at 1 (line 3): {words}\n"));
    assert!(output.stdout.is_empty());
    let output = run(&folder, &["lay-out"], old);
    ended(&output, 0, "");
    let record = lay_out(2, 4, &[0x0005_0000, 0x0007_0000], &[0, 0]);
    assert_eq!(output.stdout, record);
    let printed = run(&folder, &["play"], &record).stdout;
    let lines = "sources 4 events 2\n0 5 0 15\n1 7 0 17\nend open 0 level 0 margin 0\n";
    assert_eq!(String::from_utf8(printed).unwrap(), lines);
    // All else is as it was.
    for text in [
        &b"4\n00050000;0\n"[..],
        b"1\n00070000:0",
        b"4\n00070000:0\nffff0000:0",
    ] {
        let output = run(&folder, &["lay-out"], text);
        assert_eq!(output.status.code(), Some(1));
        assert!(output.stdout.is_empty());
    }
    let output = run(&folder, &["lay-out"], b"4\n00000000:0\n00070001:0");
    let words = "an address or a value that the kind does not use is not 0";
    ended(&output, 1, &format!("refused 7 at 1 (line 3): {words}\n"));
}

#[test]
fn a_converter_that_takes_kind_7_is_different() {
    let folder = folder("kind 7");
    let arguments = ["compare-text", PROGRAM, "400", "1", "lay-out"];
    let output = run(&folder, &arguments, b"");
    ended(&output, 1, "");
    let text = String::from_utf8(output.stdout).unwrap();
    assert!(text.contains(", family retired: different\n"), "{text}");
    assert!(text.contains("\n  reference \"refused 27 at "), "{text}");
}

#[test]
fn its_own_converter_is_alike() {
    let comparison = Comparison {
        program: Program {
            path: Path::new(PROGRAM),
            arguments: &["text".to_string()],
        },
        count: 3 * texts::FAMILIES.len() as u64,
        seed: 1,
    };
    match compare_text(&comparison).unwrap() {
        Verdict::Alike(summary) => {
            let text = summary.text();
            assert!(text.starts_with(&format!("compared {} texts: alike\n", comparison.count)));
            for (name, _) in texts::FAMILIES {
                assert!(text.contains(&format!("family {name}: texts 3 ")));
            }
            assert_eq!(summary.all.iter().sum::<u64>(), comparison.count);
        }
        Verdict::Different(found) => panic!("{}", found.text()),
    }
}

#[test]
fn another_record_or_message_is_a_difference() {
    let folder = folder("converter");
    let record = to_record(&texts::make(1, 0).bytes).unwrap();
    let zero = record.iter().position(|&byte| byte == 0).unwrap();
    let at_zero = format!("standard output, byte {zero} from 0\n  reference 0x00 (");
    for (filter, start) in [
        // Another record, no message.
        ("tr '\\000' '\\001'", at_zero.as_str()),
        // The record and a message.
        (
            "cat; echo more >&2",
            "standard error\n  reference nothing\n  converter \"more\\n\"",
        ),
    ] {
        let script = format!("'{PROGRAM}' text | {filter}");
        let arguments = ["compare-text", "/bin/sh", "1", "1", "-c", &script];
        let output = run(&folder, &arguments, b"");
        ended(&output, 1, "");
        let text = String::from_utf8(output.stdout).unwrap();
        let report = "seed 1, text 0, family canonical: different\n";
        assert!(text.starts_with(&format!("{report}{start}")), "{text}");
        assert!(text.ends_with("\nthe text is in difference.txt\n"));
        let kept = fs::read(folder.join("difference.txt")).unwrap();
        assert_eq!(kept, texts::make(1, 0).bytes);
    }
    // Another message, the same records.
    let script = format!("('{PROGRAM}' text 2>&1 >&3 | sed s/refused/refuses/ >&2) 3>&1");
    let arguments = ["compare-text", "/bin/sh", "500", "1", "-c", &script];
    let output = run(&folder, &arguments, b"");
    let text = String::from_utf8(output.stdout).unwrap();
    assert!(text.contains(": different\nstandard error\n"), "{text}");
    assert!(text.contains("\n  reference \"refused "), "{text}");
    assert!(text.contains("\n  converter \"refuses "), "{text}");
    assert!(!text.contains("standard output"), "{text}");
}
