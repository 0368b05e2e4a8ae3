//! The rules of the text form, and generated texts.

use reference::compare_text::{sort, SORTS};
use reference::event::{Event, CHAIN, NO_KIND};
use reference::generate;
use reference::random::Random;
use reference::record::{self, lay_out, listing, write_record, Record, Refusal, BOARD};
use reference::text::{canonical, to_old_record, to_record, Fault, MOST_BYTES};
use reference::texts::{dress, make, FAMILIES};
use std::ops::RangeInclusive;

/// The record of a text, or the message.
fn result(text: &[u8]) -> Result<Vec<u8>, String> {
    to_record(text).map_err(|fault| fault.to_string())
}

fn accepted(text: &[u8], sources: u32, events: &[(u32, u32)]) {
    let heads: Vec<u32> = events.iter().map(|event| event.0).collect();
    let values: Vec<u32> = events.iter().map(|event| event.1).collect();
    let record = lay_out(events.len() as u32, sources, &heads, &values);
    assert_eq!(result(text), Ok(record), "{}", text.escape_ascii());
}

fn refused(text: &[u8], message: &str) {
    let message = Err(message.to_string());
    assert_eq!(result(text), message, "{}", text.escape_ascii());
}

fn not_n(text: &[u8], line: usize) {
    let words = "not N, one to three decimal digits";
    refused(text, &format!("refused at line {line}: {words}"));
}

fn not_event(text: &[u8], line: usize) {
    let words = "not HEAD:VALUE in hexadecimal";
    refused(text, &format!("refused at line {line}: {words}"));
}

fn short_head(text: &[u8], line: usize) {
    let words = "the head has fewer than eight digits";
    refused(text, &format!("refused at line {line}: {words}"));
}

fn too_many(text: &[u8], line: usize) {
    refused(
        text,
        &format!("refused at line {line}: more than 4,000 events"),
    );
}

const TAKE: (u32, u32) = (0x0005_0000, 0);

#[test]
fn the_listing_as_text() {
    let text = b"4\n00022008:1\n00020008:5\n00000000:4\n00050000:0\n00090000:1\n00050000:0\n\
        00060000:0\n00080000:0\n00090000:0\n00080000:0\n";
    assert_eq!(canonical(&listing()), text);
    assert_eq!(result(text), Ok(write_record(&listing()).unwrap()));
}

#[test]
fn the_last_line_feed_may_be_missing_and_begins_no_line() {
    accepted(b"4\n00050000:0\n", 4, &[TAKE]);
    accepted(b"4\n00050000:0", 4, &[TAKE]);
    accepted(b"4", 4, &[]);
    not_n(b"", 1);
    not_n(b"\n", 2);
    not_n(b"\n\n", 3);
    not_n(b" ", 2);
    not_n(b"# 4\n#", 3);
}

#[test]
fn one_carriage_return_ends_a_line() {
    accepted(b"4\r\n00050000:0\r\n", 4, &[TAKE]);
    accepted(b"4\n00050000:0\r", 4, &[TAKE]);
    accepted(b"4 \t\r\n\r\n \r\n00050000:0 \r", 4, &[TAKE]);
    accepted(b"4#\r\r\r\n00050000:0#\rx\r\r", 4, &[TAKE]);
    not_n(b"\r", 2);
    not_n(b"\r4\n", 1);
    not_n(b"4\r\r\n", 1);
    not_n(b"4\r \n", 1);
    not_n(b"4\r#\n", 1);
    not_n(b"\r\r\n4\n", 1);
    not_event(b"4\n\r\r\n", 2);
    not_event(b"4\n00050000:0\r\r\n", 2);
    not_event(b"4\n00050000:0\r\r", 2);
    not_event(b"4\n00050000:0\r \n", 2);
    not_event(b"4\n00050000\r:0\n", 2);
    not_event(b"4\r\n00050000:0\n\r00050000:0\n", 3);
    not_event(b"4\n00050000:0\r00050000:0\n", 2);
}

#[test]
fn a_comment_goes_to_the_end_of_its_line() {
    accepted(b"4# sources\n00050000:0 # take: 1\n", 4, &[TAKE]);
    accepted(b"#4\n 4\n#\n##00050000:0\n00050000:0##", 4, &[TAKE]);
    accepted(b"4\n00050000:0#\0\xFF\x0B\r:\n", 4, &[TAKE]);
    accepted(b"4#5\n00050000:0#0", 4, &[TAKE]);
    accepted(b"4\n#5:0\n00050000:0#5:0\n", 4, &[TAKE]);
    not_event(b"4\n00050000#:0\n", 2);
    not_event(b"4\n00050000:#0\n", 2);
}

#[test]
fn lines_of_blanks_and_tabs_are_skipped_and_counted() {
    accepted(b"\n \t\n4\n\n\t\n00050000:0\n \n", 4, &[TAKE]);
    not_n(b"\n\t \n?\n", 3);
    not_event(b"\n4\n\n# 1\n?\n", 5);
    for other in [b"\x0B", b"\x0C", b"\0", b"\xA0", b"\x85"] {
        not_n(&[other, &b"\n4\n"[..]].concat(), 1);
        not_event(&[b"4\n", &other[..], b"\n"].concat(), 2);
        not_event(&[b"4\n00050000:0", &other[..], b"\n"].concat(), 2);
    }
}

#[test]
fn n_is_one_to_three_decimal_digits() {
    for (text, sources) in [("2", 2), ("02", 2), ("002", 2), ("255", 255), ("\t 9 ", 9)] {
        accepted(text.as_bytes(), sources, &[]);
    }
    for text in [
        "0004",
        "1000",
        "a",
        "4 4",
        "+4",
        "-4",
        "0x4",
        "4:",
        "4.",
        "00050000:0",
        "\u{663}",
        "\u{feff}4",
    ] {
        not_n(text.as_bytes(), 1);
    }
}

#[test]
fn an_event_is_head_and_value_in_hexadecimal() {
    for (line, event) in [
        ("00050000:0", TAKE),
        ("00050000:00000000", TAKE),
        ("\t00050000 \t: 0 ", TAKE),
        ("00000000:0", (0, 0)),
        ("0002ABCD:FFFFFFFF", (0x2ABCD, u32::MAX)),
        ("0002AbCd:fFfFfFfF", (0x2ABCD, u32::MAX)),
        ("00004bc8:12345678", (0x4BC8, 0x1234_5678)),
    ] {
        accepted(format!("4\n{line}\n").as_bytes(), 4, &[event]);
    }
    for line in [
        "4",
        ":",
        "00050000",
        "00050000:",
        ":0",
        "00050000::0",
        "00050000:0:",
        "00050000:0:0",
        "000050000:0",
        "00050000:000000000",
        "00050000;0",
        "0005 0000:0",
        "00050000:0 0",
        "0005000g:0",
        "0005000G:0",
        "0005000/:0",
        "0005000@:0",
        "0005000`:0",
        "0x050000:0",
        "0x00050000:0",
        "00050000:-0",
        "00050000:+0",
        "00050000:\u{ff10}",
    ] {
        not_event(format!("4\n00000000:0\n{line}\n00000000:0\n").as_bytes(), 3);
    }
}

#[test]
fn a_head_has_eight_digits() {
    for number in ["00050000", "00000000", "0002ABCD", "fFfFfFfF", "12345678"] {
        for digits in 1..=7 {
            for head in [&number[..digits], &number[8 - digits..]] {
                for line in [
                    format!("{head}:0"),
                    format!("{head}:00000000"),
                    format!("{head}:FFFFFFFF"),
                    format!(" \t{head}\t :  1 "),
                    format!("   {head}     :1\r"),
                    format!("{head}:0# 00050000:0"),
                ] {
                    short_head(format!("4\n{line}").as_bytes(), 2);
                    let between = format!("4\n00000000:0\n{line}\n00000000:0\n");
                    short_head(between.as_bytes(), 3);
                    let after = "\n#\n4 # N\n\n00000000:0\n# 1:1\n \t\r\n";
                    short_head(format!("{after}{line}\n").as_bytes(), 8);
                }
            }
        }
    }
}

#[test]
fn a_value_has_one_to_eight_digits() {
    for digits in 1..=8 {
        let line = format!("4\n00000000:{:0digits$x}\n", 9);
        assert_eq!(line.len(), "4\n00000000:\n".len() + digits);
        accepted(line.as_bytes(), 4, &[(0, 9)]);
    }
    accepted(b"4\n00000000:0\n00000000:7", 4, &[(0, 0), (0, 7)]);
    not_event(b"4\n00000000:\n", 2);
    not_event(b"4\n00000000:000000009\n", 2);
}

#[test]
fn a_short_head_is_asked_after_the_form_of_its_line() {
    for line in [
        "000000000:0",
        "000050000:0",
        "123456789:0",
        "0000000000:0",
        ":0",
        " \t:0",
        "50000",
        "50000:",
        "50000: # 0",
        "50000:000000000",
        "50000:123456789",
        "50000:g",
        "50000:-0",
        "50000:0x0",
        "50000::0",
        "50000:0:",
        "50000:0:0",
        "50000:0 0",
        "50000;0",
        "5 0000:0",
        "50000g:0",
        "-50000:0",
        "0x50000:0",
        "50000:0\r\r",
    ] {
        not_event(format!("4\n{line}\n").as_bytes(), 2);
        not_event(format!("4\n00000000:0\n{line}\n0:0\n").as_bytes(), 3);
        short_head(format!("4\n0:0\n{line}\n").as_bytes(), 2);
    }
}

#[test]
fn a_short_head_is_asked_before_the_questions() {
    // Heads that a question would refuse, had they their zeros.
    for head in ["f0000", "70000", "70001", "e0000", "c0001", "80001"] {
        short_head(format!("4\n{head}:0\n").as_bytes(), 2);
        short_head(format!("1\n{head}:0\n").as_bytes(), 2);
        let zeros = format!("4\n000{head}:0\n0:0\n");
        short_head(zeros.as_bytes(), 3);
    }
    short_head(b"0\n50000:0\n", 2);
    short_head(b"999\nffff0000:0\n00070000:0\n00050000:1\n0:0", 5);
    not_n(b"\n0:0\n", 2);
    not_n(b"1000\n0:0\n", 1);
}

#[test]
fn an_old_record_has_heads_of_eight_digits_too() {
    let line = 3;
    for text in [&b"4\n00070000:0\n70000:0\n"[..], b"4\n00000000:0\n0:0"] {
        assert_eq!(to_old_record(text), Err(Fault::ShortHead { line }));
        assert_eq!(to_record(text), Err(Fault::ShortHead { line }));
    }
}

#[test]
fn each_line_of_the_listing_has_a_head_of_eight_digits() {
    let text = canonical(&listing());
    let lines: Vec<&[u8]> = text.split_inclusive(|&byte| byte == b'\n').collect();
    for place in 1..lines.len() {
        for dropped in 1..=7 {
            let without_first = lines[place][dropped..].to_vec();
            let without_last = [&lines[place][..8 - dropped], &lines[place][8..]].concat();
            for cut in [without_first, without_last] {
                let mut lines = lines.clone();
                lines[place] = &cut;
                short_head(&lines.concat(), place + 1);
            }
        }
    }
}

/// N and so many events.
fn many(events: usize) -> Vec<u8> {
    let mut text = b"4\n".to_vec();
    text.extend(b"00000000:1\n".repeat(events));
    text
}

#[test]
fn a_text_has_at_most_4000_events() {
    for events in [3999, 4000] {
        accepted(&many(events), 4, &vec![(0, 1); events]);
    }
    for events in [4001, 4002] {
        too_many(&many(events), 4002);
    }
    let full = many(4000);
    let with = |more: &[u8]| [&full[..], more].concat();
    accepted(&with(b"\n# 00000000:1\n \r\n"), 4, &[(0, 1); 4000]);
    for more in [
        "?",
        ":",
        "\r\r\n",
        "00000000:0",
        "000f0000:0",
        "0:0",
        "0000000:0",
        "0:?",
    ] {
        too_many(&with(more.as_bytes()), 4002);
    }
    too_many(&with(b"#\n\n0:0\n"), 4004);
    short_head(&[&many(3999)[..], b"0:0"].concat(), 4001);
    short_head(&[&many(3999)[..], b"0:0\n00000000:0"].concat(), 4001);
    too_many(&with(b"\n#\n00000000:0\n?\n"), 4004);
    // The first bad line decides, and any of them comes before the record's questions.
    not_n(&[b"?\n", &full[..]].concat(), 1);
    let with_first = |first: &[u8]| [b"0\n", first, &full[2..]].concat();
    too_many(&with_first(b"000f0000:0\n"), 4002);
    not_event(&with_first(b"?\n"), 2);
    short_head(&with_first(b"0:0\n"), 2);
}

#[test]
fn the_first_bad_line_decides_before_the_questions() {
    not_n(b"?\n?\n", 1);
    not_event(b"4\n00000000:0\n?\n??\n", 3);
    not_event(b"0\n?\n", 2);
    not_event(b"4\n000f0000:0\n00050000:1\n?\n", 4);
    short_head(b"4\n00000000:0\n50000:0\n?\n", 3);
    not_event(b"4\n00000000:0\n?\n50000:0\n", 3);
    short_head(b"4\n00000000:0\n50000:0\n0:0\n", 3);
    not_n(b"?\n0:0\n", 1);
}

#[test]
fn questions_name_the_place_and_the_line() {
    let two = |line| format!("refused 2 at 0 (line {line}): N is not 2 to 255");
    for sources in ["0", "1", "00", "001", "256", "999"] {
        refused(format!("{sources}\n00000000:0\n").as_bytes(), &two(1));
    }
    refused(b"# four\n\n1\nffff0000:0\n", &two(3));
    let six = |place, line| format!("refused 6 at {place} (line {line}): the kind is not 0 to 13");
    accepted(b"4\n000a0000:0\n", 4, &[(0x000A_0000, 0)]);
    accepted(b"4\n000b0003:0\n", 4, &[(0x000B_0003, 0)]);
    accepted(b"4\n000c0000:0\n", 4, &[(0x000C_0000, 0)]);
    accepted(b"4\n000d0105:0\n", 4, &[(0x000D_0105, 0)]);
    for head in [NO_KIND, NO_KIND + 0x0001_0000] {
        refused(format!("4\n{head:08x}:0\n").as_bytes(), &six(0, 2));
    }
    refused(
        b"4\n00000000:0\n\n# unknown\nffff0001:1\n00050000:1\n",
        &six(1, 5),
    );
    let words = "an address or a value that the kind does not use is not 0";
    let seven = |place, line| format!("refused 7 at {place} (line {line}): {words}");
    refused(b"4\n00050000:1\n", &seven(0, 2));
    refused(
        b"4\r\n00000000:0\r\n\r\n00090001:1\r\nffff0000:0\r\n",
        &seven(1, 4),
    );
    refused(b"4\n000a0001:0\n", &seven(0, 2));
    refused(b"4\n00000000:0\n000a0000:1\n", &seven(1, 3));
    refused(b"4\n000b0003:1\n", &seven(0, 2));
    refused(b"4\n000c0001:0\n", &seven(0, 2));
    refused(b"4\n000c0000:1\n", &seven(0, 2));
    refused(b"4\n000d0001:1\n", &seven(0, 2));
}

#[test]
fn a_text_has_at_most_1048576_bytes() {
    assert_eq!(MOST_BYTES, 1024 * 1024);
    let too_long = "refused: the text has more than 1,048,576 bytes";
    for padding in [b' ', b'\t', b'\n', b'#'] {
        let text = |size: usize| {
            let mut text = b"4\n00000000:0\n".to_vec();
            text.resize(size, padding);
            text
        };
        accepted(&text(MOST_BYTES - 1), 4, &[(0, 0)]);
        accepted(&text(MOST_BYTES), 4, &[(0, 0)]);
        refused(&text(MOST_BYTES + 1), too_long);
        refused(&text(MOST_BYTES + 100_000), too_long);
    }
    refused(&vec![b'?'; MOST_BYTES + 1], too_long);
    let mut short = b"4\n0:0\n".to_vec();
    short.resize(MOST_BYTES, b' ');
    short_head(&short, 2);
    short.push(b' ');
    refused(&short, too_long);
    not_n(&vec![b'?'; MOST_BYTES], 1);
    not_n(&vec![b'\n'; MOST_BYTES], MOST_BYTES + 1);
}

/// No record is written of an old text.
fn refused_27(text: &[u8], place: usize, lines: RangeInclusive<usize>) {
    match to_record(text) {
        Err(Fault::Question { refusal, line }) => {
            assert_eq!(refusal, Refusal { number: 27, place });
            assert!(lines.contains(&line), "{line}");
        }
        other => panic!("{other:?}"),
    }
}

fn first_chain(record: &Record) -> Option<usize> {
    record.events.iter().position(|event| event.kind() == CHAIN)
}

#[test]
fn a_text_makes_its_record_however_it_is_dressed() {
    let mut random = Random::new(11);
    let (mut records, mut new) = (0, 0);
    for index in 0..4 * generate::FAMILIES.len() as u64 {
        let bytes = generate::generate(11, index, BOARD).bytes;
        if let Ok(record) = record::read(&bytes, BOARD, 4000) {
            let (plain, dressed) = (canonical(&record), dress(&record, &mut random));
            assert_eq!(to_old_record(&plain), Ok(bytes.clone()));
            assert_eq!(to_old_record(&dressed), Ok(bytes.clone()));
            records += 1;
            match first_chain(&record) {
                None => {
                    assert_eq!(to_record(&plain), Ok(bytes.clone()));
                    assert_eq!(to_record(&dressed), Ok(bytes));
                    new += 1;
                }
                Some(place) => {
                    refused_27(&plain, place, place + 2..=place + 2);
                    refused_27(&dressed, place, place + 2..=usize::MAX);
                }
            }
        }
    }
    assert!(records > 2 * generate::FAMILIES.len());
    assert!(new > generate::FAMILIES.len() / 2, "{new}");
    let empty = Record {
        sources: 2,
        events: Vec::<Event>::new(),
    };
    for _ in 0..100 {
        let text = dress(&empty, &mut random);
        assert_eq!(to_record(&text), Ok(lay_out(0, 2, &[], &[])));
    }
}

#[test]
fn every_sort_of_message_occurs() {
    let rounds = 30;
    let mut counts = [0; SORTS.len()];
    let mut lengths = Vec::new();
    for index in 0..rounds * FAMILIES.len() as u64 {
        let text = make(1, index);
        let place = sort(&to_record(&text.bytes));
        counts[place] += 1;
        lengths.push(text.bytes.len());
        match text.family {
            "canonical" | "dressed" | "dressed, long" => assert_eq!(place, 0),
            "nothing said" => assert_eq!(place, 2),
            _ => {}
        }
    }
    for (name, count) in SORTS.iter().zip(counts) {
        assert!(count >= 5, "{name}: {count}");
    }
    for length in [0, MOST_BYTES - 1, MOST_BYTES, MOST_BYTES + 1] {
        assert!(lengths.contains(&length), "{length}");
    }
    let huge = lengths.iter().filter(|&&length| length > 200_000).count();
    assert!(huge <= lengths.len() / 20);
}

/// The head of a line, or all of the line that has none.
fn head_of(line: &[u8]) -> &[u8] {
    let end = line.iter().position(|byte| b":#".contains(byte));
    let head = &line[..end.unwrap_or(line.len())];
    let start = head.iter().position(|byte| !b" \t".contains(byte));
    let last = head.iter().rposition(|byte| !b" \t".contains(byte));
    start.map_or(b"", |start| &head[start..=last.unwrap()])
}

#[test]
fn accepted_texts_have_heads_of_eight_digits() {
    let mut heads = 0;
    for index in 0..20 * FAMILIES.len() as u64 {
        let text = make(8, index).bytes;
        if to_record(&text).is_err() {
            continue;
        }
        for line in text.split(|&byte| byte == b'\n') {
            let said = line.split(|&byte| byte == b'#').next().unwrap();
            if said.contains(&b':') {
                assert_eq!(head_of(line).len(), 8, "{}", line.escape_ascii());
                heads += 1;
            }
        }
    }
    assert!(heads > 5000, "{heads}");
}

#[test]
fn short_heads_have_every_length_and_stand_beside_other_faults() {
    let (_, build) = FAMILIES.iter().find(|it| it.0 == "short heads").unwrap();
    let (mut counts, mut lengths) = ([0; SORTS.len()], [0; 8]);
    let mut mended = [0; SORTS.len()];
    for round in 0..2000 {
        let mut text = build(&mut Random::for_index(1, round));
        let result = to_record(&text);
        counts[sort(&result)] += 1;
        let at = match result {
            Err(Fault::ShortHead { line }) => line,
            _ => continue,
        };
        let lines = text.split_inclusive(|&byte| byte == b'\n');
        let start: usize = lines.take(at - 1).map(|line| line.len()).sum();
        let digits = head_of(&text[start..]).len();
        lengths[digits] += 1;
        // With its zeros the line is good.
        let blank = |byte: &u8| b" \t".contains(byte);
        let place = start + text[start..].iter().take_while(|byte| blank(byte)).count();
        text.splice(place..place, vec![b'0'; 8 - digits]);
        let result = to_record(&text);
        mended[sort(&result)] += 1;
        match result {
            Ok(_) | Err(Fault::Question { .. }) => {}
            Err(Fault::Event { line } | Fault::ShortHead { line }) => assert!(line > at),
            Err(other) => panic!("{other}"),
        }
    }
    // In the order of `SORTS`; no text of the family is too long or has too many events.
    for (sort, least) in [(2, 20), (3, 300), (4, 1000)] {
        assert!(counts[sort] >= least, "{}: {counts:?}", SORTS[sort]);
    }
    for sort in [0, 3, 4, 6, 7, 8, 9] {
        assert!(mended[sort] >= 20, "{}: {mended:?}", SORTS[sort]);
    }
    assert!(lengths[1..].iter().all(|&times| times >= 50), "{lengths:?}");
}

#[test]
fn a_seed_gives_the_same_text_again() {
    for index in 0..FAMILIES.len() as u64 {
        assert_eq!(make(5, index).bytes, make(5, index).bytes);
    }
}
