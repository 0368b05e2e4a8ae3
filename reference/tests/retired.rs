//! Kind 7 retired: the writer refuses it with 27, old records with it are read and played.

mod common;

use common::records::*;
use common::why_not;
use reference::event::*;
use reference::generate::{generate, FAMILIES};
use reference::machine::*;
use reference::player::{play, print};
use reference::random::Random;
use reference::record::*;
use reference::text::{canonical, to_old_record, to_record, Fault};
use reference::texts::{self, make};

const PLAYERS: [Limits; 2] = [BOARD, COMPACT];

/// What the writer says to events, N 4 and room enough.
fn writing(events: &[(u32, u32)]) -> Option<(u32, usize)> {
    let heads: Vec<u32> = events.iter().map(|event| event.0).collect();
    let values: Vec<u32> = events.iter().map(|event| event.1).collect();
    let refusal = write(4, &heads, &values, BOARD.longest()).err();
    refusal.map(|Refusal { number, place }| (number, place))
}

fn first_chain(record: &Record) -> Option<usize> {
    record.events.iter().position(|event| event.kind() == CHAIN)
}

/// The refusal of a read record that is written again.
fn expected(record: &Record) -> Option<Refusal> {
    first_chain(record).map(|place| Refusal { number: 27, place })
}

// The questions.

/// Questions 6 and 7, from the list of kinds.
fn shape(kind: u32, address: u32, value: u32) -> Result<(), u32> {
    let uses_address = [0, 1, 2, 3, 4, 11, 13].contains(&kind);
    let uses_value = [0, 2, 4, 9].contains(&kind);
    match kind {
        14.. => Err(6),
        _ if !uses_address && address != 0 || !uses_value && value != 0 => Err(7),
        _ => Ok(()),
    }
}

#[test]
fn the_writer_asks_6_then_27_then_7() {
    for kind in (0..=300).chain([0x7FF, 0x700, 0x7000, 0x7007, 0x8007, 0xFFF7, 0xFFFF]) {
        for address in [0, 1, 7, 0x8000, 0xFFFF] {
            for value in [0, 1, 7, 0x7_0000, 0x8000_0000, u32::MAX] {
                let event = Event::new(kind, address, value);
                let asked = shape(kind, address, value);
                assert_eq!(may_be_read(event), asked, "{event}");
                let asked = if kind == 7 { Err(27) } else { asked };
                assert_eq!(may_be_written(event), asked, "{event}");
                let refusal = asked.err().map(|number| (number, 1));
                assert_eq!(writing(&[(0, 0), (event.head, value)]), refusal);
            }
        }
    }
}

#[test]
fn of_all_kinds_only_7_is_retired() {
    for kind in 0..=0xFFFF {
        let refusal = match kind {
            7 => Err(27),
            0..=13 => Ok(()),
            _ => Err(6),
        };
        assert_eq!(may_be_written(Event::new(kind, 0, 0)), refusal, "{kind}");
    }
}

#[test]
fn a_chain_with_unused_parts_is_27_to_the_writer_and_7_to_the_others() {
    for bit in 0..16 {
        let head = 0x0007_0000 | 1 << bit;
        for (head, value) in [(head, 0), (0x0007_0000, 1 << bit), (head, 1 << (16 + bit))] {
            assert_eq!(writing(&[(head, value)]), Some((27, 0)));
            let bytes = laid_out(4, &[(0, 0), (head, value)]);
            for limits in PLAYERS {
                assert_eq!(reading(&bytes, limits), Some((7, 1)));
                assert_eq!(print(&bytes, limits), "refused 7 at 1\n");
            }
            let (mut machine, _) = Machine::power_on(4);
            assert_eq!(machine.play(Event { head, value }).refusal, 7);
        }
    }
}

/// Events that fail a question, and its number.
const FAULTS: [((u32, u32), u32); 7] = [
    ((0x0007_0000, 0), 27),
    ((0x0007_0000, 1), 27),
    ((0x0007_0001, 0), 27),
    ((NO_KIND, 0), 6),
    ((0x0017_0000, 1), 6),
    ((0x0008_0001, 0), 7),
    ((0x000C_0000, 1), 7),
];

#[test]
fn the_earlier_event_decides() {
    for (first, number) in FAULTS {
        for (second, _) in FAULTS {
            for (before, between) in [(0, 0), (0, 1), (1, 0), (5, 3)] {
                let mut events = vec![(0x000D_0007, 0); before];
                events.push(first);
                events.resize(before + 1 + between, (0x0008_0000, 0));
                events.extend([second, (0, 7)]);
                assert_eq!(writing(&events), Some((number, before)));
            }
        }
    }
}

#[test]
fn the_place_is_the_index_of_the_chain() {
    for place in [0, 1, 2, 255, 256, 3998, 3999] {
        let mut events = vec![(0x0006_0000, 0); 4000];
        assert_eq!(writing(&events), None);
        events[place] = (0x0007_0000, 0);
        assert_eq!(writing(&events), Some((27, place)));
        events[3999] = (0x0007_0000, 0);
        assert_eq!(writing(&events), Some((27, place)));
        assert_eq!(reading(&laid_out(4, &events), BOARD), None);
    }
}

#[test]
fn questions_2_to_5_come_before() {
    let chain = 0x0007_0000;
    let refused = |sources, heads: &[u32], values: &[u32], room| {
        let Refusal { number, place } = write(sources, heads, values, room).unwrap_err();
        assert_eq!(place, 0);
        number
    };
    for sources in [0, 1, 256, u32::MAX] {
        assert_eq!(refused(sources, &[chain; 4001], &[], 0), 2);
    }
    assert_eq!(refused(2, &[chain; 4001], &[], 0), 3);
    assert_eq!(refused(2, &[chain], &[], 0), 4);
    assert_eq!(refused(2, &[chain], &[0, 0], 100), 4);
    assert_eq!(refused(2, &[chain], &[0], 15), 5);
    assert_eq!(refused(2, &[chain], &[0], 16), 27);
}

#[test]
fn what_came_in_the_place_of_chains_is_written() {
    for kind in [6, 8, 12, 13] {
        for address in [0, 7] {
            let event = (kind << 16 | address, 0);
            let refusal = shape(kind, address, 0).err();
            assert_eq!(writing(&[event]), refusal.map(|number| (number, 0)));
        }
    }
}

// Round trips.

/// Any kinds and parts, most of them good.
fn any_events(random: &mut Random) -> Vec<(u32, u32)> {
    let event = |random: &mut Random| {
        let kind = random.below(14);
        let (address, value) = (random.below(0x10000), random.word());
        if random.chance(1, 60) {
            return (random.below(16) << 16 | address, value);
        }
        let address = if kind < 5 || kind == 11 || kind == 13 {
            address
        } else {
            0
        };
        let value = if [0, 2, 4, 9].contains(&kind) {
            value
        } else {
            0
        };
        (kind << 16 | address, value)
    };
    (0..random.below(12)).map(|_| event(random)).collect()
}

#[test]
fn what_is_written_is_read_again() {
    let mut random = Random::new(8);
    let (mut written, mut retired) = (0, 0);
    for _ in 0..20_000 {
        let (sources, events) = (random.between(2, 255), any_events(&mut random));
        let heads: Vec<u32> = events.iter().map(|event| event.0).collect();
        let values: Vec<u32> = events.iter().map(|event| event.1).collect();
        match write(sources, &heads, &values, BOARD.longest()) {
            Ok(bytes) => {
                assert_eq!(bytes, laid_out(sources, &events));
                let event = |(&head, &value)| Event { head, value };
                let events = heads.iter().zip(&values).map(event).collect();
                assert_eq!(read(&bytes, BOARD, 4000), Ok(Record { sources, events }));
                written += 1;
            }
            Err(refusal) => retired += u32::from(refusal.number == 27),
        }
    }
    assert!(written > 5000 && retired > 3000, "{written} {retired}");
}

#[test]
fn writer_and_reader_accept_the_same_but_for_kind_7() {
    let mut random = Random::new(88);
    let mut met = Met::default();
    for _ in 0..20_000 {
        let mut events = any_events(&mut random);
        let is_chain = |event: &(u32, u32)| event.0 >> 16 == 7;
        let chain = events.iter().position(is_chain);
        let read = reading(&laid_out(4, &events), BOARD);
        // The first chain, if nothing before it is refused.
        let expected = match (read, chain) {
            (Some((_, place)), Some(chain)) if place < chain => read,
            (_, Some(chain)) => Some((27, chain)),
            _ => read,
        };
        assert_eq!(writing(&events), expected, "{events:x?}");
        let number = expected.map_or(0, |refusal| refusal.0);
        met.count(format!("{number}, {}", read.is_some()));
        events.retain(|event| !is_chain(event));
        assert_eq!(writing(&events), reading(&laid_out(4, &events), BOARD));
    }
    for name in ["0, false", "27, false", "27, true", "6, true", "7, true"] {
        met.at_least(100, name);
    }
    assert_eq!(met.times.len(), 5, "{:?}", met.times);
}

#[test]
fn what_is_read_is_written_again_without_kind_7() {
    for limits in PLAYERS {
        let (mut new, mut old) = (0, 0);
        for index in 0..30 * FAMILIES.len() as u64 {
            let bytes = generate(8, index, limits).bytes;
            let record = match read(&bytes, limits, limits.events) {
                Ok(record) => record,
                Err(refusal) => {
                    assert_ne!(refusal.number, 27);
                    continue;
                }
            };
            assert_eq!(bytes_of(&record), bytes);
            match expected(&record) {
                None => {
                    assert_eq!(write_record(&record), Ok(bytes));
                    new += 1;
                }
                Some(refusal) => {
                    assert_eq!(write_record(&record), Err(refusal));
                    old += 1;
                    // Without its chains it comes back.
                    let mut rest = record.clone();
                    rest.events.retain(|event| event.kind() != CHAIN);
                    assert_eq!(write_record(&rest), Ok(bytes_of(&rest)));
                }
            }
        }
        let least = 3 * FAMILIES.len();
        assert!(new > least && old > least, "{new} {old}");
    }
}

// Old records, kept as bytes.

fn bytes(hexadecimal: &str) -> Vec<u8> {
    let digits: Vec<u32> = hexadecimal
        .chars()
        .filter_map(|digit| digit.to_digit(16))
        .collect();
    let byte = |pair: &[u32]| (16 * pair[0] + pair[1]) as u8;
    digits.chunks(2).map(byte).collect()
}

/// The record's text, line by line.
fn text_of(sources: u32, lines: &str) -> Vec<u8> {
    let lines: Vec<&str> = lines.split_whitespace().collect();
    format!("{sources}\n{}\n", lines.join("\n")).into_bytes()
}

/// An old record is read, printed so by both players, told as a text and not written again.
fn kept(hexadecimal: &str, sources: u32, lines: &str, chain: usize, printed: &str) {
    let bytes = bytes(hexadecimal);
    for limits in PLAYERS {
        assert_eq!(print(&bytes, limits), printed);
    }
    let record = read(&bytes, BOARD, 4000).unwrap();
    let text = text_of(sources, lines);
    assert_eq!(canonical(&record), text);
    assert_eq!(to_old_record(&text), Ok(bytes));
    let refusal = Refusal {
        number: 27,
        place: chain,
    };
    assert_eq!(write_record(&record), Err(refusal));
    let line = chain + 2;
    assert_eq!(to_record(&text), Err(Fault::Question { refusal, line }));
}

#[test]
fn an_old_record_of_one_chain() {
    kept(
        "01000000 02000000 00000700 00000000",
        2,
        "00070000:0",
        0,
        "sources 2 events 1\n0 7 0 17\nend open 0 level 0 margin 0\n",
    );
}

/// Chains that serve the handler's own source and another, and that answer 0 for a higher winner,
/// for the threshold and for no winner: each captures. Refused with 19 and 17, they don't.
#[test]
fn an_old_record_with_chains_beside_looks_and_commits() {
    kept(
        "27000000 04000000
        04000200 04200200 08000200 08200200 0c000200 0c200200 00000900 00000000 00000500 00000700
        00000600 00000700 00000900 00000000 00000c00 00000000 00000c00 00000700 c80f0300 00000000
        00000c00 c80f0300 03000d00 c80f0300 00000700 c80f0300 cb0b0300 00000000 c90b0400 00000700
        c80f0300 c90b0400 02000d00 00000000 00000700 c80f0300 cb0b0300 00000800 00000700
        05000000 01000000 05000000 01000000 06000000 01000000 01000000 02000000 00000000 00000000
        00000000 00000000 00000000 06000000 00000000 04000000 00000000 00000000 00000000 0c000000
        00000000 00000000 00000000 00000000 00000000 00000000 00000000 04000000 05000000 00000000
        00000000 04000000 00000000 00000000 00000000 00000000 00000000 00000000 00000000",
        4,
        "00020004:5 00022004:1 00020008:5 00022008:1 0002000c:6 0002200c:1 00090000:1 00000000:2
        00050000:0 00070000:0 00060000:0 00070000:0 00090000:0 00000000:6 000c0000:0 00000000:4
        000c0000:0 00070000:0 00030fc8:0 00000000:c 000c0000:0 00030fc8:0 000d0003:0 00030fc8:0
        00070000:0 00030fc8:0 00030bcb:0 00000000:4 00040bc9:5 00070000:0 00030fc8:0 00040bc9:4
        000d0002:0 00000000:0 00070000:0 00030fc8:0 00030bcb:0 00080000:0 00070000:0",
        9,
        "\
sources 4 events 39
0 2 0 0
1 2 0 0
2 2 0 0
3 2 0 0
4 2 0 0
5 2 0 0
6 9 0 0
7 0 0 0
8 5 4 0
9 7 4 0
10 6 5 0
11 7 0 19
12 9 0 0
13 0 0 0
14 12 1 0
15 0 0 0
16 12 2 0
17 7 8 0
18 3 8 0
19 0 0 0
20 12 0 0
21 3 8 0
22 13 0 26
23 3 8 0
24 7 0 0
25 3 12 0
26 3 6 0
27 0 0 0
28 4 0 0
29 7 0 0
30 3 8 0
31 4 0 0
32 13 8 0
33 0 0 0
34 7 0 0
35 3 0 0
36 3 0 0
37 8 0 0
38 7 0 17
end open 0 level 0 margin -4
",
    );
}

/// Two handlers in the reverse order, with a base, and chains at both. The last line of the second
/// word serves a source above 32.
#[test]
fn an_old_record_with_chains_in_nested_handlers() {
    kept(
        "1d000000 21000000
        00300200 c90b0400 cc0b0400 c80b0400 80000200 80200200 84000200 84200200 04000200 04200200
        00000900 01000000 00000500 00000600 00000000 00000500 00000700 00000600 00000900 00000000
        00000700 c80f0300 cb0b0300 00000800 00000900 01000000 00000700 c80f0300 cc0b0300
        01000000 0f000000 0f000000 78563412 0a000000 01000000 0a000000 01000000 03000000 01000000
        01000000 01000000 00000000 00000000 02000000 00000000 00000000 00000000 00000000 00000000
        00000000 00000000 00000000 00000000 00000000 02000000 00000000 00000000 00000000",
        33,
        "00023000:1 00040bc9:f 00040bcc:f 00040bc8:12345678 00020080:a 00022080:1 00020084:a
        00022084:1 00020004:3 00022004:1 00090000:1 00000001:1 00050000:0 00060000:0 00000000:2
        00050000:0 00070000:0 00060000:0 00090000:0 00000000:0 00070000:0 00030fc8:0 00030bcb:0
        00080000:0 00090000:0 00000001:2 00070000:0 00030fc8:0 00030bcc:0",
        16,
        "\
sources 33 events 29
0 2 0 0
1 4 0 0
2 4 0 0
3 4 0 0
4 2 0 0
5 2 0 0
6 2 0 0
7 2 0 0
8 2 0 0
9 2 0 0
10 9 0 0
11 0 0 0
12 5 305419392 0
13 6 5 0
14 0 0 0
15 5 305419268 0
16 7 305419268 0
17 6 12 0
18 9 0 0
19 0 0 0
20 7 0 0
21 3 305419392 0
22 3 10 0
23 8 1 0
24 9 0 0
25 0 0 0
26 7 305419396 0
27 3 305419396 0
28 3 10 0
end open 1 level 5 margin 0
",
    );
}

#[test]
fn old_records_that_were_refused_still_are() {
    for (hexadecimal, printed) in [
        // A chain with an address, with a value.
        (
            "02000000 02000000 00000500 01000700 00000000 00000000",
            "refused 7 at 1\n",
        ),
        (
            "02000000 02000000 00000700 00000700 00000000 00000080",
            "refused 7 at 1\n",
        ),
        // After a good chain, a kind that is none and an unused part.
        (
            "02000000 02000000 00000700 0000ffff 00000000 00000000",
            "refused 6 at 1\n",
        ),
        (
            "02000000 02000000 00000700 01000800 00000000 00000000",
            "refused 7 at 1\n",
        ),
        ("01000000 01000000 00000700 00000000", "refused 2 at 0\n"),
        ("01000000 02000000 00000700 000000", "refused 4 at 0\n"),
    ] {
        for limits in PLAYERS {
            assert_eq!(print(&bytes(hexadecimal), limits), printed);
        }
    }
}

// Texts.

fn message(text: &[u8]) -> String {
    to_record(text).unwrap_err().to_string()
}

fn refused_27(text: &[u8], place: usize, line: usize) {
    let words = "kind 7 is no longer written: chain by look and commit, 12 and 13";
    let expected = format!("refused 27 at {place} (line {line}): {words}");
    assert_eq!(message(text), expected, "{}", text.escape_ascii());
}

#[test]
fn a_line_of_kind_7_is_refused_at_its_index() {
    assert_eq!(
        message(b"4\n00070000:0\n"),
        "refused 27 at 0 (line 2): kind 7 is no longer written: chain by look and commit, 12 and 13"
    );
    for line in [
        "00070000:0",
        "00070000:00000000",
        " 00070000\t: 0 ",
        "0007ffff:0",
        "0007FFFF:FFFFFFFF",
        "00070001:0",
        "00070000:1",
        "00070000:0 # chain",
        "00070000:0\r",
    ] {
        refused_27(format!("4\n{line}\n").as_bytes(), 0, 2);
        refused_27(format!("4\n{line}").as_bytes(), 0, 2);
        refused_27(
            format!("\n# old\n255\n{line}\n00000000:0\n").as_bytes(),
            0,
            4,
        );
        refused_27(
            format!("4\n00060000:0\n\n#\n00080000:0\n{line}").as_bytes(),
            2,
            6,
        );
    }
    refused_27(b"4\n000c0000:0\n000d0002:0\n00070000:0\n00070000:0\n", 2, 4);
}

#[test]
fn what_only_looks_like_kind_7_is_not() {
    for line in [
        "00000007:0",
        "00000070:0",
        "00000700:0",
        "00007000:0",
        "00000007:7",
        "00000000:70000",
        "00017000:0",
        "00020007:70000",
        "00090000:7",
        "000b0007:0",
        "000d0007:0",
        "00060000:0",
        "00080000:0",
        "000c0000:0",
        "00000000:0 # 00070000:0",
    ] {
        assert!(to_record(format!("4\n{line}\n").as_bytes()).is_ok());
    }
    for (line, number) in [
        ("00700000:0", 6),
        ("07000000:0", 6),
        ("70000000:0", 6),
        ("00170000:0", 6),
        ("80070000:0", 6),
        ("fff7ffff:7", 6),
        ("00080007:0", 7),
        ("00060000:7", 7),
        ("000c0007:0", 7),
        ("000d0007:7", 7),
    ] {
        let text = format!("4\n{line}\n00070000:0\n");
        let start = format!("refused {number} at 0 (line 2): ");
        assert!(message(text.as_bytes()).starts_with(&start), "{line}");
        refused_27(format!("4\n00070000:0\n{line}\n").as_bytes(), 0, 2);
    }
}

#[test]
fn a_text_is_asked_about_its_lines_and_n_first() {
    let start = |text: &[u8], start: &str| {
        let message = message(text);
        assert!(message.starts_with(start), "{message}");
    };
    start(b"?\n00070000:0\n", "refused at line 1: not N");
    start(b"4\n00070000:0\n?\n", "refused at line 3: not HEAD:VALUE");
    start(b"4\n000070000:0\n", "refused at line 2: not HEAD:VALUE");
    start(b"4\n00070000:0\n70000:0\n", "refused at line 3: the head");
    start(b"4\n70000:0\n", "refused at line 2: the head");
    start(b"1\n00070000:0\n", "refused 2 at 0 (line 1): ");
    start(b"256\n00070000:0\n", "refused 2 at 0 (line 1): ");
    let full = [b"4\n", &b"00070000:0\n".repeat(4000)[..]].concat();
    refused_27(&full, 0, 2);
    start(
        &[&full[..], b"00000000:0"].concat(),
        "refused at line 4002: more",
    );
    let last = [b"4\n", &b"00000000:0\n".repeat(3999)[..], b"00070000:0"].concat();
    refused_27(&last, 3999, 4001);
}

#[test]
fn laid_out_a_text_is_asked_all_but_27() {
    let mut met = Met::default();
    let mixed = 10 * texts::FAMILIES.len() as u64;
    let mut texts: Vec<Vec<u8>> = (0..mixed).map(|index| make(27, index).bytes).collect();
    texts.extend(retired_texts(500));
    for text in texts {
        let (written, old) = (to_record(&text), to_old_record(&text));
        let first = match written {
            Err(Fault::Question { refusal, .. }) if refusal.number == 27 => refusal.place,
            other => {
                assert_eq!(other, old);
                continue;
            }
        };
        match old {
            Ok(bytes) => {
                let record = read(&bytes, BOARD, 4000).unwrap();
                assert_eq!(first_chain(&record), Some(first));
                met.count("accepted");
            }
            Err(Fault::Question { refusal, .. }) => {
                assert!([6, 7].contains(&refusal.number) && refusal.place >= first);
                met.count(format!("refused {}", refusal.number));
            }
            Err(other) => panic!("{other}"),
        }
    }
    for (least, name) in [(50, "accepted"), (10, "refused 6"), (50, "refused 7")] {
        met.at_least(least, name);
    }
}

#[test]
fn a_record_without_kind_7_comes_back_from_its_text() {
    for index in 0..10 * FAMILIES.len() as u64 {
        let bytes = generate(9, index, BOARD).bytes;
        if let Ok(record) = read(&bytes, BOARD, 4000) {
            let text = canonical(&record);
            assert_eq!(to_old_record(&text), Ok(bytes.clone()));
            let again = to_record(&text);
            match expected(&record) {
                None => assert_eq!(again, Ok(bytes)),
                Some(refusal) => {
                    let line = refusal.place + 2;
                    assert_eq!(again, Err(Fault::Question { refusal, line }));
                }
            }
        }
    }
}

// Generated texts.

/// The events of a text that has no bad line, checked by no one.
fn events_of(text: &[u8]) -> Option<Vec<Event>> {
    let mut events = Vec::new();
    let text: String = text.iter().map(|&byte| char::from(byte)).collect();
    for line in text.split('\n') {
        let line = line.split('#').next()?.trim_matches(&[' ', '\t', '\r'][..]);
        if let Some((head, value)) = line.split_once(':') {
            let number = |digits: &str| u32::from_str_radix(digits.trim(), 16).ok();
            events.push(Event {
                head: number(head)?,
                value: number(value)?,
            });
        }
    }
    Some(events)
}

fn retired_texts(rounds: u64) -> Vec<Vec<u8>> {
    let (_, build) = texts::FAMILIES
        .iter()
        .find(|family| family.0 == "retired")
        .unwrap();
    let text = |round| build(&mut Random::for_index(1, round));
    (0..rounds).map(text).collect()
}

#[test]
fn the_retired_texts_have_chains_of_all_sorts() {
    let mut met = Met::default();
    for text in retired_texts(1000) {
        let events = events_of(&text).unwrap_or_default();
        let chains = events.iter().filter(|event| event.kind() == CHAIN).count();
        match to_record(&text) {
            Ok(_) => {
                met.count_if(chains == 0, "accepted");
                assert_eq!(chains, 0);
            }
            Err(Fault::Question { refusal, .. }) => {
                let Refusal { number, place } = refusal;
                met.count(format!("refused {number}"));
                met.count_if(chains > 0, &format!("refused {number} with a chain"));
                if number != 27 || events.is_empty() {
                    continue;
                }
                let (event, last) = (events[place], events.len() - 1);
                met.count_if(place == 0, "first");
                met.count_if(place == last, "last");
                met.count_if(place > 0 && place < last, "middle");
                met.count_if(chains > 1, "several");
                let parts = (event.address() > 0, event.value > 0);
                met.count(format!("parts {parts:?}"));
                met.count_if(event.head == 0x0007_FFFF, "0007ffff");
                let later = &events[place + 1..];
                for other in [6, 7] {
                    let wrong = |event: &Event| may_be_written(*event) == Err(other);
                    met.count_if(later.iter().any(wrong), &format!("before {other}"));
                }
            }
            Err(_) => met.count("bad line"),
        }
    }
    for (least, name) in [
        (150, "accepted"),
        (400, "refused 27"),
        (30, "refused 2 with a chain"),
        (30, "refused 6 with a chain"),
        (30, "refused 7 with a chain"),
        (20, "bad line"),
        (100, "first"),
        (50, "last"),
        (50, "middle"),
        (100, "several"),
        (50, "parts (false, false)"),
        (50, "parts (true, false)"),
        (50, "parts (false, true)"),
        (50, "parts (true, true)"),
        (20, "0007ffff"),
        (20, "before 6"),
        (20, "before 7"),
    ] {
        met.at_least(least, name);
    }
}

#[test]
fn most_other_texts_have_no_chain() {
    let (mut all, mut old) = (0, 0);
    for index in 0..20 * texts::FAMILIES.len() as u64 {
        let text = make(3, index);
        if text.family != "retired" {
            let result = to_record(&text.bytes).map_err(|fault| fault.to_string());
            all += 1;
            old += u32::from(result.is_err() && result.unwrap_err().starts_with("refused 27 "));
        }
    }
    assert!(old <= all / 50, "{old} of {all}");
}

// Generated records.

/// Whether a capture would change what is claimed.
fn would_show(machine: &Machine) -> bool {
    let mut captured = machine.clone();
    captured.play(Event::new(CSR_WRITE, MEICPCT, 0));
    captured != *machine
}

/// What the chains of a record met.
fn meet(record: &Record, met: &mut Met) {
    let (mut machine, _) = Machine::power_on(record.sources);
    let kinds: Vec<u32> = record.events.iter().map(|event| event.kind()).collect();
    for (index, &event) in record.events.iter().enumerate() {
        let before = machine.clone();
        let outcome = machine.play(event);
        if event.kind() != CHAIN {
            continue;
        }
        let end = match (outcome.refusal, outcome.answer) {
            (0, 0) => format!("0, {}", why_not(&before)),
            (0, _) => "served".to_string(),
            (refusal, _) => refusal.to_string(),
        };
        met.count(end.clone());
        met.count(format!("{end}, order {}", before.priord));
        met.count(format!("{end}, {} deep", before.handlers.len()));
        let opened = before.handlers.last().map_or(false, |top| top.opened);
        met.count(format!("{end}, opened {opened}"));
        let read = kinds.get(index + 1) == Some(&CSR_READ);
        met.count_if(read && would_show(&before), &format!("{end}, claim read"));
        for (name, beside) in [("after", index.wrapping_sub(1)), ("before", index + 1)] {
            let kind = kinds.get(beside).copied().unwrap_or(KINDS);
            met.count_if(kind == LOOK, &format!("{end}, {name} a look"));
            met.count_if(kind == COMMIT, &format!("{end}, {name} a commit"));
        }
    }
}

fn old_chains(limits: Limits, rounds: u64) -> Vec<Record> {
    let read = |bytes: Vec<u8>| read(&bytes, limits, limits.events).ok();
    let bytes = family_of("old chains", rounds, limits);
    bytes.into_iter().filter_map(read).collect()
}

const VAIN: [&str; 4] = ["0, higher", "0, lower", "0, threshold", "0, none"];

#[test]
fn the_family_gives_every_outcome_of_a_chain() {
    for limits in PLAYERS {
        let mut met = Met::default();
        for record in old_chains(limits, 500) {
            meet(&record, &mut met);
        }
        for end in VAIN.into_iter().chain(["17", "19", "served"]) {
            met.at_least(100, end);
            met.at_least(50, &format!("{end}, claim read"));
            for order in [false, true] {
                met.at_least(20, &format!("{end}, order {order}"));
            }
        }
        for end in VAIN.into_iter().chain(["served"]) {
            for deep in 1..=3 {
                met.at_least(5, &format!("{end}, {deep} deep"));
            }
            for opened in [false, true] {
                met.at_least(20, &format!("{end}, opened {opened}"));
            }
        }
        for deep in 1..=15 {
            met.at_least(20, &format!("served, {deep} deep"));
        }
        for beside in ["after a look", "after a commit", "before a commit"] {
            met.at_least(50, &format!("served, {beside}"));
        }
    }
}

#[test]
fn most_of_the_family_is_old_and_has_looks_and_commits_too() {
    for limits in PLAYERS {
        let rounds = 500;
        let records = old_chains(limits, rounds);
        assert!(records.len() as u64 >= rounds / 2);
        let has = |record: &&Record, kind| record.events.iter().any(|event| event.kind() == kind);
        let old = records.iter().filter(|record| has(record, CHAIN)).count();
        let all_three = |record: &&Record| [CHAIN, LOOK, COMMIT].iter().all(|&k| has(record, k));
        let all = records.iter().filter(all_three).count();
        assert!(old > records.len() * 9 / 10, "{old}");
        assert!(all > records.len() * 2 / 3, "{all}");
    }
}

#[test]
fn the_family_is_refused_with_7_and_6_never_with_27() {
    for limits in PLAYERS {
        let mut met = Met::default();
        for bytes in family_of("old chains", 600, limits) {
            assert_eq!(play(&bytes, limits).1.refusals[27], 0);
            if let Some((number, event)) = refused_at(&bytes, limits) {
                let parts = (event.address() > 0, event.value > 0);
                let name = match (number, event.kind()) {
                    (7, CHAIN) => format!("7, {parts:?}"),
                    (6, kind) if kind & 0xF == CHAIN => "6".to_string(),
                    _ => panic!("{number} at {event}"),
                };
                met.count(name);
                let (_, place) = reading(&bytes, limits).unwrap();
                let head = |place: usize| bytes[8 + 4 * place + 2];
                met.count_if((0..place).any(|at| head(at) == 7), "after a good chain");
                met.count_if(place == 0, "first");
            }
        }
        for name in ["7, (true, false)", "7, (false, true)", "7, (true, true)"] {
            met.at_least(10, name);
        }
        for name in ["6", "after a good chain", "first"] {
            met.at_least(10, name);
        }
    }
}
