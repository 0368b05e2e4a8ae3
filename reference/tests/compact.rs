//! The compact player: its limits, the order of its questions, and what it shares with the big one.

use reference::event::{Event, NO_KIND};
use reference::generate::{generate, FAMILIES};
use reference::player::{play, print, Tally};
use reference::random::Random;
use reference::record::{self, lay_out, Limits, Refusal, BOARD, COMPACT};
use std::collections::BTreeMap;

/// Fails question 6.
const UNKNOWN: (u32, u32) = (NO_KIND | 1, 1);
/// Fails question 7.
const UNUSED: (u32, u32) = (0x0005_0000, 1);

/// So many accepted events, but for some with their places.
fn with(sources: u32, count: usize, others: &[(usize, (u32, u32))]) -> Vec<u8> {
    let (mut heads, mut values) = (vec![0; count], vec![u32::MAX; count]);
    for &(place, (head, value)) in others {
        (heads[place], values[place]) = (head, value);
    }
    lay_out(count as u32, sources, &heads, &values)
}

fn good(sources: u32, count: usize) -> Vec<u8> {
    with(sources, count, &[])
}

/// A record cut to its sizes.
fn sizes(sources: u32, count: u32) -> Vec<u8> {
    lay_out(count, sources, &[], &[])
}

fn longer(mut bytes: Vec<u8>, more: usize) -> Vec<u8> {
    bytes.resize(bytes.len() + more, 0);
    bytes
}

fn reading(bytes: &[u8], limits: Limits) -> Option<(u32, usize)> {
    record::read(bytes, limits, limits.events)
        .err()
        .map(|Refusal { number, place }| (number, place))
}

fn compact(bytes: &[u8]) -> Option<(u32, usize)> {
    reading(bytes, COMPACT)
}

fn board(bytes: &[u8]) -> Option<(u32, usize)> {
    reading(bytes, BOARD)
}

fn word(bytes: &[u8], place: usize) -> Option<u32> {
    let four = bytes.get(4 * place..4 * place + 4)?;
    Some(u32::from_le_bytes(four.try_into().unwrap()))
}

// The reader.

#[test]
fn the_limits_are_63_sources_and_500_events() {
    assert_eq!((COMPACT.sources, COMPACT.events), (63, 500));
    assert_eq!((BOARD.sources, BOARD.events), (255, 4000));
    assert_eq!((COMPACT.longest(), BOARD.longest()), (4008, 32008));
}

#[test]
fn n_of_more_than_63_is_22_and_of_more_than_255_is_2() {
    for sources in 0..=300 {
        let expected = match sources {
            0 | 1 | 256.. => Some((2, 0)),
            2..=63 => None,
            64..=255 => Some((22, 0)),
        };
        assert_eq!(compact(&good(sources, 3)), expected, "N {sources}");
    }
    for sources in [0x13F, 0x3F00, 0x1_003F, 0x4000_0000, 0x8000_0002, u32::MAX] {
        assert_eq!(compact(&good(sources, 3)), Some((2, 0)), "N {sources}");
    }
}

#[test]
fn more_than_500_events_are_23_and_more_than_4000_are_3() {
    for count in [0, 1, 2, 250, 499, 500] {
        assert_eq!(compact(&good(63, count)), None, "{count} events");
    }
    for count in [501, 502, 512, 1000, 3999, 4000] {
        assert_eq!(compact(&good(63, count)), Some((23, 0)), "{count} events");
    }
    for count in [4001, 4002, 4096, 5000] {
        assert_eq!(compact(&good(63, count)), Some((3, 0)), "{count} events");
    }
    // The sizes alone.
    for count in 1..=4100 {
        let number = match count {
            1..=500 => 4,
            501..=4000 => 23,
            _ => 3,
        };
        assert_eq!(compact(&sizes(2, count)), Some((number, 0)), "{count}");
    }
    for count in [0x1_0000, 0x2000_0000, 0x2000_01F4, 0x8000_0000, u32::MAX] {
        assert_eq!(compact(&sizes(2, count)), Some((3, 0)), "{count}");
    }
}

#[test]
fn the_first_question_that_fails_decides() {
    // 2 before 22 and 3; 22 before 3 and 23; 3 before 23.
    for count in [0, 500, 501, 4000, 4001, 5000, u32::MAX] {
        for sources in [0, 1, 256, u32::MAX] {
            assert_eq!(compact(&sizes(sources, count)), Some((2, 0)));
        }
        for sources in [64, 255] {
            assert_eq!(compact(&sizes(sources, count)), Some((22, 0)));
        }
    }
    assert_eq!(compact(&good(256, 5000)), Some((2, 0)));
    assert_eq!(compact(&good(64, 5000)), Some((22, 0)));
    assert_eq!(compact(&good(64, 501)), Some((22, 0)));
    assert_eq!(compact(&good(63, 5000)), Some((3, 0)));
    // 23 before 4, but not of a count within the limit.
    for (count, number) in [(499, 4), (500, 4), (501, 23), (4000, 23), (4001, 3)] {
        for more in [1, 4, 8, 30_000] {
            assert_eq!(
                compact(&longer(good(63, count), more)),
                Some((number, 0)),
                "{count} events, {more} more bytes"
            );
        }
        for less in [1, 4, 8, 8 * count] {
            let bytes = good(63, count);
            assert_eq!(
                compact(&bytes[..bytes.len() - less]),
                Some((number, 0)),
                "{count} events, {less} fewer bytes"
            );
        }
    }
    // 22 and 23 before 4, 6 and 7.
    for bad in [UNKNOWN, UNUSED] {
        for (sources, count, number) in [(64, 500, 22), (255, 4000, 22), (63, 501, 23)] {
            for place in [0, 1, count - 1] {
                let bytes = with(sources, count, &[(place, bad)]);
                assert_eq!(compact(&bytes), Some((number, 0)));
                assert_eq!(compact(&longer(bytes, 1)), Some((number, 0)));
            }
        }
    }
}

#[test]
fn fewer_than_8_bytes_are_1() {
    for whole in [
        good(63, 500),
        sizes(64, 501),
        sizes(64, 5000),
        sizes(256, 501),
        sizes(0, 0),
        vec![0xFF; 8],
    ] {
        for size in 0..8 {
            assert_eq!(compact(&whole[..size]), Some((1, 0)));
        }
        assert_ne!(compact(&whole[..8]), Some((1, 0)));
    }
}

#[test]
fn questions_6_and_7_give_the_place() {
    for (bad, number) in [(UNKNOWN, 6), (UNUSED, 7)] {
        for count in [1, 2, 499, 500] {
            for place in [0, count / 2, count - 1] {
                let bytes = with(63, count, &[(place, bad)]);
                assert_eq!(compact(&bytes), Some((number, place)));
                assert_eq!(compact(&longer(bytes, 1)), Some((4, 0)));
            }
        }
    }
    // The earlier event decides.
    let both = |first, second| with(2, 500, &[(7, first), (499, second)]);
    assert_eq!(compact(&both(UNKNOWN, UNUSED)), Some((6, 7)));
    assert_eq!(compact(&both(UNUSED, UNKNOWN)), Some((7, 7)));
}

#[test]
fn question_5_comes_after_22_23_and_4() {
    let refusal = |bytes: &[u8], room| record::read(bytes, COMPACT, room).unwrap_err();
    let at_0 = |number| Refusal { number, place: 0 };
    assert_eq!(refusal(&good(63, 500), 499), at_0(5));
    assert!(record::read(&good(63, 500), COMPACT, 500).is_ok());
    assert_eq!(refusal(&with(63, 2, &[(0, UNKNOWN)]), 1), at_0(5));
    assert_eq!(refusal(&longer(good(63, 2), 1), 1), at_0(4));
    assert_eq!(refusal(&good(64, 2), 1), at_0(22));
    for room in [0, 500, 4000] {
        assert_eq!(refusal(&good(63, 501), room), at_0(23));
    }
}

/// The refusal by the questions in their order; `bad` is that of the first bad event.
fn by_questions(bytes: &[u8], limits: Limits, bad: Option<(u32, usize)>) -> Option<(u32, usize)> {
    let count = word(bytes, 0).unwrap_or(0) as usize;
    let sources = word(bytes, 1).unwrap_or(0);
    let answers = [
        (1, bytes.len() >= 8),
        (2, (2..=255).contains(&sources)),
        (22, sources <= limits.sources),
        (3, count <= 4000),
        (23, count <= limits.events),
        (4, bytes.len() == 8 + 8 * count),
    ];
    let no = answers.iter().find(|(_, yes)| !yes);
    no.map(|&(number, _)| (number, 0)).or(bad)
}

/// Reads the bytes in many lengths, with both readers.
fn check_lengths(bytes: &[u8], bad: Option<(u32, usize)>) {
    let right = bytes.len();
    let mut lengths = vec![0, 7, 8, 12, 4008, 4009, 32_008, 32_009];
    lengths.extend([right - 8, right - 1, right, right + 1, right + 8]);
    for length in lengths {
        let mut bytes = bytes.to_vec();
        bytes.resize(length, 0);
        for limits in [BOARD, COMPACT] {
            let expected = by_questions(&bytes, limits, bad);
            let start = &bytes[..length.min(8)];
            assert_eq!(
                reading(&bytes, limits),
                expected,
                "{start:?}, {length} bytes, {bad:?}, {limits:?}"
            );
        }
    }
}

#[test]
fn both_readers_ask_their_questions_in_order() {
    let counts: [usize; 10] = [0, 1, 499, 500, 501, 502, 3999, 4000, 4001, 5000];
    for sources in [1, 2, 63, 64, 255, 256] {
        for count in counts {
            check_lengths(&good(sources, count), None);
            for place in [0, count.saturating_sub(1)] {
                for (event, number) in [(UNKNOWN, 6), (UNUSED, 7)] {
                    if count > 0 {
                        let bytes = with(sources, count, &[(place, event)]);
                        check_lengths(&bytes, Some((number, place)));
                    }
                }
            }
        }
    }
}

#[test]
fn the_big_reader_and_the_writer_have_neither_22_nor_23() {
    for (sources, count) in [(64, 500), (63, 501), (64, 501), (255, 4000)] {
        let bytes = good(sources, count);
        assert_eq!(board(&bytes), None);
        let (heads, values) = (vec![0; count], vec![u32::MAX; count]);
        let written = record::write(sources, &heads, &values, BOARD.longest());
        assert_eq!(written, Ok(bytes));
    }
    for (sources, count, number) in [(256, 5000, 2), (64, 5000, 3), (255, 4001, 3)] {
        assert_eq!(board(&good(sources, count)), Some((number, 0)));
        let refusal = record::write(sources, &vec![0; count], &[], 0).unwrap_err();
        assert_eq!((refusal.number, refusal.place), (number, 0));
    }
    assert_eq!(board(&longer(good(255, 4000), 1)), Some((4, 0)));
}

#[test]
fn a_refusal_prints_one_line() {
    for (bytes, line) in [
        (good(64, 500), "refused 22 at 0\n"),
        (good(63, 501), "refused 23 at 0\n"),
        (good(64, 5000), "refused 22 at 0\n"),
        (good(63, 4001), "refused 3 at 0\n"),
        (longer(good(63, 500), 1), "refused 4 at 0\n"),
        (with(63, 500, &[(499, UNUSED)]), "refused 7 at 499\n"),
    ] {
        let (text, tally) = play(&bytes, COMPACT);
        assert_eq!(text, line);
        assert_eq!(tally.refusals.iter().sum::<u64>(), 1);
    }
    assert_eq!(play(&good(64, 500), COMPACT).1.refusals[22], 1);
    assert_eq!(play(&good(63, 501), COMPACT).1.refusals[23], 1);
}

// Both players.

/// So many generated records for each player.
fn records(count: u64) -> impl Iterator<Item = Vec<u8>> {
    let of = move |limits| (0..count).map(move |index| generate(9, index, limits).bytes);
    of(BOARD).chain(of(COMPACT))
}

#[test]
fn the_readers_agree_but_for_22_and_23() {
    let mut met = BTreeMap::new();
    for bytes in records(2000) {
        let compact = record::read(&bytes, COMPACT, 500);
        let board = record::read(&bytes, BOARD, 4000);
        let number = match &compact {
            Ok(_) => 0,
            Err(refusal) => refusal.number,
        };
        *met.entry(number).or_insert(0) += 1;
        if let Ok(record) = &board {
            let fits = record.sources <= 63 && record.events.len() <= 500;
            assert_eq!(fits, number == 0);
        }
        if number != 22 && number != 23 {
            assert_eq!(compact, board);
            continue;
        }
        assert_eq!(compact.unwrap_err().place, 0);
        let (count, sources) = (word(&bytes, 0).unwrap(), word(&bytes, 1).unwrap());
        if number == 22 {
            assert!((64..=255).contains(&sources));
        } else {
            assert!((2..=63).contains(&sources) && (501..=4000).contains(&count));
        }
    }
    for number in [0, 1, 2, 3, 4, 6, 7, 22, 23] {
        assert!(met.get(&number) >= Some(&40), "{met:?}");
    }
}

#[test]
fn a_record_that_both_accept_prints_the_same() {
    let mut alike = 0;
    for bytes in records(1000) {
        if compact(&bytes).is_none() && board(&bytes).is_none() {
            let (text, tally) = play(&bytes, COMPACT);
            assert!(text.starts_with("sources "));
            assert_eq!(text, print(&bytes, BOARD));
            assert_eq!(text.lines().count() as u64, tally.events + 2);
            alike += 1;
        }
    }
    assert!(alike >= 800, "{alike}");
    let full = good(63, 500);
    assert_eq!(print(&full, COMPACT), print(&full, BOARD));
}

#[test]
fn of_longer_input_the_first_4009_bytes_decide() {
    let mut met = BTreeMap::new();
    for bytes in records(2000).filter(|bytes| bytes.len() > 4009) {
        let refusal = compact(&bytes);
        assert_eq!(compact(&bytes[..4009]), refusal);
        assert_eq!(print(&bytes[..4009], COMPACT), print(&bytes, COMPACT));
        let number = refusal.map_or(0, |(number, _)| number);
        *met.entry(number).or_insert(0) += 1;
    }
    let numbers: Vec<u32> = met.keys().copied().collect();
    assert_eq!(numbers, [2, 3, 4, 22, 23]);
    assert!(met.values().all(|&times| times >= 20), "{met:?}");
    for count in [0, 1, 499, 500, 501, 4000, 4001] {
        for sources in [1, 63, 64, 256] {
            let bytes = longer(good(sources, count), 5000);
            assert_eq!(compact(&bytes[..4009]), compact(&bytes));
        }
    }
    // With one byte fewer the record would be accepted.
    let full = longer(good(63, 500), 1);
    assert_eq!(compact(&full), Some((4, 0)));
    assert_eq!(compact(&full[..4008]), None);
}

// Generated records.

#[test]
fn every_refusal_of_the_compact_player_occurs() {
    let rounds = 1500;
    let mut all = Tally::default();
    let (mut accepted, mut full, mut exact) = (0, 0, 0);
    for index in 0..rounds {
        let bytes = generate(1, index, COMPACT).bytes;
        all.add(&play(&bytes, COMPACT).1);
        if let Ok(record) = record::read(&bytes, COMPACT, 500) {
            let events = record.events.len();
            accepted += 1;
            full += u64::from(events == 500);
            exact += u64::from(record.sources == 63 && events == 500);
        }
    }
    for number in [1, 2, 3, 4, 6, 7].into_iter().chain(9..=26) {
        let times = all.refusals[number];
        assert!(times >= 20, "refusal {number}: {times}");
    }
    assert_eq!((all.refusals[5], all.refusals[8]), (0, 0));
    assert!(all.accepted.iter().all(|&times| times > 100));
    assert!(all.chains_served > 100 && all.looks_found > 100);
    assert_eq!(all.deepest, 15);
    assert!(accepted >= rounds / 2, "{accepted}");
    assert!(accepted <= rounds * 3 / 4, "{accepted}");
    assert!(full >= rounds / 20, "{full}");
    assert!(exact >= rounds / 200, "{exact}");
}

#[test]
fn every_family_suits_both_readers() {
    let rounds = 40;
    for (name, build) in FAMILIES {
        let accepted = |limits| {
            let record = |round| build(&mut Random::for_index(1, round), limits);
            let taken = |round: &u64| reading(&record(*round), limits).is_none();
            (0..rounds).filter(taken).count() as u64
        };
        let (big, small) = (accepted(BOARD), accepted(COMPACT));
        // All, none or some of a family are accepted, and about as many by either.
        let apart = match big {
            0 => 0,
            _ if big == rounds => 0,
            _ => rounds / 4,
        };
        assert!(big.abs_diff(small) <= apart, "{name}: {big} and {small}");
    }
}

#[test]
fn every_third_record_for_the_compact_player_is_about_limits() {
    for index in 0..200 {
        let generated = generate(5, index, COMPACT);
        if index % 3 == 2 {
            assert_eq!(generated.family, "limits");
        }
        assert_eq!(generated.bytes, generate(5, index, COMPACT).bytes);
    }
    let count = 3 * FAMILIES.len() as u64;
    let mut families = BTreeMap::new();
    for index in 0..count {
        *families
            .entry(generate(5, index, COMPACT).family)
            .or_insert(0) += 1;
    }
    assert_eq!(families.len(), FAMILIES.len());
    for (name, times) in families {
        let expected = if name == "limits" { 2 + count / 3 } else { 2 };
        assert_eq!(times, expected, "{name}");
    }
}

fn about_limits(rounds: u64, limits: Limits) -> impl Iterator<Item = Vec<u8>> {
    let (_, build) = FAMILIES.iter().find(|found| found.0 == "limits").unwrap();
    (0..rounds).map(move |round| build(&mut Random::for_index(1, round), limits))
}

/// All questions to which the answer is no, in their order; sizes that are cut go on with zeros.
fn failed(bytes: &[u8], limits: Limits) -> Vec<u32> {
    let start: Vec<u8> = bytes.iter().copied().chain([0; 8]).take(8).collect();
    let (count, sources) = (word(&start, 0).unwrap(), word(&start, 1).unwrap());
    let by_event = |place| {
        let head = word(bytes, 2 + place)?;
        let value = word(bytes, 2 + count as usize + place).unwrap_or(0);
        Event { head, value }.action().err()
    };
    let held = (count as usize).min(bytes.len());
    let events: Vec<u32> = (0..held).filter_map(by_event).collect();
    let mut failed = Vec::new();
    for (number, no) in [
        (1, bytes.len() < 8),
        (2, !(2..=255).contains(&sources)),
        (22, sources > limits.sources),
        (3, count > 4000),
        (23, count as usize > limits.events),
        (4, bytes.len() as u64 != 8 + 8 * u64::from(count)),
        (6, events.contains(&6)),
        (7, events.contains(&7)),
    ] {
        if no {
            failed.push(number);
        }
    }
    failed
}

#[test]
fn neighbouring_questions_fail_together() {
    let of_board = [(1, 2), (2, 3), (3, 4), (4, 6), (4, 7), (6, 7)];
    let of_compact = [
        (1, 2),
        (2, 22),
        (22, 3),
        (22, 23),
        (3, 23),
        (3, 4),
        (23, 4),
        (4, 6),
        (4, 7),
        (6, 7),
        (22, 4),
        (22, 6),
        (22, 7),
        (23, 6),
        (23, 7),
    ];
    for (limits, pairs) in [(BOARD, &of_board[..]), (COMPACT, &of_compact)] {
        let mut times = vec![0; pairs.len()];
        let mut alone = BTreeMap::new();
        for bytes in about_limits(3000, limits) {
            let failed = failed(&bytes, limits);
            let refusal = reading(&bytes, limits);
            let decides = match (failed.first(), refusal) {
                (None, None) => continue,
                // Of these two the earlier event.
                (Some(6), Some((number, _))) => number,
                (Some(&first), Some((number, _))) => {
                    assert_eq!(number, first);
                    number
                }
                _ => panic!("{failed:?}, but {refusal:?}"),
            };
            if failed.len() == 1 {
                *alone.entry(decides).or_insert(0) += 1;
            }
            for (pair, times) in pairs.iter().zip(&mut times) {
                *times += u32::from(decides == pair.0 && failed.contains(&pair.1));
            }
        }
        for (pair, times) in pairs.iter().zip(times) {
            assert!(times >= 5, "{pair:?}: {times}");
        }
        let own: &[u32] = if limits == COMPACT { &[22, 23] } else { &[] };
        for number in [2, 4, 6, 7].iter().chain(own) {
            assert!(alone.get(number) >= Some(&5), "{number}: {alone:?}");
        }
    }
}

#[test]
fn the_family_has_the_limits_themselves() {
    for limits in [BOARD, COMPACT] {
        let mut accepted = BTreeMap::new();
        for bytes in about_limits(3000, limits) {
            if reading(&bytes, limits).is_none() {
                let pair = (word(&bytes, 1).unwrap(), word(&bytes, 0).unwrap());
                *accepted.entry(pair).or_insert(0) += 1;
            }
        }
        for sources in [2, 62, 63, 64, 65, 254, 255] {
            for count in [0, 1, 499, 500, 501, 3999, 4000] {
                let inside = sources <= limits.sources && count as usize <= limits.events;
                let least = if inside { Some(&3) } else { None };
                let times = accepted.get(&(sources, count));
                assert!(times >= least, "N {sources}, {count} events: {times:?}");
                assert_eq!(times.is_some(), inside);
            }
        }
        let exact = accepted.get(&(limits.sources, limits.events as u32));
        assert!(exact >= Some(&20), "{exact:?}");
    }
}

#[test]
fn the_family_has_lengths_and_places_of_all_sorts() {
    for limits in [BOARD, COMPACT] {
        let mut sorts: BTreeMap<&str, u32> = BTreeMap::new();
        for bytes in about_limits(3000, limits) {
            let length = bytes.len();
            let count = word(&bytes, 0).map_or(0, u64::from);
            let more = length as i64 - (8 + 8 * count) as i64;
            let place = match reading(&bytes, limits) {
                Some((6 | 7, place)) => Some(place as u64),
                _ => None,
            };
            for (name, fits) in [
                ("no byte", length == 0),
                ("7 bytes", length == 7),
                ("the sizes alone", length == 8 && count > 0),
                ("a byte more", more == 1),
                ("a byte less", more == -1),
                ("a word more", more == 4),
                ("a word less", more == -4),
                ("an event more", more == 8),
                ("an event less", more == -8),
                ("just above 4,008", length == 4009 && count == 500),
                ("above 4,008", length > 4008 && count < 500),
                ("above 32,008", length > 32_008 && count <= 500),
                (
                    "above 32,008, 4,000 events",
                    length > 32_008 && count == 4000,
                ),
                ("a huge count", count > 0x2000),
                ("the first event", place == Some(0) && count > 1),
                ("the last event", place == Some(count.max(2) - 1)),
                ("another", place > Some(0) && place < Some(count.max(2) - 1)),
            ] {
                *sorts.entry(name).or_default() += u32::from(fits);
            }
        }
        for (name, times) in sorts {
            assert!(times >= 5, "{name}: {times}");
        }
    }
}
