//! Generated records: soundness, coverage, round trips.

use reference::event::*;
use reference::generate::{bench_record, generate, FAMILIES};
use reference::machine::Machine;
use reference::player::{self, Tally};
use reference::random::Random;
use reference::record::{self, Record, Refusal, BOARD};
use reference::timer::{Timer, MITCTL, TIMER_CSRS};

/// Enough for every family several times.
const RECORDS: u64 = 12 * FAMILIES.len() as u64;

#[test]
fn every_event_keeps_the_machine_sound() {
    let mut events = 0;
    for index in 0..RECORDS {
        let generated = generate(7, index, BOARD);
        let record = match record::read(&generated.bytes, BOARD, 4000) {
            Ok(record) => record,
            Err(_) => continue,
        };
        let (mut machine, _) = Machine::power_on(record.sources);
        assert!(machine.sound());
        for event in record.events {
            let before = machine.clone();
            let outcome = machine.play(event);
            assert!(machine.sound(), "{}: {event:?}", generated.family);
            if outcome.refusal != 0 {
                assert_eq!(machine, before);
                assert_eq!(outcome.answer, 0);
            }
            assert!((-15..=15).contains(&machine.margin()));
            events += 1;
        }
    }
    assert!(events > 5000);
}

#[test]
fn every_refusal_of_a_player_occurs() {
    let mut all = Tally::default();
    for index in 0..RECORDS {
        all.add(&player::play(&generate(1, index, BOARD).bytes, BOARD).1);
    }
    for number in [1, 2, 3, 4, 6, 7].into_iter().chain(9..=21).chain(24..=26) {
        assert!(all.refusals[number] > 0, "refusal {number}");
    }
    // The player's arrays hold any record, and its machine is sound. It takes every N and n that
    // pass questions 2 and 3.
    // Only the writer has 27.
    for number in [5, 8, 22, 23, 27] {
        assert_eq!(all.refusals[number], 0, "refusal {number}");
    }
    assert!(all.accepted.iter().all(|&times| times > 100));
    assert!(all.chains_served > 100 && all.looks_found > 100);
    assert_eq!(all.deepest, 15);
}

fn records(family: &str, rounds: u64) -> Vec<Vec<u8>> {
    let (_, build) = FAMILIES.iter().find(|found| found.0 == family).unwrap();
    let record = |round| build(&mut Random::for_index(1, round), BOARD);
    (0..rounds).map(record).collect()
}

/// Of `rounds` records of a family, how many are accepted and have events.
fn played(family: &str, rounds: u64) -> u64 {
    let plays = |bytes: &&Vec<u8>| player::play(bytes, BOARD).1.events > 0;
    records(family, rounds).iter().filter(plays).count() as u64
}

/// Those of `rounds` records that are accepted.
fn accepted(family: &str, rounds: u64) -> Vec<Record> {
    let read = |bytes: Vec<u8>| record::read(&bytes, BOARD, 4000).ok();
    records(family, rounds)
        .into_iter()
        .filter_map(read)
        .collect()
}

/// The machines that the clocks of some records meet.
fn at_clocks(records: &[Record]) -> Vec<Machine> {
    let mut met = Vec::new();
    for record in records {
        let (mut machine, _) = Machine::power_on(record.sources);
        for &event in &record.events {
            if event.kind() == CLOCK {
                met.push(machine.clone());
            }
            machine.play(event);
        }
    }
    met
}

type State = (&'static str, fn(&Timer) -> bool);

#[test]
fn clocks_meet_timers_in_every_state() {
    let met = at_clocks(&accepted("timers", 60));
    let states: [State; 12] = [
        ("bound 0", |timer| timer.bound == 0),
        ("bound 1", |timer| timer.bound == 1),
        ("greatest bound", |timer| timer.bound == u32::MAX),
        ("just below", |timer| {
            timer.count.checked_add(1) == Some(timer.bound)
        }),
        ("at", |timer| timer.count == timer.bound),
        ("above", |timer| timer.count > timer.bound),
        ("disabled below", |timer| {
            !timer.enabled() && timer.count < timer.bound
        }),
        ("disabled at", |timer| {
            !timer.enabled() && timer.count == timer.bound
        }),
        ("disabled above", |timer| {
            !timer.enabled() && timer.count > timer.bound
        }),
        ("greatest count and bound", |timer| {
            timer.count == u32::MAX && timer.bound == u32::MAX
        }),
        ("greatest count above its bound", |timer| {
            timer.count == u32::MAX && timer.bound < u32::MAX
        }),
        ("all of control", |timer| timer.control == 7),
    ];
    for (name, state) in states {
        for timer in [0, 1] {
            let fits = |machine: &&Machine| state(&machine.timers[timer]);
            let times = met.iter().filter(fits).count();
            assert!(times >= 5, "{name}, timer {timer}: {times}");
        }
    }
    for deep in 0..=4 {
        let fits = |machine: &&Machine| machine.handlers.len() == deep;
        let times = met.iter().filter(fits).count();
        assert!(times >= 5, "{deep} handlers: {times}");
    }
    let mut signals = [0; 4];
    for mut machine in met {
        let outcome = machine.play(Event::new(CLOCK, 0, 0));
        signals[outcome.answer as usize] += 1;
    }
    assert!(signals.iter().all(|&times| times > 50), "{signals:?}");
}

/// How many events of some records fit.
fn times(records: &[Record], fits: impl Fn(&Event) -> bool) -> usize {
    let events = |record: &Record| record.events.iter().filter(|event| fits(event)).count();
    records.iter().map(events).sum()
}

#[test]
fn controls_are_written_with_bits_that_are_dropped() {
    let records = accepted("timers", 60);
    for address in MITCTL {
        let written = |event: &Event| event.kind() == CSR_WRITE && event.address() == address;
        assert!(times(&records, |event| written(event) && event.value > 7) >= 5);
    }
}

#[test]
fn clocks_and_timers_are_in_the_mixed_families() {
    for family in [
        "short",
        "mixed",
        "plain random",
        "csr addresses",
        "nesting",
        "nesting, wandering",
        "timers",
        "noise",
    ] {
        let records = accepted(family, 40);
        let clocks = times(&records, |event| event.kind() == CLOCK);
        assert!(clocks >= 5, "{family}: {clocks}");
        for kind in [CSR_READ, CSR_WRITE] {
            let of_timers = |event: &Event| TIMER_CSRS.contains(&event.address());
            let found = times(&records, |event| event.kind() == kind && of_timers(event));
            assert!(found >= 5, "{family}, kind {kind}: {found}");
        }
    }
}

#[test]
fn some_records_are_refused_for_the_unused_parts_of_a_clock() {
    let (mut by_address, mut by_value) = (0, 0);
    let mut all = records("unused parts", 200);
    all.extend(records("timers", 50));
    for bytes in all {
        if let Err(refusal) = record::read(&bytes, BOARD, 4000) {
            let word = |place: usize| {
                let four = bytes[4 * place..4 * place + 4].try_into().unwrap();
                u32::from_le_bytes(four)
            };
            let head = word(2 + refusal.place);
            if refusal.number == 7 && head >> 16 == CLOCK {
                by_address += u32::from(head & 0xFFFF != 0);
                by_value += u32::from(word(2 + word(0) as usize + refusal.place) != 0);
            }
        }
    }
    assert!(by_address >= 3 && by_value >= 3, "{by_address} {by_value}");
}

#[test]
fn half_of_the_flipped_and_noisy_records_play() {
    let rounds = 600;
    for family in ["flipped bits", "noise"] {
        let played = played(family, rounds);
        assert!(played >= rounds * 48 / 100, "{family}: {played}");
        // The rest is still damaged.
        assert!(played <= rounds * 75 / 100, "{family}: {played}");
    }
    assert_eq!(played("mixed", 10), 10);
    assert_eq!(played("unknown kind", 10), 0);
}

#[test]
fn a_record_survives_reading_and_writing() {
    let (mut new, mut old) = (0, 0);
    for index in 0..RECORDS {
        let bytes = generate(3, index, BOARD).bytes;
        if let Ok(record) = record::read(&bytes, BOARD, 4000) {
            assert_eq!(record::bytes_of(&record), bytes);
            let written = record::write_record(&record);
            match record.events.iter().position(|event| event.kind() == CHAIN) {
                None => {
                    assert_eq!(written.unwrap(), bytes);
                    new += 1;
                }
                Some(place) => {
                    assert_eq!(written, Err(Refusal { number: 27, place }));
                    old += 1;
                }
            }
        }
    }
    assert!(new > FAMILIES.len() && old > FAMILIES.len());
}

#[test]
fn a_seed_gives_the_same_record_again() {
    for index in 0..FAMILIES.len() as u64 {
        let bytes = || generate(5, index, BOARD).bytes;
        assert_eq!(bytes(), bytes());
    }
    let mut names: Vec<_> = (0..FAMILIES.len() as u64)
        .map(|index| generate(5, index, BOARD).family)
        .collect();
    names.sort_unstable();
    names.dedup();
    assert_eq!(names.len(), FAMILIES.len());
}

#[test]
fn bench_records_have_their_size_and_no_refusals() {
    for name in ["samples", "mixed", "nested", "added"] {
        for size in [0, 1, 10, 100, 1000, 4000] {
            let bytes = bench_record(name, size).unwrap();
            let (_, tally) = player::play(&bytes, BOARD);
            assert_eq!(tally.events, size as u64);
            assert_eq!(tally.refusals[1..].iter().sum::<u64>(), 0, "{name} {size}");
            for kind in [CLOCK, ERROR, LOOK, COMMIT] {
                let accepted = tally.accepted[kind as usize];
                if name != "added" {
                    assert_eq!(accepted, 0);
                } else if size >= 100 {
                    assert!(accepted as usize > size / 8, "{kind} {size}: {accepted}");
                }
            }
            if size == 4000 && name == "nested" {
                assert_eq!(tally.deepest, 15);
                assert!(tally.chains_served > 100);
            }
        }
    }
    assert!(bench_record("other", 10).is_none());
}
