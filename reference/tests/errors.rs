//! The error counters: registers, errors, and what an error leaves alone.

mod common;

use common::records::*;
use common::*;
use reference::error_counter::*;
use reference::event::*;
use reference::generate::{generate, FAMILIES};
use reference::machine::*;
use reference::player::print;
use reference::random::Random;
use reference::record::{self, Limits, Record, Refusal, BOARD, COMPACT};
use reference::timer::TIMER_CSRS;

/// The greatest count.
const MOST: u32 = 134_217_727;

/// What the three CSRs read.
fn registers(machine: &mut Machine) -> [u32; 3] {
    ERROR_CSRS.map(|address| {
        let outcome = machine.csr_read(address);
        assert_eq!(outcome.refusal, 0);
        outcome.answer
    })
}

/// A machine with one of the counters set, and others that show whether they stay.
fn with_counter(counter: u32, threshold: u32, count: u32) -> Machine {
    let mut machine = machine(4);
    for (other, address) in (0..).zip(ERROR_CSRS) {
        let value = if other == counter {
            threshold << 27 | count
        } else {
            (7 + other) << 27 | (1000 + other)
        };
        assert_eq!(machine.csr_write(address, value), ACCEPTED);
    }
    machine
}

/// Everything but the error counters is as it was.
fn only_counters_changed(after: &Machine, before: &Machine) {
    let mut after = after.clone();
    after.error_counters = before.error_counters.clone();
    assert_eq!(after, *before);
}

// The registers.

#[test]
fn the_addresses_are_those_of_the_manual() {
    assert_eq!(ERROR_CSRS, [0x7F0, 0x7F1, 0x7F2]);
    assert_eq!(ERROR, 11);
}

#[test]
fn power_on_sets_them_to_0() {
    for sources in [2, 3, 255] {
        assert_eq!(registers(&mut machine(sources)), [0, 0, 0]);
    }
    for sources in [0, 1, 256, u32::MAX] {
        let (mut machine, refusal) = Machine::power_on(sources);
        assert_eq!(refusal, 2);
        assert_eq!(registers(&mut machine), [0, 0, 0]);
        assert_eq!(machine, Machine::power_on(2).0);
    }
}

#[test]
fn a_read_gives_threshold_and_count_as_written() {
    let counts = [0, 1, 2, 5, 0x0400_0000, 0x0555_5555, 0x02AA_AAAA, MOST];
    for counter in 0..3 {
        for threshold in 0..=26 {
            for count in counts {
                let mut machine = with_counter(counter, threshold, count);
                let held = &machine.error_counters[counter as usize];
                assert_eq!((held.threshold, held.count), (threshold, count));
                let read = machine.csr_read(0x7F0 + counter);
                assert_eq!(read, answer(threshold * 134_217_728 + count));
            }
        }
    }
}

#[test]
fn a_written_threshold_of_27_to_31_is_held_as_26() {
    for counter in 0..3 {
        for threshold in 27..=31 {
            for count in [0, 1, 0x0123_4567, MOST] {
                let mut machine = with_counter(counter, threshold, count);
                let held = &machine.error_counters[counter as usize];
                assert_eq!((held.threshold, held.count), (26, count));
                assert!(machine.sound());
                let read = machine.csr_read(0x7F0 + counter);
                assert_eq!(read, answer(0xD000_0000 | count));
            }
        }
    }
    let mut machine = machine(2);
    machine.csr_write(0x7F1, 0xFFFF_FFFF);
    assert_eq!(registers(&mut machine), [0, 0xD7FF_FFFF, 0]);
    machine.csr_write(0x7F1, 0xD800_0000);
    assert_eq!(registers(&mut machine), [0, 0xD000_0000, 0]);
}

#[test]
fn a_write_replaces_both_parts_and_the_others_stay() {
    for (place, address) in ERROR_CSRS.into_iter().enumerate() {
        let mut machine = nested();
        let mut expected = [0x0812_3456, 0x1065_4321, 0xC8FF_FFFF];
        for (address, value) in ERROR_CSRS.into_iter().zip(expected) {
            assert_eq!(machine.csr_write(address, value), ACCEPTED);
        }
        let before = machine.clone();
        for value in [0, 1, 0x0800_0000, 0x5000_0007, 0xD7FF_FFFF, 0xCAAA_AAAA] {
            assert_eq!(machine.csr_write(address, value), ACCEPTED);
            expected[place] = value;
            assert_eq!(registers(&mut machine), expected);
            only_counters_changed(&machine, &before);
        }
    }
}

#[test]
fn fifteen_addresses_are_csrs() {
    let mut machine = machine(2);
    let mut found = Vec::new();
    for address in 0..=0xFFFF {
        let read = machine.csr_read(address);
        let write = machine.csr_write(address, 0);
        match (read.refusal, write.refusal) {
            (0, 0) => found.push(address),
            (0, 13) => assert_eq!(address, 0xFC8),
            refusals => assert_eq!(refusals, (12, 12), "{address:x}"),
        }
    }
    let mut expected: Vec<u32> = TIMER_CSRS.to_vec();
    expected.extend([0x7F0, 0x7F1, 0x7F2, 0xBC8, 0xBC9, 0xBCA, 0xBCB, 0xBCC]);
    assert_eq!(found, expected);
}

#[test]
fn no_handler_keeps_a_counter_from_being_written() {
    let mut machine = nested();
    for address in ERROR_CSRS {
        assert_eq!(machine.csr_write(address, 0x3800_0005), ACCEPTED);
        assert_eq!(machine.csr_read(address), answer(0x3800_0005));
    }
    assert_eq!(machine.csr_write(MEICURPL, 5), refused(14));
}

// Counting.

#[test]
fn an_error_counts_in_the_counter_that_its_address_names() {
    let mut machine = machine(2);
    let mut expected = [0; 3];
    for counter in [0, 1, 1, 2, 2, 2, 0, 2, 1] {
        assert_eq!(machine.error(counter).refusal, 0);
        expected[counter as usize] += 1;
        assert_eq!(registers(&mut machine), expected);
    }
    assert_eq!(expected, [2, 3, 4]);
}

#[test]
fn a_counter_is_counted_and_the_others_stay() {
    for counter in 0..3 {
        for threshold in 0..=26 {
            for count in [0, 1, 6, 7, 0x0123_4567, MOST - 1] {
                let mut machine = with_counter(counter, threshold, count);
                let before = machine.clone();
                let mut expected = registers(&mut machine);
                expected[counter as usize] += 1;
                assert_eq!(machine.error(counter).refusal, 0);
                assert_eq!(registers(&mut machine), expected);
                only_counters_changed(&machine, &before);
            }
        }
    }
}

#[test]
fn after_the_greatest_count_comes_0() {
    for counter in 0..3 {
        for threshold in 0..=31 {
            let mut machine = with_counter(counter, threshold, MOST - 1);
            let others = registers(&mut machine);
            let held = threshold.min(26) << 27;
            // Every bit of the greatest count is 1, of 0 none is.
            let least_of_1 = u32::from(threshold == 0);
            for (count, signal) in [(MOST, 1), (0, 0), (1, least_of_1)] {
                assert_eq!(machine.error(counter), answer(signal));
                let mut expected = others;
                expected[counter as usize] = held + count;
                assert_eq!(registers(&mut machine), expected);
            }
        }
    }
}

#[test]
fn the_answer_is_the_selected_bit_afterwards() {
    for counter in 0..3 {
        for threshold in 0..=26 {
            let bit = 1 << threshold;
            let signal = |count| with_counter(counter, threshold, count).error(counter);
            // It becomes 1, and it becomes 0 again, or the count does.
            assert_eq!(signal(bit - 1), answer(1));
            assert_eq!(signal(2 * bit - 1), answer(0));
            if threshold > 0 {
                // It stays 1, and it stays 0.
                assert_eq!(signal(bit), answer(1));
                assert_eq!(signal(2 * bit - 2), answer(1));
                assert_eq!(signal(0), answer(0));
                assert_eq!(signal(bit - 2), answer(0));
            }
            if threshold < 26 {
                // The bits above count for nothing.
                assert_eq!(signal(3 * bit - 1), answer(1));
                assert_eq!(signal(4 * bit - 1), answer(0));
                assert_eq!(signal(MOST - bit), answer(1));
                assert_eq!(signal(MOST - 2 * bit), answer(0));
            }
        }
    }
}

#[test]
fn the_answer_comes_again_and_again() {
    for counter in 0..3 {
        for (threshold, signals) in [
            (0, [1, 0, 1, 0, 1, 0, 1, 0, 1, 0, 1, 0, 1, 0, 1, 0, 1]),
            (1, [0, 1, 1, 0, 0, 1, 1, 0, 0, 1, 1, 0, 0, 1, 1, 0, 0]),
            (2, [0, 0, 0, 1, 1, 1, 1, 0, 0, 0, 0, 1, 1, 1, 1, 0, 0]),
            (3, [0, 0, 0, 0, 0, 0, 0, 1, 1, 1, 1, 1, 1, 1, 1, 0, 0]),
        ] {
            let mut machine = with_counter(counter, threshold, 0);
            for signal in signals {
                assert_eq!(machine.error(counter), answer(signal));
            }
        }
        // So it does for a threshold that is held as 26.
        for threshold in 26..=31 {
            let mut machine = with_counter(counter, threshold, 0x03FF_FFFE);
            for signal in [0, 1, 1, 1, 1] {
                assert_eq!(machine.error(counter), answer(signal));
            }
        }
    }
}

#[test]
fn a_write_in_between_decides_the_next_answer() {
    let mut machine = machine(2);
    assert_eq!(machine.error(2), answer(1));
    machine.csr_write(0x7F2, 0);
    assert_eq!(machine.error(2), answer(1));
    machine.csr_write(0x7F2, 0x0800_0001);
    assert_eq!(machine.error(2), answer(1));
    machine.csr_write(0x7F2, 0x1000_0001);
    assert_eq!(machine.error(2), answer(0));
    assert_eq!(registers(&mut machine), [0, 0, 0x1000_0002]);
}

// The questions.

#[test]
fn an_address_above_2_is_25() {
    for mut machine in [machine(2), with_counter(1, 26, MOST), nested()] {
        let before = registers(&mut machine);
        for address in 3..=0xFFFF {
            let outcome = machine.play(Event::new(ERROR, address, 0));
            assert_eq!(outcome, refused(25), "{address:x}");
        }
        assert_eq!(registers(&mut machine), before);
        // A refused event leaves all as it was.
        for address in [3, 4, 0x100, 0x7F0, 0x7F1, 0x7F2, 0x8000, 0xFFFF] {
            assert_eq!(machine.error(address), refused(25));
        }
    }
}

#[test]
fn questions_8_6_and_7_come_before_25() {
    let mut machine = machine(2);
    for address in [0, 1, 2, 3, 4, 0x7F0, 0xFFFF] {
        for value in [1, 2, 0x8000_0000, u32::MAX] {
            assert_eq!(machine.act(ERROR, address, value), refused(7));
            assert_eq!(machine.act(KINDS, address, value), refused(6));
            assert_eq!(machine.act(0x10B, address, value), refused(6));
        }
        assert_eq!(machine.act(KINDS, address, 0), refused(6));
    }
    assert_eq!(machine.error(3), refused(25));
    machine.error_counters[0].threshold = 27;
    for (address, value) in [(0, 0), (3, 0), (0, 1), (3, 1)] {
        assert_eq!(machine.act(ERROR, address, value), refused(8));
        assert_eq!(machine.act(KINDS, address, value), refused(8));
    }
}

#[test]
fn counters_out_of_range_are_not_sound() {
    let good = [(0, 0), (26, 0), (0, MOST), (26, MOST)];
    let bad = [
        (27, 0),
        (31, 0),
        (32, 5),
        (u32::MAX, 0),
        (0, MOST + 1),
        (26, MOST + 1),
        (0, 1 << 31),
        (3, u32::MAX),
        (27, MOST + 1),
    ];
    for counter in 0..3 {
        let with = |(threshold, count)| {
            let mut machine = nested();
            machine.error_counters[counter] = ErrorCounter { threshold, count };
            machine
        };
        for pair in good {
            assert!(with(pair).sound());
            assert_eq!(with(pair).query_margin(), Ok(4));
            for other in 0..3 {
                assert_eq!(with(pair).error(other).refusal, 0);
            }
        }
        for pair in bad {
            let mut machine = with(pair);
            assert!(!machine.sound());
            assert_eq!(machine.query_margin(), Err(8));
            for kind in 0..=15 {
                for (address, value) in [(0, 0), (1, 0), (3, 1), (0xBC8, 0), (0x7F0, 0)] {
                    assert_eq!(machine.act(kind, address, value), refused(8));
                }
            }
            // Not even a write mends it.
            for address in ERROR_CSRS {
                assert_eq!(machine.csr_write(address, 0), refused(8));
            }
        }
    }
}

// What else happens, or doesn't.

#[test]
fn an_error_changes_nothing_but_its_counter() {
    let mut machine = much_to_keep();
    // A timer at its bound.
    machine.csr_write(0x7D2, 4);
    machine.csr_write(0x7D3, 4);
    let before = machine.clone();
    for counter in [0, 1, 2, 0] {
        for signal in [1, 0, 1] {
            let others = machine.error_counters.clone();
            machine.csr_write(0x7F0 + counter, signal ^ 1);
            assert_eq!(machine.error(counter), answer(signal));
            only_counters_changed(&machine, &before);
            for other in (0..3).filter(|&other| other != counter as usize) {
                assert_eq!(machine.error_counters[other], others[other]);
            }
        }
    }
    kept(&mut machine);
}

#[test]
fn other_events_leave_the_counters() {
    let mut machine = nested();
    for (address, value) in ERROR_CSRS.into_iter().zip([0x0800_0001, 0xD7FF_FFFF, 7]) {
        machine.csr_write(address, value);
    }
    let counters = machine.error_counters.clone();
    machine.open();
    machine.clock();
    machine.sample(0, 0b010);
    machine.store(0x3000, 0);
    machine.store(0x3000, 1);
    machine.load(4);
    for address in TIMER_CSRS {
        machine.csr_write(address, 0);
        machine.clock();
    }
    machine.csr_write(MEIVT, u32::MAX);
    machine.csr_write(MEICPCT, 0);
    machine.csr_read(MEIHAP);
    machine.set_mask(0);
    machine.chain();
    machine.give_back();
    machine.clock();
    machine.set_mask(0);
    machine.give_back();
    machine.error(3);
    machine.act(ERROR, 0, 1);
    machine.act(KINDS, 0, 0);
    assert_eq!(machine.handlers.len(), 0);
    assert_eq!(machine.error_counters, counters);
}

#[test]
fn errors_within_nested_handlers() {
    let mut machine = machine(4);
    machine.csr_write(0x7F1, 0x0800_0000);
    machine.prepare(1, 3);
    machine.prepare(2, 7);
    machine.prepare(3, 7);
    machine.set_mask(1);
    machine.sample(0, 0b010);
    assert_eq!(machine.error(1), ACCEPTED);
    assert_eq!(machine.take(), answer(4));
    assert_eq!(machine.error(1), answer(1));
    assert_eq!(machine.open(), answer(3));
    assert_eq!(machine.error(1), answer(1));
    machine.sample(0, 0b110);
    assert_eq!(machine.take(), answer(8));
    assert_eq!(machine.error(1), ACCEPTED);
    assert_eq!(machine.error(3), refused(25));
    assert_eq!(machine.open(), answer(7));
    // A signal is no source's request.
    assert_eq!(machine.error(0), answer(1));
    assert_eq!(machine.take(), refused(16));
    machine.set_mask(0);
    machine.sample(0, 0b1010);
    assert_eq!(machine.chain(), answer(12));
    assert_eq!(machine.error(1), ACCEPTED);
    assert_eq!(machine.give_back(), answer(1));
    assert_eq!(machine.error(1), answer(1));
    machine.set_mask(0);
    assert_eq!(machine.give_back(), answer(0));
    assert_eq!(machine.error(2), answer(1));
    assert_eq!(registers(&mut machine), [1, 0x0800_0006, 1]);
}

// Records.

#[test]
fn reader_and_writer_take_every_address_of_an_error() {
    for address in [0, 1, 2, 3, 4, 0x7F0, 0x8000, 0xFFFF] {
        for (head, value, refusal) in [
            (0x000B_0000 | address, 0, None),
            (0x000B_0000 | address, 1, Some((7, 1))),
            (0x000B_0000 | address, 0x8000_0000, Some((7, 1))),
            (NO_KIND | address, 0, Some((6, 1))),
            (NO_KIND | address, 1, Some((6, 1))),
            (0x010B_0000 | address, 0, Some((6, 1))),
        ] {
            let events = [(0x000B_0002, 0), (head, value)];
            let bytes = laid_out(2, &events);
            for limits in [BOARD, COMPACT] {
                assert_eq!(reading(&bytes, limits), refusal);
            }
            let written = record::write(2, &[events[0].0, head], &[0, value], 24);
            match refusal {
                None => assert_eq!(written, Ok(bytes)),
                Some((number, place)) => assert_eq!(written, Err(Refusal { number, place })),
            }
        }
    }
}

#[test]
fn a_record_with_errors_prints_their_answers() {
    let events = [
        (0x0004_07F1, 0xFBFF_FFFF),
        (0x0003_07F1, 0),
        (0x000B_0001, 0),
        (0x000B_0001, 0),
        (0x000B_0003, 0),
        (0x000B_FFFF, 0),
        (0x0003_07F1, 0),
        (0x0003_07F3, 0),
        (0x000A_0000, 0),
        (0x000B_0000, 0),
        (0x000B_0000, 0),
    ];
    let text = "\
sources 2 events 11
0 4 0 0
1 3 3556769791 0
2 11 1 0
3 11 1 0
4 11 0 25
5 11 0 25
6 3 3556769793 0
7 3 0 12
8 10 0 0
9 11 1 0
10 11 0 0
end open 0 level 0 margin 0
";
    for limits in [BOARD, COMPACT] {
        assert_eq!(print(&laid_out(2, &events), limits), text);
        let bad = laid_out(2, &[(0x000B_0003, 0), (0x000B_0003, 1)]);
        assert_eq!(print(&bad, limits), "refused 7 at 1\n");
        let bad = laid_out(2, &[(0x000B_0003, 0), (NO_KIND, 0)]);
        assert_eq!(print(&bad, limits), "refused 6 at 1\n");
    }
}

// Generated records.

fn family(rounds: u64, limits: Limits) -> Vec<Vec<u8>> {
    family_of("errors", rounds, limits)
}

/// The counters by a count of their own: threshold and count of each.
#[derive(Default)]
struct Model {
    counters: [(u32, u64); 3],
}

impl Model {
    /// What an event on a sound machine answers, if it is about the counters.
    fn play(&mut self, event: Event) -> Option<Outcome> {
        let (kind, address) = (event.kind(), event.address());
        let place = match kind {
            ERROR => address as usize,
            _ => address.wrapping_sub(0x7F0) as usize,
        };
        let counter = self.counters.get_mut(place);
        match (kind, counter) {
            (ERROR, None) => Some(refused(25)),
            (ERROR, Some((threshold, count))) => {
                *count = if *count == u64::from(MOST) {
                    0
                } else {
                    *count + 1
                };
                let bits = format!("{count:027b}");
                let digit = bits.as_bytes()[26 - *threshold as usize];
                Some(answer(u32::from(digit == b'1')))
            }
            (CSR_READ, Some((threshold, count))) => Some(answer(*threshold << 27 | *count as u32)),
            (CSR_WRITE, Some((threshold, count))) => {
                *threshold = event.value >> 27;
                if *threshold > 26 {
                    *threshold = 26;
                }
                *count = u64::from(event.value & 0x07FF_FFFF);
                Some(ACCEPTED)
            }
            _ => None,
        }
    }
}

#[test]
fn all_generated_records_count_as_the_model_does() {
    let mut about = 0;
    for limits in [BOARD, COMPACT] {
        let bytes = (0..8 * FAMILIES.len() as u64).map(|index| generate(17, index, limits).bytes);
        for bytes in bytes.chain(family(60, limits)) {
            let record = match record::read(&bytes, limits, limits.events) {
                Ok(record) => record,
                Err(_) => continue,
            };
            let (mut machine, _) = Machine::power_on(record.sources);
            let mut model = Model::default();
            for event in record.events {
                let before = machine.clone();
                let outcome = machine.play(event);
                if let Some(expected) = model.play(event) {
                    assert_eq!(outcome, expected, "{event}");
                    about += 1;
                }
                for (counter, (threshold, count)) in
                    machine.error_counters.iter().zip(model.counters)
                {
                    assert_eq!(counter.threshold, threshold);
                    assert_eq!(u64::from(counter.count), count);
                }
                if event.kind() == ERROR {
                    only_counters_changed(&machine, &before);
                }
            }
        }
    }
    assert!(about > 10_000, "{about}");
}

/// What an error did to the selected bit.
fn change(before: bool, after: bool) -> &'static str {
    match (before, after) {
        (false, false) => "stays 0",
        (false, true) => "becomes 1",
        (true, true) => "stays 1",
        (true, false) => "becomes 0",
    }
}

/// Where an error meets the handlers.
fn place(machine: &Machine, last: u32) -> String {
    let open = match machine.handlers.last() {
        None => "idle",
        Some(top) if !top.opened => "unopened",
        Some(_) if machine.mask => "opened",
        Some(_) => "masked",
    };
    format!("{open}, after kind {last}")
}

fn meet_error(before: &Machine, after: &Machine, event: Event, met: &mut Met) {
    let address = event.address();
    let nested = before.handlers.len().min(4);
    if address > 2 {
        met.count(format!("25 at {address:x}"));
        met.count(format!("25 by low bits {}", address & 3));
        met.count(format!("25, {nested} handlers"));
        return;
    }
    let (old, new) = (
        &before.error_counters[address as usize],
        &after.error_counters[address as usize],
    );
    let threshold = old.threshold;
    let what = change(old.selected(), new.selected());
    met.count(format!("bit {threshold} {what}"));
    met.count(format!("counter {address} {what}"));
    met.count(format!("{nested} handlers, {what}"));
    if new.count == 0 {
        met.count(format!("counter {address} over the end"));
        met.count(format!("over the end, threshold {threshold}"));
    }
    if old.count == 0 {
        met.count(format!("from 0, threshold {threshold}"));
    }
}

fn meet(record: &Record, met: &mut Met) {
    let (mut machine, _) = Machine::power_on(record.sources);
    // The kind of the latest accepted event but errors and reads, and the counter of the latest
    // error; what was written last, if it wasn't counted since.
    let (mut last, mut counted, mut written) = (SAMPLE, None, [None; 3]);
    for &event in &record.events {
        let before = machine.clone();
        let outcome = machine.play(event);
        let (kind, address) = (event.kind(), event.address());
        let of_counter = error_counter(address).filter(|_| outcome.refusal == 0);
        match (kind, of_counter) {
            (ERROR, _) => {
                meet_error(&before, &machine, event, met);
                met.count(place(&before, last));
                counted = Some(address);
                if outcome.refusal == 0 {
                    written[address as usize] = None;
                }
            }
            (CSR_WRITE, Some(counter)) => {
                let threshold = event.value >> 27;
                met.count(format!("counter {counter}, threshold {threshold} written"));
                written[counter] = Some(threshold);
            }
            (CSR_READ, Some(counter)) => {
                if let Some(threshold) = written[counter] {
                    met.count(format!("threshold {threshold} read back"));
                }
                if counted.map_or(false, |other| other < 3 && other != counter as u32) {
                    met.count(format!("counter {counter} read after another's error"));
                }
                if counted > Some(2) {
                    met.count(format!("counter {counter} read after 25"));
                }
            }
            (CSR_READ | CSR_WRITE, _) if outcome.refusal == 12 => {
                met.count(format!("kind {kind}, 12 at {address:x}"));
            }
            (CLOCK, _) => met.count("a clock".to_string()),
            _ => {}
        }
        if outcome.refusal == 0 && !matches!(kind, ERROR | CSR_READ) {
            last = kind;
        }
    }
}

fn met(limits: Limits) -> Met {
    let mut met = Met::default();
    for bytes in family(400, limits) {
        if let Ok(record) = record::read(&bytes, limits, limits.events) {
            meet(&record, &mut met);
        }
    }
    met
}

#[test]
fn the_family_meets_all_of_this() {
    for limits in [BOARD, COMPACT] {
        let met = met(limits);
        for threshold in [0, 1, 25, 26, 27, 28, 29, 30, 31] {
            for counter in 0..3 {
                met.at_least(
                    10,
                    &format!("counter {counter}, threshold {threshold} written"),
                );
            }
            met.at_least(10, &format!("threshold {threshold} read back"));
        }
        for counter in 0..3 {
            for what in ["stays 0", "becomes 1", "stays 1", "becomes 0"] {
                met.at_least(100, &format!("counter {counter} {what}"));
            }
            met.at_least(50, &format!("counter {counter} over the end"));
            met.at_least(
                100,
                &format!("counter {counter} read after another's error"),
            );
            met.at_least(50, &format!("counter {counter} read after 25"));
        }
        for bit in 0..27 {
            for what in ["stays 0", "becomes 1", "stays 1", "becomes 0"] {
                // The lowest bit never stays.
                let least = if bit == 0 && what.starts_with("stays") {
                    0
                } else {
                    10
                };
                met.at_least(least, &format!("bit {bit} {what}"));
            }
        }
        for threshold in [0, 26] {
            met.at_least(50, &format!("over the end, threshold {threshold}"));
            met.at_least(20, &format!("from 0, threshold {threshold}"));
        }
        for threshold in 0..27 {
            met.at_least(5, &format!("over the end, threshold {threshold}"));
        }
        met.at_least(100, "a clock");
    }
}

#[test]
fn the_family_meets_handlers_in_every_state() {
    for limits in [BOARD, COMPACT] {
        let met = met(limits);
        for nested in 0..=4 {
            for what in ["stays 0", "becomes 1", "stays 1", "becomes 0"] {
                met.at_least(10, &format!("{nested} handlers, {what}"));
            }
            met.at_least(10, &format!("25, {nested} handlers"));
        }
        for place in [
            "unopened, after kind 5",
            "opened, after kind 6",
            "masked, after kind 7",
            "masked, after kind 9",
            "opened, after kind 8",
            "idle, after kind 8",
            "idle, after kind 10",
        ] {
            met.at_least(20, place);
        }
    }
}

#[test]
fn the_family_meets_addresses_of_no_counter_and_of_no_csr() {
    for limits in [BOARD, COMPACT] {
        let met = met(limits);
        for address in [3, 4, 0x7F0, 0x7F1, 0x7F2, 0x8000, 0xFFFF] {
            met.at_least(10, &format!("25 at {address:x}"));
        }
        for bits in 0..4 {
            met.at_least(50, &format!("25 by low bits {bits}"));
        }
        for kind in [CSR_READ, CSR_WRITE] {
            for address in [0x7EF, 0x7F3, 0x7F8, 0x7D8] {
                met.at_least(10, &format!("kind {kind}, 12 at {address:x}"));
            }
        }
    }
}

#[test]
fn some_of_the_family_are_refused_for_a_value_or_a_kind_above() {
    for limits in [BOARD, COMPACT] {
        let rounds = 400;
        let mut met = Met::default();
        for bytes in family(rounds, limits) {
            if let Some((number, event)) = refused_at(&bytes, limits) {
                let name = match (number, event.kind(), event.address()) {
                    (7, ERROR, 0..=2) => "7, a counter",
                    (7, ERROR, 3) => "7, address 3",
                    (7, ERROR, _) => "7, another address",
                    (6, KINDS, _) => "6, the kind after the last",
                    (6, _, _) => "6, a kind above",
                    _ => panic!("{number} at {event}"),
                };
                met.count(name.to_string());
            }
        }
        for name in [
            "7, a counter",
            "7, address 3",
            "7, another address",
            "6, the kind after the last",
            "6, a kind above",
        ] {
            met.at_least(10, name);
        }
        let refused: u32 = met.times.values().sum();
        assert!(u64::from(refused) <= rounds / 2, "{refused}");
    }
}

#[test]
fn errors_and_their_counters_are_in_the_mixed_families() {
    for limits in [BOARD, COMPACT] {
        for name in [
            "short",
            "mixed",
            "plain random",
            "csr addresses",
            "question order",
            "nesting",
            "nesting, wandering",
            "noise",
        ] {
            let (_, build) = FAMILIES.iter().find(|found| found.0 == name).unwrap();
            let mut times = [0; 4];
            for round in 0..120 {
                let bytes = build(&mut Random::for_index(1, round), limits);
                let events =
                    record::read(&bytes, limits, limits.events).map(|record| record.events);
                for event in events.unwrap_or_default() {
                    let of_counter = error_counter(event.address()).is_some();
                    times[0] += u32::from(event.kind() == ERROR && event.address() <= 2);
                    times[1] += u32::from(event.kind() == ERROR && event.address() > 2);
                    times[2] += u32::from(event.kind() == CSR_READ && of_counter);
                    times[3] += u32::from(event.kind() == CSR_WRITE && of_counter);
                }
            }
            assert!(times.iter().all(|&times| times >= 3), "{name}: {times:?}");
        }
    }
}
