//! The mirror between fields and ranks against its closed form, and the family of records about it.

mod common;

use common::*;
use reference::event::*;
use reference::generate::FAMILIES;
use reference::machine::*;
use reference::random::Random;
use reference::rank::{Field, Rank};
use reference::record::{self, Record, BOARD};
use std::collections::BTreeMap;

/// The field of a rank, or the rank of a field, over signed numbers.
fn mirrored(priord: u32, field: u32) -> u32 {
    let (priord, field) = (priord as i32, field as i32);
    u32::try_from(field + priord * (15 - 2 * field)).unwrap()
}

/// Priord 0 and 1 with each of the fields.
fn pairs() -> impl Iterator<Item = (u32, u32)> {
    (0..2).flat_map(|priord| (0..16).map(move |field| (priord, field)))
}

/// One of the four registers that hold a field, meiplS for source 3.
struct Register {
    name: &'static str,
    write: fn(&mut Machine, u32) -> Outcome,
    read: fn(&mut Machine) -> Outcome,
    rank: fn(&Machine) -> Rank,
}

const REGISTERS: [Register; 4] = [
    Register {
        name: "meipl3",
        write: |machine, value| machine.store(12, value),
        read: |machine| machine.load(12),
        rank: |machine| machine.source_rank(3),
    },
    Register {
        name: "meipt",
        write: |machine, value| machine.csr_write(0xBC9, value),
        read: |machine| machine.csr_read(0xBC9),
        rank: |machine| machine.threshold_rank(),
    },
    Register {
        name: "meicidpl",
        write: |machine, value| machine.csr_write(0xBCB, value),
        read: |machine| machine.csr_read(0xBCB),
        rank: |machine| machine.claimed_rank(),
    },
    Register {
        name: "meicurpl",
        write: |machine, value| machine.csr_write(0xBCC, value),
        read: |machine| machine.csr_read(0xBCC),
        rank: |machine| machine.current_rank(),
    },
];

/// A machine of four sources with its priord set; the other bits of the store are dropped.
fn ordered(priord: u32) -> Machine {
    let mut machine = machine(4);
    assert_eq!(machine.store(0x3000, 0xFFFF_FFFE | priord), ACCEPTED);
    assert_eq!(machine.load(0x3000), answer(priord));
    machine
}

fn check(machine: &mut Machine, register: &Register, field: u32, rank: u32) {
    let name = register.name;
    assert_eq!((register.read)(machine), answer(field), "{name}, field");
    assert_eq!(u32::from((register.rank)(machine)), rank, "{name}, rank");
}

#[test]
fn the_closed_form_is_the_choice_and_its_own_inverse() {
    for (priord, field) in pairs() {
        let choice = if priord == 0 { field } else { 15 - field };
        assert_eq!(mirrored(priord, field), choice);
        assert_eq!(mirrored(priord, mirrored(priord, field)), field);
        // Both conversions are this form.
        let (order, number) = (priord == 1, field as u8);
        assert_eq!(u32::from(Field(number).rank(order)), choice);
        assert_eq!(u32::from(Rank(number).field(order)), choice);
    }
}

#[test]
fn a_written_field_reads_back_and_has_the_rank_of_the_closed_form() {
    for (priord, field) in pairs() {
        for litter in [0, 0x10, 0x8000_0000, 0xFFFF_FFF0] {
            for (place, register) in REGISTERS.iter().enumerate() {
                let mut machine = ordered(priord);
                assert_eq!((register.write)(&mut machine, litter | field), ACCEPTED);
                check(&mut machine, register, field, mirrored(priord, field));
                // The other three keep field 0.
                for (other, register) in REGISTERS.iter().enumerate() {
                    if other != place {
                        check(&mut machine, register, 0, mirrored(priord, 0));
                    }
                }
            }
        }
    }
}

#[test]
fn four_fields_at_once_keep_apart() {
    for (priord, field) in pairs() {
        let mut machine = ordered(priord);
        let fields = [0, 3, 6, 11].map(|more| (field + more) % 16);
        for (register, field) in REGISTERS.iter().zip(fields) {
            (register.write)(&mut machine, field);
        }
        for (register, field) in REGISTERS.iter().zip(fields) {
            check(&mut machine, register, field, mirrored(priord, field));
        }
    }
}

#[test]
fn a_switch_leaves_what_is_read_and_mirrors_the_rank() {
    for (priord, field) in pairs() {
        for register in &REGISTERS {
            let mut machine = ordered(priord);
            (register.write)(&mut machine, field);
            // Switched, the same again, back.
            for now in [1 - priord, 1 - priord, priord] {
                assert_eq!(machine.store(0x3000, now), ACCEPTED);
                check(&mut machine, register, field, mirrored(now, field));
            }
        }
    }
}

#[test]
fn ranks_through_the_mirror_decide_margin_take_and_open() {
    for (priord, field) in pairs() {
        for now in [0, 1] {
            let mut machine = ordered(priord);
            machine.prepare(3, field);
            machine.sample(0, 0b1000);
            machine.set_mask(1);
            machine.store(0x3000, now);
            let rank = mirrored(now, field);
            let bar = mirrored(now, 0);
            assert_eq!(machine.query_margin(), Ok(rank as i32 - bar as i32));
            machine.csr_write(MEIPT, mirrored(now, 0));
            machine.csr_write(MEICURPL, mirrored(now, 0));
            assert_eq!(machine.query_margin(), Ok(rank as i32));
            for bar in 0..16 {
                for address in [MEIPT, MEICURPL] {
                    let mut machine = machine.clone();
                    machine.csr_write(address, mirrored(now, bar));
                    let margin = rank as i32 - bar as i32;
                    assert_eq!(machine.query_margin(), Ok(margin));
                    if margin <= 0 {
                        assert_eq!(machine.take(), refused(16));
                        continue;
                    }
                    assert_eq!(machine.take(), answer(12));
                    assert_eq!(machine.csr_read(MEICIDPL), answer(field));
                    assert_eq!(machine.open(), answer(rank));
                    assert_eq!(machine.csr_read(MEICURPL), answer(field));
                }
            }
        }
    }
}

#[test]
fn equal_fields_written_in_either_order_tie() {
    for (priord, field) in pairs() {
        // The rank in the other order.
        let rank = mirrored(1 - priord, field);
        if rank == 0 {
            continue;
        }
        // The rival is of the lower number, then of the higher.
        for (rival, equal) in [(2, (2, rank)), (4, (3, rank))] {
            for (near, winner) in [
                (rank - 1, (3, rank)),
                (rank, equal),
                (rank + 1, (rival, rank + 1)),
            ] {
                if near > 15 {
                    continue;
                }
                let mut machine = ordered(priord);
                machine.prepare(3, field);
                machine.store(0x3000, 1 - priord);
                machine.prepare(rival, mirrored(1 - priord, near));
                machine.sample(0, 0b11100 & (1 << 3 | 1 << rival));
                machine.csr_write(MEICPCT, 0);
                let (source, rank) = winner;
                assert_eq!(machine.csr_read(MEIHAP), answer(4 * source));
                let shown = mirrored(1 - priord, rank);
                assert_eq!(machine.csr_read(MEICIDPL), answer(shown));
            }
        }
    }
}

fn family(rounds: u64) -> Vec<Record> {
    let (_, build) = FAMILIES.iter().find(|found| found.0 == "mirror").unwrap();
    let record = |round| {
        let bytes = build(&mut Random::for_index(1, round), BOARD);
        record::read(&bytes, BOARD, 4000).unwrap()
    };
    (0..rounds).map(record).collect()
}

/// The register of the four that an event is about, by its place; meiplS of any source is place 0.
fn about(event: Event, sources: u32) -> Option<usize> {
    let is_source = event.address() / 4 >= 1 && event.address() / 4 <= sources;
    match (event.kind(), event.address()) {
        (LOAD | STORE, _) if is_source => Some(0),
        (CSR_READ | CSR_WRITE, MEIPT) => Some(1),
        (CSR_READ | CSR_WRITE, MEICIDPL) => Some(2),
        (CSR_READ | CSR_WRITE, MEICURPL) => Some(3),
        _ => None,
    }
}

fn is_write(event: Event) -> bool {
    event.kind() == STORE || event.kind() == CSR_WRITE
}

/// A written field and how many of its three reads have come: in its own order, in the other one,
/// and in its own again.
struct Written {
    priord: u32,
    field: u32,
    reads: u32,
}

/// Register, priord and field of every write that has its three reads before anything else changes
/// the register.
fn read_thrice(record: &Record) -> Vec<(usize, u32, u32)> {
    let (mut machine, _) = Machine::power_on(record.sources);
    let mut held: BTreeMap<(usize, u32), Written> = BTreeMap::new();
    let mut found = Vec::new();
    for &event in &record.events {
        let outcome = machine.play(event);
        assert!(outcome.refusal == 0 || event.kind() == TAKE);
        let priord = u32::from(machine.priord);
        let register = match about(event, record.sources) {
            Some(register) => register,
            None => {
                // A capture sets what is claimed; a handler sets and restores what is current.
                let captures = event.address() == MEICPCT && is_write(event);
                if captures || (TAKE..=RETURN).contains(&event.kind()) {
                    held.remove(&(2, MEICIDPL));
                    held.remove(&(3, MEICURPL));
                }
                continue;
            }
        };
        let key = (register, event.address());
        if is_write(event) {
            let written = Written {
                priord,
                field: event.value % 16,
                reads: 0,
            };
            held.insert(key, written);
        } else if let Some(written) = held.get_mut(&key) {
            let own = written.priord == priord;
            assert_eq!(outcome.answer, written.field);
            if own == (written.reads % 2 == 0) && written.reads < 3 {
                written.reads += 1;
                if written.reads == 3 {
                    found.push((register, written.priord, written.field));
                }
            }
        }
    }
    found
}

#[test]
fn the_family_has_every_field_in_every_register_and_order() {
    let mut all = [[[0; 16]; 2]; 4];
    for record in family(40) {
        assert!((300..=700).contains(&record.events.len()));
        let mut pairs = [[0; 16]; 2];
        for (register, priord, field) in read_thrice(&record) {
            all[register][priord as usize][field as usize] += 1;
            pairs[priord as usize][field as usize] += 1;
        }
        // Each record has every field in each order, in two registers.
        assert!(pairs.iter().flatten().all(|&times| times >= 2), "{pairs:?}");
    }
    for (register, times) in REGISTERS.iter().zip(all) {
        let enough = times.iter().flatten().all(|&times| times >= 8);
        assert!(enough, "{}: {times:?}", register.name);
    }
}

#[test]
fn the_family_writes_bits_that_are_dropped() {
    let mut fields = [0; 4];
    let mut orders = [0; 2];
    for record in family(20) {
        for &event in &record.events {
            if event.kind() == STORE && event.address() == 0x3000 {
                orders[event.value as usize % 2] += u32::from(event.value > 1);
            } else if is_write(event) {
                if let Some(register) = about(event, record.sources) {
                    fields[register] += u32::from(event.value > 15);
                }
            }
        }
    }
    assert!(fields.iter().all(|&times| times >= 40), "{fields:?}");
    assert!(orders.iter().all(|&times| times >= 40), "{orders:?}");
}

/// What the captures, takes, opens and chains of some records met.
#[derive(Default)]
struct Met {
    /// Takes by the present order and the one that the winner's field was written in.
    takes: [[u32; 2]; 2],
    /// Opens by order and answer.
    opens: [[u32; 16]; 2],
    /// Takes, refused or not, by order, by the higher of threshold and current, and by where that
    /// is: just below the winner's rank, at it, or just above.
    bars: [[[u32; 3]; 2]; 2],
    /// Ties at captures by order, the two fields written in one order or in both.
    ties: [[u32; 2]; 2],
    /// Chains by order, answered by 0 or not.
    chains: [[u32; 2]; 2],
}

fn met(records: &[Record]) -> Met {
    let mut met = Met::default();
    for record in records {
        let (mut machine, _) = Machine::power_on(record.sources);
        let mut written_in = vec![0; record.sources as usize + 1];
        for &event in &record.events {
            let before = machine.clone();
            let outcome = machine.play(event);
            let priord = usize::from(before.priord);
            let (winner, rank) = before.winner();
            match (event.kind(), event.address()) {
                (STORE, _) if about(event, record.sources) == Some(0) => {
                    written_in[event.address() as usize / 4] = priord;
                }
                (TAKE, _) => {
                    assert!(outcome.refusal == 0 || outcome.refusal == 16);
                    if outcome.refusal == 0 {
                        assert_eq!(outcome.answer, before.base + 4 * winner as u32);
                        assert_ne!(outcome.answer, 0);
                        met.takes[priord][written_in[winner]] += 1;
                    }
                    let (current, threshold) = (before.current_rank(), before.threshold_rank());
                    let by_current = usize::from(current > threshold);
                    let margin = before.margin();
                    if current != threshold && margin.abs() <= 1 && winner > 0 {
                        met.bars[priord][by_current][(1 - margin) as usize] += 1;
                    }
                }
                (OPEN, _) => met.opens[priord][outcome.answer as usize] += 1,
                (CHAIN, _) => met.chains[priord][usize::from(outcome.answer != 0)] += 1,
                (CSR_WRITE, MEICPCT) => {
                    for number in winner + 1..=before.count() {
                        if before.eligible(number) && before.source_rank(number) == rank {
                            let apart = written_in[number] != written_in[winner];
                            met.ties[priord][usize::from(apart)] += 1;
                        }
                    }
                }
                _ => {}
            }
        }
    }
    met
}

#[test]
fn ranks_through_the_mirror_decide_in_the_family() {
    let met = met(&family(80));
    let enough = |times: &[u32], least| times.iter().all(|&times| times >= least);
    for priord in 0..2 {
        assert!(enough(&met.takes[priord], 50), "{:?}", met.takes);
        assert!(enough(&met.opens[priord][1..], 5), "{:?}", met.opens);
        for bars in met.bars[priord] {
            assert!(enough(&bars, 15), "{:?}", met.bars);
        }
        assert!(enough(&met.ties[priord], 15), "{:?}", met.ties);
        assert!(enough(&met.chains[priord], 30), "{:?}", met.chains);
    }
}
