//! Registers hold fields, and priord says what ranks they are of. A switch turns every rank, so it
//! is refused with 24 while a handler is open.

mod common;

use common::*;
use reference::event::*;
use reference::generate::{generate, FAMILIES};
use reference::machine::*;
use reference::player::print;
use reference::random::Random;
use reference::rank::{Field, Rank};
use reference::record::{self, write_record, Record, BOARD};
use std::collections::BTreeMap;

const MPICCFG: u32 = 0x3000;

/// The field of a rank, or the rank of a field.
fn mirrored(priord: u32, number: u32) -> u32 {
    if priord == 1 {
        15 - number
    } else {
        number
    }
}

/// The ranks of all sources, of threshold, claimed and current.
fn ranks(machine: &Machine) -> Vec<Rank> {
    let mut ranks: Vec<Rank> = (1..=machine.count())
        .map(|number| machine.source_rank(number))
        .collect();
    ranks.push(machine.threshold_rank());
    ranks.push(machine.claimed_rank());
    ranks.push(machine.current_rank());
    ranks
}

/// The fields in the same order.
fn fields(machine: &Machine) -> Vec<Field> {
    let mut fields: Vec<Field> = machine.sources.iter().map(|source| source.field).collect();
    fields.extend([machine.threshold, machine.claimed, machine.current]);
    fields
}

/// What meipt, meicidpl and meicurpl read.
fn csr_fields(machine: &mut Machine) -> [u32; 3] {
    [MEIPT, MEICIDPL, MEICURPL].map(|address| {
        let outcome = machine.csr_read(address);
        assert_eq!(outcome.refusal, 0);
        outcome.answer
    })
}

/// A machine in the given order, interrupts on, threshold and current of rank 0.
fn ready(count: u32, priord: u32) -> Machine {
    let mut machine = machine(count);
    assert_eq!(machine.store(MPICCFG, priord), ACCEPTED);
    assert_eq!(machine.csr_write(MEIPT, mirrored(priord, 0)), ACCEPTED);
    assert_eq!(machine.csr_write(MEICURPL, mirrored(priord, 0)), ACCEPTED);
    assert_eq!(machine.set_mask(1), ACCEPTED);
    machine
}

/// Sources 1 to `levels`, each of the rank of its number, taken one within the other. All but the
/// uppermost are opened.
fn nested(priord: u32, levels: u32) -> Machine {
    let mut machine = ready(20, priord);
    for level in 1..=levels {
        machine.prepare(level, mirrored(priord, level));
        machine.sample(0, (1 << (level + 1)) - 2);
        if level > 1 {
            assert_eq!(machine.open(), answer(level - 1));
        }
        assert_eq!(machine.take(), answer(4 * level));
    }
    machine
}

// What the registers hold.

#[test]
fn power_on_then_reversed_makes_every_rank_15() {
    for count in 2..=255 {
        let mut machine = machine(count);
        assert!(ranks(&machine).iter().all(|&rank| rank == Rank(0)));
        assert_eq!(machine.store(MPICCFG, 1), ACCEPTED);
        assert!(ranks(&machine).iter().all(|&rank| rank == Rank(15)));
        assert!(fields(&machine).iter().all(|&field| field == Field(0)));
        assert_eq!(ranks(&machine).len(), count as usize + 3);
        assert_eq!(machine.load(4 * count), answer(0));
        assert_eq!(csr_fields(&mut machine), [0, 0, 0]);
        assert_eq!(machine.query_margin(), Ok(-15));
    }
}

#[test]
fn reversed_from_power_on_nothing_is_taken_until_both_bars_are_written() {
    for (first, second) in [(MEIPT, MEICURPL), (MEICURPL, MEIPT)] {
        let mut machine = machine(4);
        machine.store(MPICCFG, 1);
        machine.set_mask(1);
        machine.store(0x2008, 1);
        machine.sample(0, 4);
        // Field 0 is rank 15, but not above rank 15.
        assert_eq!(machine.winner(), (2, Rank(15)));
        assert_eq!(machine.query_margin(), Ok(0));
        assert_eq!(machine.take(), refused(16));
        machine.csr_write(first, 15);
        assert_eq!(machine.query_margin(), Ok(0));
        assert_eq!(machine.take(), refused(16));
        machine.csr_write(second, 1);
        assert_eq!(machine.query_margin(), Ok(1));
        assert_eq!(machine.take(), answer(8));
        assert_eq!(machine.open(), answer(15));
        assert_eq!(machine.csr_read(MEICURPL), answer(0));
    }
}

#[test]
fn a_switch_leaves_every_field_and_turns_every_rank() {
    for priord in [0, 1] {
        let mut machine = machine(20);
        machine.store(MPICCFG, priord);
        for source in 1..=20 {
            machine.store(4 * source, source * 7);
        }
        machine.csr_write(MEIPT, 3);
        machine.csr_write(MEICIDPL, 9);
        machine.csr_write(MEICURPL, 14);
        let before = machine.clone();
        assert_eq!(machine.store(MPICCFG, 1 - priord), ACCEPTED);
        assert_eq!(fields(&machine), fields(&before));
        for (rank, old) in ranks(&machine).into_iter().zip(ranks(&before)) {
            assert_eq!(rank, Rank(15 - old.0));
        }
        for source in 1..=20 {
            assert_eq!(machine.load(4 * source), answer(source * 7 % 16));
        }
        assert_eq!(csr_fields(&mut machine), [3, 9, 14]);
        // Nothing but the order has changed.
        machine.priord = before.priord;
        assert_eq!(machine, before);
    }
}

#[test]
fn k1_for_every_field() {
    for field in 0..16 {
        let mut machine = machine(2);
        machine.store(8, field);
        assert_eq!(u32::from(machine.source_rank(2)), field);
        machine.store(MPICCFG, 1);
        assert_eq!(machine.load(8), answer(field));
        assert_eq!(u32::from(machine.source_rank(2)), 15 - field);
    }
}

#[test]
fn field_15_is_never_eligible_in_reverse_order_and_rank_15_in_the_other() {
    let mut machine = ready(3, 1);
    for source in 1..=3 {
        machine.prepare(source, 15);
    }
    machine.sample(0, 0b1110);
    for gateway in [0, 2] {
        for source in 1..=3 {
            machine.store(0x4000 + 4 * source, gateway);
            assert!(!machine.eligible(source as usize));
        }
        assert_eq!(machine.load(0x1000), answer(0b1110));
        assert_eq!(machine.winner(), (0, Rank(0)));
        assert_eq!(machine.take(), refused(16));
    }
    machine.store(MPICCFG, 0);
    assert_eq!(machine.winner(), (1, Rank(15)));
    // Threshold and current, field 15, are now of rank 15 too.
    assert_eq!(machine.query_margin(), Ok(0));
    machine.csr_write(MEIPT, 14);
    machine.csr_write(MEICURPL, 14);
    assert_eq!(machine.take(), answer(4));
    assert_eq!(machine.open(), answer(15));
}

#[test]
fn field_0_is_eligible_in_reverse_order_alone() {
    let mut machine = ready(3, 0);
    machine.prepare(2, 0);
    machine.sample(0, 4);
    assert_eq!(machine.winner(), (0, Rank(0)));
    machine.store(MPICCFG, 1);
    assert_eq!(machine.winner(), (2, Rank(15)));
    machine.store(MPICCFG, 0);
    assert_eq!(machine.winner(), (0, Rank(0)));
}

#[test]
fn writes_keep_bits_3_to_0_in_either_order() {
    for priord in [0, 1] {
        for value in [0, 5, 15, 0x10, 0x1F, 0xFFFF_FFF3, 0x8000_0000] {
            let mut machine = machine(4);
            machine.store(MPICCFG, priord);
            machine.store(16, value);
            assert_eq!(machine.load(16), answer(value % 16));
            for address in [MEIPT, MEICIDPL, MEICURPL] {
                machine.csr_write(address, value);
                assert_eq!(machine.csr_read(address), answer(value % 16));
            }
            assert_eq!(machine.source(4).field, Field((value % 16) as u8));
        }
    }
}

#[test]
fn the_winner_is_of_the_highest_rank_in_either_order() {
    let mut machine = machine(5);
    for (source, field) in [(1, 7), (2, 3), (3, 12), (4, 3), (5, 12)] {
        machine.prepare(source, field);
    }
    machine.sample(0, 0b11_1110);
    // Of equals the lower number.
    for (priord, winner) in [(0, (3, Rank(12))), (1, (2, Rank(12))), (0, (3, Rank(12)))] {
        machine.store(MPICCFG, priord);
        assert_eq!(machine.winner(), winner);
        assert_eq!(
            machine.query_margin(),
            Ok(12 - mirrored(priord, 0) as i32),
            "priord {priord}"
        );
    }
}

#[test]
fn the_margin_is_of_ranks() {
    for priord in [0, 1] {
        for field in 0..16 {
            for threshold in 0..16 {
                for current in [0, 4, 11, 15] {
                    let mut machine = machine(2);
                    machine.store(MPICCFG, priord);
                    machine.prepare(1, field);
                    machine.sample(0, 2);
                    machine.csr_write(MEIPT, threshold);
                    machine.csr_write(MEICURPL, current);
                    let rank = |field| mirrored(priord, field) as i32;
                    let margin = rank(field) - rank(threshold).max(rank(current));
                    assert_eq!(machine.query_margin(), Ok(margin));
                    machine.set_mask(1);
                    let taken = if margin > 0 { answer(4) } else { refused(16) };
                    assert_eq!(machine.take(), taken);
                }
            }
        }
    }
}

// Captures.

#[test]
fn a_capture_with_no_winner_claims_the_field_of_rank_0() {
    for (priord, field) in [(0, 0), (1, 15)] {
        let mut machine = machine(4);
        machine.csr_write(MEIVT, 0x4000);
        machine.csr_write(MEICIDPL, 6);
        machine.store(MPICCFG, priord);
        assert_eq!(machine.csr_read(MEICIDPL), answer(6));
        machine.csr_write(MEICPCT, u32::MAX);
        assert_eq!(machine.csr_read(MEICIDPL), answer(field));
        assert_eq!(machine.csr_read(MEIHAP), answer(0x4000));
        assert_eq!(machine.claimed_rank(), Rank(0));
        // A request of rank 0 is no winner.
        machine.prepare(3, field);
        machine.sample(0, 8);
        machine.csr_write(MEICIDPL, 6);
        machine.csr_write(MEICPCT, 0);
        assert_eq!(machine.csr_read(MEICIDPL), answer(field));
        assert_eq!(machine.csr_read(MEIHAP), answer(0x4000));
        // The field stays at the next switch.
        machine.store(MPICCFG, 1 - priord);
        assert_eq!(machine.csr_read(MEICIDPL), answer(field));
        assert_eq!(machine.claimed_rank(), Rank(15));
    }
}

#[test]
fn a_capture_claims_the_field_of_the_winner() {
    for priord in [0, 1] {
        for field in 0..16 {
            if mirrored(priord, field) == 0 {
                continue;
            }
            let mut machine = machine(4);
            machine.store(MPICCFG, priord);
            machine.prepare(3, field);
            machine.sample(0, 8);
            machine.csr_write(MEICPCT, 0);
            assert_eq!(machine.csr_read(MEICIDPL), answer(field));
            assert_eq!(machine.csr_read(MEIHAP), answer(12));
            // A switch keeps both; the next capture is by the new order.
            machine.store(MPICCFG, 1 - priord);
            assert_eq!(machine.csr_read(MEICIDPL), answer(field));
            assert_eq!(machine.csr_read(MEIHAP), answer(12));
            machine.csr_write(MEICPCT, 0);
            let still = mirrored(1 - priord, field) > 0;
            let source = if still { 12 } else { 0 };
            let shown = if still {
                field
            } else {
                mirrored(1 - priord, 0)
            };
            assert_eq!(machine.csr_read(MEIHAP), answer(source));
            assert_eq!(machine.csr_read(MEICIDPL), answer(shown));
        }
    }
}

#[test]
fn a_chain_with_no_winner_claims_the_field_of_rank_0() {
    for (priord, field) in [(0, 0), (1, 15)] {
        let mut machine = nested(priord, 2);
        machine.sample(0, 0);
        assert_eq!(machine.chain(), ACCEPTED);
        assert_eq!(machine.csr_read(MEICIDPL), answer(field));
        assert_eq!(machine.csr_read(MEIHAP), answer(0));
        assert_eq!(machine.handlers[1].source, 2);
    }
}

// Handlers.

#[test]
fn open_answers_a_rank_and_return_gives_the_field_of_the_saved_one() {
    for priord in [0, 1] {
        let field = |rank| mirrored(priord, rank);
        let mut machine = ready(4, priord);
        machine.csr_write(MEICURPL, field(3));
        machine.prepare(1, field(5));
        machine.prepare(2, field(12));
        machine.sample(0, 0b010);
        assert_eq!(machine.take(), answer(4));
        assert_eq!(machine.csr_read(MEICIDPL), answer(field(5)));
        assert_eq!(machine.csr_read(MEICURPL), answer(field(3)));
        assert_eq!(machine.handlers[0].rank, Rank(5));
        assert_eq!(machine.handlers[0].saved, Rank(3));
        assert_eq!(machine.open(), answer(5));
        assert_eq!(machine.csr_read(MEICURPL), answer(field(5)));
        machine.sample(0, 0b110);
        assert_eq!(machine.take(), answer(8));
        assert_eq!(machine.csr_read(MEICIDPL), answer(field(12)));
        assert_eq!(machine.handlers[1].rank, Rank(12));
        assert_eq!(machine.handlers[1].saved, Rank(5));
        assert_eq!(machine.open(), answer(12));
        assert_eq!(machine.csr_read(MEICURPL), answer(field(12)));
        // A handler keeps its rank when the field of its source changes.
        machine.store(8, field(1));
        assert_eq!(machine.csr_read(MEICURPL), answer(field(12)));
        machine.set_mask(0);
        assert_eq!(machine.give_back(), answer(1));
        assert_eq!(machine.csr_read(MEICURPL), answer(field(5)));
        machine.set_mask(0);
        assert_eq!(machine.give_back(), answer(0));
        assert_eq!(machine.csr_read(MEICURPL), answer(field(3)));
        assert!(machine.sound());
    }
}

#[test]
fn an_unopened_handler_returns_to_the_same_field() {
    for priord in [0, 1] {
        for saved in 0..15 {
            let mut machine = ready(2, priord);
            machine.csr_write(MEICURPL, mirrored(priord, saved));
            machine.prepare(1, mirrored(priord, 15));
            machine.sample(0, 2);
            assert_eq!(machine.take(), answer(4));
            assert_eq!(u32::from(machine.handlers[0].saved), saved);
            assert_eq!(machine.give_back(), answer(0));
            let read = machine.csr_read(MEICURPL);
            assert_eq!(read, answer(mirrored(priord, saved)));
        }
    }
}

#[test]
fn chains_compare_ranks() {
    for priord in [0, 1] {
        let field = |rank| mirrored(priord, rank);
        for rank in 1..16 {
            for other in 0..16 {
                for threshold in 0..16 {
                    let mut machine = ready(4, priord);
                    machine.prepare(3, field(rank));
                    machine.sample(0, 0b1000);
                    assert_eq!(machine.take(), answer(12));
                    machine.prepare(2, field(other));
                    machine.sample(0, 0b0100);
                    machine.csr_write(MEIPT, field(threshold));
                    let served = other == rank && rank > threshold;
                    let expected = if served { answer(8) } else { ACCEPTED };
                    assert_eq!(machine.chain(), expected);
                    assert_eq!(machine.handlers[0].source, if served { 2 } else { 3 });
                    assert_eq!(machine.csr_read(MEICIDPL), answer(field(other)));
                    assert_eq!(machine.give_back(), answer(0));
                    assert_eq!(machine.csr_read(MEICURPL), answer(field(0)));
                }
            }
        }
    }
}

#[test]
fn take_return_switch_and_take_again() {
    let mut machine = machine(4);
    machine.csr_write(MEIPT, 6);
    machine.csr_write(MEICURPL, 8);
    machine.prepare(1, 2);
    machine.prepare(2, 11);
    machine.sample(0, 0b110);
    machine.set_mask(1);
    // In each order one of the two is above threshold and current; nothing else is written.
    for (priord, source, field) in [(0, 2, 11), (1, 1, 2), (0, 2, 11), (1, 1, 2)] {
        assert_eq!(machine.store(MPICCFG, priord), ACCEPTED);
        let bar = mirrored(priord, 6).max(mirrored(priord, 8));
        let rank = mirrored(priord, field);
        assert_eq!(machine.query_margin(), Ok(rank as i32 - bar as i32));
        assert_eq!(machine.take(), answer(4 * source));
        assert_eq!(machine.csr_read(MEICIDPL), answer(field));
        assert_eq!(machine.store(MPICCFG, 1 - priord), refused(24));
        assert_eq!(machine.open(), answer(rank));
        assert_eq!(machine.csr_read(MEICURPL), answer(field));
        assert_eq!(machine.store(MPICCFG, 1 - priord), refused(24));
        assert_eq!(machine.store(MPICCFG, priord), ACCEPTED);
        machine.set_mask(0);
        assert_eq!(machine.store(MPICCFG, 1 - priord), refused(24));
        assert_eq!(machine.give_back(), answer(0));
        assert_eq!(machine.csr_read(MEICURPL), answer(8));
        assert_eq!(machine.csr_read(MEIPT), answer(6));
    }
}

#[test]
fn fifteen_handlers_in_reverse_order() {
    let mut machine = nested(1, 15);
    assert_eq!(machine.open(), answer(15));
    for level in (1..=15).rev() {
        assert_eq!(machine.csr_read(MEICURPL), answer(15 - level));
        assert_eq!(machine.store(MPICCFG, 0), refused(24));
        assert_eq!(machine.store(MPICCFG, 1), ACCEPTED);
        machine.set_mask(0);
        assert_eq!(machine.give_back(), answer(level - 1));
    }
    assert_eq!(machine.csr_read(MEICURPL), answer(15));
    assert_eq!(machine.store(MPICCFG, 0), ACCEPTED);
    assert_eq!(machine.current_rank(), Rank(15));
}

#[test]
fn fields_are_sound_up_to_15_and_current_by_its_rank() {
    let changes: [fn(&mut Machine, Field); 4] = [
        |machine, field| machine.sources[1].field = field,
        |machine, field| machine.threshold = field,
        |machine, field| machine.claimed = field,
        |machine, field| machine.current = field,
    ];
    for priord in [false, true] {
        for change in changes {
            for field in 0..=255 {
                let mut machine = machine(2);
                machine.priord = priord;
                change(&mut machine, Field(field));
                assert_eq!(machine.sound(), field <= 15);
                if field > 15 {
                    assert_eq!(machine.store(MPICCFG, 1), refused(8));
                    assert_eq!(machine.query_margin(), Err(8));
                }
            }
        }
        // A handler of rank 4 over a saved rank 2.
        for opened in [false, true] {
            for field in 0..16 {
                let mut machine = machine(2);
                machine.priord = priord;
                machine.current = Field(field);
                machine.handlers.push(Handler {
                    source: 1,
                    rank: Rank(4),
                    saved: Rank(2),
                    opened,
                });
                let level = if opened { Rank(4) } else { Rank(2) };
                assert_eq!(machine.sound(), Field(field).rank(priord) == level);
            }
        }
    }
}

// Refusal 24.

/// With one handler, unopened or opened, and with several, in both orders.
fn with_handlers() -> Vec<Machine> {
    let mut machines = Vec::new();
    for priord in [0, 1] {
        for levels in [1, 2, 3, 7, 15] {
            let mut machine = nested(priord, levels);
            machines.push(machine.clone());
            assert_eq!(machine.open(), answer(levels));
            machines.push(machine.clone());
            machine.set_mask(0);
            machines.push(machine.clone());
            if levels > 1 {
                machine.give_back();
                machines.push(machine);
            }
        }
    }
    machines
}

#[test]
fn a_switch_is_refused_while_a_handler_is_open() {
    for machine in with_handlers() {
        let same = u32::from(machine.priord);
        let other = 1 - same;
        for more in [0, 2, 4, 0x10, 0x8000_0000, 0xFFFF_FFFE] {
            // A refused event leaves the machine as it was; so does the same order.
            let mut played = machine.clone();
            assert_eq!(played.store(MPICCFG, more | other), refused(24));
            assert_eq!(played.store(MPICCFG, more | same), ACCEPTED);
            assert_eq!(played, machine);
        }
        let mut played = machine.clone();
        assert_eq!(played.load(MPICCFG), answer(same));
        assert_eq!(played, machine);
    }
}

#[test]
fn bit_0_alone_tells_the_order() {
    let mut machine = nested(0, 1);
    for (value, outcome) in [
        (0, ACCEPTED),
        (1, refused(24)),
        (2, ACCEPTED),
        (3, refused(24)),
        (0xFFFF_FFFE, ACCEPTED),
        (0xFFFF_FFFF, refused(24)),
    ] {
        assert_eq!(machine.store(MPICCFG, value), outcome);
        assert_eq!(machine.load(MPICCFG), answer(0));
    }
    machine.give_back();
    for (value, priord) in [(3, 1), (2, 0), (0xFFFF_FFFF, 1), (0xFFFF_FFFE, 0)] {
        assert_eq!(machine.store(MPICCFG, value), ACCEPTED);
        assert_eq!(machine.load(MPICCFG), answer(priord));
    }
}

#[test]
fn every_offset_but_mpiccfg_is_free_of_24() {
    let mut idle = machine(4);
    idle.sample(0, 4);
    let open = |priord| {
        let mut machine = ready(4, priord);
        machine.prepare(2, 7);
        machine.sample(0, 4);
        assert_eq!(machine.take(), answer(8));
        machine
    };
    for machine in [idle, open(0), open(1)] {
        let other = u32::from(!machine.priord);
        for offset in 0..=0xFFFF {
            let mut played = machine.clone();
            let outcome = played.play(Event::new(STORE, offset, other));
            let expected = if offset >= 0x8000 {
                refused(10)
            } else if offset % 4 != 0 {
                refused(11)
            } else if offset == MPICCFG && !machine.handlers.is_empty() {
                refused(24)
            } else {
                ACCEPTED
            };
            assert_eq!(outcome, expected, "{offset:x}");
            let switched = offset == MPICCFG && machine.handlers.is_empty();
            assert_eq!(played.priord != machine.priord, switched, "{offset:x}");
        }
    }
}

#[test]
fn questions_8_10_and_11_come_before_24() {
    for mut machine in with_handlers() {
        let other = u32::from(!machine.priord);
        for offset in [0x3001, 0x3002, 0x3003] {
            assert_eq!(machine.store(offset, other), refused(11));
        }
        for offset in [0xB000, 0xB001, 0xB002, 0x8000] {
            assert_eq!(machine.store(offset, other), refused(10));
        }
        for offset in [0x2FFC, 0x3004, 0x3008, 0x3FFC] {
            assert_eq!(machine.store(offset, other), ACCEPTED);
        }
        assert_eq!(machine.store(MPICCFG, other), refused(24));
        machine.threshold = Field(16);
        assert_eq!(machine.store(MPICCFG, other), refused(8));
    }
}

#[test]
fn the_order_is_free_again_after_the_last_return() {
    for priord in [0, 1] {
        let mut machine = nested(priord, 4);
        for left in (0..4).rev() {
            machine.set_mask(0);
            assert_eq!(machine.store(MPICCFG, 1 - priord), refused(24));
            assert_eq!(machine.give_back(), answer(left));
        }
        for mask in [0, 1] {
            let mut machine = machine.clone();
            machine.set_mask(mask);
            assert_eq!(machine.store(MPICCFG, 1 - priord), ACCEPTED);
            assert_eq!(machine.store(MPICCFG, 1 - priord), ACCEPTED);
            assert_eq!(machine.store(MPICCFG, priord), ACCEPTED);
        }
    }
}

// The print.

fn printed(sources: u32, pairs: &[(u32, u32)]) -> String {
    let event = |&(head, value): &(u32, u32)| Event { head, value };
    let events = pairs.iter().map(event).collect();
    let bytes = write_record(&Record { sources, events }).unwrap();
    print(&bytes, BOARD)
}

#[test]
fn level_and_margin_are_ranks() {
    let end = |pairs: &[(u32, u32)]| {
        let text = printed(4, pairs);
        text.lines().last().unwrap().to_string()
    };
    assert_eq!(end(&[(0x23000, 1)]), "end open 0 level 15 margin -15");
    let mut events = vec![(0x23000, 1), (0x40BCC, 11)];
    assert_eq!(end(&events), "end open 0 level 4 margin -15");
    events.push((0x40BC9, 9));
    assert_eq!(end(&events), "end open 0 level 4 margin -6");
    // Source 2, field 1, is of rank 14.
    events.extend([(0x20008, 1), (0x22008, 1), (0, 4)]);
    assert_eq!(end(&events), "end open 0 level 4 margin 8");
    events.extend([(0x90000, 1), (0x50000, 0)]);
    assert_eq!(end(&events), "end open 1 level 4 margin 8");
    events.push((0x60000, 0));
    assert_eq!(end(&events), "end open 1 level 14 margin 0");
    // Source 3, field 0, is of rank 15.
    events.extend([(0x2200C, 1), (0, 12)]);
    assert_eq!(end(&events), "end open 1 level 14 margin 1");
    events.extend([(0x90000, 0), (0x80000, 0), (0x23000, 0)]);
    assert_eq!(end(&events), "end open 0 level 11 margin -10");
}

#[test]
fn a_record_with_switches_prints_refusals_and_fields() {
    let events = [
        (0x0002_0008, 5),
        (0x0002_3000, 1),
        (0x0001_0008, 0),
        (0x0002_2008, 1),
        (0x0000_0000, 4),
        (0x0009_0000, 1),
        (0x0005_0000, 0),
        (0x0004_0BC9, 8),
        (0x0004_0BCC, 12),
        (0x0005_0000, 0),
        (0x0002_3000, 0),
        (0x0002_3000, 3),
        (0x0006_0000, 0),
        (0x0003_0BCB, 0),
        (0x0003_0BCC, 0),
        (0x0002_3000, 2),
        (0x0002_3002, 0),
        (0x0009_0000, 0),
        (0x0008_0000, 0),
        (0x0003_0BCC, 0),
        (0x0002_3000, 0),
        (0x0003_0BCC, 0),
    ];
    let text = "\
sources 4 events 22
0 2 0 0
1 2 0 0
2 1 5 0
3 2 0 0
4 0 0 0
5 9 0 0
6 5 0 16
7 4 0 0
8 4 0 0
9 5 8 0
10 2 0 24
11 2 0 0
12 6 10 0
13 3 5 0
14 3 5 0
15 2 0 24
16 2 0 11
17 9 0 0
18 8 0 0
19 3 12 0
20 2 0 0
21 3 12 0
end open 0 level 12 margin -7
";
    assert_eq!(printed(4, &events), text);
}

// Laws, over the machines of generated records.

/// Accepted records of a family.
fn records(family: &str, rounds: u64) -> Vec<Record> {
    let (_, build) = FAMILIES.iter().find(|found| found.0 == family).unwrap();
    let read = |round| {
        let bytes = build(&mut Random::for_index(1, round), BOARD);
        record::read(&bytes, BOARD, 4000).ok()
    };
    (0..rounds).filter_map(read).collect()
}

fn generated_records(seed: u64) -> impl Iterator<Item = Record> {
    let count = 4 * FAMILIES.len() as u64;
    let read = move |index| record::read(&generate(seed, index, BOARD).bytes, BOARD, 4000).ok();
    (0..count).filter_map(read)
}

#[test]
fn two_switches_of_a_generated_machine_are_none() {
    let mut idle = 0;
    for record in records("fields", 30).iter().chain(&records("switches", 30)) {
        let (mut machine, _) = Machine::power_on(record.sources);
        for &event in &record.events {
            machine.play(event);
            let other = u32::from(!machine.priord);
            let mut switched = machine.clone();
            if !machine.handlers.is_empty() {
                assert_eq!(switched.store(MPICCFG, other), refused(24));
                continue;
            }
            assert_eq!(switched.store(MPICCFG, other), ACCEPTED);
            assert_eq!(fields(&switched), fields(&machine));
            for (rank, old) in ranks(&switched).into_iter().zip(ranks(&machine)) {
                assert_eq!(rank.0 + old.0, 15);
            }
            assert_eq!(switched.store(MPICCFG, 1 - other), ACCEPTED);
            assert_eq!(switched, machine);
            idle += 1;
        }
    }
    assert!(idle > 1000, "{idle}");
}

#[test]
fn current_keeps_its_rank_but_for_open_and_return_and_its_own_write() {
    let (mut stores, mut open) = (0, 0);
    for record in generated_records(11) {
        let (mut machine, _) = Machine::power_on(record.sources);
        for &event in &record.events {
            let before = machine.clone();
            let outcome = machine.play(event);
            if outcome.refusal != 0 {
                continue;
            }
            let kept = machine.current_rank() == before.current_rank();
            if event.kind() == STORE && machine.priord == before.priord {
                assert!(kept, "{event}");
                stores += 1;
            }
            if !before.handlers.is_empty() {
                assert_eq!(machine.priord, before.priord);
                let moves = event.kind() == OPEN || event.kind() == RETURN;
                assert!(kept || moves, "{event}");
                open += 1;
            }
            for (number, source) in (1..).zip(&machine.sources) {
                let never = machine.priord && source.field == Field(15);
                assert!(!(never && machine.eligible(number)));
            }
        }
    }
    assert!(stores > 1000 && open > 1000, "{stores} {open}");
}

/// The same events for a machine of the opposite order whose fields are all mirrored.
fn opposite(event: Event, sources: u32) -> Event {
    let turned = match (event.kind(), event.address()) {
        (STORE, MPICCFG) => event.value ^ 1,
        (STORE, offset) if is_priority(offset, sources) => event.value ^ 15,
        (CSR_WRITE, MEIPT | MEICIDPL | MEICURPL) => event.value ^ 15,
        _ => event.value,
    };
    Event {
        value: turned,
        ..event
    }
}

fn is_priority(offset: u32, sources: u32) -> bool {
    offset % 4 == 0 && (1..=sources).contains(&(offset / 4))
}

#[test]
fn the_opposite_order_with_mirrored_fields_is_the_same_but_for_reads_of_them() {
    let (mut takes, mut reads, mut refusals) = (0, 0, 0);
    for record in generated_records(13).chain(records("fields", 40)) {
        let sources = record.sources;
        let (mut machine, _) = Machine::power_on(sources);
        let mut mirror = machine.clone();
        mirror.store(MPICCFG, 1);
        for source in 1..=sources {
            mirror.store(4 * source, 15);
        }
        for address in [MEIPT, MEICIDPL, MEICURPL] {
            mirror.csr_write(address, 15);
        }
        for event in record.events {
            let outcome = machine.play(event);
            let theirs = mirror.play(opposite(event, sources));
            let shown = match (event.kind(), event.address()) {
                _ if outcome.refusal != 0 => 0,
                (LOAD, MPICCFG) => 1 - outcome.answer,
                (LOAD, offset) if is_priority(offset, sources) => 15 - outcome.answer,
                (CSR_READ, MEIPT | MEICIDPL | MEICURPL) => 15 - outcome.answer,
                _ => outcome.answer,
            };
            assert_eq!((theirs.answer, theirs.refusal), (shown, outcome.refusal));
            assert_ne!(machine.priord, mirror.priord);
            assert_eq!(ranks(&machine), ranks(&mirror));
            assert_eq!(machine.handlers, mirror.handlers);
            takes += u32::from(event.kind() == TAKE && outcome.refusal == 0);
            reads += u32::from(shown != outcome.answer);
            refusals += u32::from(outcome.refusal == 24);
        }
        assert_eq!(machine.margin(), mirror.margin());
        assert_eq!(machine.current_rank(), mirror.current_rank());
    }
    assert!(takes > 500 && reads > 1000 && refusals > 100);
}

/// A handler as its taking and its chainings tell.
struct Told {
    source: usize,
    rank: Rank,
}

#[test]
fn nesting_holds_for_lists_with_switches() {
    let mut deep = [0; 2];
    for record in records("fields", 60).iter().chain(&records("switches", 60)) {
        let (mut machine, _) = Machine::power_on(record.sources);
        let mut told: Vec<Told> = Vec::new();
        for &event in &record.events {
            let before = machine.clone();
            let outcome = machine.play(event);
            let source = (outcome.answer.wrapping_sub(before.base) / 4) as usize;
            match event.kind() {
                _ if outcome.refusal != 0 => {}
                TAKE => {
                    let rank = before.source_rank(source);
                    assert!(rank > before.threshold_rank());
                    assert!(told.last().map_or(true, |top| top.rank < rank));
                    told.push(Told { source, rank });
                    deep[usize::from(before.priord)] += u32::from(told.len() >= 2);
                }
                CHAIN | COMMIT if outcome.answer != 0 => {
                    let rank = before.source_rank(source);
                    let top = told.last_mut().unwrap();
                    assert_eq!(rank, top.rank);
                    assert!(rank > before.threshold_rank());
                    top.source = source;
                }
                RETURN => {
                    told.pop().unwrap();
                    assert_eq!(outcome.answer as usize, told.len());
                }
                _ => {}
            }
            assert_eq!(told.len(), machine.handlers.len());
            for (handler, told) in machine.handlers.iter().zip(&told) {
                assert_eq!((handler.source, handler.rank), (told.source, told.rank));
            }
        }
    }
    assert!(deep.iter().all(|&times| times >= 30), "{deep:?}");
}

// The families of records.

/// What the records of a family met, by name.
#[derive(Default)]
struct Met {
    times: BTreeMap<&'static str, u32>,
}

impl Met {
    fn count(&mut self, name: &'static str, yes: bool) {
        *self.times.entry(name).or_default() += u32::from(yes);
    }

    fn at_least(&self, family: &str, least: u32, names: &[&str]) {
        for name in names {
            let times = self.times[name];
            assert!(times >= least, "{family}, {name}: {times}");
        }
    }
}

fn met(records: &[Record]) -> Met {
    let mut met = Met::default();
    for record in records {
        meet(record, &mut met);
    }
    met
}

/// Whether an event writes one of the registers that hold fields.
fn writes_field(event: Event, sources: u32) -> bool {
    match event.kind() {
        STORE => is_priority(event.address(), sources),
        CSR_WRITE => [MEIPT, MEICIDPL, MEICURPL].contains(&event.address()),
        _ => false,
    }
}

fn meet(record: &Record, met: &mut Met) {
    let (mut machine, _) = Machine::power_on(record.sources);
    // How often the order was switched, and whether a field was written since.
    let (mut switches, mut written) = (0, true);
    let mut claimed_in = None;
    for &event in &record.events {
        let before = machine.clone();
        let outcome = machine.play(event);
        let (kind, address) = (event.kind(), event.address());
        let accepted = outcome.refusal == 0;
        let reverse = before.priord;
        let depth = before.handlers.len();
        let other = event.value % 2 != u32::from(reverse);
        let opened = before.handlers.last().map(|top| top.opened);

        let to_order = kind == STORE && address == MPICCFG;
        if to_order && accepted && other {
            switches += 1;
            written = false;
        }
        met.count("switch to 1", to_order && accepted && other && !reverse);
        met.count("switch to 0", to_order && accepted && other && reverse);
        met.count("the same, idle", to_order && !other && depth == 0);
        met.count("the same, open", to_order && !other && depth > 0);
        let refused = outcome.refusal == 24;
        assert!(!refused || (to_order && other && depth > 0));
        met.count("24 from 0", refused && !reverse);
        met.count("24 from 1", refused && reverse);
        met.count("24, unopened", refused && opened == Some(false));
        met.count("24, opened", refused && opened == Some(true));
        met.count(
            "24, masked",
            refused && opened == Some(true) && !before.mask,
        );
        met.count("24, two handlers", refused && depth == 2);
        met.count("24, more handlers", refused && depth > 2);
        met.count("24 by other bits too", refused && event.value > 1);
        let beside = kind == STORE && depth > 0 && other;
        met.count(
            "11 before 24",
            beside && address & !3 == MPICCFG && !to_order,
        );
        met.count("10 before 24", beside && address & !7 == 0xB000);
        met.count("0x3004", beside && address == 0x3004 && accepted);

        let took = kind == TAKE && accepted;
        met.count("take in 0", took && !reverse);
        met.count("take in 1", took && reverse);
        met.count("take in 0, switched back", took && !reverse && switches > 0);
        met.count("take in 1, switched back", took && reverse && switches > 2);
        met.count("take in 0 by a switch alone", took && !written && !reverse);
        met.count("take in 1 by a switch alone", took && !written && reverse);
        met.count("nested in 0", took && depth >= 1 && !reverse);
        met.count("nested in 1", took && depth >= 1 && reverse);
        met.count("nested deeper in 1", took && depth >= 2 && reverse);
        let too_low = kind == TAKE && outcome.refusal == 16;
        met.count("16 in 1", too_low && reverse);
        let rank_15 = before.threshold == Field(0) && before.current == Field(0);
        met.count("16 by fields 0 in 1", too_low && reverse && rank_15);

        let chained = kind == CHAIN && outcome.answer != 0;
        met.count("chained in 0", chained && !reverse);
        met.count("chained in 1", chained && reverse);
        let alone = kind == CHAIN && accepted && !chained;
        met.count("not chained in 1", alone && reverse);
        let open = kind == OPEN && accepted && reverse;
        met.count("open in 1", open);
        met.count("return in 1", kind == RETURN && accepted && reverse);

        let captured = accepted && matches!(kind, TAKE | CHAIN | COMMIT);
        if kind == CSR_WRITE && address == MEICPCT || captured {
            let none = machine.claim == 0;
            claimed_in = Some((reverse, none));
        } else if kind == CSR_WRITE && address == MEICIDPL {
            claimed_in = None;
        }
        if let (CSR_READ, MEICIDPL, Some((order, none))) = (kind, address, claimed_in) {
            met.count("no claim read in 1", order && reverse && none);
            met.count("claim read in 1", order && reverse && !none);
            met.count("claim read after a switch", order != reverse);
        }
        let read = kind == LOAD && is_priority(address, record.sources)
            || kind == CSR_READ && [MEIPT, MEICIDPL, MEICURPL].contains(&address);
        met.count("fields read in 0", read && !reverse && outcome.answer > 0);
        met.count("fields read in 1", read && reverse && outcome.answer < 15);
        met.count("fields read by a switch alone", read && !written);

        let of_handler = matches!(kind, OPEN..=RETURN | COMMIT) && accepted;
        written |= writes_field(event, record.sources) && accepted || of_handler;
    }
    let (level, margin) = (machine.current_rank(), machine.margin());
    let end = machine.priord;
    met.count("end in 1, level above 0", end && level > Rank(0));
    let idle = machine.handlers.is_empty();
    met.count("end in 1, idle", end && idle && level > Rank(0));
    met.count("end in 1, handlers", end && !idle && level > Rank(0));
    met.count("end in 1, margin above 0", end && margin > 0);
    met.count("end in 1, margin below 0", end && margin < 0);
}

/// What both families meet.
const OF_BOTH: [&str; 33] = [
    "switch to 1",
    "switch to 0",
    "the same, open",
    "24 from 0",
    "24 from 1",
    "24, unopened",
    "24, opened",
    "24, masked",
    "24, two handlers",
    "24, more handlers",
    "24 by other bits too",
    "11 before 24",
    "10 before 24",
    "0x3004",
    "take in 0",
    "take in 1",
    "take in 0, switched back",
    "take in 1, switched back",
    "nested in 0",
    "nested in 1",
    "16 in 1",
    "chained in 0",
    "chained in 1",
    "not chained in 1",
    "open in 1",
    "return in 1",
    "no claim read in 1",
    "claim read in 1",
    "claim read after a switch",
    "fields read in 0",
    "fields read in 1",
    "fields read by a switch alone",
    "end in 1, level above 0",
];

#[test]
fn the_family_of_fields_meets_all_of_this() {
    let met = met(&records("fields", 120));
    met.at_least("fields", 10, &OF_BOTH);
    met.at_least(
        "fields",
        10,
        &[
            "the same, idle",
            "nested deeper in 1",
            "take in 0 by a switch alone",
            "take in 1 by a switch alone",
            "16 by fields 0 in 1",
            "end in 1, idle",
            "end in 1, handlers",
            "end in 1, margin above 0",
            "end in 1, margin below 0",
        ],
    );
    met.at_least(
        "fields",
        100,
        &[
            "switch to 1",
            "switch to 0",
            "24 from 1",
            "take in 0",
            "take in 1",
            "take in 0, switched back",
            "nested in 1",
            "chained in 1",
        ],
    );
}

#[test]
fn the_family_of_switches_meets_all_of_this() {
    let met = met(&records("switches", 240));
    met.at_least("switches", 10, &OF_BOTH);
    met.at_least(
        "switches",
        100,
        &[
            "switch to 1",
            "switch to 0",
            "24 from 0",
            "24 from 1",
            "take in 0, switched back",
            "take in 1",
        ],
    );
}

#[test]
fn other_families_take_in_both_orders_too() {
    for family in [
        "mixed",
        "offsets",
        "csr addresses",
        "nesting",
        "nesting, one source",
        "nesting, wandering",
        "chains",
        "priority order",
        "mirror",
        "thresholds",
        "current",
        "timers",
        "errors",
        "limits",
    ] {
        let met = met(&records(family, 120));
        met.at_least(family, 20, &["take in 0", "take in 1"]);
    }
    let meets =
        |family: &str, names: &[&str]| met(&records(family, 60)).at_least(family, 20, names);
    for family in ["nesting", "nesting, one source", "nesting, wandering"] {
        meets(family, &["nested in 1", "nested deeper in 1"]);
    }
    for family in ["nesting, wandering", "chains", "mirror"] {
        meets(family, &["chained in 1"]);
    }
    for family in ["priority order", "current"] {
        meets(
            family,
            &["24 from 0", "24 from 1", "take in 0, switched back"],
        );
    }
    let met = met(&records("question order", 120));
    met.at_least("question order", 20, &["24 from 0", "11 before 24"]);
}
