//! The internal timers: registers, clocks, and what a clock leaves alone.

mod common;

use common::*;
use reference::error_counter::ERROR_CSRS;
use reference::event::*;
use reference::machine::*;
use reference::player::print;
use reference::record::{lay_out, write_record, Record, BOARD};
use reference::timer::*;

/// What the six CSRs read.
fn registers(machine: &mut Machine) -> [u32; 6] {
    TIMER_CSRS.map(|address| {
        let outcome = machine.csr_read(address);
        assert_eq!(outcome.refusal, 0);
        outcome.answer
    })
}

/// Sets counter, bound and control of a timer.
fn set(machine: &mut Machine, timer: usize, count: u32, bound: u32, control: u32) {
    assert_eq!(machine.csr_write(MITCNT[timer], count), ACCEPTED);
    assert_eq!(machine.csr_write(MITB[timer], bound), ACCEPTED);
    assert_eq!(machine.csr_write(MITCTL[timer], control), ACCEPTED);
}

const RESET: [u32; 6] = [0, u32::MAX, 1, 0, u32::MAX, 1];

#[test]
fn the_addresses_are_those_of_the_manual() {
    assert_eq!(TIMER_CSRS, [0x7D2, 0x7D3, 0x7D4, 0x7D5, 0x7D6, 0x7D7]);
    assert_eq!(MITCNT, [0x7D2, 0x7D5]);
    assert_eq!(MITB, [0x7D3, 0x7D6]);
    assert_eq!(MITCTL, [0x7D4, 0x7D7]);
    // The controller's own six stay in their order.
    assert_eq!(CSRS, [0xBC8, 0xBC9, 0xBCA, 0xBCB, 0xBCC, 0xFC8]);
}

#[test]
fn power_on_sets_the_reset_values() {
    for sources in [2, 3, 255] {
        assert_eq!(registers(&mut machine(sources)), RESET);
    }
    for sources in [0, 1, 256, u32::MAX] {
        let (mut machine, refusal) = Machine::power_on(sources);
        assert_eq!(refusal, 2);
        assert_eq!(registers(&mut machine), RESET);
        assert_eq!(machine, Machine::power_on(2).0);
    }
}

#[test]
fn a_register_reads_what_was_written_and_the_others_stay() {
    for (place, &address) in TIMER_CSRS.iter().enumerate() {
        for value in [0, 1, 6, 7, 0x8000_0000, 0xFFFF_FFFF] {
            let mut machine = machine(4);
            machine.csr_write(MEIVT, 0x1234_5400);
            machine.csr_write(MEIPT, 9);
            let before = machine.clone();
            let mut expected = RESET;
            expected[place] = if address == 0x7D4 || address == 0x7D7 {
                value % 8
            } else {
                value
            };
            assert_eq!(machine.csr_write(address, value), ACCEPTED);
            assert_eq!(registers(&mut machine), expected);
            // Nothing but the timers.
            machine.timers = before.timers.clone();
            assert_eq!(machine, before);
        }
    }
}

#[test]
fn control_keeps_three_bits() {
    let mut machine = machine(2);
    for (written, held) in [
        (8, 0),
        (9, 1),
        (0xFFFF_FFFA, 2),
        (0x8000_0004, 4),
        (0xFFFF_FFFF, 7),
    ] {
        for timer in [0, 1] {
            assert_eq!(machine.csr_write(MITCTL[timer], written), ACCEPTED);
            assert_eq!(machine.timers[timer].control, held);
            assert_eq!(machine.csr_read(MITCTL[timer]), answer(held));
        }
    }
}

#[test]
fn all_sixteen_bits_of_the_address_count() {
    for bit in 0..16 {
        for address in TIMER_CSRS {
            let other = address ^ 1 << bit;
            if !TIMER_CSRS.contains(&other) && !ERROR_CSRS.contains(&other) {
                assert_eq!(machine(2).csr_read(other), refused(12), "{other:x}");
                assert_eq!(machine(2).csr_write(other, 0), refused(12), "{other:x}");
            }
        }
    }
}

#[test]
fn no_handler_keeps_a_timer_from_being_written() {
    let mut machine = nested();
    for address in TIMER_CSRS {
        assert_eq!(machine.csr_write(address, 5), ACCEPTED);
        assert_eq!(machine.csr_read(address), answer(5));
    }
    assert_eq!(machine.csr_write(MEICURPL, 5), refused(14));
    assert_eq!(machine.csr_write(MEIHAP, 5), refused(13));
}

#[test]
fn both_counters_go_up_from_power_on() {
    let mut machine = machine(2);
    for clocks in 1..=5 {
        assert_eq!(machine.clock(), ACCEPTED);
        assert_eq!(
            registers(&mut machine),
            [clocks, u32::MAX, 1, clocks, u32::MAX, 1]
        );
    }
}

#[test]
fn a_counter_at_its_bound_is_cleared_and_signals() {
    for timer in [0, 1] {
        let signal = answer(1 << timer);
        let mut machine = machine(2);
        machine.csr_write(MITB[timer], 3);
        // 1, 2, 3, then cleared, with a signal at every fourth clock.
        for count in [1, 2, 3, 0, 1, 2, 3, 0, 1] {
            let expected = if count == 0 { signal } else { ACCEPTED };
            assert_eq!(machine.clock(), expected);
            assert_eq!(machine.csr_read(MITCNT[timer]), answer(count));
        }
        // The other one has counted all nine clocks.
        assert_eq!(machine.csr_read(MITCNT[1 - timer]), answer(9));
    }
}

#[test]
fn a_counter_above_its_bound_is_cleared_and_signals() {
    for timer in [0, 1] {
        for (count, bound) in [(4, 3), (1000, 3), (u32::MAX, 3), (u32::MAX, u32::MAX - 1)] {
            let mut machine = machine(2);
            set(&mut machine, timer, count, bound, 1);
            assert_eq!(machine.clock(), answer(1 << timer));
            assert_eq!(machine.csr_read(MITCNT[timer]), answer(0));
            assert_eq!(machine.clock(), ACCEPTED);
            assert_eq!(machine.csr_read(MITCNT[timer]), answer(1));
        }
    }
    // The bound is lowered below the counter.
    let mut machine = machine(2);
    for _ in 0..5 {
        assert_eq!(machine.clock(), ACCEPTED);
    }
    machine.csr_write(0x7D6, 4);
    assert_eq!(machine.clock(), answer(2));
    assert_eq!(registers(&mut machine), [6, u32::MAX, 1, 0, 4, 1]);
}

#[test]
fn a_disabled_counter_stays_below_its_bound() {
    for timer in [0, 1] {
        // Without bit 0 the others enable nothing.
        for control in [0, 2, 4, 6] {
            let mut machine = machine(2);
            set(&mut machine, timer, 2, 3, control);
            for _ in 0..3 {
                assert_eq!(machine.clock(), ACCEPTED);
                assert_eq!(machine.csr_read(MITCNT[timer]), answer(2));
            }
        }
        // With bit 0 the others disable nothing.
        for control in [1, 3, 5, 7] {
            let mut machine = machine(2);
            set(&mut machine, timer, 2, 3, control);
            assert_eq!(machine.clock(), ACCEPTED);
            assert_eq!(machine.csr_read(MITCNT[timer]), answer(3));
            assert_eq!(machine.clock(), answer(1 << timer));
            assert_eq!(machine.csr_read(MITCNT[timer]), answer(0));
        }
    }
}

#[test]
fn a_disabled_counter_at_or_above_its_bound_is_cleared_and_signals() {
    for timer in [0, 1] {
        for (count, bound) in [(3, 3), (9, 3), (u32::MAX, u32::MAX), (u32::MAX, 1)] {
            let mut machine = machine(2);
            set(&mut machine, timer, count, bound, 6);
            assert_eq!(machine.clock(), answer(1 << timer));
            assert_eq!(machine.csr_read(MITCNT[timer]), answer(0));
            assert_eq!(machine.csr_read(MITCTL[timer]), answer(6));
            // Once only: it stays at 0, below its bound.
            assert_eq!(machine.clock(), ACCEPTED);
            assert_eq!(machine.csr_read(MITCNT[timer]), answer(0));
        }
    }
}

#[test]
fn bound_0_signals_at_every_clock() {
    for timer in [0, 1] {
        for control in [0, 1] {
            let mut machine = machine(2);
            set(&mut machine, timer, 0, 0, control);
            for _ in 0..3 {
                assert_eq!(machine.clock(), answer(1 << timer));
                assert_eq!(machine.csr_read(MITCNT[timer]), answer(0));
            }
        }
    }
}

#[test]
fn bound_1_signals_at_every_second_clock() {
    let mut machine = machine(2);
    machine.csr_write(0x7D3, 1);
    for signal in [0, 1, 0, 1, 0] {
        assert_eq!(machine.clock(), answer(signal));
    }
    assert_eq!(registers(&mut machine), [1, 1, 1, 5, u32::MAX, 1]);
}

#[test]
fn the_greatest_bound_is_reached_and_nothing_wraps() {
    for timer in [0, 1] {
        let mut machine = machine(2);
        machine.csr_write(MITCNT[timer], 0xFFFF_FFFE);
        assert_eq!(machine.clock(), ACCEPTED);
        assert_eq!(machine.csr_read(MITCNT[timer]), answer(0xFFFF_FFFF));
        assert_eq!(machine.clock(), answer(1 << timer));
        assert_eq!(machine.csr_read(MITCNT[timer]), answer(0));
        assert_eq!(machine.clock(), ACCEPTED);
        assert_eq!(machine.csr_read(MITCNT[timer]), answer(1));
    }
}

#[test]
fn both_may_signal_at_one_clock() {
    let mut machine = machine(2);
    set(&mut machine, 0, 1, 3, 1);
    set(&mut machine, 1, 98, 100, 1);
    assert_eq!(machine.clock(), ACCEPTED);
    assert_eq!(machine.clock(), ACCEPTED);
    assert_eq!(registers(&mut machine), [3, 3, 1, 100, 100, 1]);
    assert_eq!(machine.clock(), answer(3));
    assert_eq!(registers(&mut machine), [0, 3, 1, 0, 100, 1]);
    // Three clocks on timer 0 is at its bound again, after another it signals alone.
    for signal in [0, 0, 0, 1] {
        assert_eq!(machine.clock(), answer(signal));
    }
    assert_eq!(registers(&mut machine), [0, 3, 1, 4, 100, 1]);
}

#[test]
fn a_clock_uses_neither_address_nor_value() {
    let mut machine = machine(2);
    for (address, value) in [(1, 0), (0x7D2, 0), (0, 1), (0, u32::MAX), (3, 4)] {
        assert_eq!(machine.act(CLOCK, address, value), refused(7));
    }
    assert_eq!(registers(&mut machine), RESET);
}

#[test]
fn a_clock_changes_nothing_but_the_timers() {
    let mut machine = much_to_keep();
    machine.csr_write(0x7D3, 1);
    machine.csr_write(0x7D6, 0);
    let before = machine.clone();
    for signals in [2, 3, 2, 3] {
        assert_eq!(machine.clock(), answer(signals));
        let timers = machine.timers.clone();
        machine.timers = before.timers.clone();
        assert_eq!(machine, before);
        machine.timers = timers;
    }
    kept(&mut machine);
}

#[test]
fn other_events_leave_the_timers() {
    let mut machine = nested();
    set(&mut machine, 0, 3, 3, 0);
    set(&mut machine, 1, 7, 9, 7);
    let timers = machine.timers.clone();
    machine.open();
    machine.sample(0, 0b010);
    machine.store(0x3000, 0);
    machine.store(0x3000, 1);
    machine.load(4);
    machine.csr_write(MEIVT, u32::MAX);
    machine.csr_write(MEICPCT, 0);
    machine.csr_read(MEIHAP);
    machine.set_mask(0);
    machine.chain();
    machine.give_back();
    machine.set_mask(0);
    machine.give_back();
    machine.act(KINDS, 0, 0);
    assert_eq!(machine.handlers.len(), 0);
    assert_eq!(machine.timers, timers);
}

#[test]
fn clocks_within_nested_handlers() {
    let mut machine = machine(4);
    machine.csr_write(0x7D3, 2);
    machine.prepare(1, 3);
    machine.prepare(2, 7);
    machine.set_mask(1);
    machine.sample(0, 0b010);
    assert_eq!(machine.clock(), ACCEPTED);
    assert_eq!(machine.take(), answer(4));
    assert_eq!(machine.clock(), ACCEPTED);
    assert_eq!(machine.open(), answer(3));
    assert_eq!(machine.clock(), answer(1));
    machine.sample(0, 0b110);
    assert_eq!(machine.take(), answer(8));
    assert_eq!(machine.clock(), ACCEPTED);
    assert_eq!(machine.open(), answer(7));
    assert_eq!(machine.clock(), ACCEPTED);
    // A signal is no source's request.
    assert_eq!(machine.clock(), answer(1));
    assert_eq!(machine.take(), refused(16));
    machine.set_mask(0);
    assert_eq!(machine.give_back(), answer(1));
    assert_eq!(machine.clock(), ACCEPTED);
    machine.set_mask(0);
    assert_eq!(machine.give_back(), answer(0));
    assert_eq!(registers(&mut machine), [1, 2, 1, 7, u32::MAX, 1]);
}

#[test]
fn a_record_with_clocks_prints_their_answers() {
    let event = |head, value| Event { head, value };
    let record = Record {
        sources: 2,
        events: vec![
            event(0x0004_07D6, 0),
            event(0x000A_0000, 0),
            event(0x0003_07D2, 0),
            event(0x0003_07D8, 0),
        ],
    };
    let text = "sources 2 events 4\n0 4 0 0\n1 10 2 0\n2 3 1 0\n3 3 0 12\n\
        end open 0 level 0 margin 0\n";
    assert_eq!(print(&write_record(&record).unwrap(), BOARD), text);
    let clock = |address: u32, value| lay_out(1, 2, &[0x000A_0000 | address], &[value]);
    assert_eq!(print(&clock(1, 0), BOARD), "refused 7 at 0\n");
    assert_eq!(print(&clock(0, 1), BOARD), "refused 7 at 0\n");
}
