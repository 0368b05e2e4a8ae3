//! Every refusal, and the order of the questions.

mod common;

use common::*;
use reference::event::{CHAIN, CLOCK, COMMIT, KINDS, LOOK, NO_KIND};
use reference::machine::*;
use reference::rank::{Field, Rank};
use reference::record::{self, lay_out, Refusal, BOARD};

fn reading(bytes: &[u8]) -> Option<(u32, usize)> {
    record::read(bytes, BOARD, 4000)
        .err()
        .map(|Refusal { number, place }| (number, place))
}

fn writing(sources: u32, heads: &[u32], values: &[u32], room: usize) -> Option<(u32, usize)> {
    let result = record::write(sources, heads, values, room);
    result
        .err()
        .map(|Refusal { number, place }| (number, place))
}

/// A handler of source 1, rank 5, taken and not yet opened.
fn taken() -> Machine {
    let mut machine = machine(4);
    machine.prepare(1, 5);
    machine.sample(0, 2);
    machine.set_mask(1);
    assert_eq!(machine.take(), answer(4));
    machine
}

fn opened() -> Machine {
    let mut machine = taken();
    assert_eq!(machine.open(), answer(5));
    machine
}

#[test]
fn records_1_to_5() {
    for size in 0..8 {
        assert_eq!(reading(&vec![0; size]), Some((1, 0)));
    }
    for sources in [0, 1, 256, u32::MAX] {
        assert_eq!(reading(&lay_out(u32::MAX, sources, &[], &[])), Some((2, 0)));
        assert_eq!(writing(sources, &[], &[1], 0), Some((2, 0)));
        let (machine, refusal) = Machine::power_on(sources);
        assert_eq!((machine.count(), refusal), (2, 2));
    }
    for count in [4001, 0x2000_0000, u32::MAX] {
        assert_eq!(reading(&lay_out(count, 2, &[], &[])), Some((3, 0)));
    }
    assert_eq!(writing(2, &[0; 4001], &[], 0), Some((3, 0)));
    assert_eq!(reading(&lay_out(1, 2, &[], &[])), Some((4, 0)));
    assert_eq!(reading(&lay_out(0, 2, &[0], &[])), Some((4, 0)));
    assert_eq!(reading(&vec![2; 100_000]), Some((2, 0)));
    assert_eq!(writing(2, &[0], &[], 0), Some((4, 0)));
    let two = lay_out(2, 2, &[0, 0], &[0, 0]);
    assert_eq!(
        record::read(&two, BOARD, 1),
        Err(Refusal {
            number: 5,
            place: 0
        })
    );
    assert!(record::read(&two, BOARD, 2).is_ok());
    assert_eq!(writing(2, &[0], &[0], 15), Some((5, 0)));
    assert_eq!(writing(2, &[0], &[0], 16), None);
}

#[test]
fn records_6_and_7_with_their_places() {
    let good = 0x0005_0000;
    for (head, value, number) in [
        (NO_KIND, 0, 6),
        (NO_KIND | 1, 1, 6),
        (NO_KIND + 0x0001_0000, 0, 6),
        (NO_KIND + 0x0002_0000, 0, 6),
        (0xFFFF_0000, 0, 6),
        (0x0001_0000, 1, 7),
        (0x0003_0000, 1, 7),
        (0x0005_0001, 0, 7),
        (0x0005_0000, 1, 7),
        (0x0006_0001, 0, 7),
        (0x0006_0000, 1, 7),
        (0x0007_0001, 0, 7),
        (0x0007_0000, 1, 7),
        (0x0008_0001, 0, 7),
        (0x0008_0000, 1, 7),
        (0x0009_0001, 1, 7),
        (0x000A_0001, 0, 7),
        (0x000A_8000, 0, 7),
        (0x000A_0000, 1, 7),
        (0x000A_0000, 0x8000_0000, 7),
        (0x000B_0000, 1, 7),
        (0x000B_0003, 1, 7),
        (0x000B_FFFF, 0x8000_0000, 7),
        (0x000C_0001, 0, 7),
        (0x000C_8000, 0, 7),
        (0x000C_0000, 1, 7),
        (0x000C_0000, 0x8000_0000, 7),
        (0x000D_0000, 1, 7),
        (0x000D_0001, 1, 7),
        (0x000D_FFFF, 0x8000_0000, 7),
        (NO_KIND | 3, 1, 6),
    ] {
        let (heads, values) = ([good, head, 0xFFFF_0000], [0, value, 1]);
        assert_eq!(reading(&lay_out(3, 2, &heads, &values)), Some((number, 1)));
        // The writer takes no chain at all.
        let written = if head >> 16 == CHAIN { 27 } else { number };
        assert_eq!(writing(2, &heads, &values, 100), Some((written, 1)));
        assert_eq!(
            machine(2).play(reference::event::Event { head, value }),
            refused(number)
        );
    }
}

#[test]
fn event_8_comes_first() {
    let mut unsound = machine(4);
    unsound.current = Field(16);
    assert_eq!(unsound.act(0xFFFF, 0, 0), refused(8));
    assert_eq!(unsound.query_margin(), Err(8));
    let changes: [fn(&mut Machine); 25] = [
        |machine| machine.sources.clear(),
        |machine| machine.sources[0].field = Field(16),
        |machine| machine.sources[3].field = Field(255),
        |machine| machine.sources[1].line = true,
        |machine| machine.sources[2].active_low = true,
        |machine| machine.sources[3].latch = false,
        |machine| machine.base = 512,
        |machine| machine.claim = 5,
        |machine| machine.threshold = Field(16),
        |machine| machine.claimed = Field(16),
        |machine| machine.current = Field(4),
        |machine| machine.current = Field(16),
        // Current's field is now of another rank than the handler.
        |machine| machine.priord = true,
        |machine| machine.handlers[0].source = 5,
        |machine| machine.handlers[0].rank = Rank(16),
        |machine| machine.handlers[0].saved = Rank(5),
        |machine| machine.handlers[0].opened = false,
        |machine| machine.handlers.push(machine.handlers[0].clone()),
        |machine| machine.timers[0].control = 8,
        |machine| machine.timers[1].control = 8,
        |machine| machine.timers[1].control = 0x8000_0001,
        |machine| machine.error_counters[0].threshold = 27,
        |machine| machine.error_counters[1].threshold = u32::MAX,
        |machine| machine.error_counters[1].count = 1 << 27,
        |machine| machine.error_counters[2].count = u32::MAX,
    ];
    for change in changes {
        let mut machine = opened();
        machine.prepare(4, 1);
        machine.sample(0, 0b10010);
        assert!(machine.sound());
        change(&mut machine);
        assert_eq!(machine.load(0), refused(8));
        assert_eq!(machine.clock(), refused(8));
        assert_eq!(machine.error(0), refused(8));
        // Before 6, 7 and 25.
        assert_eq!(machine.error(3), refused(8));
        assert_eq!(machine.act(CLOCK, 1, 1), refused(8));
        // Before 17, 19 and 26.
        assert_eq!(machine.look(), refused(8));
        assert_eq!(machine.commit(0), refused(8));
        assert_eq!(machine.act(LOOK, 1, 0), refused(8));
        assert_eq!(machine.act(COMMIT, 1, 1), refused(8));
        assert_eq!(machine.act(KINDS, 0, 0), refused(8));
        assert_eq!(machine.query_margin(), Err(8));
    }
    let mut unmasked = taken();
    unmasked.mask = true;
    assert_eq!(unmasked.load(0), refused(8));
}

#[test]
fn events_9_to_14() {
    let mut machine = machine(4);
    assert_eq!(machine.sample(7, u32::MAX), ACCEPTED);
    assert_eq!(machine.sample(8, 0), refused(9));
    assert_eq!(machine.load(0x8000), refused(10));
    assert_eq!(machine.store(0x8001, 0), refused(10));
    assert_eq!(machine.load(0x7FFD), refused(11));
    assert_eq!(machine.store(0x7FFE, 0), refused(11));
    for address in [
        0xBC7, 0xBCD, 0xFC7, 0xFC9, 0x1BC8, 0xFBC8, 0, 0xFFFF, 0x7D1, 0x7D8, 0x17D2, 0x87D7, 0x7EF,
        0x7F3, 0x7F8, 0x17F0, 0x87F2,
    ] {
        assert_eq!(machine.csr_read(address), refused(12));
        assert_eq!(machine.csr_write(address, 0), refused(12));
    }
    assert_eq!(machine.csr_read(MEIHAP), ACCEPTED);
    assert_eq!(machine.csr_write(MEIHAP, 0), refused(13));
    assert_eq!(machine.csr_write(MEICURPL, 3), ACCEPTED);
    assert_eq!(taken().csr_write(MEICURPL, 3), refused(14));
    assert_eq!(taken().csr_write(MEIHAP, 3), refused(13));
    assert_eq!(opened().csr_write(MEICURPL, 5), refused(14));
}

#[test]
fn events_15_to_21() {
    let mut machine = machine(4);
    assert_eq!(machine.take(), refused(15));
    assert_eq!(taken().take(), refused(15));
    machine.set_mask(1);
    assert_eq!(machine.take(), refused(16));
    assert_eq!(opened().take(), refused(16));
    for mask in [0, 1] {
        machine.set_mask(mask);
        assert_eq!(machine.open(), refused(17));
        assert_eq!(machine.chain(), refused(17));
        assert_eq!(machine.give_back(), refused(17));
        assert_eq!(machine.look(), refused(17));
        assert_eq!(machine.commit(0), refused(17));
    }
    assert_eq!(opened().open(), refused(18));
    assert_eq!(opened().chain(), refused(19));
    assert_eq!(opened().give_back(), refused(19));
    assert_eq!(opened().look(), refused(19));
    assert_eq!(opened().commit(0), refused(19));
    for value in [2, 3, u32::MAX] {
        assert_eq!(machine.set_mask(value), refused(20));
        assert_eq!(taken().set_mask(value), refused(20));
    }
    assert_eq!(taken().set_mask(1), refused(21));
    assert_eq!(taken().set_mask(0), ACCEPTED);
    assert_eq!(opened().set_mask(1), ACCEPTED);
}

#[test]
fn event_24() {
    assert_eq!(machine(4).store(0x3000, 1), ACCEPTED);
    for mut machine in [taken(), opened()] {
        assert_eq!(machine.store(0x3000, 1), refused(24));
        assert_eq!(machine.store(0x3000, 2), ACCEPTED);
        assert_eq!(machine.store(0x3002, 1), refused(11));
        assert_eq!(machine.store(0xB000, 1), refused(10));
        assert_eq!(machine.store(0x3004, 1), ACCEPTED);
        machine.set_mask(0);
        assert_eq!(machine.give_back(), ACCEPTED);
        assert_eq!(machine.store(0x3000, 1), ACCEPTED);
    }
}

#[test]
fn event_25() {
    for mut machine in [machine(4), taken(), opened()] {
        for counter in 0..=2 {
            assert_eq!(machine.error(counter), answer(1));
        }
        for address in [3, 4, 0x7F0, 0x8000, 0xFFFF] {
            assert_eq!(machine.error(address), refused(25));
        }
    }
}

#[test]
fn event_26() {
    let mut masked = opened();
    masked.set_mask(0);
    for machine in [taken(), masked] {
        // Source 1 is still pending.
        assert_eq!(machine.clone().commit(1), answer(4));
        for number in [0, 2, 4, 5, 0x101, 0x8001, 0xFFFF] {
            assert_eq!(machine.clone().commit(number), refused(26));
        }
    }
}

#[test]
fn a_chain_that_serves_nothing_still_captures() {
    let mut machine = opened();
    machine.prepare(2, 6);
    machine.sample(0, 0b110);
    machine.set_mask(0);
    assert_eq!(machine.chain(), ACCEPTED);
    assert_eq!(machine.csr_read(MEIHAP), answer(8));
    assert_eq!(machine.csr_read(MEICIDPL), answer(6));
    assert_eq!(machine.handlers[0].source, 1);
    // Of the handler's rank, but not above the threshold.
    machine.store(8, 5);
    machine.sample(0, 0b100);
    machine.csr_write(MEIPT, 5);
    assert_eq!(machine.chain(), ACCEPTED);
    machine.csr_write(MEIPT, 4);
    assert_eq!(machine.chain(), answer(8));
    assert_eq!(machine.give_back(), ACCEPTED);
    assert_eq!((machine.mask, machine.current_rank()), (true, Rank(0)));
}

#[test]
fn a_handler_may_return_unopened() {
    let mut machine = opened();
    machine.store(4, 9);
    assert_eq!(machine.take(), answer(4));
    assert_eq!(machine.chain(), answer(4));
    assert_eq!(machine.give_back(), answer(1));
    assert_eq!((machine.mask, machine.current_rank()), (true, Rank(5)));
}
