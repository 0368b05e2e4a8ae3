//! Looks and commits: their questions, what they answer, and what they leave alone.

mod common;

use common::records::*;
use common::*;
use reference::event::*;
use reference::generate::{generate, FAMILIES};
use reference::machine::*;
use reference::player::{play, print};
use reference::random::Random;
use reference::rank::{Field, Rank};
use reference::record::{self, bytes_of, Limits, Record, Refusal, BOARD, COMPACT};
use std::cmp::Reverse;
use std::collections::BTreeMap;

const BASE: u32 = 0xABCD_E400;

/// Six sources, all silent: 1 to 3 of rank 5, 4 of rank 6, 5 of rank 4, 6 of rank 5 but disabled.
/// A handler of source 1 is open, of which the claim tells.
fn taken() -> Machine {
    let mut machine = machine(6);
    machine.csr_write(MEIVT, BASE);
    for (source, field) in [(1, 5), (2, 5), (3, 5), (4, 6), (5, 4), (6, 5)] {
        machine.prepare(source, field);
    }
    machine.store(0x2018, 0);
    machine.set_mask(1);
    machine.sample(0, 0b10);
    assert_eq!(machine.take(), answer(BASE + 4));
    machine.sample(0, 0);
    machine
}

fn opened() -> Machine {
    let mut machine = taken();
    assert_eq!(machine.open(), answer(5));
    machine
}

fn masked() -> Machine {
    let mut machine = opened();
    assert_eq!(machine.set_mask(0), ACCEPTED);
    machine
}

/// The same with the lines of some sources active.
fn asking(sources: &[u32]) -> Machine {
    let mut machine = masked();
    ask(&mut machine, sources);
    machine
}

fn ask(machine: &mut Machine, sources: &[u32]) {
    let lines = sources.iter().map(|source| 1 << source).sum();
    assert_eq!(machine.sample(0, lines), ACCEPTED);
}

/// What a look answers, by the words of the rules.
fn served(machine: &Machine) -> u32 {
    let top = match machine.handlers.last() {
        Some(top) => top.rank,
        None => return 0,
    };
    let rank = |number: usize| machine.source_rank(number);
    let mut rivals: Vec<usize> = (1..=machine.count()).collect();
    rivals.retain(|&number| machine.eligible(number));
    rivals.sort_by_key(|&number| (Reverse(rank(number)), number));
    let first = rivals.first().filter(|&&number| rank(number) == top);
    match first {
        Some(&number) if top > machine.threshold_rank() => number as u32,
        _ => 0,
    }
}

/// The machine after a capture, by the words of the rules.
fn captured(machine: &Machine) -> Machine {
    let mut after = machine.clone();
    let rank = |number: &usize| machine.source_rank(*number);
    let rivals = (1..=machine.count()).filter(|&number| machine.eligible(number));
    // Of equals `max_by_key` gives the last, so the lowest number comes last.
    let winner = rivals.rev().max_by_key(rank);
    after.claim = winner.unwrap_or(0);
    after.claimed = machine.field(winner.map_or(Rank(0), |number| rank(&number)));
    after
}

/// What a look, a commit or a chain makes of a sound machine, by the words of the rules.
fn by_the_rules(machine: &Machine, event: Event) -> (Machine, Outcome) {
    let stays = |outcome| (machine.clone(), outcome);
    if machine.handlers.is_empty() {
        return stays(refused(17));
    }
    if machine.mask {
        return stays(refused(19));
    }
    let source = served(machine);
    match event.kind() {
        LOOK => return stays(answer(source)),
        COMMIT if event.address() == 0 || event.address() != source => return stays(refused(26)),
        _ => {}
    }
    let mut after = captured(machine);
    if source == 0 {
        return (after, ACCEPTED);
    }
    after.handlers.last_mut().unwrap().source = source as usize;
    (after, answer(machine.base + 4 * source))
}

/// Plays on a copy.
fn played(machine: &Machine, kind: u32, address: u32) -> (Machine, Outcome) {
    let mut machine = machine.clone();
    let outcome = machine.act(kind, address, 0);
    (machine, outcome)
}

// Kinds and their unused parts.

#[test]
fn the_kinds_are_12_and_13() {
    assert_eq!((LOOK, COMMIT), (12, 13));
}

#[test]
fn a_look_uses_neither_address_nor_value() {
    for mut machine in [machine(4), taken(), opened(), asking(&[2])] {
        for bit in 0..16 {
            assert_eq!(machine.act(LOOK, 1 << bit, 0), refused(7));
        }
        for bit in 0..32 {
            assert_eq!(machine.act(LOOK, 0, 1 << bit), refused(7));
        }
        assert_eq!(machine.act(LOOK, 2, 2), refused(7));
    }
    assert_eq!(asking(&[2]).act(LOOK, 0, 0), answer(2));
}

#[test]
fn a_commit_uses_its_address_and_no_value() {
    for mut machine in [machine(4), taken(), opened(), asking(&[2])] {
        for number in [0, 1, 2, 7, 255, 256, 0xFFFF] {
            for bit in 0..32 {
                assert_eq!(machine.act(COMMIT, number, 1 << bit), refused(7));
            }
        }
    }
    assert_eq!(asking(&[2]).act(COMMIT, 2, 0), answer(BASE + 8));
}

#[test]
fn reader_and_writer_take_a_look_and_every_number_of_a_commit() {
    let mut cases = vec![
        (0x000C_0000, 0, None),
        (0x000C_0000, 1, Some((7, 1))),
        (0x000C_0000, 0x8000_0000, Some((7, 1))),
    ];
    for address in [0, 1, 6, 7, 255, 256, 0x8000, 0xFFFF] {
        cases.extend([
            (0x000D_0000 | address, 0, None),
            (0x000D_0000 | address, 1, Some((7, 1))),
            (0x000D_0000 | address, 0x8000_0000, Some((7, 1))),
            (NO_KIND | address, 0, Some((6, 1))),
            (NO_KIND | address, 1, Some((6, 1))),
            (NO_KIND + 0x0001_0000 | address, 0, Some((6, 1))),
            (0x010C_0000 | address, 0, Some((6, 1))),
            (0x800D_0000 | address, 0, Some((6, 1))),
        ]);
        if address > 0 {
            cases.push((0x000C_0000 | address, 0, Some((7, 1))));
        }
    }
    for (head, value, refusal) in cases {
        let bytes = laid_out(6, &[(0x000D_0003, 0), (head, value)]);
        for limits in [BOARD, COMPACT] {
            assert_eq!(reading(&bytes, limits), refusal, "{head:x}:{value:x}");
        }
        let written = record::write(6, &[0x000D_0003, head], &[0, value], 24);
        match refusal {
            None => assert_eq!(written, Ok(bytes)),
            Some((number, place)) => assert_eq!(written, Err(Refusal { number, place })),
        }
    }
}

// The questions.

/// Looks and commits of right numbers, of wrong ones and of 0 are all refused so.
fn all_refused(machine: &mut Machine, number: u32) {
    assert_eq!(machine.look(), refused(number));
    for source in [0, 1, 2, 3, 4, 6, 7, 0x102, 0xFFFF] {
        assert_eq!(machine.commit(source), refused(number), "{source}");
    }
}

#[test]
fn question_17_comes_before_19_and_26() {
    let mut idle = opened();
    idle.set_mask(0);
    assert_eq!(idle.give_back(), ACCEPTED);
    for sources in [&[][..], &[2], &[1, 2, 3, 4]] {
        ask(&mut idle, sources);
        for mask in [0, 1] {
            idle.set_mask(mask);
            all_refused(&mut idle, 17);
        }
    }
    all_refused(&mut machine(6), 17);
}

#[test]
fn question_19_comes_before_26() {
    for sources in [&[][..], &[1], &[2], &[2, 3], &[4]] {
        let mut machine = opened();
        ask(&mut machine, sources);
        all_refused(&mut machine, 19);
        // Masked again, the right number is accepted.
        machine.set_mask(0);
        let source = served(&machine);
        assert_eq!(machine.look(), answer(source));
        if source > 0 {
            assert_eq!(machine.commit(source), answer(BASE + 4 * source));
        }
    }
}

#[test]
fn questions_6_and_7_come_before_17_19_and_26() {
    for mut machine in [machine(6), opened(), masked(), asking(&[2])] {
        assert_eq!(machine.act(LOOK, 2, 0), refused(7));
        assert_eq!(machine.act(LOOK, 0, 2), refused(7));
        assert_eq!(machine.act(COMMIT, 0, 2), refused(7));
        assert_eq!(machine.act(COMMIT, 2, 2), refused(7));
        for kind in [KINDS, KINDS + 1, KINDS + 2, 0x10C, 0x10D, 0x800D, 0xFFFF] {
            assert_eq!(machine.act(kind, 0, 0), refused(6));
            assert_eq!(machine.act(kind, 2, 0), refused(6));
            assert_eq!(machine.act(kind, 2, 2), refused(6));
        }
    }
}

#[test]
fn question_8_comes_first() {
    let changes: [fn(&mut Machine); 5] = [
        |machine| machine.base = 4,
        |machine| machine.claim = 7,
        |machine| machine.threshold = Field(16),
        |machine| machine.error_counters[2].threshold = 27,
        |machine| machine.timers[0].control = 8,
    ];
    for change in changes {
        for mut machine in [machine(6), taken(), opened(), asking(&[2])] {
            change(&mut machine);
            all_refused(&mut machine, 8);
            for kind in [LOOK, COMMIT, KINDS] {
                assert_eq!(machine.act(kind, 2, 2), refused(8));
            }
        }
    }
}

// Looks.

#[test]
fn a_look_answers_the_source_that_a_chain_would_serve() {
    for (sources, source) in [
        (&[1][..], 1),
        (&[2], 2),
        (&[3], 3),
        // Of equals the lowest number, with others that are lower or disabled.
        (&[1, 2, 3], 1),
        (&[2, 3], 2),
        (&[3, 5, 6], 3),
    ] {
        let mut machine = asking(sources);
        let before = machine.clone();
        assert_eq!(machine.look(), answer(source));
        assert_eq!(machine, before);
        assert_eq!(machine.chain(), answer(BASE + 4 * source));
    }
}

#[test]
fn a_look_answers_0_where_a_chain_does() {
    for sources in [
        // None, a higher winner, a lower one, a disabled source.
        &[][..],
        &[4],
        &[2, 4],
        &[1, 2, 3, 4, 5, 6],
        &[5],
        &[6],
        &[5, 6],
    ] {
        let mut machine = asking(sources);
        let before = machine.clone();
        assert_eq!(machine.look(), ACCEPTED);
        assert_eq!(machine, before);
        assert_eq!(machine.chain(), ACCEPTED);
    }
}

#[test]
fn a_look_asks_for_the_threshold() {
    for threshold in 0..=15 {
        let mut machine = asking(&[2, 3]);
        machine.csr_write(MEIPT, threshold);
        let source = if threshold < 5 { 2 } else { 0 };
        assert_eq!(machine.look(), answer(source));
        let outcome = machine.commit(2);
        if threshold < 5 {
            assert_eq!(outcome, answer(BASE + 8));
        } else {
            assert_eq!(outcome, refused(26));
        }
    }
}

/// The current rank is the handler's, so nothing of that rank has a margin.
#[test]
fn a_look_does_not_ask_for_the_margin() {
    let mut machine = asking(&[2]);
    assert_eq!(machine.query_margin(), Ok(0));
    assert_eq!(machine.look(), answer(2));
    let mut unopened = taken();
    ask(&mut unopened, &[2]);
    assert_eq!(unopened.query_margin(), Ok(5));
    assert_eq!(unopened.look(), answer(2));
}

#[test]
fn a_look_changes_nothing() {
    let mut machine = much_to_keep();
    let before = machine.clone();
    assert_ne!(captured(&machine), machine);
    for _ in 0..3 {
        assert_eq!(machine.look(), ACCEPTED);
        assert_eq!(machine, before);
    }
    kept(&mut machine);
    let mut machine = asking(&[3]);
    let before = machine.clone();
    assert_ne!(captured(&machine), machine);
    for _ in 0..3 {
        assert_eq!(machine.look(), answer(3));
        assert_eq!(machine, before);
    }
    assert_eq!(machine.csr_read(MEIHAP), answer(BASE + 4));
    assert_eq!(machine.csr_read(MEICIDPL), answer(5));
}

// Commits.

#[test]
fn a_commit_captures_replaces_and_answers_meihap() {
    let mut machine = asking(&[3]);
    machine.csr_write(MEICIDPL, 9);
    let mut expected = machine.clone();
    expected.claim = 3;
    expected.claimed = Field(5);
    expected.handlers[0].source = 3;
    assert_eq!(machine.commit(3), answer(BASE + 12));
    assert_eq!(machine, expected);
    assert_eq!(machine.csr_read(MEIHAP), answer(BASE + 12));
    assert_eq!(machine.csr_read(MEICIDPL), answer(5));
    // With another base it answers by that.
    machine.csr_write(MEIVT, 0x1234_5678);
    assert_eq!(machine.commit(3), answer(0x1234_540C));
}

#[test]
fn of_all_numbers_a_commit_takes_the_one_that_a_look_answers() {
    let mut unopened = taken();
    ask(&mut unopened, &[3]);
    let mut many = machine(255);
    for source in [7, 200, 255] {
        many.prepare(source, 9);
    }
    many.set_mask(1);
    many.sample(0, 0x80);
    many.take();
    many.sample(0, 0);
    let mut last = many.clone();
    last.sample(7, 0x8000_0000);
    let mut middle = last.clone();
    middle.sample(6, 0x100);
    for (machine, source) in [
        (asking(&[2, 3]), 2),
        (asking(&[1]), 1),
        (asking(&[4]), 0),
        (asking(&[5]), 0),
        (masked(), 0),
        (unopened, 3),
        (many, 0),
        (last, 255),
        (middle, 200),
    ] {
        assert_eq!(machine.clone().look(), answer(source));
        let (chained, served) = played(&machine, CHAIN, 0);
        let mut same = machine.clone();
        for number in 0..=0xFFFF {
            let event = Event::new(COMMIT, number, 0);
            if number == source && source != 0 {
                assert_eq!(played(&machine, COMMIT, number), (chained.clone(), served));
            } else {
                assert_eq!(same.play(event), refused(26), "{number:x}");
            }
        }
        assert_eq!(same, machine);
    }
}

#[test]
fn a_winner_that_a_chain_would_not_serve_is_26() {
    for (sources, winner) in [(&[4][..], 4), (&[2, 4], 4), (&[5], 5), (&[5, 6], 5)] {
        let mut machine = asking(sources);
        assert_eq!(machine.winner().0 as u32, winner);
        assert_eq!(machine.commit(winner), refused(26));
        assert_eq!(machine.commit(2), refused(26));
        assert_eq!(machine.commit(0), refused(26));
    }
    let mut machine = asking(&[2]);
    machine.csr_write(MEIPT, 5);
    assert_eq!(machine.winner(), (2, Rank(5)));
    assert_eq!(machine.commit(2), refused(26));
    machine.csr_write(MEIPT, 4);
    assert_eq!(machine.commit(2), answer(BASE + 8));
}

#[test]
fn a_refused_commit_captures_nothing() {
    for sources in [&[][..], &[2], &[3, 4], &[5]] {
        let mut machine = asking(sources);
        machine.csr_write(MEICIDPL, 11);
        assert_ne!(captured(&machine), machine);
        for number in [0, 1, 4, 5, 6, 7, 0x102] {
            assert_eq!(machine.commit(number), refused(26));
            assert_eq!(machine.csr_read(MEIHAP), answer(BASE + 4));
            assert_eq!(machine.csr_read(MEICIDPL), answer(11));
        }
        // Unlike a chain.
        let winner = captured(&machine).claim as u32;
        machine.chain();
        assert_eq!(machine.csr_read(MEIHAP), answer(BASE + 4 * winner));
    }
}

#[test]
fn of_two_equals_only_the_lower_number_is_committed() {
    let mut machine = asking(&[2, 3]);
    assert_eq!(machine.commit(3), refused(26));
    assert_eq!(machine.commit(2), answer(BASE + 8));
    assert_eq!(machine.commit(3), refused(26));
    ask(&mut machine, &[3]);
    assert_eq!(machine.commit(2), refused(26));
    assert_eq!(machine.commit(3), answer(BASE + 12));
}

#[test]
fn a_handler_may_commit_its_own_source() {
    let mut machine = asking(&[1, 2]);
    assert_eq!(machine.handlers[0].source, 1);
    for _ in 0..2 {
        assert_eq!(machine.look(), answer(1));
        assert_eq!(machine.commit(1), answer(BASE + 4));
        assert_eq!(machine.handlers[0].source, 1);
    }
    ask(&mut machine, &[2]);
    assert_eq!(machine.commit(1), refused(26));
    assert_eq!(machine.commit(2), answer(BASE + 8));
    assert_eq!(machine.commit(2), answer(BASE + 8));
    // An equal of a lower number goes before it.
    ask(&mut machine, &[1, 2]);
    assert_eq!(machine.commit(2), refused(26));
}

#[test]
fn an_unopened_handler_may_look_and_commit() {
    let mut machine = taken();
    assert_eq!(machine.look(), ACCEPTED);
    ask(&mut machine, &[2]);
    assert_eq!(machine.look(), answer(2));
    assert_eq!(machine.commit(2), answer(BASE + 8));
    assert_eq!(machine.handlers[0].source, 2);
    assert!(!machine.handlers[0].opened);
    assert_eq!(machine.current_rank(), Rank(0));
    assert_eq!(machine.open(), answer(5));
    assert_eq!(machine.commit(2), refused(19));
}

#[test]
fn no_look_is_needed_and_none_is_remembered() {
    let mut machine = asking(&[2, 3]);
    assert_eq!(machine.commit(2), answer(BASE + 8));
    // The commit of what an earlier look answered, of what the latest did, and without any.
    assert_eq!(machine.look(), answer(2));
    ask(&mut machine, &[3]);
    assert_eq!(machine.look(), answer(3));
    ask(&mut machine, &[2]);
    assert_eq!(machine.commit(3), refused(26));
    assert_eq!(machine.commit(2), answer(BASE + 8));
    ask(&mut machine, &[1]);
    assert_eq!(machine.commit(1), answer(BASE + 4));
    // A look in vain, and then the same source twice.
    ask(&mut machine, &[4]);
    assert_eq!(machine.look(), ACCEPTED);
    assert_eq!(machine.commit(0), refused(26));
    ask(&mut machine, &[3]);
    assert_eq!(machine.commit(0), refused(26));
    assert_eq!(machine.commit(3), answer(BASE + 12));
    assert_eq!(machine.commit(3), answer(BASE + 12));
}

type Change = (&'static str, u32, fn(&mut Machine));

/// A look at source 2 and what it is worth after a change: what a look would answer then.
#[test]
fn a_stale_look_is_26() {
    let changes: [Change; 26] = [
        ("line down", 0, |machine| ask(machine, &[])),
        ("another line", 3, |machine| ask(machine, &[3])),
        ("a lower number", 1, |machine| ask(machine, &[1, 2])),
        ("a higher number", 2, |machine| ask(machine, &[2, 3])),
        ("a higher rank", 0, |machine| ask(machine, &[2, 4])),
        ("a lower rank", 2, |machine| ask(machine, &[2, 5])),
        ("a disabled source", 2, |machine| ask(machine, &[2, 6])),
        ("rank lowered", 0, |machine| {
            machine.store(8, 4);
        }),
        ("rank raised", 0, |machine| {
            machine.store(8, 6);
        }),
        ("rank 0", 0, |machine| {
            machine.store(8, 0);
        }),
        ("rank stored again", 2, |machine| {
            machine.store(8, 0xF5);
        }),
        ("threshold at the rank", 0, |machine| {
            machine.csr_write(MEIPT, 5);
        }),
        ("highest threshold", 0, |machine| {
            machine.csr_write(MEIPT, 15);
        }),
        ("threshold below the rank", 2, |machine| {
            machine.csr_write(MEIPT, 4);
        }),
        ("disabled", 0, |machine| {
            machine.store(0x2008, 0);
        }),
        ("another enabled", 2, |machine| {
            machine.store(0x2018, 1);
        }),
        ("cleared while up", 2, |machine| {
            machine.store(0x5008, 0);
        }),
        ("an edge now", 2, |machine| {
            machine.store(0x4008, 2);
        }),
        ("active low now", 0, |machine| {
            machine.store(0x4008, 1);
        }),
        ("an edge and gone", 2, |machine| {
            machine.store(0x4008, 2);
            ask(machine, &[]);
        }),
        ("an edge, gone, cleared", 0, |machine| {
            machine.store(0x4008, 2);
            ask(machine, &[]);
            machine.store(0x5008, 7);
        }),
        ("an edge, gone, a level again", 0, |machine| {
            machine.store(0x4008, 2);
            ask(machine, &[]);
            machine.store(0x4008, 0);
        }),
        ("base and claim", 2, |machine| {
            machine.csr_write(MEIVT, 0x400);
            machine.csr_write(MEICPCT, 0);
            machine.csr_write(MEICIDPL, 3);
        }),
        ("clock, error, order refused", 2, |machine| {
            machine.clock();
            machine.error(1);
            assert_eq!(machine.store(0x3000, 1), refused(24));
        }),
        ("a chain", 2, |machine| {
            machine.chain();
        }),
        ("unmasked and masked again", 2, |machine| {
            machine.set_mask(1);
            machine.set_mask(0);
        }),
    ];
    for (name, now, change) in changes {
        let mut machine = asking(&[2]);
        assert_eq!(machine.look(), answer(2));
        change(&mut machine);
        let expected = if now == 2 {
            answer(machine.base + 8)
        } else {
            refused(26)
        };
        assert_eq!(machine.clone().commit(2), expected, "{name}");
        assert_eq!(machine.look(), answer(now), "{name}");
        if now > 0 {
            let meihap = machine.base + 4 * now;
            assert_eq!(machine.commit(now), answer(meihap), "{name}");
            assert_eq!(machine.handlers[0].source as u32, now);
        }
    }
}

#[test]
fn the_uppermost_handler_is_the_one_that_goes_on() {
    // Source 1 of rank 5, opened; within it source 4 of rank 6.
    let mut machine = opened();
    ask(&mut machine, &[2, 4]);
    assert_eq!(machine.take(), answer(BASE + 16));
    assert_eq!(machine.commit(2), refused(26));
    assert_eq!(machine.commit(4), answer(BASE + 16));
    // Source 2 is of the lower handler's rank.
    ask(&mut machine, &[2]);
    assert_eq!(machine.look(), ACCEPTED);
    assert_eq!(machine.commit(2), refused(26));
    machine.store(20, 6);
    ask(&mut machine, &[2, 5]);
    assert_eq!(machine.commit(5), answer(BASE + 20));
    let sources = |machine: &Machine| -> Vec<usize> {
        machine.handlers.iter().map(|each| each.source).collect()
    };
    assert_eq!(sources(&machine), [1, 5]);
    assert_eq!(machine.give_back(), answer(1));
    assert_eq!(machine.commit(2), refused(19));
    machine.set_mask(0);
    assert_eq!(machine.commit(5), refused(26));
    ask(&mut machine, &[2]);
    assert_eq!(machine.commit(2), answer(BASE + 8));
    assert_eq!(sources(&machine), [2]);
    assert_eq!(machine.give_back(), answer(0));
    assert_eq!(machine.commit(2), refused(17));
}

#[test]
fn a_commit_leaves_rank_and_saved_rank_and_the_return_is_the_same() {
    let mut machine = machine(4);
    machine.csr_write(MEICURPL, 2);
    machine.prepare(1, 5);
    machine.prepare(2, 5);
    machine.set_mask(1);
    machine.sample(0, 0b010);
    machine.take();
    machine.open();
    machine.set_mask(0);
    machine.sample(0, 0b100);
    assert_eq!(machine.commit(2), answer(8));
    let expected = Handler {
        source: 2,
        rank: Rank(5),
        saved: Rank(2),
        opened: true,
    };
    assert_eq!(machine.handlers, [expected]);
    assert_eq!(machine.csr_read(MEICURPL), answer(5));
    assert_eq!(machine.give_back(), answer(0));
    assert_eq!(machine.csr_read(MEICURPL), answer(2));
}

#[test]
fn ranks_are_compared_in_the_order_of_now() {
    let mut machine = machine(4);
    machine.store(0x3000, 1);
    machine.csr_write(MEIPT, 15);
    machine.csr_write(MEICURPL, 15);
    for (source, field) in [(1, 6), (2, 6), (3, 7), (4, 5)] {
        machine.prepare(source, field);
    }
    machine.set_mask(1);
    machine.sample(0, 0b00010);
    assert_eq!(machine.take(), answer(4));
    assert_eq!(machine.look(), answer(1));
    machine.sample(0, 0b01100);
    assert_eq!(machine.look(), answer(2));
    // Field 5 is of a higher rank, field 7 of a lower.
    machine.sample(0, 0b11100);
    assert_eq!(machine.look(), ACCEPTED);
    assert_eq!(machine.commit(4), refused(26));
    machine.sample(0, 0b01000);
    assert_eq!(machine.look(), ACCEPTED);
    machine.sample(0, 0b01100);
    for (threshold, source) in [(6, 0), (0, 0), (5, 0), (7, 2), (15, 2)] {
        machine.csr_write(MEIPT, threshold);
        assert_eq!(machine.look(), answer(source));
    }
    machine.csr_write(MEICIDPL, 0);
    assert_eq!(machine.commit(2), answer(8));
    assert_eq!(machine.csr_read(MEICIDPL), answer(6));
}

#[test]
fn the_least_and_the_greatest_answers_of_a_commit() {
    for (base, source, meihap) in [
        (0, 1, 4),
        (0, 255, 1020),
        (u32::MAX, 1, 0xFFFF_FC04),
        (u32::MAX, 255, 0xFFFF_FFFC),
    ] {
        let mut machine = machine(255);
        machine.csr_write(MEIVT, base);
        machine.prepare(source, 1);
        machine.set_mask(1);
        machine.sample(source / 32, 1 << (source % 32));
        assert_eq!(machine.take(), answer(meihap));
        assert_eq!(machine.look(), answer(source));
        assert_eq!(machine.commit(source), answer(meihap));
    }
}

// Laws, over the machines of generated records and over others.

/// Every machine that the events of generated records meet.
fn each_machine(seed: u64, mut visit: impl FnMut(&Machine)) {
    for limits in [BOARD, COMPACT] {
        let bytes = (0..3 * FAMILIES.len() as u64).map(|index| generate(seed, index, limits).bytes);
        for bytes in bytes.chain(family(40, limits)) {
            if let Ok(record) = record::read(&bytes, limits, limits.events) {
                let (mut machine, _) = Machine::power_on(record.sources);
                visit(&machine);
                for event in record.events {
                    machine.play(event);
                    visit(&machine);
                }
            }
        }
    }
}

/// A sound machine with ranks close together, reached by events or not.
fn any_machine(random: &mut Random) -> Machine {
    let mut machine = machine(random.pick(&[2, 3, 4, 9, 33, 64, 255]));
    let count = machine.count() as u32;
    machine.priord = random.coin();
    machine.base = random.word() & !1023;
    machine.claim = random.between(0, count) as usize;
    machine.claimed = Field(random.below(16) as u8);
    machine.current = Field(random.below(16) as u8);
    let lowest = random.rank(1, 15);
    if machine.current_rank() < lowest && random.chance(7, 8) {
        let mut saved = machine.current_rank();
        for rank in lowest.0..=15 {
            let rank = Rank(rank);
            let source = random.between(1, count) as usize;
            machine.handlers.push(Handler {
                source,
                rank,
                saved,
                opened: true,
            });
            saved = rank;
            if random.coin() {
                break;
            }
        }
        let opened = random.coin();
        let top = machine.handlers.last_mut().unwrap();
        top.opened = opened;
        let level = if opened { top.rank } else { top.saved };
        machine.current = machine.field(level);
        machine.mask = opened && random.chance(1, 8);
    } else {
        machine.mask = random.coin();
    }
    let near = machine.handlers.last().map_or(lowest, |top| top.rank);
    let ranks = [near.lower(), near, near, near, near.higher()];
    let bar = random.pick(&[Rank(0), near.lower(), near.lower(), near, near.higher()]);
    machine.threshold = machine.field(bar);
    let priord = machine.priord;
    let few = random.between(1, 8);
    for source in &mut machine.sources {
        let (line, active_low) = (random.coin(), random.coin());
        *source = Source {
            field: random.pick(&ranks).field(priord),
            enabled: random.chance(few, 16),
            edge: random.coin(),
            active_low,
            line,
            latch: line != active_low || random.coin(),
        };
    }
    assert!(machine.sound());
    machine
}

/// The machines of both sorts.
fn all_machines(visit: &mut impl FnMut(&Machine)) {
    each_machine(12, &mut *visit);
    let mut random = Random::new(12);
    for _ in 0..20_000 {
        visit(&any_machine(&mut random));
    }
}

/// Numbers that a commit may be given: right, wrong, or wrong but for some bits.
fn numbers(machine: &Machine) -> Vec<u32> {
    let right = served(machine);
    let winner = captured(machine).claim as u32;
    let own = machine.handlers.last().map_or(1, |top| top.source as u32);
    let after = machine.count() as u32 + 1;
    let claim = machine.claim as u32;
    vec![
        right,
        0,
        winner,
        own,
        claim,
        after,
        right + 1,
        right + 0x100,
        right + 0x8000,
        0xFFFF,
    ]
}

#[test]
fn looks_commits_and_chains_go_by_the_rules() {
    let mut times: BTreeMap<(u32, &str), u32> = BTreeMap::new();
    all_machines(&mut |machine| {
        let mut check = |kind, address| {
            let found = played(machine, kind, address);
            let expected = by_the_rules(machine, Event::new(kind, address, 0));
            assert_eq!(found, expected, "kind {kind}, {address:x}, {machine:?}");
            let outcome = match found.1 {
                Outcome { refusal: 17, .. } => "17",
                Outcome { refusal: 19, .. } => "19",
                Outcome { refusal: 26, .. } => "26",
                Outcome { answer: 0, .. } => "0",
                _ => "served",
            };
            *times.entry((kind, outcome)).or_default() += 1;
        };
        check(LOOK, 0);
        check(CHAIN, 0);
        for number in numbers(machine) {
            check(COMMIT, number);
        }
    });
    for kind in [CHAIN, LOOK, COMMIT] {
        for outcome in ["17", "19", "served"] {
            assert!(times[&(kind, outcome)] > 1000, "{times:?}");
        }
    }
    for sort in [(CHAIN, "0"), (LOOK, "0"), (COMMIT, "26")] {
        assert!(times[&sort] > 1000, "{times:?}");
    }
    // No commit answers 0, and neither look nor chain is refused with 26.
    assert_eq!(times.len(), 12, "{times:?}");
}

#[test]
fn a_look_changes_no_machine() {
    all_machines(&mut |machine| {
        let (after, _) = played(machine, LOOK, 0);
        assert_eq!(after, *machine);
        assert_eq!(machine.chainable(), served(machine));
    });
}

/// A chain is refused as a look is; where a look answers 0 it answers 0 and captures; else it is
/// the commit of what a look answers, on the machine that was looked at.
#[test]
fn a_chain_is_a_look_and_then_a_commit() {
    let (mut both, mut alone, mut neither) = (0, 0, 0);
    all_machines(&mut |machine| {
        let (chained, of_chain) = played(machine, CHAIN, 0);
        let (looked, of_look) = played(machine, LOOK, 0);
        assert_eq!(of_chain.refusal, of_look.refusal);
        if of_look.refusal != 0 {
            assert_eq!((chained, of_chain), (looked, of_look));
            neither += 1;
        } else if of_look.answer == 0 {
            let (written, _) = played_write(&looked, MEICPCT);
            assert_eq!((chained, of_chain), (written, ACCEPTED));
            alone += 1;
        } else {
            let (committed, of_commit) = played(&looked, COMMIT, of_look.answer);
            assert_eq!((chained, of_chain), (committed, of_commit));
            assert_ne!(of_commit.answer, 0);
            both += 1;
        }
    });
    assert!(both > 5000 && alone > 5000 && neither > 5000);
}

fn played_write(machine: &Machine, csr: u32) -> (Machine, Outcome) {
    let mut machine = machine.clone();
    let outcome = machine.csr_write(csr, 0);
    (machine, outcome)
}

#[test]
fn an_accepted_commit_may_be_made_again() {
    let mut times = 0;
    all_machines(&mut |machine| {
        let (committed, outcome) = played(machine, COMMIT, served(machine));
        if outcome.refusal == 0 {
            // The winner is the same, so the claim and the handler are too.
            assert_eq!(played(&committed, LOOK, 0).1, answer(served(machine)));
            let again = played(&committed, COMMIT, served(machine));
            assert_eq!(again, (committed, outcome));
            times += 1;
        }
    });
    assert!(times > 5000);
}

/// A handler as its taking and its chainings tell.
struct Told {
    source: usize,
    rank: Rank,
}

#[test]
fn a_commit_is_a_chaining() {
    let (mut commits, mut deep) = (0, 0);
    let others = (0..4 * FAMILIES.len() as u64).map(|index| generate(21, index, BOARD).bytes);
    for bytes in family(200, BOARD).into_iter().chain(others) {
        let record = match record::read(&bytes, BOARD, 4000) {
            Ok(record) => record,
            Err(_) => continue,
        };
        let (mut machine, _) = Machine::power_on(record.sources);
        let mut told: Vec<Told> = Vec::new();
        for event in record.events {
            let before = machine.clone();
            let outcome = machine.play(event);
            let source = (outcome.answer.wrapping_sub(before.base) / 4) as usize;
            match event.kind() {
                _ if outcome.refusal != 0 => {}
                TAKE => {
                    let rank = before.source_rank(source);
                    assert!(told.last().map_or(true, |top| top.rank < rank));
                    told.push(Told { source, rank });
                }
                CHAIN | COMMIT if outcome.answer != 0 => {
                    let top = told.last_mut().unwrap();
                    assert_eq!(before.source_rank(source), top.rank);
                    assert!(top.rank > before.threshold_rank());
                    top.source = source;
                    if event.kind() == COMMIT {
                        assert_eq!(source as u32, event.address());
                        commits += 1;
                        deep += u32::from(told.len() >= 3);
                    }
                }
                COMMIT => panic!("a commit answers 0"),
                RETURN => {
                    told.pop().unwrap();
                    assert_eq!(outcome.answer as usize, told.len());
                }
                _ => {}
            }
            assert_eq!(told.len(), machine.handlers.len());
            for (handler, told) in machine.handlers.iter().zip(&told) {
                assert_eq!((handler.source, handler.rank), (told.source, told.rank));
            }
        }
    }
    assert!(commits > 1000 && deep > 200, "{commits} {deep}");
}

// Bench points and prints.

#[test]
fn k10_by_look_and_commit() {
    let mut machine = machine(4);
    machine.prepare(1, 15);
    machine.prepare(2, 15);
    machine.set_mask(1);
    machine.sample(0, 2);
    assert_eq!(machine.take(), answer(4));
    assert_eq!(machine.open(), answer(15));
    machine.sample(0, 4);
    assert_eq!(machine.take(), refused(16));
    assert_eq!(machine.look(), refused(19));
    assert_eq!(machine.commit(2), refused(19));
    machine.set_mask(0);
    assert_eq!(machine.look(), answer(2));
    assert_eq!(machine.commit(1), refused(26));
    assert_eq!(machine.commit(2), answer(8));
    assert_eq!(machine.handlers[0].source, 2);
}

/// Fifteen handlers, each of the first of a pair of sources. On the way down each goes on with the
/// second: by a chain, or by a look and a commit.
#[test]
fn fifteen_deep_with_commits_among_the_chainings() {
    let mut lines = vec![(Event::new(CSR_WRITE, MEIVT, 0x1_0000), 0)];
    for rank in 1..=15 {
        for source in [2 * rank - 1, 2 * rank] {
            lines.push((Event::new(STORE, 4 * source, rank), 0));
            lines.push((Event::new(STORE, 0x2000 + 4 * source, 1), 0));
        }
    }
    lines.push((Event::new(SET_MASK, 0, 1), 0));
    let mut levels = 0;
    for rank in 1..=15 {
        levels |= 1 << (2 * rank - 1);
        lines.push((Event::new(SAMPLE, 0, levels), 0));
        lines.push((Event::new(TAKE, 0, 0), 0x1_0000 + 4 * (2 * rank - 1)));
        lines.push((Event::new(OPEN, 0, 0), rank));
    }
    for rank in (1..=15).rev() {
        let (first, second) = (2 * rank - 1, 2 * rank);
        let meihap = 0x1_0000 + 4 * second;
        lines.push((Event::new(SET_MASK, 0, 0), 0));
        lines.push((Event::new(LOOK, 0, 0), first));
        levels ^= 1 << first | 1 << second;
        lines.push((Event::new(SAMPLE, 0, levels), 0));
        if rank % 3 == 0 {
            lines.push((Event::new(CHAIN, 0, 0), meihap));
        } else {
            lines.push((Event::new(LOOK, 0, 0), second));
            lines.push((Event::new(COMMIT, second, 0), meihap));
        }
        lines.push((Event::new(CSR_READ, MEIHAP, 0), meihap));
        levels ^= 1 << second;
        lines.push((Event::new(SAMPLE, 0, levels), 0));
        lines.push((Event::new(LOOK, 0, 0), 0));
        lines.push((Event::new(RETURN, 0, 0), rank - 1));
    }
    let events: Vec<Event> = lines.iter().map(|line| line.0).collect();
    let mut text = format!("sources 30 events {}\n", events.len());
    for (index, (event, answer)) in lines.iter().enumerate() {
        text += &format!("{index} {} {answer} 0\n", event.kind());
    }
    text += "end open 0 level 0 margin 0\n";
    // With chains it is an old record.
    let bytes = bytes_of(&Record {
        sources: 30,
        events,
    });
    for limits in [BOARD, COMPACT] {
        assert_eq!(print(&bytes, limits), text);
    }
}

#[test]
fn a_record_with_looks_and_commits_prints_their_answers() {
    let events = [
        (0x0004_0BC8, 0x0000_1000),
        (0x0002_0004, 5),
        (0x0002_2004, 1),
        (0x0002_0008, 5),
        (0x0002_2008, 1),
        (0x0000_0000, 2),
        (0x000C_0000, 0),
        (0x000D_0001, 0),
        (0x0009_0000, 1),
        (0x0005_0000, 0),
        (0x000C_0000, 0),
        (0x0006_0000, 0),
        (0x000C_0000, 0),
        (0x000D_0000, 0),
        (0x0009_0000, 0),
        (0x0000_0000, 4),
        (0x000C_0000, 0),
        (0x0003_0FC8, 0),
        (0x000D_0001, 0),
        (0x000D_0102, 0),
        (0x000D_8002, 0),
        (0x000D_0000, 0),
        (0x0003_0FC8, 0),
        (0x000D_0002, 0),
        (0x0003_0FC8, 0),
        // A stale look.
        (0x000C_0000, 0),
        (0x0004_0BC9, 5),
        (0x000D_0002, 0),
        (0x000C_0000, 0),
        (0x0000_0000, 0),
        (0x000D_0002, 0),
        (0x0003_0FC8, 0),
        (0x0007_0000, 0),
        (0x0003_0FC8, 0),
        (0x0008_0000, 0),
    ];
    let text = "\
sources 6 events 35
0 4 0 0
1 2 0 0
2 2 0 0
3 2 0 0
4 2 0 0
5 0 0 0
6 12 0 17
7 13 0 17
8 9 0 0
9 5 4100 0
10 12 1 0
11 6 5 0
12 12 0 19
13 13 0 19
14 9 0 0
15 0 0 0
16 12 2 0
17 3 4100 0
18 13 0 26
19 13 0 26
20 13 0 26
21 13 0 26
22 3 4100 0
23 13 4104 0
24 3 4104 0
25 12 2 0
26 4 0 0
27 13 0 26
28 12 0 0
29 0 0 0
30 13 0 26
31 3 4104 0
32 7 0 0
33 3 4096 0
34 8 0 0
end open 0 level 0 margin -5
";
    for limits in [BOARD, COMPACT] {
        let (printed, tally) = play(&laid_out(6, &events), limits);
        assert_eq!(printed, text);
        let accepted = |kind: u32| tally.accepted[kind as usize];
        assert_eq!((accepted(LOOK), accepted(COMMIT)), (4, 1));
        assert_eq!((tally.looks_found, tally.chains_served), (3, 0));
        assert_eq!([17, 19, 26].map(|number| tally.refusals[number]), [2, 2, 6]);
        let refused = |head, value| print(&laid_out(6, &[(0x000D_0009, 0), (head, value)]), limits);
        assert_eq!(refused(0x000C_0002, 0), "refused 7 at 1\n");
        assert_eq!(refused(0x000C_0000, 2), "refused 7 at 1\n");
        assert_eq!(refused(0x000D_0002, 2), "refused 7 at 1\n");
        assert_eq!(refused(NO_KIND | 2, 0), "refused 6 at 1\n");
    }
}

// Generated records.

fn family(rounds: u64, limits: Limits) -> Vec<Vec<u8>> {
    family_of("looks and commits", rounds, limits)
}

/// What became of a look, a commit or a chain.
fn ending(outcome: Outcome) -> String {
    match (outcome.refusal, outcome.answer) {
        (0, 0) => "0".to_string(),
        (0, _) => "served".to_string(),
        (refusal, _) => refusal.to_string(),
    }
}

/// What an accepted event changes, if it is one of the things that may come after a look.
fn changed(event: Event) -> Option<&'static str> {
    match (event.kind(), event.address()) {
        (SAMPLE, _) => Some("line"),
        (STORE, 0..=0xFFF) => Some("rank"),
        (STORE, 0x2000..=0x2FFF) => Some("enable"),
        (STORE, 0x4000..=0x4FFF) => Some("gateway"),
        (STORE, 0x5000..=0x5FFF) => Some("clear"),
        (CSR_WRITE, MEIPT) => Some("threshold"),
        (CSR_WRITE, MEIVT) => Some("base"),
        (TAKE | RETURN, _) => Some("handler"),
        (CHAIN, _) => Some("chain"),
        (OPEN | SET_MASK, _) => Some("mask"),
        _ => None,
    }
}

fn meet_commit(before: &Machine, number: u32, end: &str, met: &mut Met) {
    let top = match before.handlers.last() {
        Some(top) => top,
        None => return met.count_if(number as usize == before.winner().0, "17 of the winner"),
    };
    let own = top.source as u32;
    let (right, winner) = (served(before), before.winner().0 as u32);
    met.count_if(number == 0, &format!("0, {end}"));
    met.count_if(number == right && right > 0, &format!("right, {end}"));
    met.count_if(
        number == own && own != right,
        &format!("own of before, {end}"),
    );
    met.count_if(number == own && own == right, &format!("own, {end}"));
    if end != "26" {
        return;
    }
    met.count_if(
        (before.count() as u32 + 1..=255).contains(&number),
        "26 above N",
    );
    met.count_if(number > 255, "26 above 255");
    if right > 0 {
        met.count_if(number & 0xFF == right, "26 by low bits");
        met.count_if(number == right + 0x100, "26 of s + 256");
        met.count_if(number == right + 0x8000, "26 of s + 0x8000");
        let equal = (1..=before.count() as u32).contains(&number)
            && before.eligible(number as usize)
            && before.source_rank(number as usize) == top.rank;
        met.count_if(equal, "26 of an equal");
    } else if number == winner {
        met.count(format!("26 of the winner, {}", why_not(before)));
    }
}

/// What a record met. A change is counted where nothing else has changed since the look.
fn meet(record: &Record, met: &mut Met) {
    let (mut machine, _) = Machine::power_on(record.sources);
    let mut looked = 0;
    let mut changes: Vec<&str> = Vec::new();
    let mut committed = false;
    let mut chained = None;
    for (index, &event) in record.events.iter().enumerate() {
        let before = machine.clone();
        let outcome = machine.play(event);
        let (kind, number) = (event.kind(), event.address());
        let end = ending(outcome);
        let deep = before.handlers.len();
        let opened = before.handlers.last().map_or(false, |top| top.opened);
        if matches!(kind, LOOK | COMMIT | CHAIN) {
            met.count(format!("kind {kind}, {end}"));
            met.count(format!("kind {kind}, {end}, {deep} deep"));
            met.count(format!("kind {kind}, {end}, order {}", before.priord));
            met.count_if(
                deep > 0 && !opened,
                &format!("kind {kind}, {end}, unopened"),
            );
            // Read next, and a capture would show or shows.
            let next = record.events.get(index + 1);
            let read = next.map_or(false, |next| {
                next.kind() == CSR_READ && [MEIHAP, MEICIDPL].contains(&next.address())
            });
            let shows = captured(&before) != before;
            met.count_if(read && shows, &format!("kind {kind}, {end}, claim read"));
        }
        match kind {
            LOOK if outcome.refusal == 0 => {
                looked = outcome.answer;
                changes.clear();
            }
            COMMIT => {
                meet_commit(&before, number, &end, met);
                if looked > 0 && number == looked {
                    match changes[..] {
                        [] => met.count(format!("at once, {end}")),
                        [change] => met.count(format!("after {change}, {end}")),
                        _ => met.count(format!("after more, {end}")),
                    }
                }
                met.count_if(
                    chained == Some(outcome.answer) && outcome.refusal == 0,
                    "a commit after a chain that served the same",
                );
            }
            RETURN if outcome.refusal == 0 => {
                met.count_if(committed, "a return after a commit");
            }
            _ => {}
        }
        if outcome.refusal == 0 {
            if let Some(change) = changed(event) {
                if changes.last() != Some(&change) {
                    changes.push(change);
                }
                chained = None;
            }
            if kind == CHAIN && outcome.answer > 0 {
                chained = Some(outcome.answer);
            }
            committed = kind == COMMIT || committed && kind != RETURN && kind != TAKE;
        }
    }
}

fn met_by(name: &str, rounds: u64, limits: Limits) -> Met {
    let mut met = Met::default();
    for bytes in family_of(name, rounds, limits) {
        if let Ok(record) = record::read(&bytes, limits, limits.events) {
            meet(&record, &mut met);
        }
    }
    met
}

fn met(limits: Limits) -> Met {
    met_by("looks and commits", 500, limits)
}

/// What becomes of looks, commits and chains in the family and in the mixed ones.
const ENDINGS: [(u32, &str); 9] = [
    (LOOK, "17"),
    (LOOK, "19"),
    (LOOK, "0"),
    (LOOK, "served"),
    (COMMIT, "17"),
    (COMMIT, "19"),
    (COMMIT, "26"),
    (COMMIT, "served"),
    (CHAIN, "0"),
];

#[test]
fn the_family_gives_every_outcome() {
    for limits in [BOARD, COMPACT] {
        let met = met(limits);
        for (kind, end) in ENDINGS {
            met.at_least(200, &format!("kind {kind}, {end}"));
            for order in [false, true] {
                met.at_least(50, &format!("kind {kind}, {end}, order {order}"));
            }
            if end != "17" {
                for deep in 1..=3 {
                    met.at_least(10, &format!("kind {kind}, {end}, {deep} deep"));
                }
            }
            met.at_least(20, &format!("kind {kind}, {end}, claim read"));
        }
        for (kind, end) in [
            (LOOK, "0"),
            (LOOK, "served"),
            (COMMIT, "26"),
            (COMMIT, "served"),
        ] {
            met.at_least(50, &format!("kind {kind}, {end}, unopened"));
        }
        for deep in 4..=15 {
            for kind in [LOOK, COMMIT] {
                met.at_least(15, &format!("kind {kind}, served, {deep} deep"));
            }
        }
        met.at_least(200, "a return after a commit");
        met.at_least(50, "a commit after a chain that served the same");
    }
}

#[test]
fn the_family_commits_numbers_of_all_sorts() {
    for limits in [BOARD, COMPACT] {
        let met = met(limits);
        for end in ["19", "26"] {
            met.at_least(50, &format!("0, {end}"));
            met.at_least(20, &format!("own of before, {end}"));
        }
        for end in ["19", "served"] {
            met.at_least(50, &format!("right, {end}"));
            met.at_least(20, &format!("own, {end}"));
        }
        for name in [
            "17 of the winner",
            "26 above N",
            "26 above 255",
            "26 by low bits",
            "26 of s + 256",
            "26 of s + 0x8000",
            "26 of an equal",
            "26 of the winner, higher",
            "26 of the winner, lower",
            "26 of the winner, none",
            "26 of the winner, threshold",
        ] {
            met.at_least(20, name);
        }
    }
}

#[test]
fn the_family_has_stale_looks_of_all_sorts() {
    for limits in [BOARD, COMPACT] {
        let met = met(limits);
        met.at_least(500, "at once, served");
        for change in ["line", "rank", "enable", "gateway", "clear", "threshold"] {
            for end in ["served", "26"] {
                met.at_least(10, &format!("after {change}, {end}"));
            }
        }
        for name in [
            "after base, served",
            "after chain, served",
            "after mask, served",
            "after mask, 19",
            "after more, served",
            "after more, 26",
            "after more, 17",
        ] {
            met.at_least(10, name);
        }
        // At once it is always right.
        assert_eq!(met.times("at once, 26"), 0);
    }
}

#[test]
fn some_of_the_family_are_refused_for_unused_parts_or_a_kind_above() {
    for limits in [BOARD, COMPACT] {
        let rounds = 1000;
        let mut met = Met::default();
        for bytes in family(rounds, limits) {
            if let Some((number, event)) = refused_at(&bytes, limits) {
                let value = event.value != 0;
                let name = match (number, event.kind(), event.address()) {
                    (7, LOOK, 0) if value => "7, the value of a look",
                    (7, LOOK, 1..) if !value => "7, the address of a look",
                    (7, COMMIT, 0) if value => "7, a commit of 0",
                    (7, COMMIT, 1..=255) if value => "7, a commit",
                    (7, COMMIT, 256..) if value => "7, a commit of more",
                    (6, KINDS, _) => "6, the kind after the last",
                    (6, _, _) => "6, a kind above",
                    _ => panic!("{number} at {event}"),
                };
                met.count(name);
            }
        }
        assert_eq!(met.times.len(), 7, "{:?}", met.times);
        assert!(
            met.times.values().all(|&times| times >= 5),
            "{:?}",
            met.times
        );
        let refused: u32 = met.times.values().sum();
        assert!(u64::from(refused) <= rounds * 2 / 5, "{refused}");
    }
}

#[test]
fn looks_and_commits_are_in_the_mixed_families() {
    for limits in [BOARD, COMPACT] {
        for name in ["mixed", "nesting, wandering", "question order"] {
            let met = met_by(name, 240, limits);
            for (kind, end) in ENDINGS {
                met.at_least(10, &format!("kind {kind}, {end}"));
            }
        }
        let met = met_by("nesting", 240, limits);
        for (kind, end) in ENDINGS.into_iter().filter(|sort| sort.1 != "17") {
            met.at_least(10, &format!("kind {kind}, {end}"));
        }
        for name in [
            "short",
            "plain random",
            "nesting, one source",
            "chains",
            "fields",
            "mask",
            "errors",
            "noise",
            "limits",
        ] {
            let met = met_by(name, 120, limits);
            for kind in [LOOK, COMMIT] {
                let of_kind = ENDINGS.into_iter().filter(|sort| sort.0 == kind);
                let times = of_kind.map(|(_, end)| met.times(&format!("kind {kind}, {end}")));
                let times: u32 = times.sum();
                assert!(times >= 10, "{name}, kind {kind}: {times}");
            }
        }
    }
}
