//! Test records from a seed, in families.

use crate::error_counter::*;
use crate::event::*;
use crate::machine::*;
use crate::random::Random;
use crate::rank::Rank;
use crate::record::{bytes_of, lay_out, Limits, Record, BOARD, COMPACT};
use crate::script::{choose_count, Script, Weights, EVEN};
use crate::timer::*;
use std::ops::RangeInclusive;

pub struct Generated {
    pub family: &'static str,
    pub bytes: Vec<u8>,
}

/// A name and what makes a record for a reader of given limits.
type Family = (&'static str, fn(&mut Random, Limits) -> Vec<u8>);

const LIMITS: Family = ("limits", at_limits);

pub const FAMILIES: &[Family] = &[
    ("no events", no_events),
    ("one event", one_event),
    ("short", short),
    ("mixed", mixed),
    ("long", long),
    ("plain random", plain_random),
    ("offsets", offsets),
    ("csr addresses", csr_addresses),
    ("question order", question_order),
    ("nesting", nesting),
    ("nesting, one source", nesting_one_source),
    ("nesting, wandering", nesting_wandering),
    ("chains", chains),
    ("looks and commits", looks_and_commits),
    ("old chains", old_chains),
    ("priority order", priority_order),
    ("mirror", mirror),
    ("fields", fields),
    ("switches", switches),
    ("thresholds", thresholds),
    ("gateways", gateways),
    ("current", current),
    ("mask", mask),
    ("ties", ties),
    ("ties, both sides", ties_both_sides),
    ("claims", claims),
    ("winners", winners),
    ("sources beyond N", beyond),
    ("samples", samples),
    ("timers", timers),
    ("errors", errors),
    ("truncated", truncated),
    ("extended", extended),
    ("wrong count", wrong_count),
    ("count near 2^32", huge_count),
    ("wrong sources", wrong_sources),
    ("flipped bits", flipped),
    ("tiny", tiny),
    ("too long", too_long),
    ("unknown kind", unknown_kind),
    ("unused parts", unused_parts),
    ("kind and unused parts", kind_and_unused),
    ("several faults", several_faults),
    ("noise", noise),
    LIMITS,
];

/// Which of `size` families is next. Every round goes through all, each round from another start.
pub fn turn(index: u64, size: usize) -> usize {
    let size = size as u64;
    ((index % size + index / size) % size) as usize
}

/// The family of record `index`. For a reader with limits of its own every third is about limits.
fn family(index: u64, limits: Limits) -> Family {
    if limits == BOARD {
        FAMILIES[turn(index, FAMILIES.len())]
    } else if index % 3 == 2 {
        LIMITS
    } else {
        FAMILIES[turn(index - index / 3, FAMILIES.len())]
    }
}

/// Record `index` of `seed`, for a reader of these limits.
pub fn generate(seed: u64, index: u64, limits: Limits) -> Generated {
    let (family, build) = family(index, limits);
    let mut random = Random::for_index(seed, index);
    Generated {
        family,
        bytes: build(&mut random, limits),
    }
}

fn finish(script: Script) -> Vec<u8> {
    bytes_of(&script.record())
}

// Valid records.

fn no_events(random: &mut Random, limits: Limits) -> Vec<u8> {
    lay_out(0, choose_count(random, limits), &[], &[])
}

fn one_event(random: &mut Random, limits: Limits) -> Vec<u8> {
    let mut script = Script::new(random, limits);
    script.room = 1;
    let even = Weights {
        boundary: 30,
        refused: 30,
        blind: 30,
        ..EVEN
    };
    script.wander(&even, 1);
    finish(script)
}

fn short(random: &mut Random, limits: Limits) -> Vec<u8> {
    let mut script = Script::new(random, limits);
    script.room = random.between(2, 24) as usize;
    let room = script.room;
    script.wander(&EVEN, room);
    finish(script)
}

fn some_weights(random: &mut Random) -> Weights {
    Weights {
        sample: random.below(12),
        line: random.between(1, 20),
        load: random.below(16),
        store: random.between(1, 30),
        csr_read: random.below(12),
        csr_write: random.below(16),
        service: random.between(1, 50),
        timer: random.below(12),
        error: random.below(10),
        look: random.below(10),
        blind: random.below(6),
        boundary: random.below(6),
        refused: random.below(6),
    }
}

fn mixed(random: &mut Random, limits: Limits) -> Vec<u8> {
    let mut script = Script::new(random, limits);
    let weights = some_weights(random);
    if random.chance(1, 4) {
        script.reverse();
    }
    script.wander(&weights, random.between(30, 400) as usize);
    script.audit();
    finish(script)
}

fn long(random: &mut Random, limits: Limits) -> Vec<u8> {
    let mut script = Script::new(random, limits);
    if random.coin() {
        let most = limits.events as u32;
        script.room = random.between(most / 4, most - 1) as usize;
    }
    fill(&mut script, random);
    finish(script)
}

/// Wanders as long as there is room, every stretch in another way.
fn fill(script: &mut Script, random: &mut Random) {
    while !script.full() {
        let weights = some_weights(random);
        script.refocus();
        if random.chance(1, 4) {
            script.reverse();
        }
        script.wander(&weights, random.between(100, 600) as usize);
        script.audit();
    }
}

/// Known kinds with no look at the state; the unused parts are 0.
fn plain_random(random: &mut Random, limits: Limits) -> Vec<u8> {
    let mut script = Script::new(random, limits);
    for _ in 0..random.between(1, 300) {
        let kind = random.below(KINDS);
        let word = random.word();
        let address = random.below(0x10000);
        let value = match kind {
            SAMPLE | STORE | CSR_WRITE => word,
            SET_MASK if random.chance(3, 4) => word & 1,
            SET_MASK => word,
            _ => 0,
        };
        let address = match kind {
            SAMPLE if random.chance(7, 8) => address % 8,
            LOAD | STORE if random.chance(2, 3) => 0x1000 * random.below(6) + 4 * random.below(6),
            LOAD | STORE if random.chance(7, 8) => address & 0x7FFC,
            CSR_READ | CSR_WRITE if random.chance(7, 8) => script.a_csr(),
            ERROR if random.chance(3, 4) => address % 3,
            COMMIT if random.chance(3, 4) => address % 8,
            SAMPLE..=CSR_WRITE | ERROR | COMMIT => address,
            _ => 0,
        };
        script.event(kind, address, value);
    }
    script.audit();
    finish(script)
}

fn offsets(random: &mut Random, limits: Limits) -> Vec<u8> {
    let mut script = Script::new(random, limits);
    if random.coin() {
        script.set_priord(true);
    }
    for _ in 0..random.between(20, 200) {
        let offset = script.boundary_offset();
        let value = random.word();
        match random.below(5) {
            0 => {
                script.store(offset, value);
            }
            1 | 2 => {
                script.store(offset, value);
                script.load(offset);
            }
            3 => {
                script.load(offset);
            }
            _ => script.step(&EVEN),
        }
    }
    script.audit();
    finish(script)
}

fn csr_addresses(random: &mut Random, limits: Limits) -> Vec<u8> {
    let mut script = Script::new(random, limits);
    if random.coin() {
        script.set_priord(true);
    }
    for _ in 0..random.between(20, 200) {
        let address = script.boundary_csr();
        let value = random.word();
        match random.below(8) {
            0 => {
                script.csr_read(address);
            }
            1 | 2 => {
                script.csr_write(address, value);
                script.csr_read(address);
            }
            3 => script.serve(),
            4 => script.provoke(),
            5 => {
                script.clock();
            }
            6 => {
                script.error(random.below(3));
            }
            _ => script.step(&EVEN),
        }
    }
    script.audit();
    finish(script)
}

/// Events to which more than one question answers no, in every state of the handlers.
fn question_order(random: &mut Random, limits: Limits) -> Vec<u8> {
    let mut script = Script::new(random, limits);
    for _ in 0..random.between(5, 40) {
        let value = random.word();
        match random.below(14) {
            0 => {
                script.load(random.pick(&[0x8002, 0x8001, 0xFFFF, 0x9003, 0x8000]));
            }
            1 => {
                script.store(
                    random.pick(&[0x8002, 0x8001, 0xFFFF, 0x9003, 0x7FFD]),
                    value,
                );
            }
            2 => {
                let csrs = [0xFC8, 0x1FC8, 0xBCC, 0x1BCC, 0x7D7, 0x7D8, 0x7F2, 0x7F3];
                script.csr_write(random.pick(&csrs), value);
            }
            3 => {
                // Mask 0 and margin at most 0, or only one of them.
                script.take();
            }
            4 => {
                script.set_mask(random.pick(&[0, 1, 2, 3, u32::MAX]));
            }
            5 => {
                script.open();
                script.open();
            }
            6 => {
                script.chain();
                script.give_back();
            }
            7 => {
                script.sample(random.pick(&[7, 8, 0x1007, 0x8000]), value);
            }
            8 => {
                // The other order, where it is not to be had.
                let other = value & !1 | u32::from(!script.machine.priord);
                let mut offsets = vec![0x3001, 0x3002, 0x3003, 0x3004, 0xB000, 0xB002];
                if !script.machine.handlers.is_empty() {
                    offsets.extend([0x3000; 4]);
                }
                script.store(random.pick(&offsets), other);
            }
            9 => {
                script.error(random.pick(&[0, 2, 3, 4, 0x7F0, 0x8001, 0xFFFF]));
            }
            10 => {
                // Right or not, with a handler or none, masked or not.
                script.look();
                let number = script.a_number();
                script.commit(number);
                script.commit(0);
            }
            _ => {
                script.serve();
                script.serve();
            }
        }
    }
    script.audit();
    finish(script)
}

/// A strictly rising list of ranks, often all fifteen.
fn rising_ranks(random: &mut Random) -> Vec<Rank> {
    let most = if random.coin() {
        16
    } else {
        random.between(4, 16)
    };
    let chosen = (1..=15).filter(|_| random.chance(most, 16));
    chosen.map(Rank).collect()
}

/// Tries what a handler must not do, or may do without effect on nesting.
fn disturb(script: &mut Script, random: &mut Random) {
    match random.below(18) {
        0 => {
            script.open();
        }
        1 => {
            script.give_back();
        }
        2 if script.machine.mask => {
            script.chain();
        }
        3 => {
            let rank = script.a_rank();
            script.set_current(rank);
        }
        4 => {
            script.set_mask(random.pick(&[1, 1, 2, u32::MAX]));
        }
        5 => {
            let reversed = random.coin();
            script.set_priord(reversed);
        }
        6 => script.set_base(),
        7 => script.capture(),
        8 => {
            script.csr_read(MEICURPL);
        }
        9 => script.read_claim(),
        10 => {
            // The rank of a handler's source may change while the handler is open.
            if let Some(top) = script.machine.handlers.last() {
                let source = top.source as u32;
                let rank = script.a_rank();
                script.set_rank(source, rank);
            }
        }
        11 => {
            script.clock();
        }
        12 => script.timer_step(),
        13 => {
            script.error(random.below(4));
        }
        14 => script.error_step(),
        15 => {
            script.look();
        }
        16 => {
            let number = script.a_number();
            script.commit(number);
        }
        _ => script.pending_words(),
    }
}

/// A chain, or a look and a commit in its place.
fn chain_or_commit(script: &mut Script, random: &mut Random) {
    if random.chance(1, 4) {
        script.look_and_commit();
    } else {
        script.chain();
    }
}

/// Chains at the uppermost handler: served, or answered by 0 for one reason or another.
fn chain_variants(script: &mut Script, random: &mut Random) {
    let top = match script.machine.handlers.last() {
        Some(top) => top.clone(),
        None => return,
    };
    let own = top.source as u32;
    let other = script.a_source();
    match random.below(8) {
        // Its own source still wins.
        0 => {
            script.request(own, top.rank);
            chain_or_commit(script, random);
        }
        1 => {
            script.quiet(own);
            script.request(other, top.rank);
            chain_or_commit(script, random);
        }
        // Both are pending; the lower number wins.
        2 => {
            script.request(other, top.rank);
            chain_or_commit(script, random);
        }
        // Of the same rank, but not above the threshold.
        3 => {
            let before = script.machine.threshold_rank();
            script.request(other, top.rank);
            let higher = top.rank.higher();
            script.set_threshold(if random.coin() { top.rank } else { higher });
            chain_or_commit(script, random);
            if random.chance(3, 4) {
                script.set_threshold(top.rank.lower());
                chain_or_commit(script, random);
            }
            script.set_threshold(before);
        }
        // A higher winner.
        4 => {
            script.request(other, top.rank.higher());
            chain_or_commit(script, random);
            script.quiet(other);
        }
        // A lower winner, or none.
        5 => {
            script.quiet(own);
            script.request(other, top.rank.lower());
            chain_or_commit(script, random);
        }
        6 => {
            for source in 1..=script.count().min(20) {
                script.quiet(source);
            }
            chain_or_commit(script, random);
        }
        _ => {
            script.provoke_chain();
            chain_or_commit(script, random);
            chain_or_commit(script, random);
        }
    }
    if random.coin() {
        script.read_claim();
    }
}

fn start_nesting(script: &mut Script, random: &mut Random) {
    if random.chance(1, 3) {
        script.reverse();
    }
    if random.coin() {
        script.set_base();
    }
    if random.chance(1, 4) {
        script.set_current(random.rank(0, 3));
    }
    if random.chance(1, 4) {
        script.set_threshold(random.rank(0, 3));
    }
    script.set_mask(1);
}

/// Takes and opens handlers of rising ranks, then returns from all of them.
fn nesting(random: &mut Random, limits: Limits) -> Vec<u8> {
    let mut script = Script::new(random, limits);
    start_nesting(&mut script, random);
    let ranks = rising_ranks(random);
    let disturbed = random.chance(2, 3);
    let at_once = random.chance(1, 4);
    let mut used = Vec::new();
    if at_once {
        // All ranks are set beforehand; lines are raised one after the other.
        for &rank in &ranks {
            let source = random.between(1, script.count());
            script.set_rank(source, rank);
            script.set_enable(source, true);
            used.push(source);
        }
    }
    for (place, &rank) in ranks.iter().enumerate() {
        if at_once {
            script.set_active(used[place], true);
        } else {
            let source = random.between(1, script.count());
            if random.chance(1, 3) {
                let (edge, active_low) = (random.coin(), random.coin());
                script.set_gateway(source, edge, active_low);
            }
            script.request(source, rank);
            used.push(source);
        }
        script.take();
        if disturbed && random.coin() {
            disturb(&mut script, random);
        }
        if random.chance(1, 4) {
            chain_variants(&mut script, random);
        }
        script.open();
        if disturbed && random.coin() {
            disturb(&mut script, random);
        }
    }
    let mut rounds = 0;
    while !script.machine.handlers.is_empty() && rounds < 80 {
        rounds += 1;
        if disturbed && random.chance(1, 4) {
            disturb(&mut script, random);
        }
        if script.machine.mask && random.chance(1, 6) {
            script.take();
            script.open();
        }
        script.set_mask(0);
        for _ in 0..random.below(3) {
            chain_variants(&mut script, random);
        }
        if random.chance(3, 4) {
            script.give_back();
            script.csr_read(MEICURPL);
        }
    }
    script.audit();
    finish(script)
}

/// One line stays active while its rank climbs: fifteen handlers of a single source.
fn nesting_one_source(random: &mut Random, limits: Limits) -> Vec<u8> {
    let mut script = Script::new(random, limits);
    start_nesting(&mut script, random);
    let source = random.between(1, script.count());
    let other = random.between(1, script.count());
    script.set_enable(source, true);
    script.set_active(source, true);
    for rank in rising_ranks(random) {
        script.set_rank(source, rank);
        script.take();
        script.open();
        // Nothing of the same rank is taken.
        if random.chance(1, 3) {
            script.request(other, rank);
            script.take();
        }
    }
    while !script.machine.handlers.is_empty() && !script.full() {
        script.csr_read(MEICURPL);
        script.set_mask(0);
        let top = script.machine.handlers.last().map(|top| top.rank);
        match random.below(3) {
            0 => {
                script.set_rank(source, top.unwrap_or_default());
                chain_or_commit(&mut script, random);
            }
            1 => {
                chain_or_commit(&mut script, random);
            }
            _ => {}
        }
        script.give_back();
        if random.chance(1, 8) {
            script.take();
            script.open();
        }
    }
    script.audit();
    finish(script)
}

/// Service events above all, up and down.
fn nesting_wandering(random: &mut Random, limits: Limits) -> Vec<u8> {
    let mut script = Script::new(random, limits);
    start_nesting(&mut script, random);
    let weights = Weights {
        sample: 0,
        line: 2,
        load: 2,
        store: 2,
        csr_read: 4,
        csr_write: 1,
        service: 80,
        timer: 4,
        error: 3,
        look: 6,
        blind: 3,
        boundary: 0,
        refused: 2,
    };
    script.wander(&weights, random.between(50, 500) as usize);
    script.audit();
    finish(script)
}

/// Several sources of one rank, served in a chain.
fn chains(random: &mut Random, limits: Limits) -> Vec<u8> {
    let mut script = Script::new(random, limits);
    start_nesting(&mut script, random);
    let rank = random.rank(4, 15);
    let focus = script.focus.clone();
    for &source in &focus {
        if random.coin() {
            let (edge, active_low) = (random.coin(), random.chance(1, 4));
            script.set_gateway(source, edge, active_low);
        }
        let off = random.chance(1, 6);
        script.request(source, if off { rank.lower() } else { rank });
    }
    for _ in 0..random.between(1, 6) {
        script.take();
        if random.chance(3, 4) {
            script.open();
            script.set_mask(0);
        }
        for _ in 0..random.between(1, 12) {
            let serving = script
                .machine
                .handlers
                .last()
                .map_or(0, |top| top.source as u32);
            if serving > 0 && random.chance(3, 4) {
                script.quiet(serving);
            }
            if random.chance(1, 3) {
                chain_variants(&mut script, random);
            }
            chain_or_commit(&mut script, random);
            if random.chance(1, 3) {
                script.read_claim();
            }
        }
        script.give_back();
        let again = script.a_source();
        script.request(again, rank);
    }
    script.audit();
    finish(script)
}

/// Looks and commits: at once, after a change, of numbers that no look would answer, and where they
/// are refused, at every depth.
fn looks_and_commits(random: &mut Random, limits: Limits) -> Vec<u8> {
    let mut script = Script::new(random, limits);
    if random.chance(1, 3) {
        looks_without_handler(&mut script, random);
    }
    start_nesting(&mut script, random);
    for _ in 0..random.between(3, 9) {
        match random.below(14) {
            0 => looks_without_handler(&mut script, random),
            1 | 2 => unmasked_looks(&mut script, random),
            3 | 4 => committed_at_once(&mut script, random),
            5..=7 => stale_looks(&mut script, random),
            8 | 9 => other_numbers(&mut script, random),
            10 | 11 => nothing_to_serve(&mut script, random),
            12 => beside_chains(&mut script, random),
            _ => committed_nesting(&mut script, random),
        }
        now_and_then_return(&mut script, random);
    }
    end_nesting(&mut script, random);
    let mut record = script.record();
    if random.chance(1, 3) {
        spoil_look(&mut record, random);
    }
    bytes_of(&record)
}

fn now_and_then_return(script: &mut Script, random: &mut Random) {
    if random.chance(1, 3) {
        script.set_mask(0);
        script.give_back();
        script.csr_read(MEICURPL);
    }
}

fn end_nesting(script: &mut Script, random: &mut Random) {
    match random.below(4) {
        0 => script.unwind(),
        1 => script.audit(),
        _ => {}
    }
}

/// Puts in a look or a commit that the reader refuses for an unused part, or an event of a kind
/// above all kinds.
fn spoil_look(record: &mut Record, random: &mut Random) {
    let number = number_of_commit(random);
    let above = random.pick(&[KINDS, KINDS, KINDS + 1, 0x10C, 0x10D, 0x800D]);
    let (look, commit) = (Event::new(LOOK, 0, 0), Event::new(COMMIT, number, 0));
    let mut event = random.pick(&[look, look, commit]);
    if random.chance(5, 6) {
        use_unused(&mut event, random);
    } else {
        event = Event::new(above, number, 0);
    }
    let place = random.below(record.events.len() as u32) as usize;
    record.events[place] = event;
}

/// No handler open: both are refused with 17, masked or not, whatever asks.
fn looks_without_handler(script: &mut Script, random: &mut Random) {
    script.unwind();
    for _ in 0..random.between(2, 5) {
        if random.coin() {
            let (source, rank) = (script.a_source(), script.a_rank());
            script.request(source, rank);
        }
        script.set_mask(random.below(2));
        claim_otherwise(script, random);
        let winner = script.machine.winner().0 as u32;
        let any = script.a_number();
        if random.coin() {
            script.look();
        } else {
            script.commit(random.pick(&[winner, winner, 0, any]));
        }
        if random.coin() {
            script.read_claim();
        }
    }
}

/// Ends every request above a rank.
fn hush_above(script: &mut Script, rank: Rank) {
    for source in 1..=script.count() {
        let number = source as usize;
        if script.machine.eligible(number) && script.machine.source_rank(number) > rank {
            script.quiet(source);
        }
    }
}

/// The uppermost handler, taken now if there is none, and often if there is; opened or not.
fn uppermost(script: &mut Script, random: &mut Random) -> Option<Handler> {
    let opened = script.machine.handlers.last().map(|top| top.opened);
    if opened.is_none() || random.chance(1, 3) {
        if opened == Some(false) {
            script.open();
        }
        if opened.is_none() {
            hush(script);
        }
        script.set_mask(1);
        script.provoke();
        script.take();
        if random.chance(2, 3) {
            script.open();
        }
    }
    script.machine.handlers.last().cloned()
}

/// The same, so that it may look and commit.
fn masked_uppermost(script: &mut Script, random: &mut Random) -> Option<Handler> {
    let top = uppermost(script, random);
    if script.machine.mask {
        script.set_mask(0);
    }
    top
}

/// Gives a handler something to go on with, now and then its own source.
fn offer(script: &mut Script, random: &mut Random, top: &Handler) {
    hush_above(script, top.rank);
    if script.machine.threshold_rank() >= top.rank {
        script.set_threshold(random.rank(0, top.rank.lower().0));
    }
    let own = top.source as u32;
    let source = match random.below(5) {
        0 => own,
        _ => script.a_source(),
    };
    if source != own && random.coin() {
        script.quiet(own);
    }
    if random.coin() {
        let (edge, active_low) = (random.coin(), random.chance(1, 3));
        script.set_gateway(source, edge, active_low);
    }
    script.request(source, top.rank);
    // An edge is enough.
    if script.machine.source(source as usize).edge && random.coin() {
        script.set_active(source, false);
    }
}

/// Makes what is claimed another than a capture would make it, mostly.
fn claim_otherwise(script: &mut Script, random: &mut Random) {
    let (_, rank) = script.machine.winner();
    let other = (rank.0 + random.between(1, 15) as u8) % 16;
    script.set_claimed(Rank(other));
}

/// Handlers opened and not masked: both are refused with 19, right numbers too.
fn unmasked_looks(script: &mut Script, random: &mut Random) {
    let top = match uppermost(script, random) {
        Some(top) => top,
        None => return,
    };
    if random.chance(3, 4) {
        offer(script, random, &top);
    }
    if random.chance(3, 4) {
        if !top.opened {
            script.open();
        }
        script.set_mask(1);
    }
    claim_otherwise(script, random);
    let (right, own) = (script.machine.chainable(), top.source as u32);
    for _ in 0..random.between(1, 4) {
        let any = script.a_number();
        if random.chance(1, 3) {
            script.look();
        } else {
            script.commit(random.pick(&[right, right, 0, own, any]));
        }
    }
    script.read_claim();
    if random.coin() {
        script.set_mask(0);
        script.commit(right);
        script.read_claim();
    }
}

/// Gives a handler something to go on with, most often after the source that it serves fell quiet.
fn offer_next(script: &mut Script, random: &mut Random, top: &Handler) {
    let serving = script.machine.handlers.last().map(|top| top.source as u32);
    if let Some(source) = serving.filter(|_| random.chance(3, 4)) {
        script.quiet(source);
    }
    offer(script, random, top);
}

/// Source after source is looked at and committed.
fn committed_at_once(script: &mut Script, random: &mut Random) {
    let top = match masked_uppermost(script, random) {
        Some(top) => top,
        None => return,
    };
    for _ in 0..random.between(1, 5) {
        offer_next(script, random, &top);
        if random.chance(1, 3) {
            claim_otherwise(script, random);
        }
        match random.below(4) {
            // With no look before.
            0 => {
                let right = script.machine.chainable();
                script.commit(right);
            }
            1 => {
                script.look();
                script.read_claim();
                script.look_and_commit();
            }
            _ => script.look_and_commit(),
        }
        if random.coin() {
            script.read_claim();
        }
    }
}

/// A look, a change, and a commit of what the look answered, right still or not.
fn stale_looks(script: &mut Script, random: &mut Random) {
    for _ in 0..random.between(1, 5) {
        let top = match masked_uppermost(script, random) {
            Some(top) => top,
            None => return,
        };
        offer(script, random, &top);
        if random.chance(1, 3) {
            claim_otherwise(script, random);
        }
        let seen = script.look().answer;
        if seen == 0 {
            return;
        }
        for _ in 0..random.pick(&[1, 1, 1, 2]) {
            change_after_look(script, random, seen, &top);
        }
        if random.chance(1, 6) {
            script.look();
        }
        script.commit(seen);
        script.read_claim();
        if random.chance(1, 4) {
            script.look_and_commit();
            script.read_claim();
        }
    }
}

/// What may come between a look and a commit.
fn change_after_look(script: &mut Script, random: &mut Random, seen: u32, top: &Handler) {
    let state = script.machine.source(seen as usize).clone();
    let (lower, rank, higher) = (top.rank.lower(), top.rank, top.rank.higher());
    let count = script.count();
    let other = (seen + random.below(count - 1)) % count + 1;
    match random.below(24) {
        0 | 1 => script.set_active(seen, false),
        2 | 3 => script.clear(seen),
        4 => {
            // An edge that has gone stays pending until it is cleared, or the type changes.
            script.set_active(seen, false);
            if random.coin() {
                script.set_gateway(seen, !state.edge, state.active_low);
            } else {
                script.clear(seen);
            }
        }
        5 => script.set_gateway(seen, !state.edge, state.active_low),
        6 => script.set_gateway(seen, state.edge, !state.active_low),
        7 | 8 => script.set_rank(seen, random.pick(&[lower, rank, higher])),
        9 | 10 => script.set_enable(seen, random.chance(1, 3)),
        11 | 12 => {
            let bars = [Rank::LOWEST, lower, rank, higher, Rank::HIGHEST];
            script.set_threshold(random.pick(&bars));
        }
        // Another asks, of a lower number or a higher, of the same rank or not.
        13 | 14 => script.request(other, rank),
        15 => script.request(random.between(1, seen), rank),
        16 => script.request(other, random.pick(&[lower, higher])),
        17 => script.set_base(),
        18 => {
            script.capture();
            claim_otherwise(script, random);
        }
        19 => {
            script.clock();
            script.error(random.below(4));
            script.switch();
        }
        20 => {
            script.chain();
        }
        // Unmasked, and sometimes masked again.
        21 => {
            script.open();
            script.set_mask(1);
            if random.coin() {
                script.set_mask(0);
            }
        }
        // The handler below, or another above.
        22 => {
            script.give_back();
            script.set_mask(0);
        }
        _ => {
            script.open();
            script.set_mask(1);
            script.provoke();
            script.take();
        }
    }
}

/// Numbers that a look wouldn't answer, beside one that it would.
fn other_numbers(script: &mut Script, random: &mut Random) {
    let top = match masked_uppermost(script, random) {
        Some(top) => top,
        None => return,
    };
    offer(script, random, &top);
    // Two equals.
    let equal = script.a_source();
    script.request(equal, top.rank);
    let right = script.machine.chainable();
    for _ in 0..random.between(2, 6) {
        if random.chance(1, 3) {
            claim_otherwise(script, random);
        }
        let count = script.count();
        let number = match random.below(12) {
            0 | 1 => 0,
            2 => count + random.between(1, 3),
            3 => random.pick(&[255, 256, 257, 0x7FFF, 0x8000, 0xFFFF]),
            // By its low bits it would be right.
            4 => right + 0x100,
            5 => right + 0x8000,
            6 => right | 1 << random.between(8, 15),
            7 => right ^ 1 << random.below(16),
            8 => random.pick(&[right.wrapping_sub(1) & 0xFFFF, right + 1]),
            9 => top.source as u32,
            _ => equal,
        };
        script.commit(number);
        if random.coin() {
            script.read_claim();
        }
    }
    script.look_and_commit();
    script.read_claim();
}

/// A winner that a chain wouldn't serve, or none. Only the chain captures.
fn nothing_to_serve(script: &mut Script, random: &mut Random) {
    let top = match masked_uppermost(script, random) {
        Some(top) => top,
        None => return,
    };
    let source = script.a_source();
    hush_above(script, top.rank);
    match random.below(5) {
        0 => script.request(source, top.rank.higher()),
        1 => {
            hush(script);
            script.request(source, top.rank.lower());
        }
        2 | 3 => {
            script.request(source, top.rank);
            let bar = random.pick(&[top.rank, top.rank.higher(), Rank::HIGHEST]);
            script.set_threshold(bar);
        }
        _ => hush(script),
    }
    let winner = script.machine.winner().0 as u32;
    for _ in 0..random.between(1, 3) {
        claim_otherwise(script, random);
        match random.below(4) {
            0 => script.look(),
            1 => script.commit(0),
            2 => script.commit(top.source as u32),
            _ => script.commit(winner),
        };
        script.read_claim();
    }
    if random.coin() {
        script.chain();
        script.read_claim();
    }
    // What was looked at in vain is served after all.
    if random.coin() {
        let answer = script.look().answer;
        offer(script, random, &top);
        script.commit(answer);
        let right = script.machine.chainable();
        script.commit(right);
        script.read_claim();
    }
    script.set_threshold(random.rank(0, top.rank.lower().0));
}

/// The same state for a chain, a look and a commit, in any order.
fn beside_chains(script: &mut Script, random: &mut Random) {
    let top = match masked_uppermost(script, random) {
        Some(top) => top,
        None => return,
    };
    offer(script, random, &top);
    let right = script.machine.chainable();
    for _ in 0..random.between(3, 6) {
        claim_otherwise(script, random);
        match random.below(3) {
            0 => script.chain(),
            1 => script.look(),
            _ => script.commit(right),
        };
        script.read_claim();
    }
}

/// Handlers of rising ranks, often fifteen. `up` comes between take and open, where another source
/// may ask with the handler's rank, and `down` before each return, where something may be offered.
fn rise_and_fall(
    script: &mut Script,
    random: &mut Random,
    asks: (u32, u32),
    up: fn(&mut Script, &mut Random),
    offers: (u32, u32),
    down: fn(&mut Script, &mut Random),
) {
    settle(script, random);
    script.lower_bars();
    for rank in rising_ranks(random) {
        let source = script.a_source();
        script.request(source, rank);
        script.take();
        // Its own source, or an equal of a lower number.
        if random.chance(asks.0, asks.1) {
            let other = script.a_source();
            script.request(other, rank);
            up(script, random);
        }
        script.open();
    }
    while !script.machine.handlers.is_empty() && !script.full() {
        script.set_mask(0);
        let top = script.machine.handlers.last().cloned();
        if let Some(top) = top.filter(|_| random.chance(offers.0, offers.1)) {
            offer(script, random, &top);
        }
        down(script, random);
        script.give_back();
        if random.chance(1, 24) {
            break;
        }
    }
}

/// With commits and chains on the way up and down.
fn committed_nesting(script: &mut Script, random: &mut Random) {
    fn up(script: &mut Script, _: &mut Random) {
        script.look_and_commit();
    }
    fn down(script: &mut Script, random: &mut Random) {
        match random.below(4) {
            0 => {
                script.chain();
            }
            1 | 2 => script.look_and_commit(),
            _ => {}
        }
    }
    rise_and_fall(script, random, (1, 4), up, (1, 3), down);
}

/// Chains as old records have them, served, in vain and refused, beside the looks and commits that
/// came in their place.
fn old_chains(random: &mut Random, limits: Limits) -> Vec<u8> {
    let mut script = Script::new(random, limits);
    if random.chance(1, 3) {
        refused_chains(&mut script, random);
    }
    start_nesting(&mut script, random);
    for _ in 0..random.between(3, 9) {
        match random.below(8) {
            0 => refused_chains(&mut script, random),
            1..=3 => chained_in_turn(&mut script, random),
            4 | 5 => chained_in_vain(&mut script, random),
            6 => beside_chains(&mut script, random),
            _ => chained_nesting(&mut script, random),
        }
        now_and_then_return(&mut script, random);
    }
    end_nesting(&mut script, random);
    let mut record = script.record();
    if random.chance(1, 3) {
        spoil_chain(&mut record, random);
    }
    bytes_of(&record)
}

/// Puts in a chain that the reader refuses for an unused part, or a kind that is 7 by its low bits.
fn spoil_chain(record: &mut Record, random: &mut Random) {
    let mut event = Event::new(CHAIN, 0, 0);
    if random.chance(5, 6) {
        use_unused(&mut event, random);
        if random.chance(1, 4) {
            event = Event::new(CHAIN, random.between(1, 0xFFFF), random.word());
        }
    } else {
        event.head |= 1 << random.between(20, 31);
    }
    let last = record.events.len() as u32 - 1;
    let any = random.between(0, last);
    let place = random.pick(&[0, last, any, any]);
    record.events[place as usize] = event;
}

/// A chain, a look or a commit, often of what a chain would serve.
fn chain_look_or_commit(script: &mut Script, random: &mut Random) -> Outcome {
    let (right, any) = (script.machine.chainable(), script.a_number());
    match random.below(4) {
        0 | 1 => script.chain(),
        2 => script.look(),
        _ => script.commit(random.pick(&[right, right, any])),
    }
}

/// Refused with 17 or 19, whatever asks: nothing is captured.
fn refused_chains(script: &mut Script, random: &mut Random) {
    let handler = random.coin();
    if handler {
        if let Some(top) = uppermost(script, random) {
            offer(script, random, &top);
            if !top.opened {
                script.open();
            }
        }
    } else {
        script.unwind();
    }
    for _ in 0..random.between(2, 4) {
        script.set_mask(if handler { 1 } else { random.below(2) });
        if random.coin() {
            let (source, rank) = (script.a_source(), script.a_rank());
            script.request(source, rank);
        }
        claim_otherwise(script, random);
        chain_look_or_commit(script, random);
        script.read_claim();
    }
}

/// A handler goes on with source after source, by a chain, by a look and a commit, or by one after
/// the other.
fn chained_in_turn(script: &mut Script, random: &mut Random) {
    let top = match masked_uppermost(script, random) {
        Some(top) => top,
        None => return,
    };
    for _ in 0..random.between(2, 6) {
        offer_next(script, random, &top);
        claim_otherwise(script, random);
        let right = script.machine.chainable();
        match random.below(6) {
            0 | 1 => {
                script.chain();
            }
            2 => script.look_and_commit(),
            3 => {
                script.look();
                script.chain();
            }
            4 => {
                script.chain();
                script.commit(right);
            }
            _ => {
                script.commit(right);
                script.chain();
            }
        }
        script.read_claim();
    }
}

/// A winner that no chain serves, or none. Of chain, look and commit only the chain captures, and
/// it answers 0.
fn chained_in_vain(script: &mut Script, random: &mut Random) {
    for _ in 0..random.between(1, 4) {
        let top = match masked_uppermost(script, random) {
            Some(top) => top,
            None => return,
        };
        offer(script, random, &top);
        let source = script.a_source();
        match random.below(5) {
            0 => script.request(source, top.rank.higher()),
            1 => {
                hush(script);
                script.request(source, top.rank.lower());
            }
            2 | 3 => script.set_threshold(random.pick(&[top.rank, top.rank.higher()])),
            _ => hush(script),
        }
        for _ in 0..random.between(1, 3) {
            claim_otherwise(script, random);
            chain_look_or_commit(script, random);
            script.read_claim();
        }
        claim_otherwise(script, random);
        script.chain();
        script.read_claim();
        // Served after all.
        if random.coin() {
            offer(script, random, &top);
            chain_or_commit(script, random);
            script.read_claim();
        }
        script.set_threshold(random.rank(0, top.rank.lower().0));
    }
}

/// With a chain at most of the handlers on the way up, before they are opened, and on the way down.
fn chained_nesting(script: &mut Script, random: &mut Random) {
    fn down(script: &mut Script, random: &mut Random) {
        if random.chance(3, 4) {
            chain_or_commit(script, random);
            script.csr_read(MEIHAP);
        }
    }
    rise_and_fall(script, random, (1, 3), chain_or_commit, (1, 2), down);
}

fn priority_order(random: &mut Random, limits: Limits) -> Vec<u8> {
    let mut script = Script::new(random, limits);
    for _ in 0..random.between(10, 60) {
        let source = script.a_source();
        let value = random.word();
        match random.below(10) {
            0..=2 => {
                script.switch();
                if random.coin() {
                    script.lower_bars();
                }
            }
            3 => {
                script.store(4 * source, value);
            }
            4 => {
                let csr = random.pick(&[MEIPT, MEICIDPL, MEICURPL]);
                script.csr_write(csr, value);
            }
            5 => {
                script.load(4 * source);
                script.load(0x3000);
                script.csr_read(MEIPT);
                script.csr_read(MEICIDPL);
                script.csr_read(MEICURPL);
            }
            6 => script.capture(),
            7 => {
                // Field 15 is rank 0 in reverse order, field 0 in the other.
                script.store(4 * source, random.pick(&[0, 15]));
                script.set_enable(source, true);
                script.set_active(source, true);
                script.capture();
                script.read_claim();
            }
            _ => script.serve(),
        }
    }
    script.audit();
    finish(script)
}

/// Fields 0 to 15 in an order drawn anew.
fn shuffled_fields(random: &mut Random) -> [u32; 16] {
    let mut fields = std::array::from_fn(|place| place as u32);
    for last in (1..16).rev() {
        fields.swap(last, random.below(last as u32 + 1) as usize);
    }
    fields
}

/// In both orders every field in two of the four registers that hold one, read before and after
/// two switches of the order. Between them their ranks decide winners, margins and openings.
fn mirror(random: &mut Random, limits: Limits) -> Vec<u8> {
    let mut script = Script::new(random, limits);
    for source in script.focus.clone() {
        if random.chance(1, 4) {
            script.set_gateway(source, random.coin(), random.coin());
        }
    }
    if random.coin() {
        script.set_base();
    }
    script.set_mask(1);
    let first = random.coin();
    let orders = [first, !first].map(|reversed| (reversed, shuffled_fields(random)));
    for place in 0..8 {
        for (reversed, fields) in orders {
            let source = script.a_source();
            script.set_priord(reversed);
            // Another field for each register.
            let four = [0, 4, 8, 12].map(|start| fields[(start + place) % 16]);
            script.write_fields(source, four);
            script.read_fields(source);
            for reversed in [!reversed, reversed] {
                script.set_priord(reversed);
                script.read_fields(source);
            }
            if random.chance(3, 4) {
                mirrored_rank(&mut script, random, source);
            }
        }
    }
    finish(script)
}

/// The other order, or still the same.
fn either_order(script: &mut Script, random: &mut Random) {
    if random.coin() {
        script.switch();
    }
}

/// Takes and opens, if there is a margin, and returns.
fn take_and_open(script: &mut Script) {
    script.take();
    if !script.machine.handlers.is_empty() {
        script.csr_read(MEICIDPL);
        script.open();
        script.csr_read(MEICURPL);
        script.unwind();
    }
}

/// The rank of a source, between its neighbours.
fn beside(script: &Script, source: u32) -> [Rank; 3] {
    let rank = script.machine.source_rank(source as usize);
    [rank.lower(), rank, rank.higher()]
}

/// A request of the rank that a field has in either order, against what is of that rank or beside
/// it.
fn mirrored_rank(script: &mut Script, random: &mut Random, source: u32) {
    let count = script.count();
    let rival = (source + random.below(count - 1)) % count + 1;
    script.set_enable(source, true);
    script.set_active(source, true);
    either_order(script, random);
    match random.below(4) {
        // Threshold and current are left as they were written.
        0 => take_and_open(script),
        // One of them is beside the rank, the other no higher.
        1 => {
            for place in 0..3 {
                either_order(script, random);
                let bar = beside(script, source)[place];
                let low = random.rank(0, bar.0);
                let swapped = random.coin();
                script.set_threshold(if swapped { low } else { bar });
                script.set_current(if swapped { bar } else { low });
                take_and_open(script);
            }
        }
        // Of equals the lower number wins, whichever order each was written in.
        2 => {
            let [_, rank, _] = beside(script, source);
            script.request(rival, rank);
            for place in 0..3 {
                either_order(script, random);
                let near = beside(script, source)[place];
                script.set_rank(rival, near);
                script.capture();
                script.read_claim();
            }
            let [_, rank, _] = beside(script, source);
            script.set_rank(rival, rank);
            either_order(script, random);
            take_and_open(script);
        }
        // Chained, or not, by rank and threshold.
        _ => {
            script.lower_bars();
            script.take();
            if !script.machine.handlers.is_empty() {
                script.open();
                script.set_mask(0);
                script.quiet(source);
                let [lower, rank, higher] = beside(script, source);
                script.request(rival, random.pick(&[rank, rank, lower, higher]));
                script.set_threshold(random.pick(&[Rank::LOWEST, lower, rank]));
                script.chain();
                script.read_claim();
                script.unwind();
            }
        }
    }
    script.quiet(source);
    script.quiet(rival);
}

/// Registers hold fields: switches with no handler open, which turn every rank, and with handlers
/// open, where they are refused.
fn fields(random: &mut Random, limits: Limits) -> Vec<u8> {
    let mut script = Script::new(random, limits);
    if random.coin() {
        script.set_base();
    }
    script.set_mask(1);
    if random.coin() {
        reversed_from_the_start(&mut script, random);
    }
    for _ in 0..random.between(2, 6) {
        match random.below(6) {
            0 => kept_fields(&mut script, random),
            1 => captured_fields(&mut script, random),
            2 => taken_in_both_orders(&mut script, random),
            3 => chained_in_either_order(&mut script, random),
            _ => nested_in_either_order(&mut script, random),
        }
        // Often the record ends with handlers still open.
        if script.full() || random.chance(1, 8) {
            break;
        }
        script.unwind();
    }
    match random.below(4) {
        0 => script.audit(),
        1 | 2 => end_reversed(&mut script, random),
        _ => {}
    }
    finish(script)
}

/// Until threshold and current are written, both of rank 15, nothing is taken.
fn reversed_from_the_start(script: &mut Script, random: &mut Random) {
    let source = script.a_source();
    script.set_priord(true);
    script.read_fields(source);
    script.set_enable(source, true);
    script.set_active(source, true);
    script.capture();
    script.read_claim();
    script.take();
    // One of the two is not enough.
    let ranks = [(); 2].map(|()| random.rank(0, 14));
    if random.coin() {
        script.set_threshold(ranks[0]);
        script.take();
        script.set_current(ranks[1]);
    } else {
        script.set_current(ranks[1]);
        script.take();
        script.set_threshold(ranks[0]);
    }
    take_and_open(script);
}

/// No handler open, no request, and an order that is often the reverse.
fn settle(script: &mut Script, random: &mut Random) {
    script.unwind();
    hush(script);
    script.set_priord(random.chance(2, 3));
    script.set_mask(1);
}

/// Ends every request that could win in one order or the other.
fn hush(script: &mut Script) {
    for source in 1..=script.count() {
        let state = script.machine.source(source as usize);
        if state.enabled && state.pending() {
            script.quiet(source);
        }
    }
}

/// Reads before and after one or two switches; what is held then decides a take, if it can.
fn kept_fields(script: &mut Script, random: &mut Random) {
    let source = script.a_source();
    let fields = shuffled_fields(random);
    if random.chance(3, 4) {
        script.write_fields(source, [0, 1, 2, 3].map(|place| fields[place]));
    }
    script.read_fields(source);
    script.set_enable(source, true);
    script.set_active(source, random.chance(3, 4));
    for _ in 0..random.between(1, 2) {
        script.switch();
        script.load(0x3000);
        script.read_fields(source);
        if random.coin() {
            // The same order again.
            script.set_priord(script.machine.priord);
            script.read_fields(source);
        }
        take_and_open(script);
        script.capture();
        script.read_claim();
    }
}

/// Captures with a winner, with none, and with a request of rank 0, in both orders.
fn captured_fields(script: &mut Script, random: &mut Random) {
    settle(script, random);
    let source = script.a_source();
    for _ in 0..random.between(2, 4) {
        match random.below(3) {
            0 => hush(script),
            1 => script.request(source, Rank::LOWEST),
            _ => {
                let rank = script.a_rank();
                script.request(source, rank);
            }
        }
        script.capture();
        script.read_claim();
        if random.coin() {
            script.switch();
            script.read_claim();
            script.capture();
            script.read_claim();
        }
    }
}

/// Two requests on either side of threshold and current: each order takes one of them, with nothing
/// written between but the order.
fn taken_in_both_orders(script: &mut Script, random: &mut Random) {
    settle(script, random);
    let count = script.count();
    let source = script.a_source();
    let other = (source + random.below(count - 1)) % count + 1;
    let bars = [(); 2].map(|()| random.between(1, 14));
    let below = random.below(bars[0].min(bars[1]));
    let above = random.between(bars[0].max(bars[1]) + 1, 15);
    script.write_fields(source, [below, bars[0], random.below(16), bars[1]]);
    script.store(4 * other, above);
    for source in [source, other] {
        script.set_enable(source, true);
        script.set_active(source, true);
    }
    for _ in 0..random.between(2, 5) {
        script.take();
        script.read_claim();
        if random.chance(1, 3) {
            try_switch(script, random);
        }
        if random.chance(3, 4) {
            script.open();
            script.csr_read(MEICURPL);
        }
        if random.chance(1, 3) {
            try_switch(script, random);
        }
        script.unwind();
        script.switch();
        script.csr_read(MEICURPL);
    }
}

/// Sources of one rank, chained in one order.
fn chained_in_either_order(script: &mut Script, random: &mut Random) {
    settle(script, random);
    script.lower_bars();
    let rank = random.rank(2, 15);
    for source in script.focus.clone() {
        let off = random.chance(1, 6);
        script.request(source, if off { rank.lower() } else { rank });
    }
    script.take();
    if random.chance(3, 4) {
        script.open();
        script.set_mask(0);
    }
    for _ in 0..random.between(2, 6) {
        let serving = script.machine.handlers.last().map(|top| top.source as u32);
        if let Some(source) = serving.filter(|_| random.chance(3, 4)) {
            script.quiet(source);
        }
        match random.below(6) {
            0 => try_switch(script, random),
            1 => chain_variants(script, random),
            _ => {}
        }
        script.chain();
        if random.coin() {
            script.read_claim();
        }
    }
}

/// Handlers of rising ranks, up and down again. At every level the order cannot be changed.
fn nested_in_either_order(script: &mut Script, random: &mut Random) {
    settle(script, random);
    script.lower_bars();
    if random.chance(1, 4) {
        script.set_current(random.rank(0, 3));
    }
    let levels = random.between(1, 5) as usize;
    for rank in rising_ranks(random).into_iter().take(levels) {
        let source = script.a_source();
        script.request(source, rank);
        script.take();
        if random.coin() {
            try_switch(script, random);
        }
        script.open();
        script.csr_read(MEICURPL);
        if random.coin() {
            try_switch(script, random);
        }
    }
    while !script.machine.handlers.is_empty() && !script.full() {
        script.set_mask(0);
        if random.chance(1, 4) {
            chain_variants(script, random);
        }
        if random.chance(1, 3) {
            try_switch(script, random);
        }
        script.give_back();
        script.csr_read(MEICURPL);
        if random.chance(1, 8) {
            return;
        }
    }
    let source = script.a_source();
    script.switch();
    script.read_fields(source);
}

/// Stores to mpiccfg and beside it, most with the bit of the other order.
fn try_switch(script: &mut Script, random: &mut Random) {
    let other = random.word() & !1 | u32::from(!script.machine.priord);
    match random.below(10) {
        0..=2 => script.switch(),
        3 => script.store(0x3000, other),
        // The order that it is.
        4 => script.set_priord(script.machine.priord),
        5 | 6 => script.store(random.between(0x3001, 0x3003), other),
        7 | 8 => {
            let far = 4 * random.between(1, 0x3FF);
            script.store(0x3000 + random.pick(&[4, 4, 8, far]), other)
        }
        _ => script.store(random.pick(&[0xB000, 0xB001, 0xB004]), other),
    };
    match random.below(4) {
        0 => {
            script.load(0x3000);
        }
        1 => {
            let source = script.a_source();
            script.read_fields(source);
        }
        _ => {}
    }
}

/// The last line in the reverse order: handlers open, or threshold and current as written.
fn end_reversed(script: &mut Script, random: &mut Random) {
    script.unwind();
    hush(script);
    script.reverse();
    script.set_mask(1);
    if random.chance(1, 3) {
        let source = script.a_source();
        script.request(source, random.rank(1, 15));
        script.set_threshold(random.rank(0, 15));
        script.set_current(random.rank(0, 15));
        return;
    }
    let levels = random.between(1, 4) as usize;
    for rank in rising_ranks(random).into_iter().take(levels) {
        let source = script.a_source();
        script.request(source, rank);
        script.take();
        script.open();
    }
    if random.coin() {
        script.provoke();
    }
    if random.chance(1, 4) {
        script.take();
    }
}

/// Switches in every state, and after most of the accepted ones bars that leave room for takes.
fn switches(random: &mut Random, limits: Limits) -> Vec<u8> {
    let mut script = Script::new(random, limits);
    for _ in 0..random.between(5, 80) {
        let source = script.a_source();
        match random.below(15) {
            0 | 1 => {
                let switched = script.switch().refusal == 0;
                if switched && random.chance(2, 3) {
                    script.lower_bars();
                }
            }
            14 => {
                script.take();
            }
            2 => try_switch(&mut script, random),
            3 => script.read_fields(source),
            4 => {
                script.capture();
                script.read_claim();
            }
            5 => {
                let fields = [(); 4].map(|()| random.below(16));
                script.write_fields(source, fields);
            }
            6 => script.unwind(),
            7 => hush(&mut script),
            _ => script.serve(),
        }
    }
    if random.chance(1, 3) {
        script.audit();
    }
    finish(script)
}

/// A request at, above and below threshold and current.
fn thresholds(random: &mut Random, limits: Limits) -> Vec<u8> {
    let mut script = Script::new(random, limits);
    script.set_mask(1);
    if random.chance(1, 3) {
        script.reverse();
    }
    for _ in 0..random.between(3, 30) {
        let source = script.a_source();
        script.request(source, random.rank(0, 15));
        let winner = script.machine.winner().1;
        for _ in 0..random.between(1, 3) {
            let bar = match random.below(5) {
                0 => winner.lower(),
                1 => winner,
                2 => winner.higher(),
                3 => Rank::HIGHEST,
                _ => Rank::LOWEST,
            };
            if random.chance(1, 3) {
                script.set_current(bar);
            } else {
                script.set_threshold(bar);
            }
            script.take();
            if !script.machine.handlers.is_empty() {
                if random.coin() {
                    script.open();
                }
                if random.chance(2, 3) {
                    script.set_mask(0);
                    script.give_back();
                }
            }
        }
        if random.chance(1, 3) {
            script.quiet(source);
        }
    }
    if random.coin() {
        script.audit();
    }
    finish(script)
}

fn gateways(random: &mut Random, limits: Limits) -> Vec<u8> {
    let mut script = Script::new(random, limits);
    for _ in 0..random.between(10, 80) {
        let source = script.a_source();
        match random.below(8) {
            0 => {
                let (edge, active_low) = (random.coin(), random.coin());
                script.set_gateway(source, edge, active_low);
            }
            1 => script.set_line(source, true),
            2 => script.set_line(source, false),
            // Up and down leaves a latch, for a level source too.
            3 => {
                script.set_active(source, true);
                script.set_active(source, false);
                if random.coin() {
                    script.set_gateway(source, true, random.coin());
                }
            }
            4 => script.clear(source),
            5 => {
                script.set_active(source, true);
                script.clear(source);
            }
            // The polarity makes the line active, then inactive again.
            6 => {
                let state = script.machine.source(source as usize).clone();
                script.set_gateway(source, state.edge, !state.active_low);
                if random.coin() {
                    script.look_at(source);
                }
                script.set_gateway(source, random.coin(), state.active_low);
            }
            _ => {
                let (low, high) = (random.coin(), random.coin());
                script.set_gateway(source, high, low);
                script.set_enable(source, true);
                script.set_rank(source, random.rank(0, 15));
                script.capture();
                script.read_claim();
            }
        }
        if random.chance(3, 4) {
            script.look_at(source);
        }
    }
    script.audit();
    finish(script)
}

/// Writes of meicurpl with and without handlers.
fn current(random: &mut Random, limits: Limits) -> Vec<u8> {
    let mut script = Script::new(random, limits);
    script.set_mask(1);
    if random.chance(1, 3) {
        script.reverse();
    }
    for _ in 0..random.between(5, 60) {
        match random.below(6) {
            0 | 1 => {
                let rank = script.a_rank();
                script.set_current(rank);
                script.csr_read(MEICURPL);
            }
            2 => {
                script.set_priord(random.coin());
                if random.coin() {
                    script.set_threshold(Rank::LOWEST);
                }
            }
            3 => {
                script.take();
            }
            _ => script.serve(),
        }
    }
    script.unwind();
    script.csr_read(MEICURPL);
    script.csr_write(MEICURPL, random.word());
    script.csr_read(MEICURPL);
    script.audit();
    finish(script)
}

fn mask(random: &mut Random, limits: Limits) -> Vec<u8> {
    let mut script = Script::new(random, limits);
    for _ in 0..random.between(5, 60) {
        match random.below(7) {
            0 => {
                script.set_mask(0);
            }
            1 => {
                script.set_mask(1);
            }
            2 => {
                let values = [
                    2,
                    3,
                    0x10,
                    0x100,
                    0x10000,
                    0x8000_0000,
                    u32::MAX - 1,
                    u32::MAX,
                ];
                script.set_mask(random.pick(&values));
            }
            3 => {
                script.take();
                script.set_mask(random.below(3));
            }
            4 => {
                let kind = random.pick(&[TAKE, OPEN, CHAIN, RETURN, LOOK]);
                script.event(kind, 0, 0);
            }
            5 => {
                let number = script.a_number();
                script.commit(number);
            }
            _ => script.serve(),
        }
    }
    script.audit();
    finish(script)
}

/// Many pending sources of few ranks: the winner by rank, then by number.
fn ties(random: &mut Random, limits: Limits) -> Vec<u8> {
    let mut script = Script::new(random, limits);
    let high = random.rank(1, 15);
    let low = random.rank(0, high.0);
    let count = script.count();
    let step = random.between(1, 1 + count / 12);
    let mut source = random.between(1, step);
    while source <= count {
        script.set_rank(source, random.pick(&[low, high]));
        if random.chance(3, 4) {
            script.set_enable(source, true);
        }
        source += step;
    }
    for _ in 0..random.between(5, 40) {
        match random.below(4) {
            0 => script.random_sample(),
            1 => {
                let winner = script.machine.winner().0 as u32;
                if winner > 0 {
                    script.quiet(winner);
                }
            }
            2 => {
                let source = random.between(1, count);
                script.set_rank(source, high);
                script.set_enable(source, true);
            }
            _ => {
                let source = random.between(1, count);
                script.set_line(source, random.coin());
            }
        }
        script.capture();
        script.read_claim();
    }
    script.set_mask(1);
    script.take();
    script.audit();
    finish(script)
}

/// Equals on both sides of the splits of a comparator tree. Captures, takes and chains find the
/// winner among them, while ranks, enables, lines and the order change.
fn ties_both_sides(random: &mut Random, limits: Limits) -> Vec<u8> {
    let count = count_to_split(random, limits);
    let mut script = Script::with_count(random, count, limits.events);
    if random.chance(3, 4) {
        script.set_base();
    }
    for _ in 0..random.between(2, 5) {
        settle(&mut script, random);
        script.lower_bars();
        match random.below(3) {
            0 => captured_equals(&mut script, random),
            1 => chained_equals(&mut script, random),
            _ => nested_equals(&mut script, random),
        }
        // Often the record ends with handlers still open.
        if script.full() || random.chance(1, 8) {
            break;
        }
        script.unwind();
    }
    if random.chance(1, 4) {
        script.set_threshold(random.rank(0, 15));
    }
    finish(script)
}

/// N at a power of two or beside one, or odd.
fn count_to_split(random: &mut Random, limits: Limits) -> u32 {
    let mut edges = vec![
        2, 3, 4, 5, 7, 8, 9, 15, 16, 17, 31, 32, 33, 63, 64, 65, 127, 128, 129, 254, 255,
    ];
    edges.retain(|&count| count <= limits.sources);
    if random.chance(3, 4) {
        random.pick(&edges)
    } else {
        random.between(2, limits.sources - 1) | 1
    }
}

/// Sources on both sides of some splits on the way down from the middle, or from the middle of the
/// numbers 0 to a power of two. Often the first and the last source are among them.
fn beside_splits(random: &mut Random, count: u32) -> Vec<u32> {
    let (mut low, mut high) = if random.coin() {
        (1, count)
    } else {
        (0, (count + 1).next_power_of_two() - 1)
    };
    let mut chosen = Vec::new();
    while low < high {
        let left = (high - low + 1 + random.below(2)) / 2;
        let middle = low + left;
        if random.chance(1, 2) {
            let (before, after) = (
                random.between(low, middle - 1),
                random.between(middle, high),
            );
            chosen.push(random.pick(&[before, middle - 1]));
            chosen.push(random.pick(&[after, middle]));
        }
        (low, high) = random.pick(&[(low, middle - 1), (middle, high)]);
    }
    chosen.retain(|source| (1..=count).contains(source));
    if chosen.len() < 2 || random.chance(1, 3) {
        chosen.extend([count, 1]);
    }
    chosen
}

/// Requests of one rank on both sides of some splits, and which sources they are of.
fn raise_equals(script: &mut Script, random: &mut Random, rank: Rank) -> Vec<u32> {
    let equals = beside_splits(random, script.count());
    for _ in 0..random.below(4) {
        bystander(script, random, rank);
    }
    for &source in &equals {
        if random.chance(1, 4) {
            let (edge, active_low) = (random.coin(), random.coin());
            script.set_gateway(source, edge, active_low);
        }
        script.request(source, rank);
    }
    equals
}

/// A source that doesn't win over requests of a rank: of a lower one, or not eligible.
fn bystander(script: &mut Script, random: &mut Random, rank: Rank) {
    let any = random.between(1, script.count());
    let source = random.pick(&[1, any, any, script.count()]);
    let high = random.pick(&[rank, rank.higher()]);
    match random.below(4) {
        0 => script.request(source, rank.lower()),
        1 => script.request(source, Rank::LOWEST),
        2 => {
            script.request(source, high);
            script.set_enable(source, false);
        }
        _ => {
            script.quiet(source);
            script.set_rank(source, high);
            script.set_enable(source, true);
        }
    }
}

/// One of the equals leaves, often the winner, or comes back, or one source goes above them, or the
/// order turns.
fn change_equals(script: &mut Script, random: &mut Random, equals: &[u32]) {
    let (winner, rank) = script.machine.winner();
    let one = random.pick(equals);
    let above = random.pick(&[one, 1, script.count()]);
    let leaving = if winner > 0 && random.chance(2, 3) {
        winner as u32
    } else {
        one
    };
    match random.below(12) {
        0..=2 => script.quiet(leaving),
        3 => script.set_enable(leaving, false),
        4 => script.set_rank(leaving, rank.lower()),
        5 => script.request(above, rank.higher()),
        6 => script.random_sample(),
        7 => {
            let switched = script.switch().refusal == 0;
            if switched && random.coin() {
                script.lower_bars();
            }
        }
        _ => script.request(one, rank.max(Rank(1))),
    }
}

/// Captures, with a change between any two. Equals of a lower rank may win in the other order.
fn captured_equals(script: &mut Script, random: &mut Random) {
    let rank = random.rank(2, 15);
    let mut equals = Vec::new();
    if random.coin() {
        equals.extend(raise_equals(script, random, rank.lower()));
    }
    equals.extend(raise_equals(script, random, rank));
    for _ in 0..random.between(4, 16) {
        script.capture();
        script.read_claim();
        change_equals(script, random, &equals);
    }
    script.take();
}

/// A take, and chains to the other equals; some of them leave and come back.
fn chained_equals(script: &mut Script, random: &mut Random) {
    let rank = random.rank(1, 15);
    let equals = raise_equals(script, random, rank);
    script.take();
    if random.chance(3, 4) {
        script.open();
        script.set_mask(0);
    }
    for _ in 0..random.between(2, 12) {
        let serving = script.machine.handlers.last().map(|top| top.source as u32);
        if let Some(source) = serving.filter(|_| random.chance(3, 4)) {
            script.quiet(source);
        }
        if random.chance(1, 3) {
            change_equals(script, random, &equals);
        }
        if random.chance(1, 3) {
            script.request(random.pick(&equals), rank);
        }
        script.chain();
        if random.chance(1, 3) {
            script.read_claim();
        }
    }
}

/// Handlers of rising ranks, each taken from among equals.
fn nested_equals(script: &mut Script, random: &mut Random) {
    let (step, levels) = (random.between(1, 3), random.between(1, 4));
    let ranks = rising_ranks(random).into_iter().step_by(step as usize);
    for rank in ranks.take(levels as usize) {
        raise_equals(script, random, rank);
        script.take();
        if random.chance(1, 3) {
            script.chain();
        }
        script.open();
        // None of the others is taken.
        if random.chance(1, 4) {
            script.take();
        }
    }
}

/// Claims, with the base changed before and after.
fn claims(random: &mut Random, limits: Limits) -> Vec<u8> {
    let mut script = Script::new(random, limits);
    for _ in 0..random.between(5, 60) {
        match random.below(7) {
            0 => {
                script.set_base();
                script.csr_read(MEIHAP);
                script.csr_read(MEIVT);
            }
            1 => {
                script.capture();
                script.read_claim();
            }
            2 => {
                let value = random.word();
                script.csr_write(MEICIDPL, value);
                script.read_claim();
            }
            3 => {
                script.csr_read(MEICPCT);
            }
            4 => {
                let (source, rank) = (script.a_source(), script.a_rank());
                script.request(source, rank);
            }
            5 => {
                // What is claimed stays when the source falls silent.
                let winner = script.machine.winner().0 as u32;
                if winner > 0 {
                    script.quiet(winner);
                    script.csr_read(MEIHAP);
                }
            }
            _ => script.serve(),
        }
    }
    script.audit();
    finish(script)
}

/// A capture after every change of any source.
fn winners(random: &mut Random, limits: Limits) -> Vec<u8> {
    let mut script = Script::new(random, limits);
    let count = script.count();
    for _ in 0..random.between(20, 150) {
        let leader = script.machine.winner().0 as u32;
        // Half of the changes are about the winner of the moment.
        let source = if leader > 0 && random.coin() {
            leader
        } else {
            random.between(1, count)
        };
        let state = script.machine.source(source as usize).clone();
        match random.below(10) {
            0 => script.set_rank(source, random.rank(0, 15)),
            1 => script.set_enable(source, !state.enabled),
            2 => script.set_gateway(source, !state.edge, state.active_low),
            3 => script.set_gateway(source, state.edge, !state.active_low),
            4 => script.clear(source),
            5 => script.set_line(source, !state.line),
            6 => script.quiet(source),
            7 => {
                script.set_priord(random.coin());
            }
            8 => script.random_sample(),
            _ => script.request(source, random.rank(1, 15)),
        }
        script.capture();
        script.read_claim();
    }
    script.audit();
    finish(script)
}

/// Registers and lines of the sources just above N.
fn beyond(random: &mut Random, limits: Limits) -> Vec<u8> {
    let mut script = Script::new(random, limits);
    if random.coin() {
        script.set_priord(true);
    }
    let count = script.count();
    for _ in 0..random.between(3, 30) {
        let near = (count + random.below(4)).saturating_sub(1).max(1);
        script.store(4 * near, random.word());
        script.store(0x2000 + 4 * near, random.word() | 1);
        script.store(0x4000 + 4 * near, random.word());
        script.sample((near / 32).min(7), random.word());
        script.look_at(near.min(255));
        for page in [0, 0x2000, 0x4000, 0x5000] {
            script.load(page + 4 * near);
        }
        if random.coin() {
            script.store(0x5000 + 4 * near, random.word());
            script.look_at(near.min(255));
        }
        script.capture();
        script.read_claim();
    }
    script.audit();
    finish(script)
}

fn samples(random: &mut Random, limits: Limits) -> Vec<u8> {
    let mut script = Script::new(random, limits);
    let count = script.count();
    for source in 1..=count {
        if random.coin() {
            script.set_rank(source, random.rank(0, 15));
            script.set_enable(source, random.chance(7, 8));
        }
        if random.chance(1, 4) {
            script.set_gateway(source, random.coin(), random.coin());
        }
    }
    for _ in 0..random.between(20, 300) {
        let word = random.below(8);
        script.sample(word, random.word() & random.word());
        script.load(0x1000 + 4 * word);
        if random.chance(1, 4) {
            script.capture();
            script.read_claim();
        }
    }
    script.audit();
    finish(script)
}

/// Bounds, counters and controls at their edges, and clocks, alone and within handlers.
fn timers(random: &mut Random, limits: Limits) -> Vec<u8> {
    let mut script = Script::new(random, limits);
    if random.chance(1, 4) {
        script.reverse();
    }
    if random.coin() {
        script.read_timers();
    }
    for _ in 0..random.between(2, 16) {
        match random.below(8) {
            0 => low_bound(&mut script, random),
            1 => disabled_above_bound(&mut script, random),
            2 => both_at_once(&mut script, random),
            3 => greatest_counts(&mut script, random),
            4 => timer_registers(&mut script, random),
            5 => clocks_in_handlers(&mut script, random),
            6 => script.wander(&EVEN, 10),
            _ => {
                for _ in 0..random.between(5, 20) {
                    script.timer_step();
                }
            }
        }
        if random.coin() {
            script.read_timers();
        }
    }
    script.audit();
    let mut record = script.record();
    if random.chance(1, 6) {
        spoil_clock(&mut record, random);
    }
    bytes_of(&record)
}

/// Gives one of the clocks an address or a value.
fn spoil_clock(record: &mut Record, random: &mut Random) {
    let clocks = record
        .events
        .iter_mut()
        .filter(|event| event.kind() == CLOCK);
    let mut clocks: Vec<&mut Event> = clocks.collect();
    if !clocks.is_empty() {
        let place = random.below(clocks.len() as u32) as usize;
        use_unused(clocks[place], random);
    }
}

/// A low bound, and clocks for two rounds and more.
fn low_bound(script: &mut Script, random: &mut Random) {
    let timer = random.below(2) as usize;
    let bound = random.below(6);
    script.set_bound(timer, bound);
    if random.coin() {
        script.set_counter(timer, random.below(bound + 3));
    }
    script.set_control(timer, random.below(8) | 1);
    for _ in 0..2 * bound + 3 {
        script.clock();
        if random.coin() {
            script.csr_read(MITCNT[timer]);
        }
    }
}

/// A disabled timer at or above its bound, or just below it, where it stays.
fn disabled_above_bound(script: &mut Script, random: &mut Random) {
    let timer = random.below(2) as usize;
    let bound = script.a_bound();
    script.set_control(timer, 2 * random.below(4));
    script.set_bound(timer, bound);
    let count = match random.below(6) {
        0 => bound.saturating_sub(1),
        1 => bound,
        2 => u32::MAX,
        _ => bound.saturating_add(random.between(1, 1000)),
    };
    script.set_counter(timer, count);
    for _ in 0..random.between(1, 3) {
        script.clock();
        script.csr_read(MITCNT[timer]);
    }
}

/// Both timers reach their bounds after the same number of clocks.
fn both_at_once(script: &mut Script, random: &mut Random) {
    let clocks = random.below(4);
    for timer in 0..2 {
        let bound = script.a_bound().max(clocks);
        script.set_bound(timer, bound);
        script.set_counter(timer, bound - clocks);
        script.set_control(timer, random.below(8) | 1);
    }
    for _ in 0..=clocks {
        script.clock();
    }
    script.read_timers();
}

/// Counters and bounds at the end of their range.
fn greatest_counts(script: &mut Script, random: &mut Random) {
    let timer = random.below(2) as usize;
    script.set_bound(timer, u32::MAX - random.below(2));
    script.set_counter(timer, u32::MAX - random.below(4));
    script.set_control(timer, random.below(8) | u32::from(random.coin()));
    for _ in 0..random.between(1, 5) {
        script.clock();
        script.csr_read(MITCNT[timer]);
    }
}

/// Any word into any of the six, and what all of them hold then.
fn timer_registers(script: &mut Script, random: &mut Random) {
    for _ in 0..random.between(1, 4) {
        script.csr_write(random.pick(&TIMER_CSRS), random.word());
        script.read_timers();
        if random.coin() {
            script.clock();
            script.read_timers();
        }
    }
}

/// Clocks between the takes, opens and returns of some handlers.
fn clocks_in_handlers(script: &mut Script, random: &mut Random) {
    if random.coin() {
        for timer in 0..2 {
            script.set_bound(timer, random.below(6));
        }
    }
    for _ in 0..random.between(1, 6) {
        script.set_mask(1);
        script.provoke();
        for kind in [TAKE, OPEN] {
            script.event(kind, 0, 0);
            for _ in 0..random.below(3) {
                script.clock();
            }
        }
    }
    while !script.machine.handlers.is_empty() && !script.full() {
        script.set_mask(0);
        if random.chance(1, 3) {
            script.chain();
        }
        script.clock();
        script.give_back();
        if random.chance(1, 8) {
            break;
        }
    }
}

/// Thresholds and counts at their edges, and errors, alone, beside clocks and within handlers.
fn errors(random: &mut Random, limits: Limits) -> Vec<u8> {
    let mut script = Script::new(random, limits);
    if random.chance(1, 4) {
        script.reverse();
    }
    if random.coin() {
        script.read_all_errors();
    }
    for _ in 0..random.between(4, 18) {
        match random.below(13) {
            0 => held_thresholds(&mut script, random),
            1 | 2 => over_the_end(&mut script, random),
            3 | 4 => selected_bits(&mut script, random),
            5 => every_phase(&mut script, random),
            6 => three_counters(&mut script, random),
            7 => error_registers(&mut script, random),
            8 => beside_error_csrs(&mut script, random),
            9 => errors_and_clocks(&mut script, random),
            10 => errors_in_handlers(&mut script, random),
            11 => script.wander(&EVEN, 10),
            _ => {
                for _ in 0..random.between(5, 20) {
                    script.error_step();
                }
            }
        }
        if random.coin() {
            script.read_all_errors();
        }
    }
    script.audit();
    let mut record = script.record();
    if random.chance(2, 5) {
        spoil_error(&mut record, random);
    }
    bytes_of(&record)
}

/// Errors in one counter, which is read after most of them.
fn count_errors(script: &mut Script, random: &mut Random, counter: u32, errors: u32) {
    for _ in 0..errors {
        script.error(counter);
        if random.chance(2, 3) {
            script.read_errors(counter);
        }
    }
}

/// Thresholds at the ends of the range and above it, read back, and an error by what is held.
fn held_thresholds(script: &mut Script, random: &mut Random) {
    let counter = random.below(3);
    for _ in 0..random.between(2, 6) {
        let threshold = random.pick(&[0, 1, 25, 26, 27, 28, 29, 30, 31]);
        let bit = threshold.min(HIGHEST_THRESHOLD);
        // Nearly all bits, the selected one alone, all others, or any.
        let counts = [COUNT_END - 2, 1 << bit, COUNT_END - 1 - (1 << bit)];
        let count = match random.below(4) {
            0 => random.word() % COUNT_END,
            _ => random.pick(&counts),
        };
        script.set_errors(counter, threshold, count);
        script.read_errors(counter);
        count_errors(script, random, counter, 1);
    }
}

/// Counts just below 2^27, and errors that take them to 0 and on.
fn over_the_end(script: &mut Script, random: &mut Random) {
    for _ in 0..random.between(1, 3) {
        let counter = random.below(3);
        let threshold = match random.below(3) {
            0 => random.pick(&[0, 26]),
            _ => random.below(32),
        };
        let missing = random.between(1, 3);
        script.set_errors(counter, threshold, COUNT_END - missing);
        script.read_errors(counter);
        let errors = missing + random.below(3);
        count_errors(script, random, counter, errors);
    }
}

/// Counts just below one at which the selected bit changes, and errors to there and on.
fn selected_bits(script: &mut Script, random: &mut Random) {
    for _ in 0..random.between(2, 4) {
        let counter = random.below(3);
        let threshold = random.below(27);
        let bit = 1 << threshold;
        // The bits above change nothing.
        let above = (random.word() % COUNT_END) & !(2 * bit - 1);
        let change = random.pick(&[bit, 2 * bit]);
        let missing = random.between(1, 3).min(change);
        script.set_errors(counter, threshold, above + change - missing);
        let errors = missing + random.between(1, 2);
        count_errors(script, random, counter, errors);
    }
}

/// A low bit from 0 to 1 and back, twice, with an answer at every error.
fn every_phase(script: &mut Script, random: &mut Random) {
    let counter = random.below(3);
    let threshold = random.below(3);
    let above = (random.word() % COUNT_END) & !7;
    script.set_errors(counter, threshold, above + random.below(8));
    let errors = (4 << threshold) + 1;
    count_errors(script, random, counter, errors);
}

/// Errors in all three by turns; after each, all three are read.
fn three_counters(script: &mut Script, random: &mut Random) {
    for counter in 0..3 {
        let threshold = script.a_threshold();
        let count = script.an_error_count(threshold);
        script.set_errors(counter, threshold, count);
    }
    script.read_all_errors();
    for _ in 0..random.between(3, 9) {
        script.error(random.below(3));
        script.read_all_errors();
    }
}

/// Any word into any of the three, and what all of them hold then.
fn error_registers(script: &mut Script, random: &mut Random) {
    for _ in 0..random.between(1, 4) {
        script.csr_write(random.pick(&ERROR_CSRS), random.word());
        script.read_all_errors();
        if random.coin() {
            script.error(random.below(3));
            script.read_all_errors();
        }
    }
}

/// CSRs beside those of the counters, and addresses of errors that name no counter.
fn beside_error_csrs(script: &mut Script, random: &mut Random) {
    for _ in 0..random.between(3, 8) {
        let real = random.pick(&ERROR_CSRS);
        let address = match random.below(4) {
            0 | 1 => random.pick(&[0x7EF, 0x7F3, 0x7F4, 0x7F8, 0x7D8]),
            2 => real ^ 1 << random.below(16),
            _ => real,
        };
        match random.below(3) {
            0 => {
                script.csr_read(address);
            }
            1 => {
                script.csr_write(address, random.word());
            }
            _ => {
                let address = script.no_counter();
                script.error(address);
            }
        }
    }
    script.read_all_errors();
}

/// Clocks and errors by turns; neither changes what the other counts.
fn errors_and_clocks(script: &mut Script, random: &mut Random) {
    for timer in 0..2 {
        script.set_bound(timer, random.below(6));
    }
    for _ in 0..random.between(2, 5) {
        if random.coin() {
            script.clock();
        } else {
            script.error(random.below(3));
        }
        script.read_timers();
        script.read_all_errors();
    }
}

/// A few errors in any of the counters, now and then in none of them.
fn some_errors(script: &mut Script, random: &mut Random) {
    for _ in 0..random.below(4) {
        let counter = if random.chance(1, 6) {
            script.no_counter()
        } else {
            random.below(3)
        };
        script.error(counter);
    }
}

/// Errors between the takes, opens, chains and returns of some handlers.
fn errors_in_handlers(script: &mut Script, random: &mut Random) {
    for counter in 0..3 {
        script.set_errors(counter, random.below(3), random.below(8));
    }
    for _ in 0..random.between(1, 5) {
        script.set_mask(1);
        script.provoke();
        for kind in [TAKE, OPEN] {
            script.event(kind, 0, 0);
            some_errors(script, random);
        }
    }
    while !script.machine.handlers.is_empty() && !script.full() {
        script.set_mask(0);
        some_errors(script, random);
        if random.coin() {
            chain_variants(script, random);
            some_errors(script, random);
        }
        script.give_back();
        some_errors(script, random);
        if random.chance(1, 8) {
            break;
        }
    }
    script.read_all_errors();
}

/// Puts in an error that the reader refuses for a value beside an address of any sort, or an event
/// of a kind above all kinds.
fn spoil_error(record: &mut Record, random: &mut Random) {
    let mut event = Event::new(ERROR, address_of_error(random), 0);
    if random.chance(2, 3) {
        use_unused(&mut event, random);
    } else {
        let above = KINDS - ERROR;
        event.head += random.pick(&[above, above, above, above + 1, 16, 0x100, 0x8000]) << 16;
    }
    let place = random.below(record.events.len() as u32) as usize;
    record.events[place] = event;
}

// Damaged records.

pub(crate) fn small_record(random: &mut Random, limits: Limits) -> Record {
    let mut script = Script::new(random, limits);
    script.room = random.between(0, 12) as usize;
    script.wander(&EVEN, 12);
    script.record()
}

fn truncated(random: &mut Random, limits: Limits) -> Vec<u8> {
    let mut bytes = bytes_of(&small_record(random, limits));
    let cut = match random.below(4) {
        0 => 1,
        1 => 4,
        2 => 8,
        _ => random.between(1, bytes.len() as u32),
    };
    bytes.truncate(bytes.len() - (cut as usize).min(bytes.len()));
    bytes
}

fn extended(random: &mut Random, limits: Limits) -> Vec<u8> {
    let mut bytes = bytes_of(&small_record(random, limits));
    let more = match random.below(4) {
        0 => 1,
        1 => 4,
        2 => 8,
        _ => random.between(1, 200),
    };
    let zeros = random.coin();
    for _ in 0..more {
        bytes.push(if zeros { 0 } else { random.word() as u8 });
    }
    bytes
}

fn put_word(bytes: &mut [u8], place: usize, word: u32) {
    bytes[4 * place..4 * place + 4].copy_from_slice(&word.to_le_bytes());
}

fn wrong_count(random: &mut Random, limits: Limits) -> Vec<u8> {
    let record = small_record(random, limits);
    let count = record.events.len() as u32;
    let most = limits.events as u32;
    let mut bytes = bytes_of(&record);
    let wrong = match random.below(6) {
        0 => count + 1,
        1 => count.wrapping_sub(1),
        2 => random.pick(&[most - 1, most, most + 1, most + 2]),
        3 => count.swap_bytes(),
        4 => count | 1 << random.between(8, 31),
        _ => random.below(2 * most),
    };
    put_word(&mut bytes, 0, wrong);
    bytes
}

/// Counts whose length would fit if it were taken modulo a power of 2.
fn huge_count(random: &mut Random, limits: Limits) -> Vec<u8> {
    let record = small_record(random, limits);
    let count = record.events.len() as u32;
    let mut bytes = bytes_of(&record);
    let wrong = match random.below(5) {
        0 => count + 0x2000_0000,
        1 => count + 0x2000_0000 * random.between(1, 7),
        2 => u32::MAX - random.below(4),
        3 => count + 0x1_0000,
        _ => count | 0x8000_0000,
    };
    put_word(&mut bytes, 0, wrong);
    bytes
}

fn bad_sources(random: &mut Random, limits: Limits) -> u32 {
    match random.below(6) {
        0..=2 => random.pick(&[0, 1, limits.sources + 1, limits.sources + 2, u32::MAX]),
        3 => random.between(2, 255) << (8 * random.between(1, 3)),
        4 => random.between(2, 255) | 1 << random.between(8, 31),
        _ => random.word() | 0x100,
    }
}

fn wrong_sources(random: &mut Random, limits: Limits) -> Vec<u8> {
    let mut bytes = bytes_of(&small_record(random, limits));
    let wrong = bad_sources(random, limits);
    put_word(&mut bytes, 1, wrong);
    bytes
}

/// Bits flipped anywhere, or only where the reader still takes the record.
fn flipped(random: &mut Random, limits: Limits) -> Vec<u8> {
    if random.coin() {
        return flipped_events(random, limits);
    }
    let mut bytes = bytes_of(&small_record(random, limits));
    for _ in 0..random.between(1, 3) {
        let place = random.below(bytes.len() as u32) as usize;
        bytes[place] ^= 1 << random.below(8);
    }
    bytes
}

/// Kinds, addresses and values flipped with no look at the state; the unused parts stay 0.
fn flipped_events(random: &mut Random, limits: Limits) -> Vec<u8> {
    let mut record = with_events(random, limits);
    let mut flips = random.between(1, 6);
    while flips > 0 {
        let place = random.below(record.events.len() as u32) as usize;
        let mut event = record.events[place];
        if random.coin() {
            event.head ^= 1 << random.below(20);
        } else {
            event.value ^= 1 << random.below(32);
        }
        if event.action().is_ok() {
            record.events[place] = event;
            flips -= 1;
        }
    }
    bytes_of(&record)
}

fn tiny(random: &mut Random, limits: Limits) -> Vec<u8> {
    let size = random.below(10) as usize;
    let mut bytes = lay_out(random.below(2), choose_count(random, limits), &[0], &[0]);
    if random.chance(1, 4) {
        bytes = (0..size).map(|_| random.word() as u8).collect();
    }
    bytes.truncate(size);
    bytes
}

/// Input that is longer than the longest record.
fn too_long(random: &mut Random, limits: Limits) -> Vec<u8> {
    let (longest, most) = (limits.longest(), limits.events as u32);
    let mut bytes = vec![0; longest];
    let (count, extra) = match random.below(5) {
        0 => (most, random.pick(&[1, 2, 4, 7, 8, 9])),
        1 => (most + 1, 8),
        2 => (most, random.between(1, 5000)),
        3 => (random.below(most + 100), random.between(1, 150_000)),
        _ => (0, random.between(1, 40_000)),
    };
    put_word(&mut bytes, 0, count);
    put_word(&mut bytes, 1, choose_count(random, limits));
    if random.chance(1, 8) {
        put_word(&mut bytes, 1, bad_sources(random, limits));
    }
    bytes.resize(longest + extra as usize, random.word() as u8);
    bytes
}

pub(crate) fn bad_kind(random: &mut Random) -> u32 {
    match random.below(5) {
        0 => KINDS,
        1 => random.pick(&[KINDS + 1, 16, 17, 0x100, 0x8000, 0xFFFF]),
        2 => random.below(KINDS) | 1 << random.between(4, 15),
        3 => random.below(KINDS) << 8 | 0x1000,
        _ => random.between(KINDS, 0xFFFF),
    }
}

/// The address of an error: a counter's or another.
fn address_of_error(random: &mut Random) -> u32 {
    random.pick(&[0, 1, 2, 3, 3, 3, 4, 0x7F0, 0xFFFF])
}

/// The number of a commit: a source or not.
fn number_of_commit(random: &mut Random) -> u32 {
    random.pick(&[0, 1, 2, 3, 255, 256, 0x8001, 0xFFFF])
}

/// An event of any kind, with no address and no value; an error or a commit may have an address.
pub(crate) fn bare_event(random: &mut Random) -> Event {
    let any = random.below(KINDS);
    let kind = random.pick(&[ERROR, LOOK, COMMIT, any, any, any, any, any]);
    let address = match kind {
        ERROR => address_of_error(random),
        COMMIT => number_of_commit(random),
        _ => 0,
    };
    Event::new(kind, address, 0)
}

/// Sets an unused part of an event, if its kind has one.
pub(crate) fn use_unused(event: &mut Event, random: &mut Random) {
    let bit = 1 << random.below(16);
    let kind = event.kind();
    let unused_value = matches!(
        kind,
        LOAD | CSR_READ | TAKE | OPEN | CHAIN | RETURN | CLOCK | ERROR | LOOK | COMMIT
    );
    let unused_address = kind >= TAKE && kind != ERROR && kind != COMMIT;
    if unused_value && (!unused_address || random.coin()) {
        event.value |= bit << (16 * random.below(2));
    } else if unused_address {
        event.head |= bit;
    }
}

pub(crate) fn with_events(random: &mut Random, limits: Limits) -> Record {
    let mut script = Script::new(random, limits);
    script.room = random.between(1, 30) as usize;
    script.wander(&EVEN, 30);
    script.record()
}

fn unknown_kind(random: &mut Random, limits: Limits) -> Vec<u8> {
    let mut record = with_events(random, limits);
    for _ in 0..random.between(1, 2) {
        let place = random.below(record.events.len() as u32) as usize;
        let event = &mut record.events[place];
        *event = Event {
            head: bad_kind(random) << 16 | event.address(),
            value: event.value,
        };
        // Kind before unused parts.
        if random.coin() {
            event.value = random.word();
        }
    }
    bytes_of(&record)
}

fn unused_parts(random: &mut Random, limits: Limits) -> Vec<u8> {
    let mut record = with_events(random, limits);
    for _ in 0..random.between(1, 4) {
        let place = random.below(record.events.len() as u32) as usize;
        let event = &mut record.events[place];
        if random.coin() {
            *event = bare_event(random);
        }
        use_unused(event, random);
    }
    bytes_of(&record)
}

/// An unknown kind and a used unused part; the earlier event decides.
fn kind_and_unused(random: &mut Random, limits: Limits) -> Vec<u8> {
    let mut record = with_events(random, limits);
    for _ in 0..2 {
        let place = random.between(0, record.events.len() as u32) as usize;
        record.events.insert(place, unused_event(random));
        let place = random.between(0, record.events.len() as u32) as usize;
        record.events.insert(place, unknown_event(random));
    }
    bytes_of(&record)
}

/// An event that fails question 6.
fn unknown_event(random: &mut Random) -> Event {
    Event::new(bad_kind(random), 0, random.below(2))
}

/// An event that fails question 7.
fn unused_event(random: &mut Random) -> Event {
    loop {
        let mut event = bare_event(random);
        use_unused(&mut event, random);
        if event.action().is_err() {
            return event;
        }
    }
}

/// Some of the faults that the questions look for, all in one record.
fn several_faults(random: &mut Random, limits: Limits) -> Vec<u8> {
    let mut record = with_events(random, limits);
    if random.coin() {
        let place = random.below(record.events.len() as u32) as usize;
        let kind = bad_kind(random);
        record.events[place].head = kind << 16;
    }
    if random.coin() {
        let place = random.below(record.events.len() as u32) as usize;
        use_unused(&mut record.events[place], random);
    }
    let mut bytes = bytes_of(&record);
    if random.chance(1, 3) {
        let counts = [limits.events as u32 + 1, 5000, 0x10000, u32::MAX];
        put_word(&mut bytes, 0, random.pick(&counts));
    }
    if random.chance(1, 3) {
        put_word(&mut bytes, 1, bad_sources(random, limits));
    }
    match random.below(6) {
        0 => bytes.push(0),
        1 => bytes.truncate(bytes.len() - 1),
        2 => bytes.truncate(random.below(bytes.len() as u32) as usize),
        _ => {}
    }
    bytes
}

/// Random words that the reader takes, a fitting head over random words, or random bytes alone.
fn noise(random: &mut Random, limits: Limits) -> Vec<u8> {
    if random.coin() {
        return noise_of_events(random, limits);
    }
    let count = random.below(20);
    let mut bytes: Vec<u8> = (0..8 + 8 * count).map(|_| random.word() as u8).collect();
    if random.chance(3, 4) {
        put_word(&mut bytes, 0, count);
        put_word(&mut bytes, 1, choose_count(random, limits));
    }
    if random.coin() {
        // Known kinds over random addresses and values.
        for place in 0..count as usize {
            put_word(
                &mut bytes,
                2 + place,
                random.below(KINDS) << 16 | random.below(0x10000),
            );
        }
    }
    bytes
}

/// Known kinds over random words, often cut to what the kind looks at; the unused parts are 0.
/// Before them come a few events that lead somewhere.
fn noise_of_events(random: &mut Random, limits: Limits) -> Vec<u8> {
    let mut record = with_events(random, limits);
    let cut = random.below(9);
    for _ in 0..random.between(1, 100) {
        let kind = random.below(KINDS);
        let (mut address, mut value) = (random.below(0x10000), random.word());
        if random.chance(cut, 8) {
            address = match kind {
                SAMPLE => address & 7,
                LOAD | STORE => address & 0x701C,
                ERROR => address & 3,
                COMMIT => address & 7,
                _ if random.coin() => address & 0x000F | random.pick(&[0x07D0, 0x07F0]),
                _ => address & 0x0407 | 0x0BC8,
            };
            if kind == SET_MASK || random.coin() {
                value &= 1;
            }
        }
        if matches!(kind, TAKE..=CLOCK | LOOK) {
            address = 0;
        }
        if !matches!(kind, SAMPLE | STORE | CSR_WRITE | SET_MASK) {
            value = 0;
        }
        record.events.push(Event::new(kind, address, value));
    }
    bytes_of(&record)
}

/// N and n at the limits of both readers, with events and a length that fit or don't. The limits
/// themselves and what is just above come twice as often.
fn at_limits(random: &mut Random, limits: Limits) -> Vec<u8> {
    // No fault, one alone, or each more often than not.
    let alone = random.below(4);
    let faults = match random.below(7) {
        0 | 1 => [false; 4],
        2 | 3 => [0, 1, 2, 3].map(|place| place == alone),
        _ => [(); 4].map(|()| random.chance(2, 3)),
    };
    let [sources_fault, count_fault, event_fault, length_fault] = faults;

    let huge = random.pick(&[2, 63, 255]) | 1 << random.between(8, 31);
    let edges = [
        0, 1, 2, 62, 63, 63, 64, 64, 65, 254, 255, 255, 256, 256, 257, huge,
    ];
    let sources = edge(&edges, 2..=limits.sources, !sources_fault, random);
    let huge = random.pick(&[0, 1, 500, 4000]) | 1 << random.between(13, 31);
    let edges = [
        0, 1, 499, 500, 500, 501, 501, 3999, 4000, 4000, 4001, 4001, 5000, huge,
    ];
    let count = edge(&edges, 0..=limits.events as u32, !count_fault, random);

    // A huge count is over the events of its low bits.
    let mut events = many_events((count % 0x2000) as usize, sources.clamp(2, 255), random);
    if event_fault && !events.is_empty() {
        spoil_events(&mut events, random);
    }
    let mut bytes = bytes_of(&Record { sources, events });
    put_word(&mut bytes, 0, count);
    if length_fault {
        let wrong = wrong_length(bytes.len(), random);
        let byte = if random.coin() { 0 } else { random.word() };
        bytes.resize(wrong, byte as u8);
    }
    bytes
}

/// One of the edges in the range, or one outside it.
fn edge(edges: &[u32], range: RangeInclusive<u32>, inside: bool, random: &mut Random) -> u32 {
    let mut choices = edges.to_vec();
    choices.retain(|edge| range.contains(edge) == inside);
    random.pick(&choices)
}

/// So many events; from some place on they come again from the first.
fn many_events(count: usize, sources: u32, random: &mut Random) -> Vec<Event> {
    let mut script = Script::with_count(random, sources, count.min(COMPACT.events));
    fill(&mut script, random);
    script.events.iter().copied().cycle().take(count).collect()
}

/// One or two events that fail question 6 or 7, often the first or the last.
fn spoil_events(events: &mut [Event], random: &mut Random) {
    let size = events.len() as u32;
    for _ in 0..random.between(1, 2) {
        let any = random.below(size);
        let place = random.pick(&[0, size - 1, any]);
        events[place as usize] = if random.coin() {
            unknown_event(random)
        } else {
            unused_event(random)
        };
    }
}

/// A little more or less, the sizes alone or not even they, or more than either reader's longest.
fn wrong_length(right: usize, random: &mut Random) -> usize {
    let little = random.pick(&[1, 4, 8]);
    match random.below(8) {
        0..=2 => right + little,
        3 => right - little.min(right),
        4 => 8,
        5 => random.below(8) as usize,
        6 => COMPACT.longest() + random.between(1, 9) as usize,
        _ => BOARD.longest() + random.between(1, 9) as usize,
    }
}

// Records for measurements.

/// A record of exactly `size` events, all accepted: `samples`, `mixed`, `nested` or `added`.
pub fn bench_record(name: &str, size: usize) -> Option<Vec<u8>> {
    let mut random = Random::new(0x0BE2_C41E);
    let mut script = Script::with_count(&mut random, 255, size);
    match name {
        "samples" => bench_samples(&mut script, &mut random),
        "mixed" => bench_mixed(&mut script, &mut random),
        "nested" => bench_nested(&mut script, &mut random),
        "added" => bench_added(&mut script, &mut random),
        _ => return None,
    }
    Some(finish(script))
}

/// Every source enabled and ranked, then samples; with few events, fewer sources.
fn bench_samples(script: &mut Script, random: &mut Random) {
    let sources = script.count().min(script.room as u32 / 4);
    for source in 1..=sources {
        script.store(4 * source, 1 + source * 7 % 15);
        script.store(0x2000 + 4 * source, 1);
    }
    let mut word = 0;
    while !script.full() {
        script.sample(word, random.word());
        word = (word + 1) % 8;
    }
}

fn bench_mixed(script: &mut Script, random: &mut Random) {
    script.focus = (1..=255).collect();
    while !script.full() {
        match random.below(8) {
            0 => script.sample(random.below(8), random.word() & random.word()),
            1 => script.load(0x1000 + 4 * random.below(8)),
            2 => script.load(4 * random.between(1, 255)),
            3 => script.csr_read(random.pick(&CSRS)),
            4 => {
                script.legal_store();
                continue;
            }
            5 => script.csr_write(random.pick(&[MEIVT, MEICPCT, MEICIDPL]), random.word()),
            _ => {
                script.serve();
                continue;
            }
        };
    }
}

/// Fifteen handlers up, a chain or two at each on the way down, again and again.
fn bench_nested(script: &mut Script, random: &mut Random) {
    let sources: Vec<u32> = (0..30)
        .map(|place| 1 + place * 8 + random.below(8))
        .collect();
    for (place, &source) in sources.iter().enumerate() {
        script.store(4 * source, 1 + place as u32 / 2);
        script.store(0x2000 + 4 * source, 1);
    }
    script.set_mask(1);
    while !script.full() {
        // The first source of each pair starts a handler, the second is chained to it.
        for pair in sources.chunks(2) {
            script.set_active(pair[0], true);
            script.take();
            script.open();
        }
        for pair in sources.chunks(2).rev() {
            script.set_mask(0);
            script.set_active(pair[0], false);
            script.set_active(pair[1], true);
            script.chain();
            script.set_active(pair[1], false);
            script.chain();
            script.give_back();
        }
    }
}

/// Clocks, errors, looks and commits: both timers run, each counter counts in turn, and in one
/// handler two sources of a rank are committed by turns.
fn bench_added(script: &mut Script, random: &mut Random) {
    let pair = [random.between(1, 127), random.between(128, 255)];
    for source in pair {
        script.store(4 * source, 5);
        script.store(0x2000 + 4 * source, 1);
    }
    for timer in 0..2 {
        script.set_bound(timer, random.between(2, 9));
        script.set_control(timer, 1);
    }
    for counter in 0..3 {
        script.set_errors(counter, random.below(6), 0);
    }
    script.set_mask(1);
    script.set_active(pair[0], true);
    script.take();
    while !script.full() {
        for (now, next) in [(pair[0], pair[1]), (pair[1], pair[0])] {
            script.set_active(now, false);
            script.set_active(next, true);
            script.clock();
            script.error(random.below(3));
            script.look();
            script.commit(next);
        }
    }
}
