//! Bench points K1 to K10.

mod common;

use common::*;
use reference::machine::*;
use reference::rank::{Field, Rank};

#[test]
fn k1_field_5_reads_5_and_is_rank_10_in_reverse_order() {
    let mut machine = machine(4);
    machine.store(4, 5);
    assert_eq!(machine.source_rank(1), Rank(5));
    machine.store(0x3000, 1);
    assert_eq!(machine.load(4), answer(5));
    assert_eq!(machine.source(1).field, Field(5));
    assert_eq!(machine.source_rank(1), Rank(10));
}

#[test]
fn k2_field_15_in_reverse_order_is_never_eligible() {
    let mut machine = machine(4);
    machine.store(0x3000, 1);
    machine.prepare(1, 15);
    machine.sample(0, 2);
    machine.set_mask(1);
    // Threshold and current are of rank 0 too.
    machine.csr_write(MEIPT, 15);
    machine.csr_write(MEICURPL, 15);
    assert_eq!(machine.load(0x1000), answer(2));
    assert_eq!(machine.winner(), (0, Rank(0)));
    assert_eq!(machine.take(), refused(16));
    // Switched back it is of rank 15.
    machine.store(0x3000, 0);
    assert_eq!(machine.winner(), (1, Rank(15)));
    machine.csr_write(MEIPT, 0);
    machine.csr_write(MEICURPL, 0);
    assert_eq!(machine.take(), answer(4));
}

#[test]
fn k3_equals_go_to_the_lower_number() {
    let mut machine = machine(4);
    machine.prepare(2, 5);
    machine.prepare(3, 5);
    machine.sample(0, 0b1100);
    assert_eq!(machine.winner(), (2, Rank(5)));
    machine.store(12, 6);
    assert_eq!(machine.winner(), (3, Rank(6)));
}

#[test]
fn k4_a_rank_must_be_above_the_threshold() {
    let mut machine = machine(4);
    machine.prepare(1, 5);
    machine.sample(0, 2);
    machine.set_mask(1);
    machine.csr_write(MEIPT, 5);
    assert_eq!(machine.query_margin(), Ok(0));
    assert_eq!(machine.take(), refused(16));
    machine.csr_write(MEIPT, 4);
    assert_eq!(machine.query_margin(), Ok(1));
    assert_eq!(machine.take(), answer(4));
}

#[test]
fn k5_an_edge_stays_pending_until_cleared() {
    let mut machine = machine(4);
    machine.store(0x4004, 2);
    machine.sample(0, 2);
    machine.sample(0, 0);
    assert_eq!(machine.load(0x1000), answer(2));
    machine.store(0x5004, 0);
    assert_eq!(machine.load(0x1000), answer(0));
    machine.sample(0, 2);
    machine.store(0x5004, 0);
    assert_eq!(machine.load(0x1000), answer(2));
}

#[test]
fn k6_a_level_source_leaves_a_latch() {
    let mut machine = machine(4);
    machine.sample(0, 2);
    machine.sample(0, 0);
    assert_eq!(machine.load(0x1000), answer(0));
    machine.store(0x4004, 2);
    assert_eq!(machine.load(0x1000), answer(2));
}

#[test]
fn k7_only_sources_have_registers() {
    let mut machine = machine(4);
    machine.store(0x10, 7);
    assert_eq!(machine.load(0x10), answer(7));
    assert_eq!(machine.store(0x14, 7), ACCEPTED);
    assert_eq!(machine.load(0x14), ACCEPTED);
}

#[test]
fn k8_offsets_at_the_edges() {
    let mut machine = machine(4);
    assert_eq!(machine.load(0x7FFC), answer(0));
    assert_eq!(machine.load(0x8002), refused(10));
    assert_eq!(machine.load(0x0002), refused(11));
}

#[test]
fn k9_meihap_has_the_present_base() {
    let mut machine = machine(4);
    machine.prepare(3, 1);
    machine.sample(0, 8);
    machine.csr_write(MEICPCT, 0);
    assert_eq!(machine.csr_read(MEIHAP), answer(12));
    machine.csr_write(MEIVT, 0x1234_5678);
    assert_eq!(machine.csr_read(MEIHAP), answer(0x1234_540C));
}

#[test]
fn k10_another_source_of_rank_15_is_chained() {
    let mut machine = machine(4);
    machine.prepare(1, 15);
    machine.prepare(2, 15);
    machine.set_mask(1);
    machine.sample(0, 2);
    assert_eq!(machine.take(), answer(4));
    assert_eq!(machine.open(), answer(15));
    machine.sample(0, 4);
    assert_eq!(machine.take(), refused(16));
    machine.set_mask(0);
    assert_eq!(machine.chain(), answer(8));
    assert_eq!(machine.handlers[0].source, 2);
}
