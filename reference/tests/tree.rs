//! The comparator tree: the comparator's laws, every shape against the scan, the balanced tree, and
//! the family of records about equals.

mod common;

use common::*;
use reference::event::*;
use reference::generate::{generate, FAMILIES};
use reference::machine::*;
use reference::random::Random;
use reference::rank::{Field, Rank};
use reference::record::{self, Limits, Record, BOARD, COMPACT};
use reference::tree::*;
use std::collections::{BTreeMap, BTreeSet};

fn entry(number: usize, rank: u8) -> Entry {
    let rank = Rank(rank);
    Entry { number, rank }
}

/// Numbers 0 to 3 with every rank: also (0, 0), 0 with a rank, and a number with rank 0.
fn entries() -> Vec<Entry> {
    let with = |number| (0..=15).map(move |rank| entry(number, rank));
    (0..=3).flat_map(with).collect()
}

fn assert_associative(compare: fn(Entry, Entry) -> Entry) {
    let all = entries();
    for &one in &all {
        for &two in &all {
            for &three in &all {
                let (left, right) = (compare(one, two), compare(two, three));
                let sides = (compare(left, three), compare(one, right));
                assert_eq!(sides.0, sides.1, "{one:?} {two:?} {three:?}");
            }
        }
    }
}

/// A comparator that is not the one asked for: the right one passes if its rank is not lower.
fn at_least(left: Entry, right: Entry) -> Entry {
    if right.rank >= left.rank {
        right
    } else {
        left
    }
}

/// What passes at the root with another comparator.
fn passes_by(tree: &Tree, machine: &Machine, compare: fn(Entry, Entry) -> Entry) -> Entry {
    match tree {
        Tree::Leaf(number) => entering(machine, *number),
        Tree::Empty => NO_SOURCE,
        Tree::Node(left, right) => compare(
            passes_by(left, machine, compare),
            passes_by(right, machine, compare),
        ),
    }
}

/// Every tree whose leaves from left to right are these sources.
fn every_tree(first: usize, last: usize) -> Vec<Tree> {
    if first == last {
        return vec![Tree::Leaf(first)];
    }
    let mut trees = Vec::new();
    for middle in first..last {
        let rights = every_tree(middle + 1, last);
        for left in every_tree(first, middle) {
            let with = |right: &Tree| Tree::node(left.clone(), right.clone());
            trees.extend(rights.iter().map(with));
        }
    }
    trees
}

/// The number of inputs, of sources or not.
fn inputs(tree: &Tree) -> usize {
    match tree {
        Tree::Node(left, right) => inputs(left) + inputs(right),
        _ => 1,
    }
}

/// The most comparators on the way from an input to the root.
fn depth(tree: &Tree) -> usize {
    match tree {
        Tree::Node(left, right) => 1 + depth(left).max(depth(right)),
        _ => 0,
    }
}

/// The inputs on the left and on the right of every comparator.
fn sides(tree: &Tree) -> Vec<(usize, usize)> {
    match tree {
        Tree::Node(left, right) => {
            let own = vec![(inputs(left), inputs(right))];
            [own, sides(left), sides(right)].concat()
        }
        _ => Vec::new(),
    }
}

fn numbers(count: usize) -> Vec<usize> {
    (1..=count).collect()
}

/// The winner by the words of the rules: eligible, none higher, of equals none lower in number.
fn assert_winner(machine: &Machine, found: Entry) {
    let mut rivals = numbers(machine.count());
    rivals.retain(|&number| machine.eligible(number));
    if rivals.is_empty() {
        assert_eq!(found, NO_SOURCE);
    } else {
        assert!(rivals.contains(&found.number));
        assert_eq!(found.rank, machine.source_rank(found.number));
    }
    for number in rivals {
        let rank = machine.source_rank(number);
        assert!(rank <= found.rank);
        assert!(rank < found.rank || number >= found.number);
    }
}

fn scanned(machine: &Machine) -> Entry {
    let (number, rank) = machine.winner();
    Entry { number, rank }
}

fn assert_like_the_scan(tree: &Tree, machine: &Machine) {
    let count = machine.count();
    assert_eq!(
        tree.passes(machine),
        scanned(machine),
        "N {count}, {tree:?}"
    );
}

/// What one source can be like beside others of the same two ranks.
#[derive(Clone, Copy, Debug, PartialEq, Eq)]
enum State {
    Low,
    High,
    RankZero,
    Disabled,
    Silent,
}

const STATES: [State; 5] = [
    State::Low,
    State::High,
    State::RankZero,
    State::Disabled,
    State::Silent,
];

/// Sources in these states. Those that aren't eligible are of rank 0, or of the high one.
fn machine_of(states: &[State], priord: bool, low: u8, high: u8) -> Machine {
    let mut machine = machine(states.len() as u32);
    machine.priord = priord;
    for (source, &state) in machine.sources.iter_mut().zip(states) {
        let rank = match state {
            State::Low => low,
            State::RankZero => 0,
            _ => high,
        };
        let line = state != State::Silent;
        *source = Source {
            field: Rank(rank).field(priord),
            enabled: state != State::Disabled,
            line,
            latch: line,
            ..Source::default()
        };
    }
    machine
}

/// States `index` of all that `count` sources can have together.
fn states_of(index: usize, count: usize) -> Vec<State> {
    let digits = (0..count).scan(index, |rest, _| {
        let digit = *rest % STATES.len();
        *rest /= STATES.len();
        Some(digit)
    });
    digits.map(|digit| STATES[digit]).collect()
}

/// A machine with many equals.
fn tied_machine(count: usize, priord: bool, random: &mut Random) -> Machine {
    let usual = random.pick(&STATES);
    let state = |_| {
        let other = random.pick(&STATES);
        random.pick(&[State::High, usual, other])
    };
    let states: Vec<State> = (0..count).map(state).collect();
    let low = random.rank(1, 14);
    let high = random.rank(low.0 + 1, 15);
    machine_of(&states, priord, low.0, high.0)
}

// The comparator and what enters.

#[test]
fn the_right_one_passes_only_if_its_rank_is_strictly_higher() {
    assert_eq!(comparator(entry(2, 5), entry(3, 5)), entry(2, 5));
    assert_eq!(comparator(entry(2, 5), entry(3, 6)), entry(3, 6));
    assert_eq!(comparator(entry(2, 5), entry(3, 4)), entry(2, 5));
    // Numbers aren't compared: of equals it is the left one.
    assert_eq!(comparator(entry(3, 5), entry(2, 5)), entry(3, 5));
    assert_eq!(comparator(entry(3, 15), NO_SOURCE), entry(3, 15));
    assert_eq!(comparator(NO_SOURCE, entry(3, 1)), entry(3, 1));
    assert_eq!(comparator(NO_SOURCE, NO_SOURCE), entry(0, 0));
    for left in entries() {
        for right in entries() {
            let passed = comparator(left, right);
            assert_eq!(passed.rank, left.rank.max(right.rank));
            assert_eq!(passed == left, left == right || right.rank <= left.rank);
        }
    }
}

#[test]
fn the_comparator_is_associative() {
    assert_associative(comparator);
}

/// Associative alone is not enough: this one gives the highest number among equals.
#[test]
fn at_least_is_associative_but_not_the_winner() {
    assert_associative(at_least);
    let mut random = Random::new(61);
    let mut others = 0;
    for count in 2..=7 {
        for round in 0..40 {
            let machine = tied_machine(count, round % 2 == 1, &mut random);
            let (_, rank) = machine.winner();
            let highest = |&number: &usize| entering(&machine, number).rank == rank;
            let last = (1..=count).rev().find(highest).unwrap();
            let expected = entering(&machine, last);
            for tree in every_tree(1, count) {
                assert_eq!(passes_by(&tree, &machine, at_least), expected);
            }
            others += u32::from(expected != scanned(&machine));
        }
    }
    assert!(others > 100, "{others}");
}

/// So inputs of no source may stand anywhere in a tree.
#[test]
fn no_source_is_neutral_but_on_the_left_of_a_number_with_rank_0() {
    for one in entries() {
        assert_eq!(comparator(one, NO_SOURCE), one);
        let passed = comparator(NO_SOURCE, one);
        if one.rank > Rank(0) || one == NO_SOURCE {
            assert_eq!(passed, one);
        } else {
            // The number is lost. No source enters so.
            assert_ne!(one.number, 0);
            assert_eq!(passed, NO_SOURCE);
        }
    }
}

#[test]
fn a_source_enters_with_its_rank_if_eligible() {
    for priord in [false, true] {
        let machine = machine_of(&STATES, priord, 5, 12);
        let entered = numbers(5).into_iter().map(|each| entering(&machine, each));
        let expected = [entry(1, 5), entry(2, 12), NO_SOURCE, NO_SOURCE, NO_SOURCE];
        assert_eq!(entered.collect::<Vec<_>>(), expected);
    }
}

#[test]
fn an_edge_source_enters_while_its_latch_is_set() {
    let mut machine = machine(4);
    machine.prepare(3, 7);
    machine.store(0x400C, 2);
    machine.sample(0, 8);
    machine.sample(0, 0);
    assert_eq!(entering(&machine, 3), entry(3, 7));
    machine.store(0x500C, 0);
    assert_eq!(entering(&machine, 3), NO_SOURCE);
}

#[test]
fn ranks_are_compared_and_not_fields() {
    let mut machine = machine(4);
    for (source, field) in [(1, 9), (2, 3), (3, 3), (4, 15)] {
        machine.prepare(source, field);
    }
    machine.sample(0, 0b1_1110);
    for tree in every_tree(1, 4) {
        assert_eq!(tree.passes(&machine), entry(4, 15));
    }
    // Field 3 is rank 12 now, and field 15 is rank 0.
    machine.store(0x3000, 1);
    assert_eq!(machine.source(2).field, Field(3));
    for tree in every_tree(1, 4) {
        assert_eq!(tree.passes(&machine), entry(2, 12));
    }
    assert_eq!(entering(&machine, 4), NO_SOURCE);
}

// Shapes.

#[test]
fn there_are_as_many_small_trees_as_there_should_be() {
    for (count, trees) in [1, 1, 2, 5, 14, 42, 132, 429].into_iter().enumerate() {
        let every = every_tree(1, count + 1);
        let shapes: BTreeSet<String> = every.iter().map(|tree| format!("{tree:?}")).collect();
        assert_eq!(shapes.len(), trees);
        for tree in every {
            assert_eq!(tree.leaves(), numbers(count + 1));
        }
    }
}

#[test]
fn every_small_tree_gives_the_winner_in_every_state() {
    for count in 2..=5 {
        let trees = every_tree(1, count);
        for index in 0..STATES.len().pow(count as u32) {
            for priord in [false, true] {
                let machine = machine_of(&states_of(index, count), priord, 4, 11);
                assert_winner(&machine, scanned(&machine));
                for tree in &trees {
                    assert_like_the_scan(tree, &machine);
                }
            }
        }
    }
}

#[test]
fn every_tree_of_six_to_eight_gives_the_winner() {
    let mut random = Random::new(6);
    for count in 6..=8 {
        let trees = every_tree(1, count);
        for round in 0..600 {
            let machine = tied_machine(count, round % 2 == 1, &mut random);
            assert_winner(&machine, scanned(&machine));
            for tree in &trees {
                assert_like_the_scan(tree, &machine);
            }
        }
    }
}

/// The leaves have to be 1 to N from left to right.
#[test]
fn in_another_order_of_the_leaves_equals_go_wrong() {
    let machine = machine_of(&[State::High; 4], false, 1, 5);
    let halves = || (Tree::balanced(2), Tree::node(Tree::Leaf(3), Tree::Leaf(4)));
    let (left, right) = halves();
    let good = Tree::node(left, right);
    assert_eq!(good, Tree::balanced(4));
    assert_eq!(good.passes(&machine), entry(1, 5));
    let (left, right) = halves();
    let swapped = Tree::node(right, left);
    assert_eq!(swapped.leaves(), [3, 4, 1, 2]);
    assert_eq!(swapped.passes(&machine), entry(3, 5));
}

#[test]
fn random_shapes_have_the_leaves_1_to_n() {
    let mut random = Random::new(16);
    for count in 0..=255 {
        for shape in Shape::all() {
            let tree = shape.tree(count, &mut random);
            assert_eq!(tree.leaves(), numbers(count), "{shape:?}");
            let inputs = inputs(&tree);
            match shape.padding {
                Padding::Nowhere => assert_eq!(inputs, count.max(1)),
                Padding::Anywhere => assert!((count + 1..=2 * count + 1).contains(&inputs)),
                Padding::PowerOfTwo => assert_eq!(inputs, count.next_power_of_two()),
                Padding::PowerOfTwoFromZero => {
                    assert_eq!(inputs, (count + 1).next_power_of_two());
                }
            }
        }
    }
}

#[test]
fn random_shapes_are_split_as_their_names_say() {
    let mut random = Random::new(26);
    for count in [2, 3, 7, 8, 63, 64, 65, 255] {
        for shape in Shape::all() {
            let tree = shape.tree(count, &mut random);
            let all = sides(&tree);
            let every = |fits: fn(&(usize, usize)) -> bool| all.iter().all(fits);
            match shape.split {
                Split::LeftChain => assert!(every(|sides| sides.1 == 1)),
                Split::RightChain => assert!(every(|sides| sides.0 == 1)),
                Split::Even => assert!(every(|sides| sides.0.abs_diff(sides.1) <= 1)),
                Split::OneEnd => assert!(every(|sides| sides.0 == 1 || sides.1 == 1)),
                Split::Anywhere => {}
            }
            assert_eq!(all.len(), inputs(&tree) - 1);
        }
    }
    // Both ends, both roundings, and splits that are none of the others.
    let mut of = |split, fits: fn(&(usize, usize)) -> bool| {
        let padding = Padding::Nowhere;
        let tree = Shape { split, padding }.tree(171, &mut random);
        sides(&tree).iter().filter(|each| fits(each)).count()
    };
    for split in [Split::Even, Split::OneEnd, Split::Anywhere] {
        assert!(of(split, |sides| sides.0 > sides.1) > 10);
        assert!(of(split, |sides| sides.0 < sides.1) > 10);
    }
    let uneven = |sides: &(usize, usize)| sides.0.min(sides.1) > 1 && sides.0.abs_diff(sides.1) > 1;
    assert!(of(Split::Anywhere, uneven) > 10);
}

#[test]
fn random_shapes_give_the_winner_for_every_n() {
    let mut random = Random::new(36);
    for count in 2..=255 {
        for priord in [false, true] {
            let machine = tied_machine(count, priord, &mut random);
            assert_winner(&machine, scanned(&machine));
            assert_like_the_scan(&Tree::balanced(count), &machine);
            for shape in Shape::all() {
                assert_like_the_scan(&shape.tree(count, &mut random), &machine);
            }
        }
    }
}

/// Two equals in any two places; the other sources are silent, of the same rank.
#[test]
fn of_any_two_equals_the_lower_number_wins() {
    let mut random = Random::new(46);
    for count in [2, 3, 4, 5, 7, 8, 9, 16, 17, 31, 33] {
        let shaped = |shape: Shape| shape.tree(count, &mut random);
        let mut trees: Vec<Tree> = Shape::all().into_iter().map(shaped).collect();
        trees.push(Tree::balanced(count));
        for second in 2..=count {
            for first in 1..second {
                let mut states = vec![State::Silent; count];
                states[first - 1] = State::High;
                states[second - 1] = State::High;
                let machine = machine_of(&states, second % 2 == 1, 1, 9);
                for tree in &trees {
                    assert_eq!(tree.passes(&machine), entry(first, 9), "{second} {tree:?}");
                }
            }
        }
    }
}

#[test]
fn one_source_alone_wins_wherever_it_is() {
    let mut random = Random::new(56);
    for count in 2..=255 {
        let balanced = Tree::balanced(count);
        let other = Shape::any(&mut random).tree(count, &mut random);
        for number in 1..=count {
            let mut states = vec![State::Disabled; count];
            states[number - 1] = State::High;
            let machine = machine_of(&states, number % 2 == 1, 1, 2);
            assert_eq!(balanced.passes(&machine), entry(number, 2));
            assert_eq!(other.passes(&machine), entry(number, 2));
        }
    }
}

// Machines of generated records.

/// The record, if it is accepted.
fn accepted(bytes: &[u8], limits: Limits) -> Option<Record> {
    record::read(bytes, limits, limits.events).ok()
}

/// The balanced tree and three of any shape.
fn assert_trees_like_the_scan(machine: &Machine, balanced: &Tree, random: &mut Random) {
    assert_winner(machine, scanned(machine));
    assert_like_the_scan(balanced, machine);
    for _ in 0..3 {
        let tree = Shape::any(random).tree(machine.count(), random);
        assert_like_the_scan(&tree, machine);
    }
}

/// Plays a record, with trees held against the scan at power-on and after each event, or every few
/// events of a long record. The number of machines met.
fn compare_while_playing(record: &Record, random: &mut Random) -> u64 {
    let (mut machine, _) = Machine::power_on(record.sources);
    let balanced = Tree::balanced(machine.count());
    assert_trees_like_the_scan(&machine, &balanced, random);
    let mut machines = 1;
    let stride = 1 + record.events.len() / 400;
    for (index, &event) in record.events.iter().enumerate() {
        machine.play(event);
        if index % stride == 0 {
            assert_trees_like_the_scan(&machine, &balanced, random);
            machines += 1;
        }
    }
    machines
}

/// Families of which no record is accepted, or hardly one.
const REFUSED: [&str; 10] = [
    "truncated",
    "extended",
    "wrong count",
    "count near 2^32",
    "wrong sources",
    "tiny",
    "too long",
    "unknown kind",
    "kind and unused parts",
    "several faults",
];

#[test]
fn trees_give_the_winner_throughout_generated_records() {
    let mut random = Random::new(66);
    let mut machines: BTreeMap<&str, u64> = BTreeMap::new();
    let mut sizes = BTreeSet::new();
    for index in 0..6 * FAMILIES.len() as u64 {
        for limits in [BOARD, COMPACT] {
            let generated = generate(6, index, limits);
            if let Some(record) = accepted(&generated.bytes, limits) {
                let met = compare_while_playing(&record, &mut random);
                *machines.entry(generated.family).or_default() += met;
                sizes.insert(record.sources);
            }
        }
    }
    for (name, _) in FAMILIES {
        let met = machines.get(name).copied().unwrap_or(0);
        assert!(met >= 6 || REFUSED.contains(name), "{name}: {met}");
    }
    assert!(machines.values().sum::<u64>() > 50_000);
    for size in [2, 3, 4, 31, 32, 33, 63, 64, 65, 255] {
        assert!(sizes.contains(&size), "N {size}");
    }
}

// The balanced tree.

#[test]
fn the_balanced_tree_is_balanced_for_every_n() {
    for count in 0..=255 {
        let tree = Tree::balanced(count);
        assert_eq!(tree.leaves(), numbers(count));
        assert_eq!(inputs(&tree), count.max(1));
        for (left, right) in sides(&tree) {
            assert!(left.abs_diff(right) <= 1, "N {count}: {left} {right}");
        }
        assert!(depth(&tree) <= 8);
        // As few levels as there can be.
        assert_eq!(1 << depth(&tree), count.next_power_of_two());
    }
}

#[test]
fn the_balanced_tree_of_none_has_no_leaf() {
    let tree = Tree::balanced(0);
    assert_eq!(tree, Tree::Empty);
    assert_eq!(tree.leaves(), []);
    let machine = machine_of(&[State::High; 2], false, 1, 15);
    assert_eq!(tree.passes(&machine), entry(0, 0));
}

#[test]
fn with_no_source_eligible_no_source_passes() {
    let mut random = Random::new(86);
    for count in [2, 3, 5, 64, 255] {
        for state in [State::RankZero, State::Disabled, State::Silent] {
            let machine = machine_of(&vec![state; count], true, 1, 15);
            assert_eq!(Tree::balanced(count).passes(&machine), entry(0, 0));
            for shape in Shape::all() {
                let tree = shape.tree(count, &mut random);
                assert_eq!(tree.passes(&machine), entry(0, 0));
            }
        }
    }
}

#[test]
fn k3_by_the_balanced_tree_and_by_every_shape() {
    let mut machine = machine(4);
    machine.prepare(2, 5);
    machine.prepare(3, 5);
    machine.sample(0, 0b1100);
    let mut trees = every_tree(1, 4);
    assert_eq!(trees.len(), 5);
    trees.push(Tree::balanced(4));
    let mut random = Random::new(76);
    trees.extend(Shape::all().iter().map(|shape| shape.tree(4, &mut random)));
    for tree in &trees {
        assert_eq!(tree.passes(&machine), entry(2, 5));
        assert_eq!(passes_by(tree, &machine, at_least), entry(3, 5));
    }
    machine.store(12, 6);
    for tree in &trees {
        assert_eq!(tree.passes(&machine), entry(3, 6));
    }
}

// The family of records about equals.

/// The eligible sources of the winner's rank.
fn equals(machine: &Machine) -> Vec<usize> {
    let (_, rank) = machine.winner();
    let mut equals = numbers(machine.count());
    equals.retain(|&number| machine.eligible(number) && machine.source_rank(number) == rank);
    equals
}

/// Below how many comparators of the balanced tree two sources meet.
fn meeting(count: usize, one: usize, other: usize) -> usize {
    let mut tree = &Tree::balanced(count);
    let mut level = 0;
    loop {
        let (left, right) = match tree {
            Tree::Node(left, right) => (left, right),
            _ => panic!("{one} and {other} meet nowhere"),
        };
        let on = |side: &Tree| side.leaves().contains(&one) && side.leaves().contains(&other);
        if on(left) {
            tree = left;
        } else if on(right) {
            tree = right;
        } else {
            return level;
        }
        level += 1;
    }
}

/// What an event is called whose capture the print shows: by its answer, or by meihap read next.
fn shown_capture(event: Event, outcome: Outcome, next: Option<&Event>) -> Option<&'static str> {
    let read_next = next == Some(&Event::new(CSR_READ, MEIHAP, 0));
    match event.kind() {
        _ if outcome.refusal != 0 => None,
        TAKE => Some("taken"),
        CHAIN | COMMIT if outcome.answer != 0 => Some("chained"),
        CHAIN if read_next => Some("not chained"),
        CSR_WRITE if event.address() == MEICPCT && read_next => Some("captured"),
        _ => None,
    }
}

/// The captures of a record that the print shows, and the machines that they meet.
fn shown_captures(record: &Record) -> Vec<(&'static str, Machine)> {
    let (mut machine, _) = Machine::power_on(record.sources);
    let mut shown = Vec::new();
    for (index, &event) in record.events.iter().enumerate() {
        let before = machine.clone();
        let outcome = machine.play(event);
        if let Some(name) = shown_capture(event, outcome, record.events.get(index + 1)) {
            shown.push((name, before));
        }
    }
    shown
}

/// What the equals of a machine, two or more, are like.
fn traits(machine: &Machine, equals: &[usize]) -> Vec<&'static str> {
    let count = machine.count();
    let (winner, rank) = machine.winner();
    let last = equals[equals.len() - 1];
    let outranked = (1..winner).any(|number| machine.eligible(number));
    // What is of such a rank and doesn't win is not eligible.
    let high = |number: &usize| machine.source_rank(*number) >= rank;
    let ineligible = || {
        (1..winner)
            .filter(high)
            .map(|number| machine.source(number))
    };
    let disabled = ineligible().any(|source| source.pending());
    let silent = ineligible().any(|source| source.enabled);
    let named = [
        ("plain order", !machine.priord),
        ("reverse order", machine.priord),
        ("the first", winner == 1),
        ("the last", last == count),
        ("both sides", winner <= count / 2 && last > count / 2),
        ("more than four", equals.len() > 4),
        ("a lower rank before", outranked),
        ("a disabled one before", disabled),
        ("a silent one before", silent),
    ];
    let fitting = named.into_iter().filter(|(_, fits)| *fits);
    fitting.map(|(name, _)| name).collect()
}

fn equals_family(limits: Limits, rounds: u64) -> Vec<Record> {
    let family = |found: &&(&str, _)| found.0 == "ties, both sides";
    let (_, build) = FAMILIES.iter().find(family).unwrap();
    let bytes = |round| build(&mut Random::for_index(9, round), limits);
    let record = |round| accepted(&bytes(round), limits).unwrap();
    (0..rounds).map(record).collect()
}

#[test]
fn the_family_shows_winners_among_equals_of_all_sorts() {
    for (limits, levels) in [(BOARD, 8), (COMPACT, 6)] {
        let mut times: BTreeMap<&str, u64> = BTreeMap::new();
        let mut meetings = vec![0; levels];
        for record in equals_family(limits, 300) {
            for (capture, machine) in shown_captures(&record) {
                let equals = equals(&machine);
                if equals.len() < 2 {
                    continue;
                }
                meetings[meeting(machine.count(), equals[0], equals[1])] += 1;
                for name in traits(&machine, &equals).into_iter().chain([capture]) {
                    *times.entry(name).or_default() += 1;
                }
            }
        }
        // Four captures and nine traits.
        assert_eq!(times.len(), 13, "{times:?}");
        assert!(times.values().all(|&times| times >= 100), "{times:?}");
        assert!(meetings.iter().all(|&times| times >= 20), "{meetings:?}");
    }
}

#[test]
fn the_family_has_the_sizes_beside_powers_of_two() {
    for limits in [BOARD, COMPACT] {
        let records = equals_family(limits, 300);
        let sizes: BTreeSet<u32> = records.iter().map(|record| record.sources).collect();
        for power in [2, 4, 8, 16, 32, 64, 128, 256] {
            for size in power - 1..=power + 1 {
                let possible = (2..=limits.sources).contains(&size);
                assert_eq!(sizes.contains(&size), possible, "N {size}");
            }
        }
    }
}
