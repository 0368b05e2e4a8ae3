//! The winner by two-way comparators in a tree of any shape. The machine's own scan does without.

use crate::machine::Machine;
use crate::random::Random;
use crate::rank::Rank;

/// What enters a comparator or passes it: the number of a source and its rank.
#[derive(Clone, Copy, Debug, PartialEq, Eq)]
pub struct Entry {
    pub number: usize,
    pub rank: Rank,
}

pub const NO_SOURCE: Entry = Entry {
    number: 0,
    rank: Rank::LOWEST,
};

/// What a source enters as.
pub fn entering(machine: &Machine, number: usize) -> Entry {
    if machine.eligible(number) {
        let rank = machine.source_rank(number);
        Entry { number, rank }
    } else {
        NO_SOURCE
    }
}

/// Of two, the right one passes only if its rank is strictly higher.
pub fn comparator(left: Entry, right: Entry) -> Entry {
    if right.rank > left.rank {
        right
    } else {
        left
    }
}

#[derive(Clone, Debug, PartialEq, Eq)]
pub enum Tree {
    /// The input of a source.
    Leaf(usize),
    /// An input of no source, always (0, 0).
    Empty,
    /// A comparator with its left and right sides.
    Node(Box<Tree>, Box<Tree>),
}

impl Tree {
    pub fn node(left: Tree, right: Tree) -> Tree {
        Tree::Node(Box::new(left), Box::new(right))
    }

    /// The balanced tree: at every node the sides differ by at most one leaf.
    pub fn balanced(count: usize) -> Tree {
        join(&leaves(count), &mut |size| size / 2)
    }

    /// The sources from left to right.
    pub fn leaves(&self) -> Vec<usize> {
        match self {
            Tree::Leaf(number) => vec![*number],
            Tree::Empty => Vec::new(),
            Tree::Node(left, right) => [left.leaves(), right.leaves()].concat(),
        }
    }

    /// What passes at the root.
    pub fn passes(&self, machine: &Machine) -> Entry {
        match self {
            Tree::Leaf(number) => entering(machine, *number),
            Tree::Empty => NO_SOURCE,
            Tree::Node(left, right) => comparator(left.passes(machine), right.passes(machine)),
        }
    }
}

/// The inputs of sources 1 to `count`.
fn leaves(count: usize) -> Vec<Tree> {
    (1..=count).map(Tree::Leaf).collect()
}

/// A tree over inputs in their order. `split` gives how many of so many, two or more, go to the
/// left.
fn join(inputs: &[Tree], split: &mut impl FnMut(usize) -> usize) -> Tree {
    match inputs {
        [] => Tree::Empty,
        [input] => input.clone(),
        _ => {
            let (left, right) = inputs.split_at(split(inputs.len()));
            Tree::node(join(left, split), join(right, split))
        }
    }
}

/// How a random shape parts its inputs at every node.
#[derive(Clone, Copy, Debug, PartialEq, Eq)]
pub enum Split {
    /// All but the last to the left.
    LeftChain,
    /// All but the first to the right.
    RightChain,
    /// Sides that differ by at most one input, either the larger.
    Even,
    Anywhere,
    /// The first or the last alone.
    OneEnd,
}

/// Where a random shape has inputs of no source.
#[derive(Clone, Copy, Debug, PartialEq, Eq)]
pub enum Padding {
    Nowhere,
    Anywhere,
    /// At the end, up to a power of two.
    PowerOfTwo,
    /// The same with an input of no source before all others, in the place of number 0.
    PowerOfTwoFromZero,
}

/// A sort of random trees whose leaves from left to right are 1 to N.
#[derive(Clone, Copy, Debug, PartialEq, Eq)]
pub struct Shape {
    pub split: Split,
    pub padding: Padding,
}

pub const SPLITS: [Split; 5] = [
    Split::LeftChain,
    Split::RightChain,
    Split::Even,
    Split::Anywhere,
    Split::OneEnd,
];

pub const PADDINGS: [Padding; 4] = [
    Padding::Nowhere,
    Padding::Anywhere,
    Padding::PowerOfTwo,
    Padding::PowerOfTwoFromZero,
];

impl Split {
    /// How many of `size` inputs go to the left.
    fn left(self, size: usize, random: &mut Random) -> usize {
        match self {
            Split::LeftChain => size - 1,
            Split::RightChain => 1,
            Split::Even => (size + usize::from(random.coin())) / 2,
            Split::Anywhere => random.between(1, size as u32 - 1) as usize,
            Split::OneEnd => random.pick(&[1, size - 1]),
        }
    }
}

impl Padding {
    fn pad(self, inputs: &mut Vec<Tree>, random: &mut Random) {
        match self {
            Padding::Nowhere => {}
            Padding::Anywhere => pad_anywhere(inputs, random),
            Padding::PowerOfTwo => pad_to_power(inputs),
            Padding::PowerOfTwoFromZero => {
                inputs.insert(0, Tree::Empty);
                pad_to_power(inputs);
            }
        }
    }
}

/// From one input of no source to one more than there are sources.
fn pad_anywhere(inputs: &mut Vec<Tree>, random: &mut Random) {
    for _ in 0..=random.between(0, inputs.len() as u32) {
        let place = random.between(0, inputs.len() as u32);
        inputs.insert(place as usize, Tree::Empty);
    }
}

fn pad_to_power(inputs: &mut Vec<Tree>) {
    inputs.resize(inputs.len().next_power_of_two(), Tree::Empty);
}

impl Shape {
    /// Every split with every padding.
    pub fn all() -> Vec<Shape> {
        let with = |split| PADDINGS.map(|padding| Shape { split, padding });
        SPLITS.map(with).concat()
    }

    pub fn any(random: &mut Random) -> Shape {
        Shape {
            split: random.pick(&SPLITS),
            padding: random.pick(&PADDINGS),
        }
    }

    /// A tree of this sort.
    pub fn tree(self, count: usize, random: &mut Random) -> Tree {
        let mut inputs = leaves(count);
        self.padding.pad(&mut inputs, random);
        join(&inputs, &mut |size| self.split.left(size, random))
    }
}
