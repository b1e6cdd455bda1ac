//! The cases that are measured: three sorts of lattice, models of any size with values drawn by a seed, densely or not, and five formulas.

use crate::random::Random;
use std::fmt;

/// A lattice. Element 0 is its bottom and n − 1 its top.
#[derive(Clone, Copy)]
pub enum Lattice {
    /// The 27 elements of three answers no, unsure or yes, which the case names by one byte.
    Panel,
    /// The numbers below n in their order; the complement turns it round.
    Chain(u8),
    /// The subsets of so many things, as the bits of a number.
    PowerSet(u8),
}

impl Lattice {
    /// n.
    pub fn size(self) -> u8 {
        match self {
            Lattice::Panel => 27,
            Lattice::Chain(size) => size,
            Lattice::PowerSet(things) => 1 << things,
        }
    }

    fn part(self) -> Vec<u8> {
        if let Lattice::Panel = self {
            return vec![0];
        }
        let size = self.size();
        let mut part = vec![size];
        part.extend((0..size).rev());
        for i in 0..size {
            part.extend((0..size).map(|j| u8::from(self.at_most(i, j))));
        }
        part
    }

    /// Whether i is at or below j.
    fn at_most(self, i: u8, j: u8) -> bool {
        match self {
            Lattice::Panel => i / 9 <= j / 9 && i / 3 % 3 <= j / 3 % 3 && i % 3 <= j % 3,
            Lattice::Chain(_) => i <= j,
            Lattice::PowerSet(_) => i & j == i,
        }
    }

    /// An element below top with none between the two.
    fn next_below_top(self, random: &mut Random) -> u8 {
        let step = match self {
            Lattice::Panel => [1, 3, 9][usize::from(random.below(3))],
            Lattice::Chain(_) => 1,
            Lattice::PowerSet(things) => 1 << random.below(things),
        };
        self.size() - 1 - step
    }
}

impl fmt::Display for Lattice {
    fn fmt(&self, f: &mut fmt::Formatter) -> fmt::Result {
        match self {
            Lattice::Panel => f.write_str("panel, 27"),
            Lattice::Chain(size) => write!(f, "chain, {size}"),
            Lattice::PowerSet(things) => write!(f, "subsets of {things}, {}", self.size()),
        }
    }
}

/// The propositions of each model.
const PROPOSITIONS: u8 = 4;

/// How the transitions and the propositions of both models are drawn. A transition that is not drawn is bottom.
#[derive(Clone, Copy)]
pub enum Drawing {
    /// 16 transitions a state, one perhaps twice; one in eight propositions, and the others are top, so that the table does not fall to
    /// bottom at once.
    Usual,
    /// Three transitions a state; each proposition is top or bottom, so that most states differ.
    Apart,
    /// Three transitions a state, and all propositions.
    Sparse,
    /// All transitions, at each state at or below an element that is next below top, and not bottom; the propositions are top. So no join
    /// is top and no meet is bottom, and nothing ends early.
    Dense,
}

impl fmt::Display for Drawing {
    fn fmt(&self, f: &mut fmt::Formatter) -> fmt::Result {
        f.write_str(match self {
            Drawing::Usual => "16 transitions",
            Drawing::Apart => "3 transitions, propositions differ",
            Drawing::Sparse => "3 transitions",
            Drawing::Dense => "all transitions",
        })
    }
}

/// The number of the formula AX EX AX of p0 or not-p1.
pub const NESTED: u8 = 0;

/// The number of the formula that is a greatest fixpoint of a least one of a greatest one, with AX and EX inside.
pub const FIXPOINTS: u8 = 4;

/// The formulas, in prefix form.
const FORMULAS: [&[u8]; 5] = [
    &[7, 8, 7, 5, 2, 0, 3, 1],
    &[10, 6, 2, 2, 7, 4, 0],
    &[9, 5, 2, 3, 8, 4, 0],
    &[10, 9, 5, 6, 2, 0, 7, 4, 1, 8, 4, 0],
    &[10, 9, 10, 6, 5, 6, 7, 4, 2, 2, 1, 8, 4, 1, 5, 7, 4, 0, 2, 0],
];

/// The sizes of a case, and the seed of its values.
#[derive(Clone, Copy)]
pub struct Setting {
    pub lattice: Lattice,
    pub states1: u8,
    pub states2: u8,
    pub drawing: Drawing,
    pub seed: u64,
}

impl Setting {
    /// The case with these sizes and values.
    pub fn case(self) -> Vec<u8> {
        let mut random = Random::new(self.seed);
        let mut parts = vec![self.lattice.part()];
        for states in [self.states1, self.states2] {
            parts.push(self.model(&mut random, states));
        }
        parts.extend(FORMULAS.map(<[u8]>::to_vec));
        laid_out(&parts)
    }

    fn model(self, random: &mut Random, states: u8) -> Vec<u8> {
        let mut part = vec![states, PROPOSITIONS];
        part.extend((0..states).map(|_| random.below(self.lattice.size())));
        for _ in 0..states {
            part.extend((0..PROPOSITIONS).map(|_| self.proposition(random)));
        }
        for _ in 0..states {
            part.extend(self.transitions(random, states));
        }
        part
    }

    /// The value of a proposition at a state.
    fn proposition(self, random: &mut Random) -> u8 {
        let (size, top) = (self.lattice.size(), self.lattice.size() - 1);
        match self.drawing {
            Drawing::Usual if random.below(8) > 0 => top,
            Drawing::Usual | Drawing::Sparse => random.below(size),
            Drawing::Apart => top * random.below(2),
            Drawing::Dense => top,
        }
    }

    /// The transitions that leave a state.
    fn transitions(self, random: &mut Random, states: u8) -> Vec<u8> {
        let mut row = vec![0; usize::from(states)];
        let drawn = match self.drawing {
            Drawing::Usual => 16,
            Drawing::Apart | Drawing::Sparse => 3,
            Drawing::Dense => {
                let most = self.lattice.next_below_top(random);
                row.fill_with(|| self.above_bottom(random, most));
                return row;
            }
        };
        for _ in 0..drawn {
            row[usize::from(random.below(states))] = random.below(self.lattice.size());
        }
        row
    }

    /// An element at or below this one, and not bottom.
    fn above_bottom(self, random: &mut Random, most: u8) -> u8 {
        loop {
            let element = random.below(self.lattice.size());
            if element != 0 && self.lattice.at_most(element, most) {
                return element;
            }
        }
    }
}

/// The case with these parts, one after another.
fn laid_out(parts: &[Vec<u8>]) -> Vec<u8> {
    let mut case = vec![parts.len() as u8];
    let mut place = 1 + 4 * parts.len();
    for part in parts {
        case.extend((place as u16).to_le_bytes());
        case.extend((part.len() as u16).to_le_bytes());
        place += part.len();
    }
    for part in parts {
        case.extend(part);
    }
    case
}
