//! Small lattices of sets, whose operations are worked by bits and not by the second implementation.

use super::{lattice, Numbers};

/// A lattice of sets: the element of each number is a set of bits, and the order is inclusion.
#[derive(Debug)]
pub struct Sets {
    /// The set of each element. Meets and joins of these are among them, and so is the empty set.
    pub sets: &'static [u8],
    pub complement: &'static [u8],
}

/// A chain of three and the subsets of two things, each as the numbers go and renumbered; of the subsets also with a complement that keeps
/// the two in the middle.
pub const LATTICES: [Sets; 5] = [
    Sets {
        sets: &[0, 1, 3],
        complement: &[2, 1, 0],
    },
    Sets {
        sets: &[3, 0, 1],
        complement: &[1, 0, 2],
    },
    Sets {
        sets: &[0, 1, 2, 3],
        complement: &[3, 2, 1, 0],
    },
    Sets {
        sets: &[0, 1, 2, 3],
        complement: &[3, 1, 2, 0],
    },
    Sets {
        sets: &[2, 3, 0, 1],
        complement: &[3, 2, 1, 0],
    },
];

/// Chains of two, and one of three whose numbers go the other way than the order.
pub const CHAINS: [Sets; 3] = [
    Sets {
        sets: &[0, 1],
        complement: &[1, 0],
    },
    Sets {
        sets: &[1, 0],
        complement: &[1, 0],
    },
    Sets {
        sets: &[3, 1, 0],
        complement: &[2, 1, 0],
    },
];

impl Sets {
    pub fn size(&self) -> u8 {
        self.sets.len() as u8
    }

    fn set(&self, element: u8) -> u8 {
        self.sets[usize::from(element)]
    }

    fn element(&self, set: u8) -> u8 {
        let place = self.sets.iter().position(|&other| other == set);
        place.expect("a set of the lattice") as u8
    }

    pub fn bottom(&self) -> u8 {
        self.element(0)
    }

    pub fn top(&self) -> u8 {
        self.element(self.sets.iter().fold(0, |all, set| all | set))
    }

    pub fn at_most(&self, a: u8, b: u8) -> bool {
        self.set(a) & !self.set(b) == 0
    }

    pub fn meet(&self, a: u8, b: u8) -> u8 {
        self.element(self.set(a) & self.set(b))
    }

    pub fn join(&self, a: u8, b: u8) -> u8 {
        self.element(self.set(a) | self.set(b))
    }

    /// (not a) joined with b.
    pub fn implies(&self, a: u8, b: u8) -> u8 {
        self.join(self.complement[usize::from(a)], b)
    }

    pub fn meet_over(&self, elements: &[u8]) -> u8 {
        let meet = |meet, &element: &u8| self.meet(meet, element);
        elements.iter().fold(self.top(), meet)
    }

    pub fn join_over(&self, elements: &[u8]) -> u8 {
        let join = |join, &element: &u8| self.join(join, element);
        elements.iter().fold(self.bottom(), join)
    }

    /// The elements of the longest chain that ends in this element.
    fn chain_up_to(&self, top: u8) -> u32 {
        let below = (0..self.size()).filter(|&e| e != top && self.at_most(e, top));
        1 + below.map(|e| self.chain_up_to(e)).max().unwrap_or(0)
    }

    /// h, the elements of the longest chain.
    pub fn height(&self) -> u32 {
        self.chain_up_to(self.top())
    }

    /// The lattice part.
    pub fn part(&self) -> Vec<u8> {
        let complement = |e| self.complement[usize::from(e)];
        lattice(self.size(), complement, |i, j| self.at_most(i, j))
    }

    /// A model that begins at state 0 and goes from each state to the next; p is top.
    fn line(&self, states: u8) -> Vec<u8> {
        let (bottom, top) = (self.bottom(), self.top());
        let top_where = |is: bool| if is { top } else { bottom };
        let mut part = vec![states, 1];
        part.extend((0..states).map(|q| top_where(q == 0)));
        part.extend((0..states).map(|_| top));
        part.extend((0..states).flat_map(|q| (0..states).map(move |to| top_where(to == q + 1))));
        part
    }

    /// A model of one proposition and one to three states: of any elements, or a line with some of its values exchanged for any elements.
    pub fn random_model(&self, numbers: &mut Numbers) -> Vec<u8> {
        let (states, n) = (1 + numbers.byte(3), u64::from(self.size()));
        if numbers.below(2) == 0 {
            return numbers.model(states, 1, n);
        }
        let mut part = self.line(states);
        for value in &mut part[2..] {
            if numbers.below(6) == 0 {
                *value = numbers.byte(n);
            }
        }
        part
    }
}
