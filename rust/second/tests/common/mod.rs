//! Cases and a desk for the tests. Each file of tests uses a part of it.

#![allow(dead_code)]

pub mod by_bits;
pub mod sets;

use second::{Facts, Reply, Standing, STORE_LENGTH, TABLE_LENGTH};

/// 0 below 1.
pub const L2: &[u8] = &[2, 1, 0, 1, 1, 0, 1];

/// 0 below 1 below 2 with not-1 = 1.
pub const L3: &[u8] = &[3, 2, 1, 0, 1, 1, 1, 0, 1, 1, 0, 0, 1];

/// One state, no propositions, no transition, initial value 1.
pub const STILL: &[u8] = &[1, 0, 1, 0];

/// One state, no propositions, a loop of value 1, initial value 1.
pub const LOOP: &[u8] = &[1, 0, 1, 1];

/// The case of these parts without gaps.
pub fn case(parts: &[&[u8]]) -> Vec<u8> {
    spread(parts, &vec![0; parts.len()])
}

/// The case of these parts with a gap of so many bytes before each.
pub fn spread(parts: &[&[u8]], gaps: &[usize]) -> Vec<u8> {
    let mut directory = vec![parts.len() as u8];
    let mut rest = Vec::new();
    for (part, &gap) in parts.iter().zip(gaps) {
        rest.extend(vec![77; gap]);
        let start = 1 + 4 * parts.len() + rest.len();
        directory.extend((start as u16).to_le_bytes());
        directory.extend((part.len() as u16).to_le_bytes());
        rest.extend(*part);
    }
    [directory, rest].concat()
}

/// What step answers to a row that ends no round, with the lowerings.
pub fn row(lowerings: u32) -> Reply {
    Reply::Row { lowerings }
}

/// What step answers at the end of a round, with the lowerings.
pub fn round(round: u32, lowerings: u32) -> Reply {
    Reply::Round { round, lowerings }
}

/// What step answers where the desk is settled, with the lowerings.
pub fn settled(round: u32, lowerings: u32) -> Reply {
    Reply::Settled { round, lowerings }
}

/// What value and whole answer for a formula: its element, the deepest nesting of AX, whether a fixpoint and whether EX occurs.
pub fn formula_value(element: u8, (nesting, fixpoint, ex): (u8, bool, bool)) -> Reply {
    let facts = Facts {
        nesting,
        fixpoint,
        ex,
    };
    Reply::FormulaValue { element, facts }
}

/// The element that value, whole or score answered.
pub fn element(reply: Reply) -> u8 {
    match reply {
        Reply::Element(element) | Reply::FormulaValue { element, .. } => element,
        other => panic!("answered {other:?}"),
    }
}

/// A chain of n elements, each the complement of its opposite.
pub fn chain(n: u8) -> Vec<u8> {
    let order = (0..n).flat_map(|i| (0..n).map(move |j| u8::from(i <= j)));
    let complement = (0..n).rev();
    [n].into_iter().chain(complement).chain(order).collect()
}

/// A lattice part of n elements with a complement and an order given by a rule.
pub fn lattice(n: u8, complement: impl Fn(u8) -> u8, below: impl Fn(u8, u8) -> bool) -> Vec<u8> {
    let mut part = vec![n];
    part.extend((0..n).map(complement));
    for i in 0..n {
        part.extend((0..n).map(|j| u8::from(below(i, j))));
    }
    part
}

/// A desk whose buffers are longer than needed and filled with bytes that are no desk.
#[derive(Clone, Debug, PartialEq, Eq)]
pub struct Desk {
    pub standing: Standing,
    pub store: Vec<u8>,
    pub first: Vec<u8>,
    pub second: Vec<u8>,
}

impl Desk {
    /// A desk of any content.
    pub fn any() -> Desk {
        Desk {
            standing: Standing {
                states1: 200,
                states2: 7,
                round: 4_000_000_000,
                row: 255,
                changed: true,
                settled: true,
                second_whole: true,
                lowerings: 3_000_000_000,
            },
            store: vec![171; STORE_LENGTH + 3],
            first: vec![172; TABLE_LENGTH + 5],
            second: vec![173; TABLE_LENGTH],
        }
    }

    /// An opened desk.
    pub fn opened(parts: &[&[u8]]) -> Desk {
        let mut desk = Desk::any();
        assert_eq!(desk.open(&case(parts)), Reply::Opened);
        desk
    }

    /// An opened desk stepped until settled.
    pub fn settled(parts: &[&[u8]]) -> Desk {
        let mut desk = Desk::opened(parts);
        while !desk.standing.settled {
            desk.accepted_step();
        }
        desk
    }

    pub fn open(&mut self, case: &[u8]) -> Reply {
        second::open(
            &mut self.standing,
            case,
            &mut self.store,
            &mut self.first,
            &mut self.second,
        )
    }

    pub fn step(&mut self) -> Reply {
        second::step(
            &mut self.standing,
            &self.store,
            &mut self.first,
            &mut self.second,
        )
    }

    /// A step that is not refused, so that a test which goes on until the desk is settled comes to an end.
    pub fn accepted_step(&mut self) -> Reply {
        let answer = self.step();
        assert!(!matches!(answer, Reply::Refused { .. }), "{answer:?}");
        answer
    }

    pub fn show(&self) -> Vec<u8> {
        match second::show(&self.standing, &self.store, &self.first, &self.second) {
            Reply::Shown(bytes) => bytes,
            other => panic!("show answered {other:?}"),
        }
    }

    pub fn value(&self, formula: u8, model: u8, state: u8) -> Reply {
        let (store, first, second) = (&self.store, &self.first, &self.second);
        second::value(&self.standing, store, first, second, formula, model, state)
    }

    pub fn whole(&self, formula: u8, model: u8) -> Reply {
        let (store, first, second) = (&self.store, &self.first, &self.second);
        second::whole(&self.standing, store, first, second, formula, model)
    }

    pub fn score(&self) -> Reply {
        second::score(&self.standing, &self.store, &self.first, &self.second)
    }

    pub fn share(&self, element: u8) -> Reply {
        let (store, first, second) = (&self.store, &self.first, &self.second);
        second::share(&self.standing, store, first, second, element)
    }

    pub fn judge(&self, table: &[u8]) -> Reply {
        let (store, first, second) = (&self.store, &self.first, &self.second);
        second::judge(&self.standing, store, first, second, table)
    }

    pub fn write(&self, out: &mut [u8]) -> Reply {
        let (store, first, second) = (&self.store, &self.first, &self.second);
        second::write(&self.standing, store, first, second, out)
    }

    /// What write puts into a buffer that is long enough for every case.
    pub fn written(&self) -> Vec<u8> {
        let mut out = vec![174; 16_618];
        match self.write(&mut out) {
            Reply::Length(length) => out[..length].to_vec(),
            other => panic!("write answered {other:?}"),
        }
    }

    pub fn f_of(&self, table: &[u8]) -> Option<Vec<u8>> {
        let (store, first, second) = (&self.store, &self.first, &self.second);
        second::f_of(&self.standing, store, first, second, table)
    }

    pub fn entry(&self, q1: u8, q2: u8) -> Reply {
        let (store, first, second) = (&self.store, &self.first, &self.second);
        second::entry(&self.standing, store, first, second, q1, q2)
    }
}

/// Numbers that look random, always the same for the same start.
pub struct Numbers(pub u64);

impl Numbers {
    pub fn below(&mut self, n: u64) -> u64 {
        self.0 ^= self.0 << 13;
        self.0 ^= self.0 >> 7;
        self.0 ^= self.0 << 17;
        self.0 % n
    }

    pub fn byte(&mut self, n: u64) -> u8 {
        self.below(n.min(256)) as u8
    }

    /// A model part of so many states and propositions over the elements below n.
    pub fn model(&mut self, states: u8, propositions: u8, n: u64) -> Vec<u8> {
        let (size, k) = (usize::from(states), usize::from(propositions));
        let values = (0..size + size * k + size * size).map(|_| self.byte(n));
        [states, propositions].into_iter().chain(values).collect()
    }
}
