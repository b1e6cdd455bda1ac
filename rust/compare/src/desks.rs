//! Desks of any content and length. Rests on generator, lattices and cases.

use crate::cases::{self, Shape};
use crate::generator::Random;
use crate::lattices::{self, Lattice};
use koelchair::{DeskMut, DeskRef, Standing};

pub const STORE_LENGTH: usize = 24_576;
pub const TABLE_LENGTH: usize = 4_096;
/// The least lengths of a store and two tables.
const LENGTHS: [usize; 3] = [STORE_LENGTH, TABLE_LENGTH, TABLE_LENGTH];

/// What is lent to a call.
#[derive(Clone, Debug, PartialEq, Eq)]
pub struct Desk {
    pub standing: Standing,
    pub store: Vec<u8>,
    pub first: Vec<u8>,
    pub second: Vec<u8>,
}

impl Desk {
    /// For the proved library's calls that read.
    pub fn lent(&self) -> DeskRef<'_> {
        DeskRef {
            standing: self.standing,
            store: &self.store,
            first: &self.first,
            second: &self.second,
        }
    }

    /// For its calls that move the desk on.
    pub fn lent_mut(&mut self) -> DeskMut<'_> {
        DeskMut {
            standing: &mut self.standing,
            store: &mut self.store,
            first: &mut self.first,
            second: &mut self.second,
        }
    }

    /// The table that is whole.
    pub fn whole(&self) -> &[u8] {
        if self.standing.second_whole {
            &self.second
        } else {
            &self.first
        }
    }

    /// A formula's part in the store; the desk has such a formula.
    pub fn formula(&self, number: u8) -> &[u8] {
        self.part(3 + usize::from(number))
    }

    /// The lattice in the store of a desk that breaks no rule.
    pub fn lattice(&self) -> Lattice {
        lattices::of_part(self.part(0))
    }

    /// n, the elements of that lattice.
    pub fn elements(&self) -> usize {
        match self.part(0)[0] {
            0 => 27,
            n => usize::from(n),
        }
    }

    /// A part of the case in the store of a desk that breaks no rule; the case has such a part.
    fn part(&self, number: usize) -> &[u8] {
        self.parts().expect("the parts of a case")[number]
    }

    /// The parts of the case in the store, by the directory there; nothing where there is no such directory, or a part is not in the store.
    /// No other rule is looked at.
    pub fn parts(&self) -> Option<Vec<&[u8]>> {
        let store = self.store.get(..STORE_LENGTH)?;
        let count = usize::from(store[0]);
        let part = |pair: &[u8]| {
            let u16_at = |place| usize::from(u16::from_le_bytes([pair[place], pair[place + 1]]));
            store.get(u16_at(0)..u16_at(0) + u16_at(2))
        };
        match count {
            3..=11 => store[1..1 + 4 * count].chunks(4).map(part).collect(),
            _ => None,
        }
    }

    /// These parts without gaps.
    pub fn gapless(&self) -> Option<Vec<u8>> {
        Some(cases::gapless(&self.parts()?))
    }

    /// One table or the other.
    pub fn table(&mut self, second: bool) -> &mut Vec<u8> {
        if second {
            &mut self.second
        } else {
            &mut self.first
        }
    }
}

fn any_standing(random: &mut Random) -> Standing {
    let word = random.word() as u32;
    Standing {
        states1: random.byte(),
        states2: random.byte(),
        round: random.pick(&[0, 1, 7, word, u32::MAX]),
        row: random.byte(),
        changed: random.one_in(2),
        settled: random.one_in(2),
        second_whole: random.one_in(2),
        lowerings: random.pick(&[0, 1, 7, word, u32::MAX]),
    }
}

/// `length` bytes, all zeros, all 255, small numbers or random.
pub fn content(random: &mut Random, length: usize) -> Vec<u8> {
    match random.below(4) {
        0 => vec![0; length],
        1 => vec![255; length],
        2 => (0..length).map(|_| random.below(4) as u8).collect(),
        _ => random.bytes(length),
    }
}

/// Mostly the length that a desk must have, else longer.
fn long_enough(random: &mut Random, length: usize) -> usize {
    match random.below(4) {
        0 => length + 1,
        1 => length + random.below(200),
        _ => length,
    }
}

fn too_short(random: &mut Random, length: usize) -> usize {
    match random.below(4) {
        0 => 0,
        1 => random.below(length),
        _ => length - 1,
    }
}

fn desk_of_lengths(random: &mut Random, lengths: [usize; 3]) -> Desk {
    let standing = if random.one_in(2) {
        Standing::default()
    } else {
        any_standing(random)
    };
    let [store, first, second] = lengths.map(|length| content(random, length));
    Desk {
        standing,
        store,
        first,
        second,
    }
}

/// A desk that is long enough, of any content.
pub fn any(random: &mut Random) -> Desk {
    let lengths = LENGTHS.map(|length| long_enough(random, length));
    desk_of_lengths(random, lengths)
}

/// A desk of zeros.
pub fn zeroed() -> Desk {
    let table = vec![0; TABLE_LENGTH];
    Desk {
        standing: Standing::default(),
        store: vec![0; STORE_LENGTH],
        first: table.clone(),
        second: table,
    }
}

/// A desk of which the store or a table, or several of them, are too short.
pub fn short(random: &mut Random) -> Desk {
    let mut lengths = LENGTHS.map(|length| long_enough(random, length));
    for _ in 0..random.between(1, 2) {
        let which = random.below(3);
        lengths[which] = too_short(random, LENGTHS[which]);
    }
    desk_of_lengths(random, lengths)
}

/// The shape of the case that a desk has just been opened with, read in the store (docs/STORE.md) and in the first table, which is all top.
pub fn opened_shape(desk: &Desk) -> Shape {
    let Desk {
        standing,
        store,
        first,
        ..
    } = desk;
    let top = first[0];
    let at = usize::from(u16::from_le_bytes([store[1], store[2]]));
    let (elements, bottom) = match store[at] {
        0 => (27, 0),
        n => (usize::from(n), store[at + 1 + usize::from(top)]),
    };
    Shape {
        elements,
        states: [standing.states1.into(), standing.states2.into()],
        formulas: usize::from(store[0]) - 3,
        top,
        bottom,
    }
}
