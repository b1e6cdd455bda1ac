//! Random accepted cases: a lattice, two models and formulas, laid out with or without gaps. Rests on generator, lattices, models and
//! formulas.

use crate::formulas;
use crate::generator::Random;
use crate::lattices::{self, Lattice};
use crate::models::{self, Model};

pub const CASE_MOST: usize = 32_768;

/// What a list has to know of a case to aim its calls.
#[derive(Clone, Copy, Debug)]
pub struct Shape {
    /// n.
    pub elements: usize,
    /// N1 and N2.
    pub states: [usize; 2],
    pub formulas: usize,
    pub top: u8,
    pub bottom: u8,
}

impl Shape {
    /// N1 * N2.
    pub fn entries(&self) -> usize {
        self.states[0] * self.states[1]
    }

    /// N1 * N2 * (n - 1).
    pub fn round_limit(&self) -> u32 {
        (self.entries() * (self.elements - 1)) as u32
    }
}

impl Default for Shape {
    /// What is taken for the shape before any case is opened.
    fn default() -> Shape {
        Shape {
            elements: 2,
            states: [1, 1],
            formulas: 0,
            top: 1,
            bottom: 0,
        }
    }
}

/// How large a case may get.
#[derive(Clone, Copy, Debug)]
pub struct Scale {
    pub elements: usize,
    pub states: usize,
    pub propositions: usize,
    pub formulas: usize,
    pub longest_formula: usize,
}

pub const SMALL: Scale = Scale {
    elements: 6,
    states: 4,
    propositions: 2,
    formulas: 2,
    longest_formula: 24,
};
pub const MIDDLE: Scale = Scale {
    elements: 12,
    states: 6,
    propositions: 4,
    formulas: 4,
    longest_formula: 60,
};
pub const WIDE: Scale = Scale {
    elements: 27,
    states: 8,
    propositions: 16,
    formulas: 8,
    longest_formula: 255,
};
/// Many states and few elements, for many rounds.
pub const LONG: Scale = Scale {
    elements: 3,
    states: 12,
    propositions: 1,
    formulas: 1,
    longest_formula: 24,
};
pub const LARGE: Scale = Scale {
    elements: 64,
    states: 64,
    propositions: 16,
    formulas: 8,
    longest_formula: 100,
};

/// Mostly small, now and then wider.
pub fn scale(random: &mut Random) -> Scale {
    [SMALL, MIDDLE, WIDE][random.weighted(&[12, 6, 1])]
}

/// The parts of a case, which may be altered before they are laid out.
#[derive(Clone, Debug)]
pub struct Draft {
    pub shape: Shape,
    pub lattice: Lattice,
    /// Part 0, the two models, the formulas.
    pub parts: Vec<Vec<u8>>,
    pub propositions: usize,
}

pub fn draft(random: &mut Random, scale: Scale) -> Draft {
    let states = [
        random.between(1, scale.states),
        random.between(1, scale.states),
    ];
    draft_of_states(random, scale, states)
}

/// A draft whose models have these states.
pub fn draft_of_states(random: &mut Random, scale: Scale, states: [usize; 2]) -> Draft {
    let (lattice, part) = lattice(random, scale.elements);
    let k = random.between(0, scale.propositions);
    let first = models::random(random, &lattice, states[0], k);
    let second = if states[0] == states[1] && random.one_in(2) {
        models::near(random, &lattice, &first)
    } else {
        models::random(random, &lattice, states[1], k)
    };
    let least = if random.one_in(6) { 0 } else { 1 };
    let count = random.between(least, scale.formulas);
    let formulas = (0..count).map(|_| formulas::random(random, k, scale.longest_formula));
    let formulas = formulas.collect();
    assembled(lattice, part, [first, second], formulas)
}

/// A draft of the greatest sizes: 64 elements, 64 states, 16 propositions, eight formulas of 255 bytes.
pub fn greatest_draft(random: &mut Random) -> Draft {
    let lattice = lattices::of_64(random);
    let part = lattice.part();
    let models = [64, 64].map(|states| models::random(random, &lattice, states, 16));
    let formulas = (0..8).map(|_| formulas::exact(random, 255, 16, 0, 1));
    let formulas = formulas.collect();
    assembled(lattice, part, models, formulas)
}

fn assembled(lattice: Lattice, part: Vec<u8>, models: [Model; 2], formulas: Vec<Vec<u8>>) -> Draft {
    let shape = Shape {
        elements: lattice.size,
        states: [models[0].states, models[1].states],
        formulas: formulas.len(),
        top: lattice.top(),
        bottom: lattice.bottom(),
    };
    let propositions = models[0].propositions;
    let mut parts = vec![part];
    parts.extend(models.map(|model| model.part()));
    parts.extend(formulas);
    Draft {
        shape,
        lattice,
        parts,
        propositions,
    }
}

/// A lattice and its part; the panel's is mostly the one byte 0, else its complements and order.
fn lattice(random: &mut Random, most: usize) -> (Lattice, Vec<u8>) {
    if random.one_in(40) || (most >= 27 && random.one_in(6)) {
        let panel = lattices::panel();
        let part = if random.one_in(3) {
            panel.part()
        } else {
            vec![0]
        };
        (panel, part)
    } else {
        let lattice = lattices::random(random, most);
        let part = lattice.part();
        (lattice, part)
    }
}

/// A directory and the parts, with gaps of random bytes: `gaps[i]` before part i, and the last one at the end.
pub fn laid(random: &mut Random, parts: &[impl AsRef<[u8]>], gaps: &[usize]) -> Vec<u8> {
    let mut directory = vec![parts.len() as u8];
    let mut rest = Vec::new();
    for (part, &gap) in parts.iter().zip(gaps) {
        let part = part.as_ref();
        rest.extend(random.bytes(gap));
        let start = 1 + 4 * parts.len() + rest.len();
        directory.extend((start as u16).to_le_bytes());
        directory.extend((part.len() as u16).to_le_bytes());
        rest.extend(part);
    }
    rest.extend(random.bytes(gaps[parts.len()]));
    [directory, rest].concat()
}

/// A directory and the parts without gaps.
pub fn gapless(parts: &[impl AsRef<[u8]>]) -> Vec<u8> {
    laid(&mut Random::new(0), parts, &vec![0; parts.len() + 1])
}

/// The length of the parts without gaps, with their directory.
fn gapless_length(parts: &[impl AsRef<[u8]>]) -> usize {
    1 + parts
        .iter()
        .map(|part| 4 + part.as_ref().len())
        .sum::<usize>()
}

/// A directory and the parts, with one gap before a part or several, in at most `most` bytes; nothing where there is no room for a gap.
pub fn spread(random: &mut Random, parts: &[impl AsRef<[u8]>], most: usize) -> Option<Vec<u8>> {
    let room = most.checked_sub(gapless_length(parts))?;
    if room == 0 {
        return None;
    }
    let mut gaps: Vec<usize> = (0..=parts.len()).map(|_| random.below(4)).collect();
    let place = random.below(parts.len());
    gaps[place] += 1;
    if random.one_in(2) || gaps.iter().sum::<usize>() > room {
        gaps.fill(0);
        let any = random.between(1, room);
        gaps[place] = random.pick(&[1, room, any]);
    }
    Some(laid(random, parts, &gaps))
}

impl Draft {
    /// The case, mostly without gaps or with small ones.
    pub fn bytes(&self, random: &mut Random) -> Vec<u8> {
        let gaps: Vec<usize> = match random.below(8) {
            0..=4 => vec![0; self.parts.len() + 1],
            5..=6 => (0..=self.parts.len()).map(|_| random.below(4)).collect(),
            _ => return self.bytes_up_to(random, CASE_MOST),
        };
        laid(random, &self.parts, &gaps)
    }

    /// The case with one gap, at a random place, that brings it to `length` bytes.
    pub fn bytes_up_to(&self, random: &mut Random, length: usize) -> Vec<u8> {
        let place = random.below(self.parts.len() + 1);
        self.bytes_with_gap(random, length, place)
    }

    /// The case with one gap before part `place`, or at the end, that brings it to `length` bytes.
    pub fn bytes_with_gap(&self, random: &mut Random, length: usize, place: usize) -> Vec<u8> {
        let mut gaps = vec![0; self.parts.len() + 1];
        gaps[place] = length.saturating_sub(gapless_length(&self.parts));
        laid(random, &self.parts, &gaps)
    }
}
