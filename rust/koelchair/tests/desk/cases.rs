//! The cases that the tests take, made from their parts, and a desk of lent buffers.

use koelchair::{DeskMut, DeskRef, Standing, STORE_LENGTH, TABLE_LENGTH};

/// 0 below 1.
pub const L2: [u8; 7] = [2, 1, 0, 1, 1, 0, 1];

/// 0 below 1 below 2, with not-1 = 1.
pub const L3: [u8; 13] = [3, 2, 1, 0, 1, 1, 1, 0, 1, 1, 0, 0, 1];

/// The lattice of one element.
pub const L1: [u8; 3] = [1, 0, 1];

/// The panel lattice by the complements and order of its 27 elements: number 9a + 3b + c for three answers of 0 to 2.
pub fn panel_by_order() -> Vec<u8> {
    let answers = |e: u8| [e / 9, e / 3 % 3, e % 3];
    let at_most = |e, f| (0..3).all(|i| answers(e)[i] <= answers(f)[i]);
    let mut part = vec![27];
    part.extend((0..27).rev());
    for e in 0..27 {
        part.extend((0..27).map(|f| u8::from(at_most(e, f))));
    }
    part
}

/// The case with these parts, one after another.
pub fn case(parts: &[&[u8]]) -> Vec<u8> {
    with_gaps(parts, &[])
}

/// The case with these parts, before each of which stand some bytes that belong to none.
pub fn with_gaps(parts: &[&[u8]], gap: &[u8]) -> Vec<u8> {
    let mut bytes = vec![parts.len() as u8];
    let mut place = 1 + 4 * parts.len();
    for part in parts {
        place += gap.len();
        bytes.extend((place as u16).to_le_bytes());
        bytes.extend((part.len() as u16).to_le_bytes());
        place += part.len();
    }
    for part in parts {
        bytes.extend(gap);
        bytes.extend(*part);
    }
    bytes
}

/// Worked example 1 with formula p.
pub fn example_1() -> Vec<u8> {
    let model = [1, 1, 2, 1, 0];
    case(&[&L3, &model, &model, &[2, 0]])
}

/// Worked example 2: model 1 loops, model 2 does not.
pub fn example_2() -> Vec<u8> {
    case(&[&L2, &[1, 0, 1, 1], &[1, 0, 1, 0]])
}

/// Worked example 2, models exchanged.
pub fn example_2_exchanged() -> Vec<u8> {
    case(&[&L2, &[1, 0, 1, 0], &[1, 0, 1, 1]])
}

/// The parts of worked example 4, with formula AX not-p.
pub const PARTS_4: [&[u8]; 4] = [
    &L2,
    &[2, 1, 1, 0, 0, 1, 0, 1, 0, 0],
    &[2, 1, 1, 0, 0, 0, 0, 1, 0, 0],
    &[7, 3, 0],
];

/// Worked example 4.
pub fn example_4() -> Vec<u8> {
    case(&PARTS_4)
}

/// L2, eight states against one, without transitions; p is 1 in the one and in the first `ones` of the eight. So `ones`
/// entries of eight are 1.
pub fn eighths(ones: usize) -> Vec<u8> {
    let mut model_1 = vec![8, 1];
    model_1.extend([1; 8]);
    model_1.extend((0..8).map(|q| u8::from(q < ones)));
    model_1.extend([0; 64]);
    case(&[&L2, &model_1, &[1, 1, 1, 1, 0]])
}

/// A desk whose buffers belong to the test, so that it can be altered and compared.
#[derive(Clone, Debug, PartialEq, Eq)]
pub struct Lent {
    pub standing: Standing,
    pub store: Vec<u8>,
    pub first: Vec<u8>,
    pub second: Vec<u8>,
}

impl Lent {
    /// Buffers of the least lengths and `more` bytes besides, all with this byte.
    pub fn of(byte: u8, more: usize) -> Lent {
        Lent {
            standing: Standing::default(),
            store: vec![byte; STORE_LENGTH + more],
            first: vec![byte; TABLE_LENGTH + more],
            second: vec![byte; TABLE_LENGTH + more],
        }
    }

    /// A desk that has opened this case.
    pub fn opened(case: &[u8]) -> Lent {
        let mut desk = Lent::of(0, 0);
        desk.lent_mut().open(case).expect("an accepted case");
        desk
    }

    /// For the calls that read.
    pub fn lent(&self) -> DeskRef<'_> {
        DeskRef {
            standing: self.standing,
            store: &self.store,
            first: &self.first,
            second: &self.second,
        }
    }

    /// For the calls that move the desk on.
    pub fn lent_mut(&mut self) -> DeskMut<'_> {
        DeskMut {
            standing: &mut self.standing,
            store: &mut self.store,
            first: &mut self.first,
            second: &mut self.second,
        }
    }
}
