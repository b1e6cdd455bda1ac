//! Buffers for write (request 105): how they are made, what has to stand in them afterwards, and what is counted of a writing. Rests on
//! generator, lattices and desks.

use crate::desks::{self, Desk, STORE_LENGTH};
use crate::generator::Random;
use crate::lattices;
use koelchair::WRITTEN_MOST;
use second::Reply;

const EMPTY: &str = "write into an empty buffer";
const SHORTER: &str = "write into a buffer shorter by several bytes";
const ONE_SHORT: &str = "write into a buffer one byte short";
const EXACT: &str = "write into a buffer of just the length";
const ONE_LONGER: &str = "write into a buffer one byte longer";
const LONGER: &str = "write into a buffer longer by several bytes";
const OVER_16_BITS: &str = "write into a buffer of over 65,535 bytes";
const ON_SHORT_DESK: &str = "write, refused with 11";
const ON_NO_PARTS: &str = "write, refused with 12, no parts in the store";
const BROKEN_AND_SHORT: &str = "write, refused with 12, the buffer too short too";
const BROKEN_ALONE: &str = "write, refused with 12, the buffer long enough";
const AT_ROUND_0: &str = "written at round 0";
const AT_LATER_ROUND: &str = "written at a later round, not settled";
const SETTLED: &str = "written of a settled desk";
const HALF_ROUND: &str = "written of a desk with a half-worked round";
const GAPS: &str = "written of a store with gaps";
const NO_GAPS: &str = "written of a store without gaps";
const PANEL_BYTE: &str = "written, the panel lattice as its byte";
const PANEL_ORDER: &str = "written, the panel lattice by its complements and order";
const MOST: &str = "written, 16,618 bytes";

/// All that is counted of a writing.
pub const NAMES: [&str; 20] = [
    EMPTY,
    SHORTER,
    ONE_SHORT,
    EXACT,
    ONE_LONGER,
    LONGER,
    OVER_16_BITS,
    ON_SHORT_DESK,
    ON_NO_PARTS,
    BROKEN_AND_SHORT,
    BROKEN_ALONE,
    AT_ROUND_0,
    AT_LATER_ROUND,
    SETTLED,
    HALF_ROUND,
    GAPS,
    NO_GAPS,
    PANEL_BYTE,
    PANEL_ORDER,
    MOST,
];

/// How many bytes stand before a buffer, and how many after it, that are not lent.
const MARGIN: usize = 8;

/// A buffer with bytes around it that are not lent, and have to be kept too.
#[derive(Clone, Debug, PartialEq, Eq)]
pub struct Buffer {
    all: Vec<u8>,
}

impl Buffer {
    /// A buffer of so many bytes, of any content.
    pub fn of_length(random: &mut Random, length: usize) -> Buffer {
        Buffer {
            all: desks::content(random, MARGIN + length + MARGIN),
        }
    }

    /// A buffer for the case that a desk holds, mostly about as long as what is to be written.
    pub fn random(random: &mut Random, desk: &Desk) -> Buffer {
        let case = desk.gapless().map_or(WRITTEN_MOST, |case| case.len());
        let length = match random.weighted(&[1, 1, 3, 4, 2, 3]) {
            0 => 0,
            1 => random.below(case),
            2 => case - 1,
            3 => case,
            4 => case + 1,
            _ => longer(random, case),
        };
        Buffer::of_length(random, length)
    }

    /// What is lent.
    pub fn lent(&mut self) -> &mut [u8] {
        let end = self.all.len() - MARGIN;
        &mut self.all[MARGIN..end]
    }

    /// The bytes of what is lent.
    pub fn bytes(&self) -> &[u8] {
        &self.all[MARGIN..self.all.len() - MARGIN]
    }

    /// This buffer after an answer to the writing of a desk's case: after a length the parts of the case without gaps, and then what stood
    /// there before; after a refusal all that stood there before. Nothing where a desk with these parts cannot be answered so.
    pub fn after(&self, desk: &Desk, reply: &Reply) -> Option<Buffer> {
        let mut after = self.clone();
        match *reply {
            Reply::Length(length) => {
                let case = desk.gapless().filter(|case| case.len() == length)?;
                after.lent().get_mut(..length)?.copy_from_slice(&case);
            }
            Reply::Refused { number: 14, .. } => {
                desk.gapless()
                    .filter(|case| case.len() > self.bytes().len())?;
            }
            Reply::Refused {
                number: 11 | 12, ..
            } => (),
            _ => return None,
        }
        Some(after)
    }

    /// What is counted of a writing into this buffer.
    pub fn met(&self, desk: &Desk, reply: &Reply) -> Vec<&'static str> {
        let length = self.bytes().len();
        let case = desk.gapless().unwrap_or_default();
        match *reply {
            Reply::Refused { number: 11, .. } => vec![ON_SHORT_DESK],
            Reply::Refused { number: 12, .. } => vec![match case.len() {
                0 => ON_NO_PARTS,
                case if length < case => BROKEN_AND_SHORT,
                _ => BROKEN_ALONE,
            }],
            Reply::Length(_) => [room(length, case.len()), written(desk, &case)].concat(),
            _ => room(length, case.len()),
        }
    }
}

/// A length beyond that of what is to be written: by few bytes, by many, or such that its low 16 bits say less.
fn longer(random: &mut Random, case: usize) -> usize {
    match random.below(8) {
        0 => WRITTEN_MOST.max(case + 2),
        1 => STORE_LENGTH.max(case + 2),
        2 => 65_536 + random.below(case),
        _ => case + random.between(2, 300),
    }
}

/// How long a buffer is beside what is to be written.
fn room(length: usize, case: usize) -> Vec<&'static str> {
    let beside = match length {
        0 => EMPTY,
        _ if length + 1 < case => SHORTER,
        _ if length < case => ONE_SHORT,
        _ if length == case => EXACT,
        _ if length == case + 1 => ONE_LONGER,
        _ => LONGER,
    };
    let long = (length > 65_535).then_some(OVER_16_BITS);
    [beside].into_iter().chain(long).collect()
}

/// What the desk holds whose case is written.
fn written(desk: &Desk, case: &[u8]) -> Vec<&'static str> {
    let standing = &desk.standing;
    let lattice = desk.parts().map_or(Vec::new(), |parts| parts[0].to_vec());
    let gaps = !desk.store.starts_with(case);
    let met = [
        (!standing.settled && standing.round == 0, AT_ROUND_0),
        (!standing.settled && standing.round > 0, AT_LATER_ROUND),
        (standing.settled, SETTLED),
        (standing.row > 0, HALF_ROUND),
        (gaps, GAPS),
        (!gaps, NO_GAPS),
        (lattice == [0], PANEL_BYTE),
        (
            lattice.first() == Some(&27) && lattice == lattices::panel().part(),
            PANEL_ORDER,
        ),
        (case.len() == WRITTEN_MOST, MOST),
    ];
    met.iter()
        .filter(|(is, _)| *is)
        .map(|(_, name)| *name)
        .collect()
}

#[cfg(test)]
mod tests {
    use super::*;
    use crate::cases;

    /// A desk of zeros with these parts in its store.
    fn desk(parts: &[Vec<u8>], gaps: &[usize]) -> Desk {
        let mut desk = desks::zeroed();
        let bytes = cases::laid(&mut Random::new(0), parts, gaps);
        desk.store[..bytes.len()].copy_from_slice(&bytes);
        desk
    }

    fn buffer(length: usize) -> Buffer {
        Buffer {
            all: vec![9; MARGIN + length + MARGIN],
        }
    }

    fn refused(number: u8) -> Reply {
        Reply::Refused { number, part: 255 }
    }

    #[test]
    fn what_must_stand_in_a_buffer() {
        let desk = desk(&[vec![5], vec![6, 7], vec![8]], &[0, 3, 1, 0]);
        let case = [3, 13, 0, 1, 0, 14, 0, 2, 0, 16, 0, 1, 0, 5, 6, 7, 8];
        let left = |length, reply| {
            let after = buffer(length).after(&desk, &reply)?;
            Some(after.bytes().to_vec())
        };
        assert_eq!(left(17, Reply::Length(17)), Some(case.to_vec()));
        let longer = [&case[..], &[9, 9]].concat();
        assert_eq!(left(19, Reply::Length(17)), Some(longer));
        assert_eq!(left(16, refused(14)), Some(vec![9; 16]));
        assert_eq!(left(19, refused(11)), Some(vec![9; 19]));
        assert_eq!(left(16, refused(12)), Some(vec![9; 16]));
        assert_eq!(left(17, refused(14)), None);
        assert_eq!(left(16, Reply::Length(17)), None);
        assert_eq!(left(19, Reply::Length(16)), None);
        assert_eq!(left(19, refused(13)), None);
        let zeros = desks::zeroed();
        assert_eq!(buffer(20_000).after(&zeros, &Reply::Length(17)), None);
        assert_eq!(buffer(0).after(&zeros, &refused(14)), None);
    }

    #[test]
    fn what_is_counted() {
        let parts = [vec![0], vec![6, 7], vec![8]];
        let (gaps, none) = (desk(&parts, &[0, 0, 1, 0]), desk(&parts, &[0, 0, 0, 5]));
        let length = Reply::Length(17);
        let of_gaps = buffer(17).met(&gaps, &length);
        assert_eq!(of_gaps, [EXACT, AT_ROUND_0, GAPS, PANEL_BYTE]);
        let of_none = buffer(70_000).met(&none, &length);
        let expected = [LONGER, OVER_16_BITS, AT_ROUND_0, NO_GAPS, PANEL_BYTE];
        assert_eq!(of_none, expected);
        let panel = lattices::panel().part();
        let ordered = desk(&[panel, vec![6, 7], vec![8]], &[0; 4]);
        let of_ordered = buffer(774).met(&ordered, &Reply::Length(773));
        assert_eq!(of_ordered, [ONE_LONGER, AT_ROUND_0, NO_GAPS, PANEL_ORDER]);
        for (length, name) in [(0, EMPTY), (15, SHORTER), (16, ONE_SHORT)] {
            assert_eq!(buffer(length).met(&gaps, &refused(14)), [name]);
        }
        assert_eq!(buffer(16).met(&gaps, &refused(12)), [BROKEN_AND_SHORT]);
        assert_eq!(buffer(17).met(&gaps, &refused(12)), [BROKEN_ALONE]);
        let zeros = desks::zeroed();
        assert_eq!(buffer(17).met(&zeros, &refused(12)), [ON_NO_PARTS]);
        assert_eq!(buffer(17).met(&zeros, &refused(11)), [ON_SHORT_DESK]);
    }
}
