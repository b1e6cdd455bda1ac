//! The case: its directory, the order of refusals 1 to 10, the gapless form in which the store holds it (docs/STORE.md), and the case that
//! says what was read. Rests on `lattice`, `model` and `formula`.

use crate::formula::{self, Formula};
use crate::lattice::{self, Lattice};
use crate::model::{self, Model};

/// "A case has at most 32,768 bytes".
const CASE_MOST: usize = 32_768;

/// The part that is named where a refusal concerns no part.
const NO_PART: u8 = 255;

/// What a refused call gives: a number and a part.
#[derive(Clone, Copy, Debug, PartialEq, Eq)]
pub struct Refusal {
    /// 1 to 14.
    pub number: u8,
    /// The part, or 255.
    pub part: u8,
}

impl Refusal {
    /// A refusal that concerns no part.
    pub fn general(number: u8) -> Refusal {
        Refusal {
            number,
            part: NO_PART,
        }
    }
}

/// What an accepted case says.
pub struct Content {
    /// Part 0.
    pub lattice: Lattice,
    /// Part 1.
    pub model1: Model,
    /// Part 2.
    pub model2: Model,
    /// "the rest formulas numbered from 0."
    pub formulas: Vec<Formula>,
}

/// The parts of a case and what they say, or the first refusal that applies, "in this order, part by part from 3 on (all pairs
/// first)".
pub fn read(case: &[u8]) -> Result<(Vec<&[u8]>, Content), Refusal> {
    let parts = parts(case)?;
    let content = content(&parts)?;
    Ok((parts, content))
}

/// The parts by the directory: "a count of parts (3 to 11), then a pair of offset and length for each part, each 16 bits with the low
/// byte first, sorted by offset." Refusals 1, 2 and 3.
fn parts(case: &[u8]) -> Result<Vec<&[u8]>, Refusal> {
    if case.len() > CASE_MOST {
        return Err(Refusal::general(1));
    }
    let (&count, rest) = case.split_first().ok_or(Refusal::general(1))?;
    let directory = 4 * usize::from(count);
    if !(3..=11).contains(&count) || rest.len() < directory {
        return Err(Refusal::general(2));
    }
    let mut parts = Vec::new();
    let mut free = 1 + directory;
    for (pair, number) in rest[..directory].chunks(4).zip(0..count) {
        let (start, end) = place(pair);
        // "A part starts at or after the directory's end and at or after the end of the part before it, and ends within the case."
        if start == end || start < free || end > case.len() {
            return Err(Refusal {
                number: 3,
                part: number,
            });
        }
        parts.push(&case[start..end]);
        free = end;
    }
    Ok(parts)
}

/// Where a part starts and ends, by the four bytes of its pair. The end may be beyond 65,535.
fn place(pair: &[u8]) -> (usize, usize) {
    let wide = |at: usize| usize::from(pair[at]) + 256 * usize::from(pair[at + 1]);
    (wide(0), wide(0) + wide(2))
}

/// "Part 0 is the lattice, part 1 model 1, part 2 model 2, the rest formulas numbered from 0." Refusals 4 to 10, part by part.
fn content(parts: &[&[u8]]) -> Result<Content, Refusal> {
    let [part0, part1, part2, rest @ ..] = parts else {
        return Err(Refusal::general(2));
    };
    let lattice = lattice::read(part0).map_err(|number| Refusal { number, part: 0 })?;
    let refuse = |part| Refusal { number: 9, part };
    let model1 = model::read(part1, &lattice).ok_or(refuse(1))?;
    let k = model1.proposition_count();
    // "Both models have the same k": a difference is number 9 with part 2.
    let model2 = model::read(part2, &lattice)
        .filter(|model| model.proposition_count() == k)
        .ok_or(refuse(2))?;
    let mut formulas = Vec::new();
    for (bytes, part) in rest.iter().zip(3u8..) {
        formulas.push(formula::read(bytes, k).ok_or(Refusal { number: 10, part })?);
    }
    Ok(Content {
        lattice,
        model1,
        model2,
        formulas,
    })
}

/// The case that says what was read: "parts without gaps, directory first". It is made from the content alone: "Two desks with the same
/// reading, the form of the lattice included, give the same bytes."
pub fn of_content(content: &Content) -> Vec<u8> {
    let Content {
        lattice,
        model1,
        model2,
        formulas,
    } = content;
    let mut parts = vec![lattice.part(), model1.part(), model2.part()];
    parts.extend(formulas.iter().map(Formula::part));
    gapless(&parts)
}

/// The case whose parts "follow the directory and one another without a gap, in order" (docs/STORE.md).
pub fn gapless(parts: &[impl AsRef<[u8]>]) -> Vec<u8> {
    let low_first = |number: usize| [(number % 256) as u8, (number / 256 % 256) as u8];
    let mut case = vec![(parts.len() % 256) as u8];
    let mut start = 1 + 4 * parts.len();
    for part in parts {
        let length = part.as_ref().len();
        case.extend(low_first(start));
        case.extend(low_first(length));
        start += length;
    }
    for part in parts {
        case.extend(part.as_ref());
    }
    case
}
