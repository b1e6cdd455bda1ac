//! The bytes of a case: the gapless case of its parts (docs/STORE.md).

use crate::case::Case;
use crate::lattice::Lattice;
use crate::model::Model;

/// Why a case has no bytes: this part does not start or end below 65,536, as the directory's 16 bits ask.
#[derive(Clone, Copy, Debug, PartialEq, Eq)]
pub struct TooLong {
    /// The part.
    pub part: usize,
}

/// The bytes of a case.
pub fn encode(case: &Case) -> Result<Vec<u8>, TooLong> {
    let mut parts = vec![lattice_part(&case.lattice)];
    parts.extend(
        case.models
            .iter()
            .map(|m| model_part(m, case.propositions.len())),
    );
    for named in &case.formulas {
        let mut part = Vec::new();
        named.formula.write(&mut part);
        parts.push(part);
    }
    gapless(&parts)
}

/// Parts behind their directory, without gaps.
pub fn gapless(parts: &[Vec<u8>]) -> Result<Vec<u8>, TooLong> {
    let count = u8::try_from(parts.len()).map_err(|_| TooLong { part: 255 })?;
    let mut bytes = vec![count];
    let mut offset = 1 + 4 * parts.len();
    for (part, content) in parts.iter().enumerate() {
        let too_long = |_| TooLong { part };
        bytes.extend(u16::try_from(offset).map_err(too_long)?.to_le_bytes());
        bytes.extend(
            u16::try_from(content.len())
                .map_err(too_long)?
                .to_le_bytes(),
        );
        offset += content.len();
    }
    parts.iter().for_each(|content| bytes.extend(content));
    Ok(bytes)
}

/// The bytes of a lattice part.
pub fn lattice_part(lattice: &Lattice) -> Vec<u8> {
    if *lattice == Lattice::Panel {
        return vec![0];
    }
    let n = lattice.size();
    let mut part = vec![n as u8];
    part.extend((0..n).map(|a| lattice.complement(a) as u8));
    part.extend((0..n * n).map(|i| u8::from(lattice.at_most(i / n, i % n))));
    part
}

/// The bytes of a model part with k propositions.
fn model_part(model: &Model, k: usize) -> Vec<u8> {
    let mut part = vec![model.size() as u8, k as u8];
    part.extend(&model.initial);
    part.extend(&model.propositions);
    part.extend(&model.transitions);
    part
}
