//! From bytes to a case with invented names: elements e0, e1, …, states q0, q1, …, propositions p0, p1, …, formulas f0,
//! f1, …. Read are the directory and the form of every part. Whether an order is that of a lattice and how many there may
//! be of anything, the desk says.

use crate::case::{Case, NamedFormula};
use crate::encode::{gapless, lattice_part};
use crate::formula;
use crate::lattice::{Lattice, OrderTable};
use crate::model::Model;

/// The parts of a case, if its directory can be read: at least three parts, in rising order, none empty.
pub fn parts(bytes: &[u8]) -> Option<Vec<&[u8]>> {
    let count = usize::from(*bytes.first()?);
    let mut end = 1 + 4 * count;
    let mut parts = Vec::new();
    for i in 0..count {
        let pair = bytes.get(1 + 4 * i..5 + 4 * i)?;
        let start = usize::from(u16::from_le_bytes([pair[0], pair[1]]));
        let length = usize::from(u16::from_le_bytes([pair[2], pair[3]]));
        if start < end || length == 0 {
            return None;
        }
        end = start + length;
        parts.push(bytes.get(start..end)?);
    }
    (count >= 3).then_some(parts)
}

/// The gapless form of a case whose directory can be read.
pub fn without_gaps(bytes: &[u8]) -> Option<Vec<u8>> {
    let parts: Vec<Vec<u8>> = parts(bytes)?.into_iter().map(<[u8]>::to_vec).collect();
    gapless(&parts).ok()
}

/// The case, if every part has its form; the text form can say every such case, also one that the desk refuses.
pub fn decode(bytes: &[u8]) -> Option<Case> {
    let parts = parts(bytes)?;
    let lattice = lattice(parts[0])?;
    let (first, k) = model(parts[1], &lattice)?;
    let (second, other) = model(parts[2], &lattice)?;
    if k != other {
        return None;
    }
    let propositions = invented('p', k);
    let named = |(i, part): (usize, &&[u8])| {
        let formula = formula::read(part, &propositions)?;
        Some(NamedFormula {
            name: format!("f{i}"),
            formula,
        })
    };
    Some(Case {
        head: Vec::new(),
        title: None,
        formulas: parts[3..]
            .iter()
            .enumerate()
            .map(named)
            .collect::<Option<_>>()?,
        lattice,
        propositions,
        models: [first, second],
    })
}

/// Names that count from 0 on.
fn invented(letter: char, count: usize) -> Vec<String> {
    (0..count).map(|i| format!("{letter}{i}")).collect()
}

/// A lattice by the form that has these bytes: the panel, a chain, a power set, else an order by its table.
fn lattice(part: &[u8]) -> Option<Lattice> {
    if part == [0] {
        return Some(Lattice::Panel);
    }
    let n = usize::from(part[0]);
    if n == 0 || part.len() != 1 + n + n * n {
        return None;
    }
    let chain = Lattice::Chain(invented('e', n));
    if lattice_part(&chain) == part {
        return Some(chain);
    }
    let power = Lattice::Power(invented('a', n.trailing_zeros() as usize));
    if n.is_power_of_two() && lattice_part(&power) == part {
        return Some(power);
    }
    let (complement, order) = part[1..].split_at(n);
    let form = complement.iter().all(|c| usize::from(*c) < n) && order.iter().all(|b| *b < 2);
    form.then(|| {
        Lattice::Order(OrderTable {
            elements: invented('e', n),
            order: order.iter().map(|b| *b == 1).collect(),
            complement: complement.to_vec(),
        })
    })
}

/// A model and its count of propositions.
fn model(part: &[u8], lattice: &Lattice) -> Option<(Model, usize)> {
    let [n, k, values @ ..] = part else {
        return None;
    };
    let (n, k) = (usize::from(*n), usize::from(*k));
    let elements = values.iter().all(|v| usize::from(*v) < lattice.size());
    if n == 0 || values.len() != n + n * k + n * n || !elements {
        return None;
    }
    let model = Model {
        title: None,
        states: invented('q', n),
        initial: values[..n].to_vec(),
        propositions: values[n..n + n * k].to_vec(),
        transitions: values[n + n * k..].to_vec(),
    };
    Some((model, k))
}
