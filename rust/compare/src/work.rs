//! The work on one entry of F as request 103 tells it, pair by pair with its early ends, and what is met on the way. It is a third count
//! beside those of the two implementations, by which a test knows what it has compared. Rests on lattices and densities.

use crate::densities::Drawn;
use crate::lattices::{self, Lattice};

const AT_PROPOSITIONS: &str = "entry bottom by its propositions";
const BEFORE_LAST: &str = "entry bottom before the last q1'";
const AT_LAST: &str = "entry bottom at the last q1'";
const NOT_BOTTOM: &str = "entry not bottom";
const ONE_ELEMENT: &str = "entry over one element";
const ALL_PAIRS: &str = "entry of all N1·N2 pairs";
const BOTTOM_TRANSITION: &str = "q1' looked at though the transition to it is bottom";
const TOP_AT_FIRST: &str = "join top at the first of several pairs";
const TOP_BETWEEN: &str = "join top between the first pair and the last";
const TOP_AT_LAST: &str = "join top at the last of several pairs";
const NEVER_TOP: &str = "join of several pairs never top";
const ONE_PAIR: &str = "join of one pair";

/// All that can be met.
pub const KINDS: [&str; 12] = [
    AT_PROPOSITIONS,
    BEFORE_LAST,
    AT_LAST,
    NOT_BOTTOM,
    ONE_ELEMENT,
    ALL_PAIRS,
    BOTTOM_TRANSITION,
    TOP_AT_FIRST,
    TOP_BETWEEN,
    TOP_AT_LAST,
    NEVER_TOP,
    ONE_PAIR,
];

/// What the work on an entry gives, and what was met, each kind as often as it was.
#[derive(Debug)]
pub struct Work {
    pub element: u8,
    pub pairs: usize,
    pub met: Vec<&'static str>,
}

/// A case with the meets and joins of its lattice.
pub struct Worker<'a> {
    case: &'a Drawn,
    /// Place a * n + b is the meet of a and b.
    meets: Vec<u8>,
    joins: Vec<u8>,
    bottom: u8,
    top: u8,
}

impl<'a> Worker<'a> {
    pub fn new(case: &'a Drawn) -> Worker<'a> {
        let lattice = &case.lattice;
        Worker {
            case,
            meets: of_all_two(lattice, |i, j| lattice.at_most(i, j)),
            joins: of_all_two(lattice, |i, j| lattice.at_most(j, i)),
            bottom: lattice.bottom(),
            top: lattice.top(),
        }
    }

    /// Works entry (q1, q2) of F of a table.
    pub fn work(&self, table: &[u8], q1: usize, q2: usize) -> Work {
        let [model1, model2] = &self.case.models;
        let transitions = &model1.transitions[q1 * model1.states..][..model1.states];
        let mut rows = transitions.iter().zip(table.chunks(model2.states));
        let mut meet = self.alike(q1, q2);
        let (mut taken, mut pairs, mut met) = (0, 0, Vec::new());
        while let (true, Some((&transition, row))) = (meet != self.bottom, rows.next()) {
            let (join, looked_at) = self.joined(row, q2);
            meet = self.meet(meet, self.implies(transition, join));
            taken += 1;
            pairs += looked_at;
            met.push(join_kind(looked_at, join == self.top, row.len()));
            if transition == self.bottom {
                met.push(BOTTOM_TRANSITION);
            }
        }
        met.push(self.entry_kind(meet, taken));
        if pairs > 1 && pairs == model1.states * model2.states {
            met.push(ALL_PAIRS);
        }
        Work {
            element: meet,
            pairs,
            met,
        }
    }

    /// The meet over the propositions.
    fn alike(&self, q1: usize, q2: usize) -> u8 {
        let [model1, model2] = &self.case.models;
        let k = model1.propositions;
        let labels = model1.labels[q1 * k..].iter().zip(&model2.labels[q2 * k..]);
        labels.take(k).fold(self.top, |meet, (&a, &b)| {
            let alike = self.meet(self.implies(a, b), self.implies(b, a));
            self.meet(meet, alike)
        })
    }

    /// The join of a row of the table, each entry met with the transition from q2, and how many pairs were looked at for it.
    fn joined(&self, row: &[u8], q2: usize) -> (u8, usize) {
        let transitions = &self.case.models[1].transitions[q2 * row.len()..];
        let (mut join, mut looked_at) = (self.bottom, 0);
        for (&entry, &transition) in row.iter().zip(transitions) {
            if join == self.top {
                break;
            }
            join = self.join(join, self.meet(transition, entry));
            looked_at += 1;
        }
        (join, looked_at)
    }

    /// What an entry is counted as, for which so many q1' were taken.
    fn entry_kind(&self, meet: u8, taken: usize) -> &'static str {
        match taken {
            _ if self.top == self.bottom => ONE_ELEMENT,
            _ if meet != self.bottom => NOT_BOTTOM,
            0 => AT_PROPOSITIONS,
            _ if taken == self.case.models[0].states => AT_LAST,
            _ => BEFORE_LAST,
        }
    }

    fn meet(&self, a: u8, b: u8) -> u8 {
        self.meets[usize::from(a) * self.case.lattice.size + usize::from(b)]
    }

    fn join(&self, a: u8, b: u8) -> u8 {
        self.joins[usize::from(a) * self.case.lattice.size + usize::from(b)]
    }

    fn implies(&self, a: u8, b: u8) -> u8 {
        let not_a = self.case.lattice.complement[usize::from(a)];
        self.join(not_a as u8, b)
    }
}

/// What a join is counted as, of so many pairs of which some were looked at.
fn join_kind(looked_at: usize, top: bool, of: usize) -> &'static str {
    match looked_at {
        _ if of == 1 => ONE_PAIR,
        1 => TOP_AT_FIRST,
        _ if looked_at < of => TOP_BETWEEN,
        _ if top => TOP_AT_LAST,
        _ => NEVER_TOP,
    }
}

/// For each two elements the greatest that is at or below both, in the lattice's order or in that order reversed.
fn of_all_two(lattice: &Lattice, at_most: impl Fn(usize, usize) -> bool) -> Vec<u8> {
    let n = lattice.size;
    (0..n * n)
        .map(|place| lattices::greatest(n, &at_most, place / n, place % n) as u8)
        .collect()
}
