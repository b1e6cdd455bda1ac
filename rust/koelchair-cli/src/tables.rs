//! Meets and joins of an accepted lattice, derived from its order by their definitions, and with them the parts of one entry
//! of F. This is the tool's own computing, for `explain`: the library gives entries, not the parts of an entry. `explain`
//! compares the meet of the parts with the library's entry.

use crate::case::Case;
use crate::lattice::Lattice;

/// The operations of a lattice as tables.
pub struct Operations {
    n: usize,
    meet: Vec<u8>,
    join: Vec<u8>,
    complement: Vec<u8>,
    /// The greatest element.
    pub top: u8,
    /// The least element.
    pub bottom: u8,
}

impl Operations {
    /// The operations, if every two elements have a meet and a join.
    pub fn of(lattice: &Lattice) -> Option<Operations> {
        let n = lattice.size();
        let pairs = || (0..n * n).map(|i| (i / n, i % n));
        let below = |a: usize, b: usize| lattice.at_most(a, b);
        let above = |a: usize, b: usize| lattice.at_most(b, a);
        Some(Operations {
            n,
            meet: pairs()
                .map(|(a, b)| greatest(n, a, b, below))
                .collect::<Option<_>>()?,
            join: pairs()
                .map(|(a, b)| greatest(n, a, b, above))
                .collect::<Option<_>>()?,
            complement: (0..n).map(|a| lattice.complement(a) as u8).collect(),
            top: lattice.top()? as u8,
            bottom: lattice.bottom()? as u8,
        })
    }

    /// The meet of two elements.
    pub fn meet(&self, a: u8, b: u8) -> u8 {
        self.meet[usize::from(a) * self.n + usize::from(b)]
    }

    /// The join of two elements.
    pub fn join(&self, a: u8, b: u8) -> u8 {
        self.join[usize::from(a) * self.n + usize::from(b)]
    }

    /// (not a) joined with b.
    pub fn implies(&self, a: u8, b: u8) -> u8 {
        self.join(self.complement[usize::from(a)], b)
    }

    /// The meet of both implications.
    pub fn equivalent(&self, a: u8, b: u8) -> u8 {
        self.meet(self.implies(a, b), self.implies(b, a))
    }

    /// Whether a is at or below b.
    pub fn at_most(&self, a: u8, b: u8) -> bool {
        self.meet(a, b) == a
    }
}

/// Of the elements that are `under` both a and b, the one that all of them are under.
pub fn greatest(n: usize, a: usize, b: usize, under: impl Fn(usize, usize) -> bool) -> Option<u8> {
    let both = |c: &usize| under(*c, a) && under(*c, b);
    let bounds: Vec<usize> = (0..n).filter(both).collect();
    bounds
        .iter()
        .find(|g| bounds.iter().all(|c| under(*c, **g)))
        .map(|g| *g as u8)
}

/// One part of an entry: a proposition, or a transition of model 1 with its answers in model 2.
#[derive(Clone, Debug, PartialEq, Eq)]
pub enum Part {
    /// p1 ↔ p2.
    Proposition {
        /// The proposition.
        proposition: usize,
        /// Its values in models 1 and 2.
        values: [u8; 2],
        /// What the part gives.
        gives: u8,
    },
    /// R1(q1, q1') → the join over q2' of R2(q2, q2') met with S(q1', q2').
    Transition {
        /// q1'.
        to: usize,
        /// R1(q1, q1').
        value: u8,
        /// The best answers: one that gives the join alone, or those that no other answer is above.
        best: Vec<Answer>,
        /// The join over all answers.
        join: u8,
        /// What the part gives.
        gives: u8,
    },
}

/// An answer of model 2 to a transition of model 1.
#[derive(Clone, Copy, Debug, PartialEq, Eq)]
pub struct Answer {
    /// q2'.
    pub to: usize,
    /// R2(q2, q2').
    pub value: u8,
    /// S(q1', q2').
    pub entry: u8,
    /// Their meet.
    pub gives: u8,
}

impl Part {
    /// What the part gives.
    pub fn gives(&self) -> u8 {
        match self {
            Part::Proposition { gives, .. } | Part::Transition { gives, .. } => *gives,
        }
    }
}

/// The parts of entry (q1, q2) of F(S); their meet is the entry.
pub fn parts(
    case: &Case,
    operations: &Operations,
    table: &[u8],
    q1: usize,
    q2: usize,
) -> Vec<Part> {
    let k = case.propositions.len();
    let proposition = |p| {
        let values = [
            case.models[0].proposition(q1, k, p),
            case.models[1].proposition(q2, k, p),
        ];
        Part::Proposition {
            proposition: p,
            values,
            gives: operations.equivalent(values[0], values[1]),
        }
    };
    let transition = |to| {
        let value = case.models[0].transition(q1, to);
        let answers = answers(case, operations, table, (to, q2));
        let join = answers
            .iter()
            .fold(operations.bottom, |j, a| operations.join(j, a.gives));
        let best = best(operations, &answers, join);
        Part::Transition {
            to,
            value,
            best,
            join,
            gives: operations.implies(value, join),
        }
    };
    (0..k)
        .map(proposition)
        .chain((0..case.models[0].size()).map(transition))
        .collect()
}

/// All answers of model 2 at q2 to a transition to q1'.
fn answers(
    case: &Case,
    operations: &Operations,
    table: &[u8],
    (to1, q2): (usize, usize),
) -> Vec<Answer> {
    let course = &case.models[1];
    let answer = |to| {
        let (value, entry) = (course.transition(q2, to), table[to1 * course.size() + to]);
        Answer {
            to,
            value,
            entry,
            gives: operations.meet(value, entry),
        }
    };
    (0..course.size()).map(answer).collect()
}

/// The best answers among the transitions of model 2 that are not bottom: one that gives the join alone, if there is one.
fn best(operations: &Operations, answers: &[Answer], join: u8) -> Vec<Answer> {
    let mut answers = answers
        .iter()
        .filter(|a| a.value != operations.bottom)
        .copied()
        .collect::<Vec<_>>();
    if let Some(alone) = answers.iter().find(|a| a.gives == join) {
        return vec![*alone];
    }
    let all = answers.clone();
    let above = |a: &Answer, b: &Answer| a.gives != b.gives && operations.at_most(b.gives, a.gives);
    let first = |b: &Answer| all.iter().find(|a| a.gives == b.gives) == Some(b);
    answers.retain(|b| first(b) && !all.iter().any(|a| above(a, b)));
    answers
}
