//! The formula: how a formula part is read and written back, and a formula's values on a model. Rests on `lattice` and `model`.

use crate::lattice::{Element, Lattice};
use crate::model::{Model, Proposition, State};

/// "At most 3 binders are nested."
const NESTED_MOST: usize = 3;

/// A formula as a tree.
#[derive(Debug, PartialEq, Eq)]
pub enum Formula {
    /// Code 0.
    Bottom,
    /// Code 1.
    Top,
    /// Code 2, a proposition.
    Holds(Proposition),
    /// Code 3, a negated proposition.
    Fails(Proposition),
    /// Code 4, a variable: "the count of binders between it and its own (0 is the nearest)".
    Variable(usize),
    /// Code 5.
    Or(Box<Formula>, Box<Formula>),
    /// Code 6.
    And(Box<Formula>, Box<Formula>),
    /// Code 7.
    Ax(Box<Formula>),
    /// Code 8.
    Ex(Box<Formula>),
    /// Code 9, the least fixpoint of the body.
    Least(Box<Formula>),
    /// Code 10, the greatest fixpoint of the body.
    Greatest(Box<Formula>),
}

/// "A formula part has 1 to 255 bytes in prefix form and is used up exactly." Nothing where the part breaks a rule.
pub fn read(part: &[u8], k: u8) -> Option<Formula> {
    if part.is_empty() || part.len() > 255 {
        return None;
    }
    let (formula, rest) = node(part, k, 0)?;
    rest.is_empty().then_some(formula)
}

/// The formula at the front of some bytes, below so many binders, and the bytes after it.
/// "Any code from 11 to 255 is refused."
fn node(bytes: &[u8], k: u8, binders: usize) -> Option<(Formula, &[u8])> {
    let (&code, rest) = bytes.split_first()?;
    match code {
        0 => Some((Formula::Bottom, rest)),
        1 => Some((Formula::Top, rest)),
        2 => proposition(Formula::Holds, rest, k),
        3 => proposition(Formula::Fails, rest, k),
        4 => variable(rest, binders),
        5 => sides(Formula::Or, rest, k, binders),
        6 => sides(Formula::And, rest, k, binders),
        7 => body(Formula::Ax, rest, k, binders),
        8 => body(Formula::Ex, rest, k, binders),
        9 | 10 if binders == NESTED_MOST => None,
        9 => body(Formula::Least, rest, k, binders + 1),
        10 => body(Formula::Greatest, rest, k, binders + 1),
        11..=255 => None,
    }
}

/// A code that is followed by a proposition's "number, below k".
fn proposition(make: fn(Proposition) -> Formula, rest: &[u8], k: u8) -> Option<(Formula, &[u8])> {
    let (&number, rest) = rest.split_first()?;
    let p = Proposition::below(k, number)?;
    Some((make(p), rest))
}

/// A variable's count of binders. "Every variable is bound."
fn variable(rest: &[u8], binders: usize) -> Option<(Formula, &[u8])> {
    let (&count, rest) = rest.split_first()?;
    let count = usize::from(count);
    (count < binders).then_some((Formula::Variable(count), rest))
}

/// A code that is followed by two formulas.
fn sides(
    make: fn(Box<Formula>, Box<Formula>) -> Formula,
    rest: &[u8],
    k: u8,
    binders: usize,
) -> Option<(Formula, &[u8])> {
    let (left, rest) = node(rest, k, binders)?;
    let (right, rest) = node(rest, k, binders)?;
    Some((make(Box::new(left), Box::new(right)), rest))
}

/// A code that is followed by one formula.
fn body(
    make: fn(Box<Formula>) -> Formula,
    rest: &[u8],
    k: u8,
    binders: usize,
) -> Option<(Formula, &[u8])> {
    let (formula, rest) = node(rest, k, binders)?;
    Some((make(Box::new(formula)), rest))
}

impl Formula {
    /// The part that was read, "in prefix form".
    pub fn part(&self) -> Vec<u8> {
        match self {
            Formula::Bottom => vec![0],
            Formula::Top => vec![1],
            Formula::Holds(p) => vec![2, p.byte()],
            Formula::Fails(p) => vec![3, p.byte()],
            Formula::Variable(count) => vec![4, *count as u8],
            Formula::Or(left, right) => [vec![5], left.part(), right.part()].concat(),
            Formula::And(left, right) => [vec![6], left.part(), right.part()].concat(),
            Formula::Ax(body) => [vec![7], body.part()].concat(),
            Formula::Ex(body) => [vec![8], body.part()].concat(),
            Formula::Least(body) => [vec![9], body.part()].concat(),
            Formula::Greatest(body) => [vec![10], body.part()].concat(),
        }
    }
}

/// A map from states to elements, in the order of the states.
type Map = Vec<Element>;

/// A lattice and a model on which formulas are valued.
pub struct Valuer<'a> {
    /// The lattice.
    pub lattice: &'a Lattice,
    /// The model.
    pub model: &'a Model,
}

impl Valuer<'_> {
    /// The value of a closed formula at a state.
    pub fn at(&self, formula: &Formula, q: State) -> Element {
        self.map(formula, &mut Vec::new())[q.place()]
    }

    /// "A formula's value on a whole model is the meet over q of Q0(q) → value at q, Q0 being the initial values".
    pub fn whole(&self, formula: &Formula) -> Element {
        let map = self.map(formula, &mut Vec::new());
        let starts = self
            .model
            .states()
            .map(|q| self.lattice.implies(self.model.initial(q), map[q.place()]));
        self.lattice.meet_over(starts)
    }

    /// A formula's values at all states, the maps of the binders around it given, the nearest last.
    /// "Values, per state: or is join, and is meet".
    fn map(&self, formula: &Formula, binders: &mut Vec<Map>) -> Map {
        let lattice = self.lattice;
        match formula {
            Formula::Bottom => self.each(|_| lattice.bottom()),
            Formula::Top => self.each(|_| lattice.top()),
            Formula::Holds(p) => self.each(|q| self.model.label(q, *p)),
            Formula::Fails(p) => self.each(|q| lattice.not(self.model.label(q, *p))),
            Formula::Variable(count) => binders[binders.len() - 1 - count].clone(),
            Formula::Or(left, right) => {
                let (left, right) = (self.map(left, binders), self.map(right, binders));
                self.each(|q| lattice.join(left[q.place()], right[q.place()]))
            }
            Formula::And(left, right) => {
                let (left, right) = (self.map(left, binders), self.map(right, binders));
                self.each(|q| lattice.meet(left[q.place()], right[q.place()]))
            }
            Formula::Ax(body) => {
                let body = self.map(body, binders);
                self.each(|q| self.ax(q, &body))
            }
            Formula::Ex(body) => {
                let body = self.map(body, binders);
                self.each(|q| self.ex(q, &body))
            }
            Formula::Least(body) => self.fixpoint(body, lattice.bottom(), binders),
            Formula::Greatest(body) => self.fixpoint(body, lattice.top(), binders),
        }
    }

    /// The map that gives each state its value.
    fn each(&self, value: impl Fn(State) -> Element) -> Map {
        self.model.states().map(value).collect()
    }

    /// "AX f at q is the meet over all q' of (not R(q, q')) joined with f(q')".
    fn ax(&self, q: State, body: &Map) -> Element {
        let after = self.model.states().map(|to| {
            let unless = self.lattice.not(self.model.transition(q, to));
            self.lattice.join(unless, body[to.place()])
        });
        self.lattice.meet_over(after)
    }

    /// "EX f is the join of R(q, q') met with f(q')."
    fn ex(&self, q: State, body: &Map) -> Element {
        let after = self.model.states().map(|to| {
            self.lattice
                .meet(self.model.transition(q, to), body[to.place()])
        });
        self.lattice.join_over(after)
    }

    /// "The least fixpoint is the least map from states to elements that its body sends to itself; the greatest likewise." The body
    /// has no negated variable, so it keeps the order of maps, and applying it from all bottom (all top) until nothing changes ends there.
    fn fixpoint(&self, body: &Formula, start: Element, binders: &mut Vec<Map>) -> Map {
        let mut map = self.each(|_| start);
        loop {
            binders.push(map.clone());
            let next = self.map(body, binders);
            binders.pop();
            if next == map {
                return map;
            }
            map = next;
        }
    }
}

#[cfg(test)]
mod tests {
    use super::*;
    use crate::{lattice, model};

    /// All maps from two states to the elements below n.
    fn maps(lattice: &Lattice) -> Vec<Map> {
        let all: Vec<Element> = (0..64).map_while(|byte| lattice.element(byte)).collect();
        let pairs = all
            .iter()
            .flat_map(|&a| all.iter().map(move |&b| vec![a, b]));
        pairs.collect()
    }

    /// Whether every state's element in one map is at or below that in the other.
    fn at_most(lattice: &Lattice, one: &Map, other: &Map) -> bool {
        one.iter().zip(other).all(|(&a, &b)| lattice.at_most(a, b))
    }

    /// The least and the greatest of all maps that a body sends to themselves, by trying every map.
    fn by_trial(valuer: &Valuer, body: &Formula) -> (Map, Map) {
        let mut fixed = maps(valuer.lattice);
        fixed.retain(|map| valuer.map(body, &mut vec![map.clone()]) == *map);
        let extreme = |below: &dyn Fn(&Map, &Map) -> bool| {
            let found = fixed
                .iter()
                .find(|map| fixed.iter().all(|other| below(map, other)));
            found.cloned().unwrap_or_default()
        };
        let least = extreme(&|a, b| at_most(valuer.lattice, a, b));
        let greatest = extreme(&|a, b| at_most(valuer.lattice, b, a));
        (least, greatest)
    }

    /// p or EX x; p and AX x; EX x and AX x; p or (the least y with p negated, or x and EX y).
    const BODIES: [&[u8]; 4] = [
        &[5, 2, 0, 8, 4, 0],
        &[6, 2, 0, 7, 4, 0],
        &[6, 8, 4, 0, 7, 4, 0],
        &[5, 2, 0, 9, 5, 3, 0, 6, 4, 1, 8, 4, 0],
    ];

    /// On every model of two states with one proposition, start values aside.
    #[test]
    fn fixpoints_are_least_and_greatest_among_all_maps() {
        let chain = lattice::read(&[3, 2, 1, 0, 1, 1, 1, 0, 1, 1, 0, 0, 1]);
        let chain = chain.unwrap_or_else(|number| panic!("refused {number}"));
        let mut apart = 0;
        for number in 0..729u32 {
            let digit = |place: u32| (number / 3u32.pow(place) % 3) as u8;
            let mut part = vec![2, 1, 2, 2];
            part.extend((0..6).map(digit));
            let model = model::read(&part, &chain).expect("a model of two states");
            let valuer = Valuer {
                lattice: &chain,
                model: &model,
            };
            for bytes in BODIES {
                let (body, _) = node(bytes, 1, 1).expect("a body");
                let (least, greatest) = by_trial(&valuer, &body);
                apart += usize::from(least != greatest);
                let least_of = Formula::Least(Box::new(body));
                assert_eq!(valuer.map(&least_of, &mut Vec::new()), least);
                let (body, _) = node(bytes, 1, 1).expect("a body");
                let greatest_of = Formula::Greatest(Box::new(body));
                assert_eq!(valuer.map(&greatest_of, &mut Vec::new()), greatest);
            }
        }
        assert!(apart > 100);
    }

    #[test]
    fn a_variable_counts_the_binders_between() {
        let (formula, rest) = node(&[9, 10, 6, 4, 0, 4, 1], 0, 0).expect("two binders");
        assert!(rest.is_empty());
        let inner = Formula::And(
            Box::new(Formula::Variable(0)),
            Box::new(Formula::Variable(1)),
        );
        let outer = Formula::Least(Box::new(Formula::Greatest(Box::new(inner))));
        assert_eq!(formula, outer);
    }
}
