//! Why an entry or the score is not higher: from pair to pair along the transitions down to the cause. The entries of all rounds
//! are the library's (`rounds::History`); their parts come from `tables`. Each pair is followed at the round in which its entry
//! fell, and the pair after it fell in an earlier one, so that no reason goes in a circle.

use crate::case::Case;
use crate::rounds::History;
use crate::tables::{parts, Operations, Part};
use std::cmp::Reverse;

/// What a question is put to.
pub struct Reasoning<'a> {
    /// The case.
    pub case: &'a Case,
    /// Its lattice's operations.
    pub operations: &'a Operations,
    /// The library's entries in every round.
    pub history: &'a History,
}

/// One pair on the way to the cause.
#[derive(Clone, Debug, PartialEq, Eq, Hash)]
pub struct Step {
    /// The student's state and the course's.
    pub pair: (usize, usize),
    /// The first round in which the entry fails the question.
    pub round: u32,
    /// The entry in the round before, and in this one.
    pub entries: (u8, u8),
    /// What makes it fail.
    pub cause: Cause,
}

/// What makes an entry fail a question.
#[derive(Clone, Debug, PartialEq, Eq, Hash)]
pub enum Cause {
    /// These propositions.
    Propositions(Vec<Difference>),
    /// A transition of the student's that no transition of the course's answers.
    Transition {
        /// Where it goes.
        to: usize,
        /// Its value.
        value: u8,
        /// The course's transitions from the pair's state, the best first.
        answers: Vec<Tried>,
    },
}

/// A proposition on which two states do not agree to the degree that is asked.
#[derive(Clone, Copy, Debug, PartialEq, Eq, Hash)]
pub struct Difference {
    /// The proposition.
    pub proposition: usize,
    /// Its values for the student and for the course.
    pub values: [u8; 2],
    /// How far these agree.
    pub gives: u8,
}

/// A transition of the course's, or an initial state, that does not answer.
#[derive(Clone, Copy, Debug, PartialEq, Eq, Hash)]
pub struct Tried {
    /// The course's state that it leads to.
    pub to: usize,
    /// The value of the transition, or the initial value.
    pub value: u8,
    /// Whether the value itself is too low.
    pub low: bool,
    /// The round in which the entry of the pair it leads to fell; none if it is not what fails.
    pub fell: Option<u32>,
    /// The value met with the entry of the pair that it leads to.
    pub gives: u8,
}

/// Why the score fails a question: an initial state of the student's that no initial state of the course's follows.
#[derive(Clone, Debug, PartialEq, Eq)]
pub struct Initial {
    /// The student's state.
    pub state: usize,
    /// Its initial value.
    pub value: u8,
    /// The course's initial states, the best first.
    pub answers: Vec<Tried>,
}

impl Reasoning<'_> {
    fn place(&self, (q1, q2): (usize, usize)) -> usize {
        q1 * self.case.models[1].size() + q2
    }

    /// The settled entry of a pair.
    pub fn settled(&self, pair: (usize, usize)) -> u8 {
        self.history.settled(self.place(pair))
    }

    fn fails(&self, asked: u8, element: u8) -> bool {
        !self.operations.at_most(asked, element)
    }

    /// The round in which a pair's entry fell below what is asked.
    fn fell(&self, pair: (usize, usize), asked: u8) -> Option<u32> {
        let place = self.place(pair);
        self.history.first(place, |e| self.fails(asked, e))
    }

    /// The way from a pair to the cause; an error if the parts of an entry do not meet to the library's entry.
    pub fn way(&self, mut pair: (usize, usize), asked: u8) -> Result<Vec<Step>, String> {
        let mut way = Vec::new();
        while let Some(step) = self.step(pair, asked)? {
            let next = step.next();
            way.push(step);
            match next {
                Some(after) => pair = after,
                None => break,
            }
        }
        Ok(way)
    }

    /// Why the entry of a pair fell, in the round in which it did.
    pub fn step(&self, pair: (usize, usize), asked: u8) -> Result<Option<Step>, String> {
        let Some(round) = self.fell(pair, asked).filter(|r| *r > 0) else {
            return Ok(None);
        };
        let size = self.case.models[0].size() * self.case.models[1].size();
        let table: Vec<u8> = (0..size).map(|i| self.history.at(i, round - 1)).collect();
        let (place, list) = (self.place(pair), self.parts(&table, pair));
        let entries = (table[place], self.history.at(place, round));
        let meet = list.iter().fold(self.operations.top, |m, p| {
            self.operations.meet(m, p.gives())
        });
        if meet != entries.1 {
            return Err("the parts of an entry do not meet to the library's entry".to_string());
        }
        let failing = list.iter().filter(|p| self.fails(asked, p.gives()));
        Ok(self.cause(pair, asked, round, failing).map(|cause| Step {
            pair,
            round,
            entries,
            cause,
        }))
    }

    fn parts(&self, table: &[u8], (q1, q2): (usize, usize)) -> Vec<Part> {
        parts(self.case, self.operations, table, q1, q2)
    }

    /// The propositions among the failing parts, or the first transition.
    fn cause<'p>(
        &self,
        pair: (usize, usize),
        asked: u8,
        round: u32,
        failing: impl Iterator<Item = &'p Part>,
    ) -> Option<Cause> {
        let mut propositions = Vec::new();
        let mut transition = None;
        for part in failing {
            match part {
                Part::Proposition {
                    proposition,
                    values,
                    gives,
                } => propositions.push(Difference {
                    proposition: *proposition,
                    values: *values,
                    gives: *gives,
                }),
                Part::Transition { to, value, .. } => {
                    transition = transition.or(Some((*to, *value)));
                }
            }
        }
        if !propositions.is_empty() {
            return Some(Cause::Propositions(propositions));
        }
        let (to, value) = transition?;
        let answers = self.tried(pair, to, asked, round);
        Some(Cause::Transition { to, value, answers })
    }

    /// The course's transitions from the pair's state against the student's to `to`, the best first.
    fn tried(&self, pair: (usize, usize), to: usize, asked: u8, round: u32) -> Vec<Tried> {
        let course = &self.case.models[1];
        let value = |r: usize| course.transition(pair.1, r);
        let there = (0..course.size()).filter(|r| value(*r) != self.operations.bottom);
        let one = |r: usize| self.one_tried((to, r), value(r), asked, round);
        self.sorted(there.map(one).collect())
    }

    /// An answer that leads to a pair, as it was before a round.
    fn one_tried(&self, pair: (usize, usize), value: u8, asked: u8, round: u32) -> Tried {
        let entry = self.history.at(self.place(pair), round - 1);
        Tried {
            to: pair.1,
            value,
            low: self.fails(asked, value),
            fell: self.fell(pair, asked).filter(|r| *r < round),
            gives: self.operations.meet(value, entry),
        }
    }

    /// The best first: those that give most, then those whose own value is high enough, then those that held longest.
    fn sorted(&self, mut tried: Vec<Tried>) -> Vec<Tried> {
        let n = self.case.lattice.size() as u8;
        let below = |e: u8| (0..n).filter(|a| self.operations.at_most(*a, e)).count();
        tried.sort_by_key(|t| {
            let held = t.fell.unwrap_or(u32::MAX);
            (Reverse(below(t.gives)), t.low, Reverse(held))
        });
        tried
    }

    /// Why the score of the settled table fails a question.
    pub fn initial(&self, asked: u8) -> Option<Initial> {
        let [student, course] = &self.case.models;
        let answers = |q1: usize| {
            let there =
                (0..course.size()).filter(|q2| course.initial[*q2] != self.operations.bottom);
            let one = |q2: usize| self.one_tried((q1, q2), course.initial[q2], asked, u32::MAX);
            self.sorted(there.map(one).collect())
        };
        let bottom = self.operations.bottom;
        let counts = |q1: &usize| {
            let not_initial = self.operations.implies(student.initial[*q1], bottom);
            self.fails(asked, not_initial)
        };
        let failing = |tried: &Vec<Tried>| tried.iter().all(|t| t.low || t.fell.is_some());
        (0..student.size()).filter(counts).find_map(|state| {
            let answers = Some(answers(state)).filter(failing)?;
            let value = student.initial[state];
            Some(Initial {
                state,
                value,
                answers,
            })
        })
    }
}

/// The pair that the best answer leads to, where its entry is what fails.
pub fn followed(to: usize, answers: &[Tried]) -> Option<(usize, usize)> {
    let best = answers.first().filter(|t| !t.low)?;
    best.fell.map(|_| (to, best.to))
}

impl Step {
    /// The pair that the way goes on to.
    pub fn next(&self) -> Option<(usize, usize)> {
        match &self.cause {
            Cause::Propositions(_) => None,
            Cause::Transition { to, answers, .. } => followed(*to, answers),
        }
    }
}
