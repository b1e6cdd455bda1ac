//! Random models over a lattice. Rests on generator and lattices.

use crate::generator::Random;
use crate::lattices::Lattice;

#[derive(Clone, Debug)]
pub struct Model {
    pub states: usize,
    pub propositions: usize,
    pub initial: Vec<u8>,
    /// State by state.
    pub labels: Vec<u8>,
    /// A row for each state left.
    pub transitions: Vec<u8>,
}

impl Model {
    /// The bytes of a model part.
    pub fn part(&self) -> Vec<u8> {
        let mut part = vec![self.states as u8, self.propositions as u8];
        part.extend(&self.initial);
        part.extend(&self.labels);
        part.extend(&self.transitions);
        part
    }
}

/// Any element, bottom and top more often than the others.
pub fn element(random: &mut Random, lattice: &Lattice) -> u8 {
    match random.below(6) {
        0 => lattice.bottom(),
        1 => lattice.top(),
        _ => random.below(lattice.size) as u8,
    }
}

fn elements(random: &mut Random, lattice: &Lattice, count: usize) -> Vec<u8> {
    (0..count).map(|_| element(random, lattice)).collect()
}

pub fn random(random: &mut Random, lattice: &Lattice, states: usize, propositions: usize) -> Model {
    let labels = match random.below(3) {
        0 => elements(random, lattice, states * propositions),
        _ => few_labels(random, lattice, states, propositions),
    };
    Model {
        states,
        propositions,
        initial: elements(random, lattice, states),
        labels,
        transitions: transitions(random, lattice, states),
    }
}

/// Labels that are nearly all the same, so that tables do not fall to bottom in the first round.
fn few_labels(
    random: &mut Random,
    lattice: &Lattice,
    states: usize,
    propositions: usize,
) -> Vec<u8> {
    let mut labels = vec![lattice.top(); states * propositions];
    if !labels.is_empty() {
        for _ in 0..random.between(1, 3) {
            let place = random.below(labels.len());
            labels[place] = element(random, lattice);
        }
    }
    labels
}

/// Transitions from anywhere to anywhere, few of them, or mostly along a line or a circle, whose tables take many rounds.
fn transitions(random: &mut Random, lattice: &Lattice, states: usize) -> Vec<u8> {
    match random.below(4) {
        0 => elements(random, lattice, states * states),
        1 => scattered(random, lattice, vec![lattice.bottom(); states * states]),
        2 => {
            let line = along(lattice, states, false);
            scattered(random, lattice, line)
        }
        _ => along(lattice, states, random.one_in(3)),
    }
}

/// Each state to the next with top; in a circle the last to the first.
fn along(lattice: &Lattice, states: usize, circle: bool) -> Vec<u8> {
    let mut values = vec![lattice.bottom(); states * states];
    for left in 0..states {
        if circle || left + 1 < states {
            values[left * states + (left + 1) % states] = lattice.top();
        }
    }
    values
}

/// Some values changed for others.
fn scattered(random: &mut Random, lattice: &Lattice, mut values: Vec<u8>) -> Vec<u8> {
    for value in &mut values {
        if random.one_in(5) {
            *value = element(random, lattice);
        }
    }
    values
}

/// A model that differs little from another: the same, or with a few values changed.
pub fn near(random: &mut Random, lattice: &Lattice, model: &Model) -> Model {
    let mut model = model.clone();
    for _ in 0..random.below(4) {
        let (q, r) = (random.below(model.states), random.below(model.states));
        model.initial[q] = element(random, lattice);
        model.transitions[q * model.states + r] = element(random, lattice);
        if model.propositions > 0 && random.one_in(2) {
            model.labels[q * model.propositions + random.below(model.propositions)] =
                element(random, lattice);
        }
    }
    model
}
