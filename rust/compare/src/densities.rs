//! Cases whose models have few transitions or many, so that the work on an entry ends early or late. Rests on generator, lattices, models
//! and cases.

use crate::cases;
use crate::generator::Random;
use crate::lattices::{self, Lattice};
use crate::models::{self, Model};

/// How the values of both models are drawn.
#[derive(Clone, Copy, Debug, PartialEq, Eq)]
pub enum Density {
    /// Two or three transitions a state; up to three propositions, each top or bottom, so that states mostly differ.
    Sparse,
    /// A quarter of the transitions, and up to three propositions of any value.
    Middle,
    /// No transition is bottom, and no propositions.
    Dense,
    /// At each state transitions at or below an element that is next below top, and propositions that are all alike: no join is top,
    /// and no meet is bottom.
    Never,
}

/// All densities.
pub const DENSITIES: [Density; 4] = [
    Density::Sparse,
    Density::Middle,
    Density::Dense,
    Density::Never,
];

/// A case without formulas.
pub struct Drawn {
    pub lattice: Lattice,
    pub models: [Model; 2],
}

impl Drawn {
    /// Models of so many states.
    pub fn new(
        random: &mut Random,
        lattice: Lattice,
        density: Density,
        states: [usize; 2],
    ) -> Self {
        let propositions = match density {
            Density::Dense => 0,
            _ => random.between(1, 3),
        };
        let models = states.map(|states| Model {
            states,
            propositions,
            initial: vec![lattice.top(); states],
            labels: (0..states * propositions)
                .map(|_| label(random, &lattice, density))
                .collect(),
            transitions: (0..states)
                .flat_map(|_| successors(random, &lattice, density, states))
                .collect(),
        });
        Drawn { lattice, models }
    }

    /// The bytes of the case. The panel is named by its one byte.
    pub fn bytes(&self) -> Vec<u8> {
        let lattice = self.lattice.part();
        let panel = lattice == lattices::panel().part();
        let [first, second] = &self.models;
        let parts = [
            if panel { vec![0] } else { lattice },
            first.part(),
            second.part(),
        ];
        cases::gapless(&parts)
    }
}

/// The value of a proposition at a state.
fn label(random: &mut Random, lattice: &Lattice, density: Density) -> u8 {
    match density {
        Density::Sparse => random.pick(&[lattice.bottom(), lattice.top()]),
        Density::Never => lattice.top(),
        _ => models::element(random, lattice),
    }
}

/// The transitions that leave a state.
fn successors(random: &mut Random, lattice: &Lattice, density: Density, states: usize) -> Vec<u8> {
    let mut row = vec![lattice.bottom(); states];
    match density {
        Density::Sparse => {
            for _ in 0..random.between(2, 3) {
                row[random.below(states)] = above_bottom(random, lattice);
            }
        }
        Density::Middle => {
            for value in &mut row {
                if random.one_in(4) {
                    *value = above_bottom(random, lattice);
                }
            }
        }
        Density::Dense => row.fill_with(|| above_bottom(random, lattice)),
        Density::Never => {
            let most = next_below_top(random, lattice);
            row.fill_with(|| element_where(random, lattice, |e| lattice.at_most(e, most)));
        }
    }
    row
}

/// Any element but bottom, top more often than the others; of a lattice of one element that one.
fn above_bottom(random: &mut Random, lattice: &Lattice) -> u8 {
    if lattice.size == 1 || random.one_in(3) {
        return lattice.top();
    }
    element_where(random, lattice, |e| e != usize::from(lattice.bottom()))
}

/// An element with a property that some have.
fn element_where(random: &mut Random, lattice: &Lattice, has: impl Fn(usize) -> bool) -> u8 {
    let elements: Vec<usize> = (0..lattice.size).filter(|&e| has(e)).collect();
    random.pick(&elements) as u8
}

/// An element below top with none between the two; of a lattice of one element that one.
fn next_below_top(random: &mut Random, lattice: &Lattice) -> usize {
    if lattice.size == 1 {
        return 0;
    }
    let top = usize::from(lattice.top());
    let above = |e: usize| (0..lattice.size).filter(move |&x| x != e && lattice.at_most(e, x));
    usize::from(element_where(random, lattice, |e| above(e).eq([top])))
}
