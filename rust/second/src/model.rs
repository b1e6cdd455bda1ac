//! A model part and its lookups. Rests on `lattice`.

use crate::lattice::{Element, Lattice};

/// A state of a model. "An element, a state and a proposition are three sorts of number, and none is ever used as another."
#[derive(Clone, Copy, Debug, PartialEq, Eq)]
pub struct State(u8);

impl State {
    /// The state's place in a map from states to elements, and in a row or column of a table.
    pub fn place(self) -> usize {
        usize::from(self.0)
    }
}

/// A proposition of a model.
#[derive(Clone, Copy, Debug, PartialEq, Eq)]
pub struct Proposition(u8);

impl Proposition {
    /// The proposition that a byte stands for, where it is "below k".
    pub fn below(k: u8, byte: u8) -> Option<Proposition> {
        (byte < k).then_some(Proposition(byte))
    }

    /// The byte that stands for the proposition.
    pub fn byte(self) -> u8 {
        self.0
    }
}

/// A checked model.
pub struct Model {
    states: u8,
    propositions: u8,
    initial: Vec<Element>,
    labels: Vec<Vec<Element>>,
    transitions: Vec<Vec<Element>>,
}

/// "A model part is N states (1 to 64), k propositions (0 to 16), N initial values, N·k proposition values (state by state), N·N
/// transition values (row of the state left). Every value is an element." Nothing where the part breaks this.
pub fn read(part: &[u8], lattice: &Lattice) -> Option<Model> {
    let [states, propositions, values @ ..] = part else {
        return None;
    };
    let (n, k) = (usize::from(*states), usize::from(*propositions));
    if !(1..=64).contains(&n) || k > 16 || values.len() != n + n * k + n * n {
        return None;
    }
    let values = lattice.elements(values)?;
    let (initial, values) = values.split_at(n);
    let (labels, transitions) = values.split_at(n * k);
    Some(Model {
        states: *states,
        propositions: *propositions,
        initial: initial.to_vec(),
        labels: rows(labels, n, k),
        transitions: rows(transitions, n, n),
    })
}

/// The rows of a list of count · width values.
fn rows(values: &[Element], count: usize, width: usize) -> Vec<Vec<Element>> {
    (0..count)
        .map(|row| values[row * width..(row + 1) * width].to_vec())
        .collect()
}

impl Model {
    /// The part that was read.
    pub fn part(&self) -> Vec<u8> {
        let mut part = vec![self.states, self.propositions];
        let rows = self.labels.iter().chain(&self.transitions);
        let values = self.initial.iter().chain(rows.flatten());
        part.extend(values.map(|element| element.byte()));
        part
    }

    /// N, the number of states.
    pub fn size(&self) -> u8 {
        self.states
    }

    /// k, the number of propositions.
    pub fn proposition_count(&self) -> u8 {
        self.propositions
    }

    /// The state that a byte stands for, where it is below N.
    pub fn state(&self, byte: u8) -> Option<State> {
        (byte < self.states).then_some(State(byte))
    }

    /// All states.
    pub fn states(&self) -> impl Iterator<Item = State> {
        (0..self.states).map(State)
    }

    /// All propositions.
    pub fn propositions(&self) -> impl Iterator<Item = Proposition> {
        (0..self.propositions).map(Proposition)
    }

    /// Q0(q), the initial value of a state.
    pub fn initial(&self, q: State) -> Element {
        self.initial[q.place()]
    }

    /// The value of a proposition at a state.
    pub fn label(&self, q: State, p: Proposition) -> Element {
        self.labels[q.place()][usize::from(p.0)]
    }

    /// R(q, q'), the value of the transition from q to q'.
    pub fn transition(&self, q: State, to: State) -> Element {
        self.transitions[q.place()][to.place()]
    }
}
