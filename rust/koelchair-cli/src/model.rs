//! A model with named states, and the names that both models share.

/// A model: values are numbers of elements.
#[derive(Clone, Debug, Default, PartialEq, Eq)]
pub struct Model {
    /// A title for people, such as "student".
    pub title: Option<String>,
    /// The names of the states.
    pub states: Vec<String>,
    /// The initial value of each state.
    pub initial: Vec<u8>,
    /// The value of proposition p at state q, at q·k + p.
    pub propositions: Vec<u8>,
    /// The value of the transition from q to r, at q·N + r.
    pub transitions: Vec<u8>,
}

impl Model {
    /// How many states there are.
    pub fn size(&self) -> usize {
        self.states.len()
    }

    /// The value of the transition from one state to another.
    pub fn transition(&self, from: usize, to: usize) -> u8 {
        self.transitions[from * self.size() + to]
    }

    /// The value of a proposition at a state, k being the count of propositions.
    pub fn proposition(&self, state: usize, k: usize, proposition: usize) -> u8 {
        self.propositions[state * k + proposition]
    }
}
