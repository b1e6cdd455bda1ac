//! A case with its names, as the text form gives it.

use crate::formula::Formula;
use crate::lattice::Lattice;
use crate::model::Model;

/// A case: a lattice, two models over the same propositions, and formulas.
#[derive(Clone, Debug, PartialEq, Eq)]
pub struct Case {
    /// The comment at the head of the text, line by line.
    pub head: Vec<String>,
    /// A title for people.
    pub title: Option<String>,
    /// The lattice.
    pub lattice: Lattice,
    /// The names of the propositions.
    pub propositions: Vec<String>,
    /// Model 1, the student's, and model 2, the course's.
    pub models: [Model; 2],
    /// The formulas.
    pub formulas: Vec<NamedFormula>,
}

/// A formula with a name.
#[derive(Clone, Debug, PartialEq, Eq)]
pub struct NamedFormula {
    /// The name.
    pub name: String,
    /// The formula.
    pub formula: Formula,
}

impl Case {
    /// What people call a model: its title, or `model 1` and `model 2`.
    pub fn model_name(&self, model: usize) -> String {
        match &self.models[model].title {
            Some(title) => title.clone(),
            None => format!("model {}", model + 1),
        }
    }

    /// The name of an element.
    pub fn element(&self, element: u8) -> String {
        self.lattice.name(usize::from(element))
    }
}
