//! Views of an element: the questions 'is it at or above this one?' that it fails, each about one instructor of a panel, one
//! member of a set or one place of a tuple, so that each can be answered by itself.
//!
//! In each, the element asked about lies under a join only where it lies under a part of it. So an entry fails it by one of its
//! parts, and a transition fails it only where every answer does.

use crate::lattice::{places, Lattice};
use crate::lattice_text::covers;

/// A question that an element fails.
#[derive(Clone, Debug, PartialEq, Eq)]
pub struct View {
    /// Whose view it is; nothing where there is one alone.
    pub label: String,
    /// The element that is asked about.
    pub asked: u8,
    shown: Shown,
}

/// What of an element is shown.
#[derive(Clone, Debug, PartialEq, Eq)]
enum Shown {
    All,
    Instructor(usize),
    Place(usize, Box<Shown>),
}

impl View {
    /// The same question, with whole elements shown.
    pub fn whole(&self) -> View {
        View {
            shown: Shown::All,
            ..self.clone()
        }
    }

    /// An element as the view shows it.
    pub fn name(&self, lattice: &Lattice, element: u8) -> String {
        named(&self.shown, lattice, usize::from(element))
    }
}

fn named(shown: &Shown, lattice: &Lattice, element: usize) -> String {
    match (shown, lattice) {
        (Shown::Instructor(i), _) => {
            let letter = element / [9, 3, 1][*i] % 3;
            ["no", "unsure", "yes"][letter].to_string()
        }
        (Shown::Place(i, inner), Lattice::Product(factors)) => {
            named(inner, &factors[*i], places(factors, element)[*i])
        }
        _ => lattice.name(element),
    }
}

/// The least questions that an element fails; none for top.
pub fn views(lattice: &Lattice, element: u8) -> Vec<View> {
    let mut views = failed(lattice, usize::from(element));
    if let [one] = &mut views[..] {
        if matches!(lattice, Lattice::Order(_)) {
            one.label.clear();
        }
    }
    views
}

fn view(label: String, asked: usize) -> View {
    View {
        label,
        asked: asked as u8,
        shown: Shown::All,
    }
}

fn failed(lattice: &Lattice, element: usize) -> Vec<View> {
    match lattice {
        Lattice::Chain(names) => (element + 1 < names.len())
            .then(|| view(String::new(), element + 1))
            .into_iter()
            .collect(),
        Lattice::Power(names) => {
            let missing = names
                .iter()
                .enumerate()
                .filter(|(i, _)| element >> i & 1 == 0);
            missing
                .map(|(i, name)| view(name.clone(), 1 << i))
                .collect()
        }
        Lattice::Panel => (0..3).filter_map(|i| instructor(element, i)).collect(),
        Lattice::Product(factors) => {
            let at = places(factors, element);
            let each = (0..factors.len()).flat_map(|i| {
                let inner = failed(&factors[i], at[i]);
                inner.into_iter().map(move |v| (i, v))
            });
            each.map(|(i, v)| in_place(factors, i, v)).collect()
        }
        Lattice::Order(_) => order(lattice, element),
    }
}

/// One step up from an instructor's letter, the others being no.
fn instructor(element: usize, i: usize) -> Option<View> {
    let weight = [9, 3, 1][i];
    let letter = element / weight % 3;
    (letter < 2).then(|| View {
        shown: Shown::Instructor(i),
        ..view(format!("instructor {}", i + 1), (letter + 1) * weight)
    })
}

/// A view of a place of a tuple, the other places being bottom.
fn in_place(factors: &[Lattice], i: usize, inner: View) -> View {
    let number = |number: usize, (j, factor): (usize, &Lattice)| {
        let place = match j == i {
            true => usize::from(inner.asked),
            false => factor.bottom().unwrap_or(0),
        };
        number * factor.size() + place
    };
    let asked = factors.iter().enumerate().fold(0, number);
    let label = match inner.label.is_empty() {
        true => format!("place {}", i + 1),
        false => format!("place {}, {}", i + 1, inner.label),
    };
    View {
        shown: Shown::Place(i, Box::new(inner.shown)),
        ..view(label, asked)
    }
}

/// The least elements that cover exactly one other and are not at or below this one.
fn order(lattice: &Lattice, element: usize) -> Vec<View> {
    let n = lattice.size();
    let prime = |j: &usize| (0..n).filter(|a| covers(lattice, *a, *j)).count() == 1;
    let open = |j: &usize| !lattice.at_most(*j, element);
    let asked: Vec<usize> = (0..n).filter(prime).filter(open).collect();
    let least = |j: &&usize| !asked.iter().any(|i| i != *j && lattice.at_most(*i, **j));
    asked
        .iter()
        .filter(least)
        .map(|j| view(lattice.name(*j), *j))
        .collect()
}
