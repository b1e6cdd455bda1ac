//! A lattice with named elements: its elements' numbers and names, its order and its complement. Nothing here assumes
//! that the order is that of a lattice; whether it is, the desk says.

/// A lattice as the text form gives it.
#[derive(Clone, Debug, PartialEq, Eq)]
pub enum Lattice {
    /// Elements in rising order; the complement reverses them.
    Chain(Vec<String>),
    /// The subsets of some names; name i is bit i of an element's number.
    Power(Vec<String>),
    /// Tuples, ordered in all places; the last place counts fastest.
    Product(Vec<Lattice>),
    /// The panel lattice, a part of one byte.
    Panel,
    /// An order and a complement by tables.
    Order(OrderTable),
}

/// An order and a complement as a lattice part has them.
#[derive(Clone, Debug, PartialEq, Eq)]
pub struct OrderTable {
    /// The names of the elements.
    pub elements: Vec<String>,
    /// Entry i·n + j says whether element i is at or below element j.
    pub order: Vec<bool>,
    /// The complement of each element.
    pub complement: Vec<u8>,
}

/// The letters of the panel's elements, from 0 on.
pub const PANEL_LETTERS: [char; 3] = ['n', '?', 'y'];

impl Lattice {
    /// How many elements there are.
    pub fn size(&self) -> usize {
        match self {
            Lattice::Chain(names) => names.len(),
            Lattice::Power(names) => 1usize.checked_shl(names.len() as u32).unwrap_or(usize::MAX),
            Lattice::Product(factors) => factors.iter().fold(1, |n, f| n.saturating_mul(f.size())),
            Lattice::Panel => 27,
            Lattice::Order(table) => table.elements.len(),
        }
    }

    /// Whether one element is at or below another.
    pub fn at_most(&self, a: usize, b: usize) -> bool {
        match self {
            Lattice::Chain(_) => a <= b,
            Lattice::Power(_) => a & !b == 0,
            Lattice::Product(factors) => {
                let (a, b) = (places(factors, a), places(factors, b));
                factors
                    .iter()
                    .enumerate()
                    .all(|(i, f)| f.at_most(a[i], b[i]))
            }
            Lattice::Panel => (0..3).all(|i| panel_place(a, i) <= panel_place(b, i)),
            Lattice::Order(table) => table.order[a * table.elements.len() + b],
        }
    }

    /// The complement of an element.
    pub fn complement(&self, a: usize) -> usize {
        match self {
            Lattice::Chain(_) | Lattice::Power(_) | Lattice::Panel => self.size() - 1 - a,
            Lattice::Product(factors) => {
                let places = places(factors, a);
                let not = factors
                    .iter()
                    .zip(places)
                    .map(|(f, a)| (f, f.complement(a)));
                not.fold(0, |number, (f, a)| number * f.size() + a)
            }
            Lattice::Order(table) => usize::from(table.complement[a]),
        }
    }

    /// The name of an element; a number that is no element as that number.
    pub fn name(&self, element: usize) -> String {
        if element >= self.size() {
            return format!("({element})");
        }
        match self {
            Lattice::Chain(names) => names[element].clone(),
            Lattice::Power(names) => {
                let members: Vec<&str> = names
                    .iter()
                    .enumerate()
                    .filter(|(i, _)| element >> i & 1 == 1)
                    .map(|(_, n)| n.as_str())
                    .collect();
                format!("{{{}}}", members.join(", "))
            }
            Lattice::Product(factors) => {
                let places = places(factors, element);
                let names: Vec<String> =
                    factors.iter().zip(places).map(|(f, a)| f.name(a)).collect();
                format!("({})", names.join(", "))
            }
            Lattice::Panel => (0..3)
                .map(|i| PANEL_LETTERS[panel_place(element, i)])
                .collect(),
            Lattice::Order(table) => table.elements[element].clone(),
        }
    }

    /// The element above all others, if there is one.
    pub fn top(&self) -> Option<usize> {
        let n = self.size();
        (0..n).find(|t| (0..n).all(|a| self.at_most(a, *t)))
    }

    /// The element below all others, if there is one.
    pub fn bottom(&self) -> Option<usize> {
        let n = self.size();
        (0..n).find(|b| (0..n).all(|a| self.at_most(*b, a)))
    }

    /// The value of what a text leaves out: bottom, or element 0 if an order has none.
    pub fn left_out(&self) -> u8 {
        self.bottom().unwrap_or(0) as u8
    }
}

/// The places of a tuple's number.
pub fn places(factors: &[Lattice], mut element: usize) -> Vec<usize> {
    let mut places = vec![0; factors.len()];
    for (place, factor) in places.iter_mut().zip(factors).rev() {
        *place = element % factor.size();
        element /= factor.size();
    }
    places
}

/// Place 0, 1 or 2 of a panel element: element 9a + 3b + c has a, b, c.
fn panel_place(element: usize, place: usize) -> usize {
    element / [9, 3, 1][place] % 3
}
