//! A lattice as text; `lattice_text` reads it.

use crate::lattice::{Lattice, OrderTable};
use crate::names;

/// A lattice as its statements.
pub fn print(lattice: &Lattice) -> String {
    match lattice {
        Lattice::Order(table) => print_order(lattice, table),
        other => format!("lattice {}\n", print_form(other)),
    }
}

fn print_form(lattice: &Lattice) -> String {
    match lattice {
        Lattice::Chain(list) => format!("chain {}", names::written(list)),
        Lattice::Power(list) => format!("power {}", names::written(list)),
        Lattice::Product(factors) => {
            let factors: Vec<String> = factors
                .iter()
                .map(|f| format!("({})", print_form(f)))
                .collect();
            format!("product {}", factors.join(" "))
        }
        Lattice::Panel => "panel".to_string(),
        Lattice::Order(_) => "order".to_string(),
    }
}

/// An order by the pairs of neighbours where it is a partial order whose complement goes back and forth; else exactly.
fn print_order(lattice: &Lattice, table: &OrderTable) -> String {
    let n = table.elements.len();
    let name = |a: usize| &table.elements[a];
    let not = |a: usize| usize::from(table.complement[a]);
    if !(partial_order(lattice) && (0..n).all(|a| not(not(a)) == a)) {
        return print_exactly(table);
    }
    let mut text = format!(
        "lattice order\n  elements {}\n",
        names::written(&table.elements)
    );
    for a in 0..n {
        for b in (0..n).filter(|b| covers(lattice, a, *b)) {
            text.push_str(&format!("  {} <= {}\n", name(a), name(b)));
        }
    }
    for a in (0..n).filter(|a| *a <= not(*a)) {
        text.push_str(&format!("  not {} = {}\n", name(a), name(not(a))));
    }
    text
}

fn print_exactly(table: &OrderTable) -> String {
    let n = table.elements.len();
    let mut text = format!(
        "lattice order exactly\n  elements {}\n",
        names::written(&table.elements)
    );
    for a in 0..n {
        let bits: Vec<&str> = (0..n)
            .map(|b| if table.order[a * n + b] { "1" } else { "0" })
            .collect();
        let not = &table.elements[usize::from(table.complement[a])];
        text.push_str(&format!(
            "  row {}: {} not {}\n",
            table.elements[a],
            bits.join(" "),
            not
        ));
    }
    text
}

/// Whether the order is reflexive, antisymmetric and transitive.
pub fn partial_order(lattice: &Lattice) -> bool {
    let n = lattice.size();
    let le = |a, b| lattice.at_most(a, b);
    let pair = |a, b| a == b || !(le(a, b) && le(b, a));
    let triple = |a, b| !le(a, b) || (0..n).all(|c| !le(b, c) || le(a, c));
    (0..n).all(|a| le(a, a) && (0..n).all(|b| pair(a, b) && triple(a, b)))
}

/// Whether b is above a with nothing between.
pub fn covers(lattice: &Lattice, a: usize, b: usize) -> bool {
    let below = |x: usize, y: usize| x != y && lattice.at_most(x, y);
    below(a, b) && !(0..lattice.size()).any(|c| below(a, c) && below(c, b))
}
