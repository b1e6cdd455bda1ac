//! Entries and score bound the covered formulas, by what the page knows of the lattice.

use super::json::Json;
use super::{embedded, examples, tables, Example};

/// Whether a round covers a formula, by the page's `coveredFrom`.
fn covered(formula: &Json, round: usize, settled: bool) -> bool {
    match formula.get("coveredFrom") {
        Json::Null => false,
        Json::Number(from) => settled || *from <= round,
        _ => settled,
    }
}

/// What the page knows of the lattice to compare with a bound.
struct Bounds {
    implies: Vec<usize>,
    at_most: Vec<usize>,
    elements: usize,
    top: usize,
}

impl Bounds {
    fn of(data: &Json) -> Bounds {
        let lattice = data.get("lattice");
        Bounds {
            implies: lattice.get("implies").numbers(),
            at_most: lattice.get("atMost").numbers(),
            elements: lattice.get("names").items().len(),
            top: lattice.get("top").number(),
        }
    }

    /// 'Not the value in model 2, joined with the value in model 1'.
    fn bound(&self, value1: usize, value2: usize) -> usize {
        self.implies[value2 * self.elements + value1]
    }

    fn at_most(&self, a: usize, b: usize) -> bool {
        self.at_most[a * self.elements + b] == 1
    }
}

#[test]
fn entries_bound_covered_formulas() {
    let mut covers = 0;
    for Example { name, data, .. } in examples() {
        let (bounds, tables) = (Bounds::of(data), tables(data));
        for (round, (_, table)) in tables.iter().enumerate() {
            let settled = round + 1 == tables.len();
            for formula in data
                .get("formulas")
                .items()
                .iter()
                .filter(|f| covered(f, round, settled))
            {
                let values: Vec<_> = formula
                    .get("values")
                    .items()
                    .iter()
                    .map(Json::numbers)
                    .collect();
                let columns = values[1].len();
                for (place, entry) in table.iter().enumerate() {
                    let [q1, q2] = [place / columns, place % columns];
                    let bound = bounds.bound(values[0][q1], values[1][q2]);
                    assert!(
                        bounds.at_most(*entry, bound),
                        "{name}: round {round}, place {place}"
                    );
                }
                covers += 1;
            }
        }
    }
    assert!(covers > 20, "{covers} formulas covered");
}

/// Over all rounds and formulas: how many bounds that are not top the score has to be at or below, and how many that are not covered it is
/// not at or below.
fn score_bounds(name: &str, data: &Json) -> [usize; 2] {
    let (bounds, tables, mut found) = (Bounds::of(data), tables(data), [0, 0]);
    for (round, (score, _)) in tables.iter().enumerate() {
        for formula in data.get("formulas").items() {
            let whole = formula.get("whole").numbers();
            let bound = bounds.bound(whole[0], whole[1]);
            let below = bounds.at_most(*score, bound);
            let covered = covered(formula, round, round + 1 == tables.len());
            let said = formula.get("name").text();
            assert!(below || !covered, "{name}: round {round}, {said}");
            found[0] += usize::from(covered && bound != bounds.top);
            found[1] += usize::from(!below);
        }
    }
    found
}

#[test]
fn scores_bound_covered_formulas() {
    let mut found = [0, 0];
    for Example {
        name, html, data, ..
    } in examples()
    {
        let exchanged = embedded(html, "exchanged");
        let ways = [Some(data), Some(&exchanged).filter(|d| **d != Json::Null)];
        for data in ways.into_iter().flatten() {
            let [says, above] = score_bounds(name, data);
            found = [found[0] + says, found[1] + above];
        }
    }
    let [says, above] = found;
    assert!(says > 20, "{says} bounds that say something");
    assert!(above > 20, "{above} scores not at or below a bound");
}
