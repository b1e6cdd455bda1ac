//! Where in a refused part the rule is broken, as far as this tool can find it by itself. The refusal is the library's.

use crate::case::Case;
use crate::lattice::Lattice;
use crate::tables::{greatest, Operations};
use koelchair::{
    Refusal, BINDERS_MOST, CASE_MOST, ELEMENTS_MOST, FORMULAS_MOST, FORMULA_MOST,
    PROPOSITIONS_MOST, STATES_MOST,
};

/// What breaks the rule, by name.
pub fn note(case: &Case, bytes: &[u8], refusal: Refusal) -> Option<String> {
    let lattice = &case.lattice;
    match refusal {
        Refusal::CaseSize => over(bytes.len(), "bytes", CASE_MOST),
        Refusal::Directory => over(case.formulas.len(), "formulas", FORMULAS_MOST),
        Refusal::LatticeForm => over(lattice.size(), "elements", ELEMENTS_MOST),
        Refusal::NoPartialOrder => no_partial_order(lattice),
        Refusal::NoMeetOrJoin => no_meet_or_join(lattice),
        Refusal::NotDistributive => not_distributive(lattice),
        Refusal::BadComplement => complement(lattice),
        Refusal::BadModel(part @ (1 | 2)) => {
            let states = case.models[usize::from(part) - 1].size();
            let propositions = case.propositions.len();
            over(states, "states", STATES_MOST)
                .or_else(|| over(propositions, "propositions", PROPOSITIONS_MOST))
        }
        Refusal::BadFormula(part) => formula(case, usize::from(part)),
        _ => None,
    }
}

fn formula(case: &Case, part: usize) -> Option<String> {
    let formula = &case.formulas.get(part.checked_sub(3)?)?.formula;
    let mut bytes = Vec::new();
    formula.write(&mut bytes);
    let binders = formula.nested_binders();
    over(bytes.len(), "bytes", FORMULA_MOST)
        .or_else(|| over(binders, "binders one within another", BINDERS_MOST))
}

/// That there are more of something than are accepted.
fn over(count: usize, what: &str, most: usize) -> Option<String> {
    (count > most).then(|| format!("{count} {what}; at most {most} are accepted"))
}

/// All pairs of elements.
fn pairs(lattice: &Lattice) -> impl Iterator<Item = (usize, usize)> {
    let n = lattice.size();
    (0..n * n).map(move |i| (i / n, i % n))
}

fn no_partial_order(lattice: &Lattice) -> Option<String> {
    let name = |a| lattice.name(a);
    let le = |a, b| lattice.at_most(a, b);
    let n = lattice.size();
    if let Some(a) = (0..n).find(|a| !le(*a, *a)) {
        return Some(format!("`{0}` is not at or below `{0}`", name(a)));
    }
    if let Some((a, b)) = pairs(lattice).find(|(a, b)| a != b && le(*a, *b) && le(*b, *a)) {
        return Some(format!(
            "`{}` and `{}` are each at or below the other",
            name(a),
            name(b)
        ));
    }
    pairs(lattice).find_map(|(a, b)| {
        let c = (0..n).find(|c| le(a, b) && le(b, *c) && !le(a, *c))?;
        Some(format!(
            "`{}` <= `{}` and `{}` <= `{}`, but not `{}` <= `{}`",
            name(a),
            name(b),
            name(b),
            name(c),
            name(a),
            name(c)
        ))
    })
}

fn no_meet_or_join(lattice: &Lattice) -> Option<String> {
    let n = lattice.size();
    pairs(lattice).find_map(|(a, b)| {
        let meet = greatest(n, a, b, |x, y| lattice.at_most(x, y));
        let join = greatest(n, a, b, |x, y| lattice.at_most(y, x));
        let missing = match (meet, join) {
            (None, _) => "meet",
            (_, None) => "join",
            _ => return None,
        };
        Some(format!(
            "`{}` and `{}` have no {missing}",
            lattice.name(a),
            lattice.name(b)
        ))
    })
}

fn not_distributive(lattice: &Lattice) -> Option<String> {
    let name = |a: usize| lattice.name(a);
    let operations = Operations::of(lattice)?;
    let (meet, join) = (|a, b| operations.meet(a, b), |a, b| operations.join(a, b));
    pairs(lattice).find_map(|(a, b)| {
        let c = (0..lattice.size()).find(|c| {
            let (a, b, c) = (a as u8, b as u8, *c as u8);
            meet(a, join(b, c)) != join(meet(a, b), meet(a, c))
        })?;
        Some(format!(
            "`{0}` met with the join of `{1}` and `{2}` is not the join of `{0}` met with `{1}` and `{0}` met with `{2}`",
            name(a),
            name(b),
            name(c)
        ))
    })
}

fn complement(lattice: &Lattice) -> Option<String> {
    let name = |a| lattice.name(a);
    let not = |a| lattice.complement(a);
    if let Some(a) = (0..lattice.size()).find(|a| not(not(*a)) != *a) {
        return Some(format!(
            "the complement of the complement of `{}` is `{}`",
            name(a),
            name(not(not(a)))
        ));
    }
    let broken =
        |(a, b): &(usize, usize)| lattice.at_most(*a, *b) && !lattice.at_most(not(*b), not(*a));
    pairs(lattice).find(broken).map(|(a, b)| {
        format!(
            "`{}` <= `{}`, but for their complements not `{}` <= `{}`",
            name(a),
            name(b),
            name(not(b)),
            name(not(a))
        )
    })
}
