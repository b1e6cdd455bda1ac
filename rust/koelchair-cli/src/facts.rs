//! A formula's facts and the round from which on a table covers it, in words and as JSON. The facts are the library's.

use crate::json::string;
use koelchair::{CoveredFrom, FormulaFacts};

/// The facts: `2 nested AX, no fixpoint, no EX`.
pub fn words(facts: FormulaFacts) -> String {
    let nested = match facts.nesting {
        0 => "no AX".to_string(),
        count => format!("{count} nested AX"),
    };
    let fixpoint = if facts.fixpoint { "a" } else { "no" };
    let ex = if facts.ex { "EX" } else { "no EX" };
    format!("{nested}, {fixpoint} fixpoint, {ex}")
}

/// The facts, and from when on a pair's entry is at most 'not its value in model 2, joined with its value in model 1' (demand 3), and the
/// score at most the same of its whole values (request 106).
pub fn bounded(facts: FormulaFacts) -> String {
    let bounded = match facts.covered_from() {
        CoveredFrom::Round(round) => {
            format!("entries and score bound it from round {round} on, or once settled")
        }
        CoveredFrom::Settled => "entries and score bound it once settled".to_string(),
        CoveredFrom::Never => "neither entries nor score bound it".to_string(),
    };
    format!("{}: {bounded}", words(facts))
}

/// The same as fields of JSON; `coveredFrom` is a round, `"settled"`, or null.
pub fn fields(facts: FormulaFacts) -> [(&'static str, String); 4] {
    let covered_from = match facts.covered_from() {
        CoveredFrom::Round(round) => round.to_string(),
        CoveredFrom::Settled => string("settled"),
        CoveredFrom::Never => "null".to_string(),
    };
    [
        ("nestedAx", facts.nesting.to_string()),
        ("fixpoint", facts.fixpoint.to_string()),
        ("ex", facts.ex.to_string()),
        ("coveredFrom", covered_from),
    ]
}

#[cfg(test)]
mod tests {
    use super::*;

    #[test]
    fn facts_in_words() {
        let said = |nesting, fixpoint, ex| {
            bounded(FormulaFacts {
                nesting,
                fixpoint,
                ex,
            })
        };
        assert_eq!(
            said(0, false, false),
            "no AX, no fixpoint, no EX: entries and score bound it from round 1 on, or once settled"
        );
        assert_eq!(
            said(2, false, false),
            "2 nested AX, no fixpoint, no EX: entries and score bound it from round 3 on, or once settled"
        );
        assert_eq!(
            said(1, true, false),
            "1 nested AX, a fixpoint, no EX: entries and score bound it once settled"
        );
        assert_eq!(
            said(0, true, true),
            "no AX, a fixpoint, EX: neither entries nor score bound it"
        );
    }
}
