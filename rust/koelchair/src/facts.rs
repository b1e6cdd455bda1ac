//! What a formula is as it is written, and from which round on a table covers it.

use crate::Element;

/// What value and whole answer: the formula's element, and the facts that say which tables cover the formula.
#[derive(Clone, Copy, Debug, PartialEq, Eq, Hash)]
pub struct FormulaValue {
    /// The formula's value.
    pub element: Element,
    /// The formula as it is written.
    pub facts: FormulaFacts,
}

/// Three facts of a formula as it is written; no model has a part in them.
#[derive(Clone, Copy, Debug, PartialEq, Eq, Hash)]
pub struct FormulaFacts {
    /// The deepest nesting of AX, 0 to 254: the most AX that stand one within another, also with or, and, EX or a fixpoint
    /// between them. A fixpoint is counted as it stands and not unrolled.
    pub nesting: u8,
    /// Whether a fixpoint occurs.
    pub fixpoint: bool,
    /// Whether EX occurs.
    pub ex: bool,
}

/// From when on a table covers a formula: each of its entries is at or below 'not the formula's value at the state of model 2,
/// joined with its value at the state of model 1', and its score is at or below 'not the whole value on model 2, joined with the
/// whole value on model 1'.
#[derive(Clone, Copy, Debug, PartialEq, Eq, Hash)]
pub enum CoveredFrom {
    /// From this round on, and in the settled table also where that is of an earlier round.
    Round(u32),
    /// In the settled table; of earlier ones it is not promised, since the formula has a fixpoint.
    Settled,
    /// It is promised of no table, since the formula has EX.
    Never,
}

impl FormulaFacts {
    /// Whether the shown table covers the formula, so that its entries bound the formula's values and its score bounds the whole
    /// values. Its round, and whether it is settled, are those of the standing. Demand 3, and request 106 of the score, promise it
    /// of a desk that only its calls moved on.
    pub fn covered_in(self, round: u32, settled: bool) -> bool {
        let fewer = !self.fixpoint && u32::from(self.nesting) < round;
        !self.ex && (settled || fewer)
    }

    /// From when on a table covers the formula.
    pub fn covered_from(self) -> CoveredFrom {
        match (self.ex, self.fixpoint) {
            (true, _) => CoveredFrom::Never,
            (false, true) => CoveredFrom::Settled,
            (false, false) => CoveredFrom::Round(u32::from(self.nesting) + 1),
        }
    }
}

#[cfg(test)]
mod tests {
    use super::*;

    fn facts(nesting: u8, fixpoint: bool, ex: bool) -> FormulaFacts {
        FormulaFacts {
            nesting,
            fixpoint,
            ex,
        }
    }

    #[test]
    fn covered_from_the_round_after_the_nesting() {
        assert_eq!(facts(0, false, false).covered_from(), CoveredFrom::Round(1));
        assert_eq!(facts(2, false, false).covered_from(), CoveredFrom::Round(3));
        let deepest = facts(254, false, false).covered_from();
        assert_eq!(deepest, CoveredFrom::Round(255));
        assert_eq!(facts(0, true, false).covered_from(), CoveredFrom::Settled);
        assert_eq!(facts(0, false, true).covered_from(), CoveredFrom::Never);
        assert_eq!(facts(2, true, true).covered_from(), CoveredFrom::Never);
    }

    #[test]
    fn fewer_nested_than_the_round() {
        let two = facts(2, false, false);
        assert!(!two.covered_in(2, false));
        assert!(two.covered_in(3, false));
        assert!(two.covered_in(1, true));
        assert!(!facts(0, true, false).covered_in(9, false));
        assert!(facts(0, true, false).covered_in(9, true));
        assert!(!facts(0, false, true).covered_in(9, true));
    }

    /// Both say the same of every round.
    #[test]
    fn covered_in_is_from_covered_from_on() {
        for nesting in 0..=254 {
            for (fixpoint, ex) in [(false, false), (false, true), (true, false), (true, true)] {
                let facts = facts(nesting, fixpoint, ex);
                for round in 0..=300 {
                    let (unsettled, settled) = match facts.covered_from() {
                        CoveredFrom::Round(first) => (first <= round, true),
                        CoveredFrom::Settled => (false, true),
                        CoveredFrom::Never => (false, false),
                    };
                    assert_eq!(facts.covered_in(round, false), unsettled);
                    assert_eq!(facts.covered_in(round, true), settled);
                }
            }
        }
    }
}
