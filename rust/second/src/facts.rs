//! Three facts of a formula as it is written, by recursion over its tree. Rests on `formula`.

use crate::formula::Formula;

/// "the deepest nesting of AX, whether a fixpoint occurs and whether EX occurs". "A number of nestings is exact for the formula as
/// written": a fixpoint is not unrolled.
#[derive(Clone, Copy, Debug, Default, PartialEq, Eq)]
pub struct Facts {
    /// The deepest nesting of AX.
    pub nesting: u8,
    /// Whether a fixpoint occurs.
    pub fixpoint: bool,
    /// Whether EX occurs.
    pub ex: bool,
}

/// The facts of a formula: those of what stands directly within, and what the formula itself adds.
pub fn of(formula: &Formula) -> Facts {
    match formula {
        Formula::Bottom
        | Formula::Top
        | Formula::Holds(_)
        | Formula::Fails(_)
        | Formula::Variable(_) => Facts::default(),
        Formula::Or(left, right) | Formula::And(left, right) => either(of(left), of(right)),
        Formula::Ax(body) => {
            let mut facts = of(body);
            // A formula of 255 bytes has at most 254 AX one within another.
            facts.nesting += 1;
            facts
        }
        Formula::Ex(body) => Facts {
            ex: true,
            ..of(body)
        },
        Formula::Least(body) | Formula::Greatest(body) => Facts {
            fixpoint: true,
            ..of(body)
        },
    }
}

/// The facts of two formulas side by side.
fn either(left: Facts, right: Facts) -> Facts {
    Facts {
        nesting: left.nesting.max(right.nesting),
        fixpoint: left.fixpoint || right.fixpoint,
        ex: left.ex || right.ex,
    }
}

#[cfg(test)]
mod tests {
    use super::*;
    use crate::formula;

    /// The facts of a formula part over 11 propositions.
    fn facts(part: &[u8]) -> (u8, bool, bool) {
        let formula = formula::read(part, 11).unwrap_or_else(|| panic!("refused {part:?}"));
        let Facts {
            nesting,
            fixpoint,
            ex,
        } = of(&formula);
        (nesting, fixpoint, ex)
    }

    #[test]
    fn nesting_is_counted_along_a_path() {
        assert_eq!(facts(&[2, 0]), (0, false, false));
        assert_eq!(facts(&[6, 7, 1, 7, 1]), (1, false, false));
        // p & AX (q | AX p)
        assert_eq!(facts(&[6, 2, 0, 7, 5, 2, 1, 7, 2, 0]), (2, false, false));
        assert_eq!(facts(&[5, 7, 7, 1, 7, 1]), (2, false, false));
        let deepest = [vec![7; 254], vec![1]].concat();
        assert_eq!(facts(&deepest), (254, false, false));
    }

    #[test]
    fn ex_and_fixpoints_are_passed_through() {
        assert_eq!(facts(&[7, 8, 7, 2, 0]), (2, false, true));
        assert_eq!(facts(&[7, 9, 7, 4, 0]), (2, true, false));
        assert_eq!(facts(&[8, 10, 8, 4, 0]), (0, true, true));
        assert_eq!(facts(&[5, 9, 4, 0, 8, 1]), (0, true, true));
    }

    #[test]
    fn operands_are_no_codes() {
        assert_eq!(facts(&[6, 2, 7, 2, 8]), (0, false, false));
        assert_eq!(facts(&[6, 3, 9, 3, 10]), (0, false, false));
        assert_eq!(facts(&[7, 2, 7]), (1, false, false));
    }
}
