//! What the calls answer, and how it is read from the numbers that the archive gives.

use crate::{raw, FormulaFacts, FormulaValue, Refusal, WRITTEN_MOST};
use std::fmt;

/// A number of an element of the lattice.
///
/// Elements compare here as numbers, and not in the order of a lattice.
#[derive(Clone, Copy, Debug, PartialEq, Eq, PartialOrd, Ord, Hash)]
pub struct Element(pub u8);

impl fmt::Display for Element {
    fn fmt(&self, f: &mut fmt::Formatter) -> fmt::Result {
        self.0.fmt(f)
    }
}

/// A number of a state of a model.
#[derive(Clone, Copy, Debug, PartialEq, Eq, PartialOrd, Ord, Hash)]
pub struct State(pub u8);

impl fmt::Display for State {
    fn fmt(&self, f: &mut fmt::Formatter) -> fmt::Result {
        self.0.fmt(f)
    }
}

/// What an accepted step answers. Each carries the count of lowerings, as the standing has it after the step.
#[derive(Clone, Copy, Debug, PartialEq, Eq, Hash)]
pub enum StepAnswer {
    /// A row was worked, and the round has more of them.
    Row {
        /// The lowerings of the whole rounds: as before the step, since the rows of an unfinished round do not count.
        lowerings: u32,
    },
    /// The last row was worked; the new table is the whole one.
    Round {
        /// The round of that table.
        round: u32,
        /// The lowerings, with the entries in which this round differs from the one before.
        lowerings: u32,
    },
    /// The last row was worked and this round equals the one before, or the desk was settled already.
    Settled {
        /// T, the least t above 0 for which round t equals round t − 1.
        round: u32,
        /// The lowerings of all rounds. Where only calls wrote the desk they are at most N1·N2·(h − 1), h being the elements of the
        /// lattice's longest chain.
        lowerings: u32,
    },
}

/// What a desk holds.
#[derive(Clone, Copy, Debug, PartialEq, Eq, Hash)]
pub struct Sizes {
    /// n, the elements of the lattice.
    pub elements: u8,
    /// k, the propositions, the same in both models.
    pub propositions: u8,
    /// N1, the states of model 1.
    pub states1: u8,
    /// N2, the states of model 2.
    pub states2: u8,
    /// The formulas.
    pub formulas: u8,
}

/// An entry of the next round, and how many pairs of states working it one pair after another looks at.
#[derive(Clone, Copy, Debug, PartialEq, Eq, Hash)]
pub struct WorkedEntry {
    /// The entry: that of F of the shown table.
    pub value: Element,
    /// The pairs (q1', q2') for which the meet over the propositions and all smaller q1' is not bottom and, for that q1', the
    /// join over smaller q2' is not top: 0 to N1·N2.
    pub pairs: u32,
}

/// An answer that its call cannot give.
fn impossible(call: &str, answer: raw::Answer) -> ! {
    panic!("the archive gave to {call} the answer {answer:?}, which it has not")
}

pub(crate) fn opened(answer: raw::Answer) -> Result<(), Refusal> {
    match answer.kind {
        0 => Err(Refusal::read(answer.number, answer.part)),
        1 => Ok(()),
        _ => impossible("open", answer),
    }
}

pub(crate) fn stepped(answer: raw::Answer) -> Result<StepAnswer, Refusal> {
    let (round, lowerings) = (answer.value, answer.second);
    match answer.kind {
        0 => Err(Refusal::read(answer.number, answer.part)),
        2 => Ok(StepAnswer::Row { lowerings }),
        3 => Ok(StepAnswer::Round { round, lowerings }),
        4 => Ok(StepAnswer::Settled { round, lowerings }),
        _ => impossible("step", answer),
    }
}

/// The answer of value and whole.
pub(crate) fn formula_value(answer: raw::Answer) -> Result<FormulaValue, Refusal> {
    match (answer.kind, u8::try_from(answer.value)) {
        (0, _) => Err(Refusal::read(answer.number, answer.part)),
        (9, Ok(value)) => Ok(FormulaValue {
            element: Element(value),
            facts: FormulaFacts {
                nesting: answer.byte,
                fixpoint: answer.flag1,
                ex: answer.flag2,
            },
        }),
        _ => impossible("value or whole", answer),
    }
}

/// The answer of score.
pub(crate) fn element(answer: raw::Answer) -> Result<Element, Refusal> {
    match (answer.kind, u8::try_from(answer.value)) {
        (0, _) => Err(Refusal::read(answer.number, answer.part)),
        (5, Ok(value)) => Ok(Element(value)),
        _ => impossible("score", answer),
    }
}

pub(crate) fn per_cent(answer: raw::Answer) -> Result<u8, Refusal> {
    match (answer.kind, u8::try_from(answer.value)) {
        (0, _) => Err(Refusal::read(answer.number, answer.part)),
        (6, Ok(value)) => Ok(value),
        _ => impossible("share", answer),
    }
}

pub(crate) fn says(answer: raw::Answer) -> Result<bool, Refusal> {
    match (answer.kind, answer.value) {
        (0, _) => Err(Refusal::read(answer.number, answer.part)),
        (7, 0) => Ok(false),
        (7, 1) => Ok(true),
        _ => impossible("judge", answer),
    }
}

/// The answer of write.
pub(crate) fn length(answer: raw::Answer) -> Result<usize, Refusal> {
    match (answer.kind, usize::try_from(answer.value)) {
        (0, _) => Err(Refusal::read(answer.number, answer.part)),
        (10, Ok(value @ ..=WRITTEN_MOST)) => Ok(value),
        _ => impossible("write", answer),
    }
}

pub(crate) fn sizes(held: raw::DeskSizes) -> Result<Sizes, Refusal> {
    let raw::DeskSizes {
        number,
        part,
        elements,
        propositions,
        states1,
        states2,
        formulas,
    } = held;
    match number {
        0 => Ok(Sizes {
            elements,
            propositions,
            states1,
            states2,
            formulas,
        }),
        _ => Err(Refusal::read(number, part)),
    }
}

pub(crate) fn entry(worked: raw::WorkedEntry) -> Result<WorkedEntry, Refusal> {
    match worked.number {
        0 => Ok(WorkedEntry {
            value: Element(worked.value),
            pairs: worked.pairs,
        }),
        number => Err(Refusal::read(number, worked.part)),
    }
}

#[cfg(test)]
mod tests {
    use super::*;

    /// An accepted call's answer.
    fn given(kind: u8, value: u32) -> raw::Answer {
        raw::Answer {
            kind,
            value,
            ..raw::Answer::default()
        }
    }

    #[test]
    fn answers_are_read() {
        assert_eq!(opened(given(1, 0)), Ok(()));
        assert_eq!(element(given(5, 63)), Ok(Element(63)));
        assert_eq!(per_cent(given(6, 100)), Ok(100));
        assert_eq!(says(given(7, 0)), Ok(false));
        assert_eq!(says(given(7, 1)), Ok(true));
        assert_eq!(length(given(10, 16_618)), Ok(16_618));
    }

    /// The round and the lowerings by their fields, each with a number that the other has not.
    #[test]
    fn steps_are_read() {
        let counted = |kind, value| raw::Answer {
            second: 262_144,
            ..given(kind, value)
        };
        let (round, lowerings) = (9, 262_144);
        assert_eq!(stepped(counted(2, 0)), Ok(StepAnswer::Row { lowerings }));
        let answered = StepAnswer::Round { round, lowerings };
        assert_eq!(stepped(counted(3, 9)), Ok(answered));
        let answered = StepAnswer::Settled { round, lowerings };
        assert_eq!(stepped(counted(4, 9)), Ok(answered));
    }

    /// The facts by their fields: a number that is not 0, and each flag without the other.
    #[test]
    fn facts_are_read() {
        for (byte, flag1, flag2) in [(0, false, false), (254, true, false), (2, false, true)] {
            let answer = raw::Answer {
                byte,
                flag1,
                flag2,
                ..given(9, 63)
            };
            let expected = FormulaValue {
                element: Element(63),
                facts: FormulaFacts {
                    nesting: byte,
                    fixpoint: flag1,
                    ex: flag2,
                },
            };
            assert_eq!(formula_value(answer), Ok(expected));
        }
    }

    #[test]
    fn refusals_are_read() {
        let refused = raw::Answer {
            number: 9,
            part: 2,
            ..raw::Answer::default()
        };
        assert_eq!(opened(refused), Err(Refusal::BadModel(2)));
        assert_eq!(stepped(refused), Err(Refusal::BadModel(2)));
        assert_eq!(formula_value(refused), Err(Refusal::BadModel(2)));
        assert_eq!(element(refused), Err(Refusal::BadModel(2)));
        assert_eq!(per_cent(refused), Err(Refusal::BadModel(2)));
        assert_eq!(says(refused), Err(Refusal::BadModel(2)));
        let short = raw::Answer {
            number: 14,
            part: 255,
            ..raw::Answer::default()
        };
        assert_eq!(length(short), Err(Refusal::ShortBuffer));
        let held = raw::DeskSizes {
            number: 12,
            part: 255,
            ..raw::DeskSizes::default()
        };
        assert_eq!(sizes(held), Err(Refusal::SpoiledDesk));
        let worked = raw::WorkedEntry {
            number: 13,
            part: 255,
            ..raw::WorkedEntry::default()
        };
        assert_eq!(entry(worked), Err(Refusal::OutOfRange));
    }

    #[test]
    fn a_worked_entry_is_read() {
        let worked = raw::WorkedEntry {
            value: 63,
            pairs: 4_096,
            ..raw::WorkedEntry::default()
        };
        let expected = WorkedEntry {
            value: Element(63),
            pairs: 4_096,
        };
        assert_eq!(entry(worked), Ok(expected));
    }

    #[test]
    #[should_panic(expected = "which it has not")]
    fn an_element_is_no_step() {
        let _ = stepped(given(5, 1));
    }

    #[test]
    #[should_panic(expected = "which it has not")]
    fn no_element_is_over_a_byte() {
        let _ = element(given(5, 256));
    }

    #[test]
    #[should_panic(expected = "which it has not")]
    fn no_value_is_over_a_byte() {
        let _ = formula_value(given(9, 256));
    }

    #[test]
    #[should_panic(expected = "which it has not")]
    fn no_length_is_over_the_most() {
        let _ = length(given(10, 16_619));
    }

    #[test]
    #[should_panic(expected = "which it has not")]
    fn an_element_is_no_length() {
        let _ = length(given(5, 1));
    }

    #[test]
    #[should_panic(expected = "which it has not")]
    fn an_element_alone_is_no_value() {
        let _ = formula_value(given(5, 1));
    }

    #[test]
    #[should_panic(expected = "which it has not")]
    fn a_score_has_no_facts() {
        let _ = element(given(9, 1));
    }
}
