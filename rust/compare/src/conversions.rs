//! What the proved library takes and gives, in the types of the second implementation: standings both ways, and answers.

use koelchair::{Element, FormulaFacts, FormulaValue, Refusal, StepAnswer, WorkedEntry};
use second::{Facts, Reply};

/// The standing for the second implementation.
pub fn to_second(standing: koelchair::Standing) -> second::Standing {
    let koelchair::Standing {
        states1,
        states2,
        round,
        row,
        changed,
        settled,
        second_whole,
        lowerings,
    } = standing;
    second::Standing {
        states1,
        states2,
        round,
        row,
        changed,
        settled,
        second_whole,
        lowerings,
    }
}

/// The standing for the proved library.
pub fn to_proved(standing: second::Standing) -> koelchair::Standing {
    let second::Standing {
        states1,
        states2,
        round,
        row,
        changed,
        settled,
        second_whole,
        lowerings,
    } = standing;
    koelchair::Standing {
        states1,
        states2,
        round,
        row,
        changed,
        settled,
        second_whole,
        lowerings,
    }
}

fn reply<T>(answer: Result<T, Refusal>, accepted: impl Fn(T) -> Reply) -> Reply {
    match answer {
        Ok(given) => accepted(given),
        Err(refusal) => Reply::Refused {
            number: refusal.number(),
            part: refusal.part(),
        },
    }
}

pub fn opened(answer: Result<(), Refusal>) -> Reply {
    reply(answer, |()| Reply::Opened)
}

pub fn stepped(answer: Result<StepAnswer, Refusal>) -> Reply {
    reply(answer, |step| match step {
        StepAnswer::Row { lowerings } => Reply::Row { lowerings },
        StepAnswer::Round { round, lowerings } => Reply::Round { round, lowerings },
        StepAnswer::Settled { round, lowerings } => Reply::Settled { round, lowerings },
    })
}

pub fn shown(answer: &[u8]) -> Reply {
    Reply::Shown(answer.to_vec())
}

pub fn formula_value(answer: Result<FormulaValue, Refusal>) -> Reply {
    reply(answer, |FormulaValue { element, facts }| {
        Reply::FormulaValue {
            element: element.0,
            facts: to_second_facts(facts),
        }
    })
}

fn to_second_facts(facts: FormulaFacts) -> Facts {
    let FormulaFacts {
        nesting,
        fixpoint,
        ex,
    } = facts;
    Facts {
        nesting,
        fixpoint,
        ex,
    }
}

pub fn element(answer: Result<Element, Refusal>) -> Reply {
    reply(answer, |element| Reply::Element(element.0))
}

pub fn per_cent(answer: Result<u8, Refusal>) -> Reply {
    reply(answer, Reply::PerCent)
}

pub fn says(answer: Result<bool, Refusal>) -> Reply {
    reply(answer, Reply::Says)
}

pub fn length(answer: Result<usize, Refusal>) -> Reply {
    reply(answer, Reply::Length)
}

pub fn worked_entry(answer: Result<WorkedEntry, Refusal>) -> Reply {
    reply(answer, |WorkedEntry { value, pairs }| Reply::WorkedEntry {
        element: value.0,
        pairs,
    })
}
