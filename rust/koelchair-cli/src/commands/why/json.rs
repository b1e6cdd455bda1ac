//! What `why` says, as JSON.

use super::{Answer, Reason};
use crate::case::Case;
use crate::json::{array, object, string, strings};
use crate::reasons::{Cause, Initial, Step, Tried};

/// The fields of the answer.
pub fn fields(case: &Case, answer: &Answer) -> Vec<(&'static str, String)> {
    let pair = answer.pair.map(|(q1, q2)| {
        object(&[
            ("student", state(case, 0, q1)),
            ("course", state(case, 1, q2)),
        ])
    });
    vec![
        ("accepted", "true".to_string()),
        ("pair", or_null(pair)),
        ("element", element(case, answer.element)),
        ("top", answer.top.to_string()),
        ("rounds", answer.rounds.to_string()),
        ("ceiling", or_null(answer.ceiling.map(|e| element(case, e)))),
        ("noInitialState", answer.no_initial.to_string()),
        (
            "reasons",
            array(answer.reasons.iter().map(|r| reason(case, r))),
        ),
    ]
}

fn or_null(said: Option<String>) -> String {
    said.unwrap_or("null".to_string())
}

fn state(case: &Case, model: usize, state: usize) -> String {
    string(&case.models[model].states[state])
}

fn element(case: &Case, element: u8) -> String {
    string(&case.element(element))
}

fn reason(case: &Case, reason: &Reason) -> String {
    let labels = reason.views.iter().map(|v| &v.label);
    object(&[
        ("views", strings(labels.filter(|label| !label.is_empty()))),
        (
            "initial",
            or_null(reason.initial.as_ref().map(|i| initial(case, i))),
        ),
        ("steps", array(reason.way.iter().map(|s| step(case, s)))),
    ])
}

fn initial(case: &Case, initial: &Initial) -> String {
    object(&[
        ("student", state(case, 0, initial.state)),
        ("value", element(case, initial.value)),
        (
            "answers",
            array(initial.answers.iter().map(|t| tried(case, t))),
        ),
    ])
}

fn step(case: &Case, step: &Step) -> String {
    let mut fields = vec![
        ("student", state(case, 0, step.pair.0)),
        ("course", state(case, 1, step.pair.1)),
        ("round", step.round.to_string()),
        ("before", element(case, step.entries.0)),
        ("after", element(case, step.entries.1)),
    ];
    match &step.cause {
        Cause::Propositions(list) => {
            let said = list.iter().map(|d| {
                object(&[
                    ("name", string(&case.propositions[d.proposition])),
                    ("student", element(case, d.values[0])),
                    ("course", element(case, d.values[1])),
                    ("gives", element(case, d.gives)),
                ])
            });
            fields.push(("propositions", array(said)));
        }
        Cause::Transition { to, value, answers } => {
            let answers = array(answers.iter().map(|t| tried(case, t)));
            let transition = object(&[
                ("to", state(case, 0, *to)),
                ("value", element(case, *value)),
                ("answers", answers),
            ]);
            fields.push(("transition", transition));
        }
    }
    object(&fields)
}

fn tried(case: &Case, tried: &Tried) -> String {
    object(&[
        ("to", state(case, 1, tried.to)),
        ("value", element(case, tried.value)),
        ("low", tried.low.to_string()),
        ("fell", or_null(tried.fell.map(|r| r.to_string()))),
    ])
}
