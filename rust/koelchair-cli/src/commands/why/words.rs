//! What `why` says, in words.

use super::{Answer, Reason};
use crate::case::Case;
use crate::lattice::Lattice;
use crate::reasons::{Cause, Difference, Initial, Step, Tried};
use crate::views::View;
use std::fmt::Write;

/// So many steps are shown at each end of a long way.
const ENDS: usize = 4;

/// So many of the answers that are no better than the best are shown.
const MOST_OTHERS: usize = 3;

/// The answer as text; a way of many steps is cut in the middle unless all of it is wanted.
pub fn text(case: &Case, answer: &Answer, all: bool) -> String {
    let mut text = heading(case, answer);
    for reason in &answer.reasons {
        let view = reason.view();
        let words = Words::of(case, &view);
        text.push('\n');
        text.push_str(&words.reason(answer, reason, all));
    }
    text
}

/// A sentence for each reason: whose view it is, and the cause.
pub fn in_short(case: &Case, answer: &Answer, owners: [&str; 2]) -> Vec<String> {
    let sentence = |reason: &Reason| {
        let view = &reason.view();
        let words = Words { case, view, owners };
        let label = match words.whose(&reason.views, answer.element) {
            Some((who, Of::Has(element))) => format!("For {who} ({element}): "),
            Some((who, Of::Lacks(element))) => format!("For {who}, which {element} lacks: "),
            None => String::new(),
        };
        let short = match (&reason.initial, reason.way.is_empty()) {
            (Some(initial), true) => words.initial(initial),
            _ => words.sentence(&reason.way),
        };
        format!("{label}{short}").trim_end().to_string()
    };
    answer.reasons.iter().map(sentence).collect()
}

fn heading(case: &Case, answer: &Answer) -> String {
    let element = case.element(answer.element);
    let mut text = match answer.pair {
        None => format!("The score is {element}"),
        Some((q1, q2)) => {
            let [student, course] = [(0, q1), (1, q2)].map(|(m, q)| &case.models[m].states[q]);
            format!("The course's {course} follows the student's {student}: {element}")
        }
    };
    let _ = writeln!(text, " (settled at round {}).", answer.rounds);
    if let (None, Some(ceiling)) = (answer.pair, answer.ceiling) {
        let name = case.element(ceiling);
        let _ = match ceiling == answer.element {
            true => writeln!(
                text,
                "The course's model against itself scores {name} too, so the drawing reaches the ceiling."
            ),
            false => {
                let [low, high] = [ceiling, answer.element].map(usize::from);
                let above = match case.lattice.at_most(low, high) {
                    true => "; the score is above it",
                    false => "",
                };
                writeln!(
                    text,
                    "The ceiling, the course's model against itself, is {name}{above}."
                )
            }
        };
    }
    let _ = match (answer.top, answer.pair, answer.no_initial) {
        (true, None, true) => writeln!(
            text,
            "But the student's model has no initial state, so that nothing was compared."
        ),
        (true, pair, _) => {
            let what = pair.map_or("score", |_| "entry");
            writeln!(
                text,
                "The {what} is top in every round: nothing holds it down."
            )
        }
        _ => Ok(()),
    };
    text
}

/// What the entry or the score is in a view: this element, or a set without the member that the view is of.
enum Of {
    Has(String),
    Lacks(String),
}

/// Whose the models are.
pub const OWNERS: [&str; 2] = ["student", "course"];

/// The words of one view.
pub struct Words<'a> {
    /// The case.
    pub case: &'a Case,
    /// The view.
    pub view: &'a View,
    /// Whose model is followed, and whose follows.
    pub owners: [&'a str; 2],
}

impl<'a> Words<'a> {
    fn of(case: &'a Case, view: &'a View) -> Words<'a> {
        let owners = OWNERS;
        Words { case, view, owners }
    }

    fn state(&self, model: usize, state: usize) -> &str {
        &self.case.models[model].states[state]
    }

    fn element(&self, element: u8) -> String {
        self.view.name(&self.case.lattice, element)
    }

    /// A value behind an arrow or a state, unless it is top.
    fn unless_top(&self, value: u8) -> String {
        let top = self.case.lattice.top().map(|t| self.element(t as u8));
        match self.element(value) {
            name if top.as_ref() == Some(&name) => String::new(),
            name => format!(" ({name})"),
        }
    }

    fn reason(&self, answer: &Answer, reason: &Reason, all: bool) -> String {
        let mut text = match self.label(&reason.views, answer.element) {
            label if label.is_empty() => label,
            label => label + "\n",
        };
        if let Some(initial) = &reason.initial {
            text.push_str(&self.initial(initial));
        }
        let hidden = match reason.way.len() > 3 * ENDS && !all {
            true => ENDS..reason.way.len() - ENDS,
            false => 0..0,
        };
        for (i, step) in reason.way.iter().enumerate() {
            if !hidden.contains(&i) {
                text.push_str(&self.step(i + 1, step));
            } else if i == hidden.start {
                let count = hidden.len();
                let _ = writeln!(text, "   ... {count} more steps (all with --all) ...");
            }
        }
        text.push_str(&self.in_short(&reason.way));
        text
    }

    /// Whose view it is, and what the entry or the score is in it.
    fn whose(&self, views: &[View], element: u8) -> Option<(String, Of)> {
        let labels: Vec<&str> = views.iter().map(|v| v.label.as_str()).collect();
        if labels == [""] {
            return None;
        }
        let element = self.element(element);
        let of = match self.case.lattice {
            Lattice::Power(_) => Of::Lacks(element),
            _ => Of::Has(element),
        };
        Some((labels.join(" and "), of))
    }

    /// The same as a line before the reason; nothing where there is one view alone.
    pub fn label(&self, views: &[View], element: u8) -> String {
        match self.whose(views, element) {
            Some((who, Of::Has(element))) => format!("For {who}: {element}"),
            Some((who, Of::Lacks(element))) => format!("For {who}, which {element} lacks"),
            None => String::new(),
        }
    }

    fn initial(&self, initial: &Initial) -> String {
        let [one, other] = self.owners;
        let state = self.state(0, initial.state);
        let value = self.unless_top(initial.value);
        let mut text = format!("The {one} begins at {state}{value}. ");
        match &initial.answers[..] {
            [] => {
                let _ = writeln!(text, "The {other} has no initial state.");
            }
            [best, others @ ..] => {
                let to = self.state(1, best.to);
                let _ = match best.low {
                    true => writeln!(
                        text,
                        "The {other} begins at {to} only with {}.",
                        self.element(best.value)
                    ),
                    false => writeln!(text, "The {other} begins at {to}; see 1."),
                };
                text.push_str(&self.others(initial.state, None, others, ""));
            }
        }
        text
    }

    fn step(&self, number: usize, step: &Step) -> String {
        let (q1, q2) = step.pair;
        let (student, course) = (self.state(0, q1), self.state(1, q2));
        let [before, after] = [step.entries.0, step.entries.1].map(|e| self.element(e));
        let (earlier, round) = (step.round - 1, step.round);
        let mut text = format!(
            "{number}. student {student}, course {course}: {before} in round {earlier}, {after} in round {round}\n"
        );
        match &step.cause {
            Cause::Propositions(list) => {
                for difference in list {
                    let _ = writeln!(text, "   {}.", self.proposition(difference));
                }
            }
            Cause::Transition { to, value, answers } => {
                let target = self.state(0, *to);
                let value = self.unless_top(*value);
                let _ = write!(text, "   The student goes {student} -> {target}{value}. ");
                text.push_str(&self.answers(number, q2, answers));
                let others = answers.get(1..).unwrap_or_default();
                text.push_str(&self.others(*to, Some(q2), others, "   "));
            }
        }
        text
    }

    fn answers(&self, number: usize, from: usize, answers: &[Tried]) -> String {
        let from = self.state(1, from);
        match answers.first() {
            None => format!("The course has no transition from {from}.\n"),
            Some(best) if best.low => format!(
                "The course's {from} -> {} is only {}.\n",
                self.state(1, best.to),
                self.element(best.value)
            ),
            Some(best) => format!(
                "The course's best answer is {from} -> {}{}; see {}.\n",
                self.state(1, best.to),
                self.unless_top(best.value),
                number + 1
            ),
        }
    }

    /// The answers that are no better than the best, from a state of the course's or as its initial states.
    fn others(&self, to: usize, from: Option<usize>, others: &[Tried], margin: &str) -> String {
        let [one, other] = self.owners;
        let said = |t: &Tried| {
            let (target, state) = (self.state(0, to), self.state(1, t.to));
            let arrow = from.map_or(String::new(), |q| format!("{} -> ", self.state(1, q)));
            match t.fell {
                Some(round) if !t.low => {
                    format!(
                        "{arrow}{state} ({one} {target}, {other} {state} fell in round {round})"
                    )
                }
                _ => format!("{arrow}{state} (only {})", self.element(t.value)),
            }
        };
        let mut list: Vec<String> = others.iter().take(MOST_OTHERS).map(said).collect();
        if others.len() > MOST_OTHERS {
            list.push(format!("{} more", others.len() - MOST_OTHERS));
        }
        match list.is_empty() {
            true => String::new(),
            false => format!("{margin}No better: {}.\n", list.join(", ")),
        }
    }

    fn proposition(&self, difference: &Difference) -> String {
        let [one, other] = self.owners;
        let name = format!("`{}`", self.case.propositions[difference.proposition]);
        let [student, course] = difference.values.map(|v| self.element(v));
        match student == course {
            true => {
                let gives = self.element(difference.gives);
                format!("{name} is {student} for both, and compared with itself that gives {gives}")
            }
            false => format!("{name} is {student} for the {one} and {course} for the {other}"),
        }
    }

    fn in_short(&self, way: &[Step]) -> String {
        match self.sentence(way) {
            said if said.is_empty() => said,
            said => format!("In short: {said}\n"),
        }
    }

    /// The way of the student's to the cause, and the cause, in one sentence.
    pub fn sentence(&self, way: &[Step]) -> String {
        let Some(last) = way.last() else {
            return String::new();
        };
        let [one, other] = self.owners;
        let (path, course) = (self.path(way), self.state(1, last.pair.1));
        match &last.cause {
            Cause::Propositions(list) => {
                let said: Vec<String> = list.iter().map(|d| self.proposition(d)).collect();
                let said = said.join(", ");
                match way.len() {
                    1 => format!("at {path} (the {other} at {course}) {said}."),
                    _ => {
                        format!("the {one} can go {path}; there (the {other} at {course}) {said}.")
                    }
                }
            }
            Cause::Transition { to, value, answers } => {
                let target = format!("{}{}", self.state(0, *to), self.unless_top(*value));
                let goes_on = match answers.first() {
                    None => "does not go on".to_string(),
                    Some(best) => {
                        let (to, value) = (self.state(1, best.to), self.element(best.value));
                        format!("goes on to {to} only with {value}")
                    }
                };
                format!(
                    "the {one} can go {path} -> {target}, and the {other} at {course} {goes_on}."
                )
            }
        }
    }

    /// The student's states on the way, each with the value of the arrow to it unless that is top; of a long way the first and the last.
    fn path(&self, way: &[Step]) -> String {
        let arrows = way.iter().map(|step| match &step.cause {
            Cause::Transition { value, .. } => self.unless_top(*value),
            Cause::Propositions(_) => String::new(),
        });
        let to = std::iter::once(String::new()).chain(arrows);
        let states: Vec<String> = way
            .iter()
            .zip(to)
            .map(|(step, value)| format!("{}{value}", self.state(0, step.pair.0)))
            .collect();
        match &states[..] {
            [first, .., last] if states.len() > 3 * ENDS => {
                format!("{first} -> ... -> {last} in {} steps", states.len() - 1)
            }
            list => list.join(" -> "),
        }
    }
}
