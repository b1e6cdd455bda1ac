//! Warnings about a case that the desk accepts: what a drawing has or has not that is seldom meant. They are this tool's own and
//! change nothing that the library says. Whether a formula has EX is said by the library.

use crate::case::Case;
use crate::errors::{marked_line, Span, MOST_ERRORS};
use crate::json::{object, string};
use crate::model::Model;
use crate::parse::Text;
use koelchair::{CoveredFrom, FormulaFacts};

/// Something that is seldom meant.
#[derive(Clone, Debug, PartialEq, Eq)]
pub struct Warning {
    /// What sort of warning, in a word for programs.
    pub kind: &'static str,
    /// The model that it is about, 0 or 1; none if it is about a formula or about both.
    pub model: Option<usize>,
    /// What is said.
    pub message: String,
    /// The same in few words.
    pub short: String,
    /// Where.
    pub span: Option<Span>,
    /// What stands behind the carets.
    pub note: String,
}

/// The sort of warning after which a score says nothing.
pub const NO_INITIAL: &str = "no-initial-state";

/// Whose models they are.
const OWNERS: [&str; 2] = ["student", "course"];

/// All warnings about a text's case, whose formulas have these facts; without facts none about formulas. Of a course's file alone, those
/// about model 2.
pub fn warnings(text: &Text, case: &Case, facts: &[FormulaFacts]) -> Vec<Warning> {
    let drawing = Drawing { text, case };
    let formulas = facts.iter().enumerate();
    let never = formulas.filter(|(_, facts)| facts.covered_from() == CoveredFrom::Never);
    let mut list: Vec<Warning> = never.map(|(f, _)| drawing.not_covered(f)).collect();
    // In a lattice of one element everything is top and bottom at once.
    if case.lattice.size() > 1 {
        let first = usize::from(text.course_alone);
        list.extend((first..2).flat_map(|m| drawing.model(m)));
        list.extend((0..case.propositions.len()).filter_map(|p| drawing.proposition(p)));
    }
    list.sort_by_key(|w| w.span.map(|s| (s.line, s.start)));
    list
}

struct Drawing<'a> {
    text: &'a Text,
    case: &'a Case,
}

impl Drawing<'_> {
    fn bottom(&self) -> u8 {
        self.case.lattice.left_out()
    }

    fn head(&self, model: usize) -> Option<Span> {
        self.text.places.parts.get(model + 1).copied()
    }

    /// What is seldom meant in a model.
    fn model(&self, m: usize) -> Vec<Warning> {
        let (model, owner, bottom) = (&self.case.models[m], OWNERS[m], self.bottom());
        let mut list = Vec::new();
        let initial = model.initial.iter().any(|v| *v != bottom);
        let arrows = model.transitions.iter().any(|v| *v != bottom);
        if !initial {
            let means = [
                "so the score compares nothing and is top, whatever is drawn",
                "so nothing can follow a student's initial state",
            ][m];
            list.push(Warning {
                kind: NO_INITIAL,
                model: Some(m),
                message: format!("the {owner}'s model has no initial state, {means}"),
                short: "no initial state: the score compares nothing".to_string(),
                span: self.head(m),
                note: "no line `initial` with a value above bottom follows".to_string(),
            });
        }
        if !arrows {
            list.push(Warning {
                kind: "no-transition",
                model: Some(m),
                message: format!(
                    "the {owner}'s model has no transition, so nothing is said of what it does next"
                ),
                short: "no transition".to_string(),
                span: self.head(m),
                note: "no line `... -> ...` with a value above bottom follows".to_string(),
            });
        } else if m == 0 {
            list.extend((0..model.size()).filter_map(|q| self.leads_nowhere(q)));
        }
        if initial {
            let reached = reached(model, bottom);
            let unreached = (0..model.size()).filter(|q| !reached[*q]);
            list.extend(unreached.map(|q| self.unreachable(m, q)));
        }
        list
    }

    /// A state of the student's from which no transition goes, unless the course draws an end with the same propositions.
    fn leads_nowhere(&self, q: usize) -> Option<Warning> {
        let [student, course] = &self.case.models;
        let (bottom, k) = (self.bottom(), self.case.propositions.len());
        let values = |model: &Model, q: usize| model.propositions[q * k..(q + 1) * k].to_vec();
        let end = |r: &usize| ends(course, *r, bottom) && values(course, *r) == values(student, q);
        if !ends(student, q, bottom) || (0..course.size()).any(|r| end(&r)) {
            return None;
        }
        let name = &student.states[q];
        Some(Warning {
            kind: "leads-nowhere",
            model: Some(0),
            message: format!(
                "the student's state `{name}` leads nowhere, so everything is true of all its next states"
            ),
            short: format!("`{name}` leads nowhere"),
            span: self.text.places.states[0].get(q).copied(),
            note: "no transition goes on from it, and the course ends at no such state".to_string(),
        })
    }

    fn unreachable(&self, m: usize, q: usize) -> Warning {
        let name = &self.case.models[m].states[q];
        Warning {
            kind: "unreachable",
            model: Some(m),
            message: format!("the {}'s state `{name}` cannot be reached", OWNERS[m]),
            short: format!("`{name}` cannot be reached"),
            span: self.text.places.states[m].get(q).copied(),
            note: "no way of transitions leads to it from an initial state".to_string(),
        }
    }

    /// A proposition that is bottom at all states of the student's, or of both.
    fn proposition(&self, p: usize) -> Option<Warning> {
        let (bottom, k) = (self.bottom(), self.case.propositions.len());
        let set = |m: usize| {
            let model = &self.case.models[m];
            (0..model.size()).any(|q| model.proposition(q, k, p) != bottom)
        };
        let name = &self.case.propositions[p];
        let declared = self.text.places.propositions.get(p).copied();
        let (model, said, span) = match (set(0), set(1)) {
            (false, false) if self.text.course_alone => {
                (Some(1), "in the course's model", declared)
            }
            (false, false) => (None, "in either model", declared),
            (false, true) => (Some(0), "in the student's model", self.head(0)),
            _ => return None,
        };
        Some(Warning {
            kind: "never-set",
            model,
            message: format!("the proposition `{name}` is never set {said}"),
            short: format!("`{name}` is never set"),
            span,
            note: format!("no state has a value above bottom for `{name}`"),
        })
    }

    /// A formula that no round covers.
    fn not_covered(&self, f: usize) -> Warning {
        let name = &self.case.formulas[f].name;
        Warning {
            kind: "not-covered",
            model: None,
            message: format!(
                "no round covers the formula `{name}`, since it says that something is possible (EX, EF or EG)"
            ),
            short: format!("no round covers `{name}`"),
            span: self.text.places.parts.get(3 + f).copied(),
            note: "the table and the score say nothing of it; its values do".to_string(),
        }
    }
}

/// Whether no transition goes on from a state.
pub fn ends(model: &Model, state: usize, bottom: u8) -> bool {
    (0..model.size()).all(|r| model.transition(state, r) == bottom)
}

/// Which states a way leads to from a state with an initial value above bottom.
fn reached(model: &Model, bottom: u8) -> Vec<bool> {
    let mut reached: Vec<bool> = model.initial.iter().map(|v| *v != bottom).collect();
    let mut next: Vec<usize> = (0..model.size()).filter(|q| reached[*q]).collect();
    while let Some(q) = next.pop() {
        let new = (0..model.size()).filter(|r| model.transition(q, *r) != bottom);
        for r in new {
            if !std::mem::replace(&mut reached[r], true) {
                next.push(r);
            }
        }
    }
    reached
}

/// The first warnings as text, and how many more there are.
pub fn render_all(text: &Text, list: &[Warning]) -> String {
    let shown = list.iter().take(MOST_ERRORS);
    let mut rendered: Vec<String> = shown.map(|w| render(text, w)).collect();
    if list.len() > MOST_ERRORS {
        rendered.push(format!("and {} more warnings\n", list.len() - MOST_ERRORS));
    }
    rendered.join("\n")
}

fn render(text: &Text, warning: &Warning) -> String {
    let mut said = format!("warning: {}\n", warning.message);
    if let Some(span) = warning.span {
        said.push_str(&marked_line(&text.source, span, &warning.note));
    }
    said
}

/// A warning as JSON.
pub fn json(text: &Text, warning: &Warning) -> String {
    let place = warning
        .span
        .map(|s| (text.source.place(s.line), s.start + 1));
    let or_null = |said: Option<String>| said.unwrap_or("null".to_string());
    object(&[
        ("kind", string(warning.kind)),
        ("message", string(&warning.message)),
        ("file", or_null(place.map(|((file, _), _)| string(file)))),
        (
            "line",
            or_null(place.map(|((_, line), _)| line.to_string())),
        ),
        (
            "column",
            or_null(place.map(|(_, column)| column.to_string())),
        ),
    ])
}
