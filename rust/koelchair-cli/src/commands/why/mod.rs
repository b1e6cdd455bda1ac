//! `why`: from the score, or from a pair, along the transitions down to the cause.

mod json;
mod words;

pub use words::{Words, OWNERS};

use super::explain::state;
use super::{count, document, open, read_text, Arguments, Failure, Opened, Outcome, Printed};
use crate::case::Case;
use crate::encode::encode;
use crate::listing;
use crate::reasons::{followed, Initial, Reasoning, Step};
use crate::rounds::History;
use crate::tables::Operations;
use crate::views::{views, View};
use std::io::Read;

/// Runs `why`.
pub fn why(arguments: &[String], input: &mut dyn Read) -> Outcome {
    let arguments = Arguments::read(arguments, &["--all", "--bytes", "--json"], &["--course"])?;
    let (file, states) = match &arguments.plain[..] {
        [file] => (file, None),
        [file, first, second] => (file, Some((first, second))),
        list => {
            return Err(Failure::Usage(format!(
                "expected FILE, or FILE STATE1 STATE2, got {}",
                count(list.len())
            )))
        }
    };
    let mut opened = open(read_text(file, &arguments, input)?)?;
    let pair = match states {
        None => None,
        Some((first, second)) => Some((
            state(&opened.case, 0, first)?,
            state(&opened.case, 1, second)?,
        )),
    };
    let answer = Answer::of(&mut opened, pair)?;
    let printed = match arguments.has("--json") {
        true => document("why", json::fields(&opened.case, &answer)),
        false => words::text(&opened.case, &answer, arguments.has("--all")),
    };
    Ok(Printed::new(printed))
}

/// What is said of the score or of a pair.
pub struct Answer {
    /// The pair; none for the score.
    pub pair: Option<(usize, usize)>,
    /// The settled entry, or the score.
    pub element: u8,
    /// Whether it is top.
    pub top: bool,
    /// T.
    pub rounds: u32,
    /// What the course's model scores against itself.
    pub ceiling: Option<u8>,
    /// Whether the student's model has no initial state.
    pub no_initial: bool,
    /// For each way of looking at it: the initial states for the score, and the way to the cause.
    pub reasons: Vec<Reason>,
}

/// A way to the cause, and those whose views it is the same in.
pub struct Reason {
    /// The views.
    pub views: Vec<View>,
    /// The initial states that the score fails by.
    pub initial: Option<Initial>,
    /// The way; empty where the score fails by the initial states alone.
    pub way: Vec<Step>,
}

impl Reason {
    /// The view that shows the elements: whole ones where the reason is that of several.
    fn view(&self) -> View {
        match &self.views[..] {
            [one] => one.clone(),
            list => list[0].whole(),
        }
    }
}

impl Answer {
    /// Works the rounds of an opened case; afterwards its desk is settled.
    pub fn of(opened: &mut Opened, pair: Option<(usize, usize)>) -> Result<Answer, Failure> {
        let no_lattice = "the library accepts this lattice, and this tool finds no meets in it";
        let operations = Operations::of(&opened.case.lattice)
            .ok_or_else(|| Failure::Other(no_lattice.to_string()))?;
        let history = History::of(&mut opened.desk);
        let reasoning = Reasoning {
            case: &opened.case,
            operations: &operations,
            history: &history,
        };
        Answer::by(&reasoning, pair, opened.desk.score().0)
    }

    /// The same where the rounds are worked already; the score is the settled table's.
    pub fn by(
        reasoning: &Reasoning,
        pair: Option<(usize, usize)>,
        score: u8,
    ) -> Result<Answer, Failure> {
        let Reasoning {
            case,
            operations,
            history,
        } = reasoning;
        let element = pair.map_or(score, |pair| reasoning.settled(pair));
        Ok(Answer {
            pair,
            element,
            top: element == operations.top,
            rounds: history.rounds,
            ceiling: ceiling(case),
            no_initial: case.models[0]
                .initial
                .iter()
                .all(|v| *v == operations.bottom),
            reasons: reasons(reasoning, pair, element).map_err(Failure::Other)?,
        })
    }
}

/// What the course's model scores against itself, by the library.
pub fn ceiling(case: &Case) -> Option<u8> {
    let mut course = case.clone();
    course.models[0] = case.models[1].clone();
    let bytes = encode(&course).ok()?;
    listing::of(&bytes).map(|listing| listing.score)
}

/// The same with other owners of the two models.
pub fn in_short_of(case: &Case, answer: &Answer, owners: [&str; 2]) -> Vec<String> {
    words::in_short(case, answer, owners)
}

/// Why the score is not higher, in a sentence for each view.
pub fn in_short(case: &Case, answer: &Answer) -> Vec<String> {
    words::in_short(case, answer, OWNERS)
}

/// A reason for each view, the same ones put together.
fn reasons(
    reasoning: &Reasoning,
    pair: Option<(usize, usize)>,
    element: u8,
) -> Result<Vec<Reason>, String> {
    let mut list: Vec<Reason> = Vec::new();
    for view in views(&reasoning.case.lattice, element) {
        let initial = match pair {
            None => reasoning.initial(view.asked),
            Some(_) => None,
        };
        let after = |i: &Initial| followed(i.state, &i.answers);
        let way = match pair.or(initial.as_ref().and_then(after)) {
            Some(first) => reasoning.way(first, view.asked)?,
            None => Vec::new(),
        };
        let same = |r: &&mut Reason| (&r.initial, &r.way) == (&initial, &way);
        match list.iter_mut().find(same) {
            Some(reason) => reason.views.push(view),
            None => list.push(Reason {
                views: vec![view],
                initial,
                way,
            }),
        }
    }
    Ok(list)
}
