//! Why each entry is what it is, in every round, for the page: the reasons of `why`, with the student's transition and the
//! course's best answer, each way to a cause once.

use crate::commands::why::{in_short_of, Answer, Words};
use crate::commands::Failure;
use crate::json::{array, numbers, object, string};
use crate::reasons::{followed, Cause, Initial, Reasoning, Step};
use crate::views::{views, View};
use std::collections::HashMap;

/// The JSON: `causes`, a list; `entries`, for each place the elements of its rounds that are not top with their reasons;
/// `score`, for each reason of the settled score its sentence and the reason. A reason is whose view it is and the number of a
/// cause, or `null` where the initial values alone hold the score down.
pub fn of(reasoning: &Reasoning, score: u8, owners: [&str; 2]) -> Result<String, Failure> {
    let mut ways = Ways {
        reasoning,
        owners,
        known: HashMap::new(),
        numbers: HashMap::new(),
        ways: Vec::new(),
        written: HashMap::new(),
        causes: Vec::new(),
    };
    let [student, course] = &reasoning.case.models;
    let mut entries = Vec::new();
    for place in 0..student.size() * course.size() {
        let pair = (place / course.size(), place % course.size());
        entries.push(ways.entry(pair, place).map_err(Failure::Other)?);
    }
    let score = ways.score(score)?;
    Ok(object(&[
        ("causes", array(ways.causes)),
        ("entries", array(entries)),
        ("score", score),
    ]))
}

/// A way to a cause by its number.
type Way = usize;

/// Ways to causes, each kept once: most pairs share the rest of theirs with another.
struct Ways<'a> {
    reasoning: &'a Reasoning<'a>,
    owners: [&'a str; 2],
    /// The way from a pair for an element that is asked about.
    known: HashMap<((usize, usize), u8), Option<Way>>,
    /// The number of a way: its first step and the way after it.
    numbers: HashMap<(Step, Option<Way>), Way>,
    ways: Vec<(Step, Option<Way>)>,
    /// The number of a way in the words of a view: of one instructor's by what it asks, or of whole elements.
    written: HashMap<(Way, Option<u8>), usize>,
    causes: Vec<String>,
}

impl Ways<'_> {
    /// The reasons of each element that a pair's entry is in some round.
    fn entry(&mut self, pair: (usize, usize), place: usize) -> Result<String, String> {
        let mut said = Vec::new();
        for element in self.reasoning.history.elements(place) {
            let mut groups: Vec<(Option<Way>, Vec<View>)> = Vec::new();
            for view in views(&self.reasoning.case.lattice, element) {
                let way = self.way(pair, view.asked)?;
                match groups.iter_mut().find(|(other, _)| *other == way) {
                    Some((_, list)) => list.push(view),
                    None => groups.push((way, vec![view])),
                }
            }
            let reasons: Vec<String> = groups
                .into_iter()
                .map(|(way, list)| self.reason(way, &list, element))
                .collect();
            if !reasons.is_empty() {
                said.push(format!("[{element},{}]", array(reasons)));
            }
        }
        Ok(array(said))
    }

    /// The way from a pair, each step worked out once.
    fn way(&mut self, first: (usize, usize), asked: u8) -> Result<Option<Way>, String> {
        let mut steps = Vec::new();
        let mut next = Some(first);
        let mut rest = None;
        while let Some(pair) = next {
            if let Some(known) = self.known.get(&(pair, asked)) {
                rest = *known;
                break;
            }
            let step = self.reasoning.step(pair, asked)?;
            next = step.as_ref().and_then(Step::next);
            steps.push((pair, step));
        }
        for (pair, step) in steps.into_iter().rev() {
            rest = step.map(|step| self.number(step, rest));
            self.known.insert((pair, asked), rest);
        }
        Ok(rest)
    }

    fn number(&mut self, step: Step, rest: Option<Way>) -> Way {
        let number = self.ways.len();
        let key = (step, rest);
        if let Some(known) = self.numbers.get(&key) {
            return *known;
        }
        self.ways.push(key.clone());
        self.numbers.insert(key, number);
        number
    }

    /// Whose view a reason is, and its cause.
    fn reason(&mut self, way: Option<Way>, list: &[View], element: u8) -> String {
        let (view, key) = match list {
            [one] => (one.clone(), Some(one.asked)),
            _ => (list[0].whole(), None),
        };
        let case = self.reasoning.case;
        let key = key.filter(|_| view != view.whole());
        let words = Words {
            case,
            view: &view,
            owners: self.owners,
        };
        let label = words.label(list, element);
        let cause = or_null(way.map(|way| self.cause(way, key, &words)));
        format!("[{},{cause}]", string(&label))
    }

    /// The number of a way in the words of a view; it is written with all that follows it.
    fn cause(&mut self, way: Way, key: Option<u8>, words: &Words) -> usize {
        let mut list = vec![way];
        list.extend(std::iter::successors(self.ways[way].1, |w| self.ways[*w].1));
        let steps: Vec<Step> = list.iter().map(|w| self.ways[*w].0.clone()).collect();
        let mut next = None;
        for (i, way) in list.iter().enumerate().rev() {
            let number = self.written.get(&(*way, key)).copied();
            next = Some(number.unwrap_or_else(|| {
                self.causes.push(cause(words, &steps[i..], next));
                self.written.insert((*way, key), self.causes.len() - 1);
                self.causes.len() - 1
            }));
        }
        next.unwrap_or_default()
    }

    /// The reasons of the settled score: a sentence, and the cause at the pair of initial states.
    fn score(&mut self, score: u8) -> Result<String, Failure> {
        let answer = Answer::by(self.reasoning, None, score)?;
        let sentences = in_short_of(self.reasoning.case, &answer, self.owners);
        let mut said = Vec::new();
        for (reason, sentence) in answer.reasons.iter().zip(sentences) {
            let after = |i: &Initial| followed(i.state, &i.answers);
            let cause = match reason.initial.as_ref().and_then(after) {
                Some(pair) => {
                    let way = self.way(pair, reason.views[0].asked);
                    let way = way.map_err(Failure::Other)?;
                    self.reason(way, &reason.views, score)
                }
                None => "[\"\",null]".to_string(),
            };
            said.push(format!("[{},{cause}]", string(&sentence)));
        }
        Ok(array(said))
    }
}

/// A cause: the pair, the round in which its entry fell, where the student's transition and the course's best answer go, the
/// cause after it (`null` where there is none), the propositions that differ, and the sentence.
fn cause(words: &Words, way: &[Step], next: Option<usize>) -> String {
    let step = &way[0];
    let (to, answer, propositions) = match &step.cause {
        Cause::Propositions(list) => (None, None, list.iter().map(|d| d.proposition).collect()),
        Cause::Transition { to, answers, .. } => {
            (Some(*to), answers.first().map(|t| t.to), Vec::new())
        }
    };
    let (q1, q2) = step.pair;
    format!(
        "[{q1},{q2},{},{},{},{},{},{}]",
        step.round,
        or_null(to),
        or_null(answer),
        or_null(next),
        numbers(propositions),
        string(&words.sentence(way))
    )
}

fn or_null(number: Option<usize>) -> String {
    number.map_or("null".to_string(), |n| n.to_string())
}
