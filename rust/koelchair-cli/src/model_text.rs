//! A model as text: its states, and the initial values, propositions and transitions that are not bottom.

use crate::errors::{nearest, Span, TextError, OTHER_LINE};
use crate::lattice::Lattice;
use crate::lattice_text::element;
use crate::lexer::{Cursor, Kind, Statement, Token};
use crate::model::Model;
use crate::names::{self, numbers};
use crate::sections::PARTS;

/// What the models of a case share.
#[derive(Clone, Copy)]
pub struct Shared<'a> {
    /// The lattice.
    pub lattice: &'a Lattice,
    /// The names of the propositions.
    pub propositions: &'a [String],
}

/// Reads a model from its statements: the one that begins with `model`, and those that follow it.
pub fn parse(statements: &[Statement], shared: Shared) -> Result<Model, Vec<TextError>> {
    let title = title(&statements[0]).map_err(|e| vec![e])?;
    let (declarations, rest): (Vec<_>, Vec<_>) = statements[1..].iter().partition(|s| states(s));
    let declared = names::declared(declarations, "state").map_err(|e| vec![e])?;
    if declared.is_empty() {
        let expected = "expected a line `states` with the names of its states after it";
        return Err(vec![TextError::new(
            names::whole(&statements[0]),
            "this model has no states",
            expected,
        )]);
    }
    let mut values = Values::new(names::texts(declared), shared);
    let errors: Vec<TextError> = rest.iter().filter_map(|s| values.line(s).err()).collect();
    match errors.is_empty() {
        true => Ok(values.model(title)),
        false => Err(errors),
    }
}

/// Whether a statement names states.
fn states(statement: &Statement) -> bool {
    names::is_word(&statement[0], "states")
}

/// Where the states of a model are named; nothing where they are named wrongly.
pub fn state_places(statements: &[Statement]) -> Vec<Span> {
    let declarations = statements[1..].iter().filter(|s| states(s));
    let declared = names::declared(declarations, "state").unwrap_or_default();
    declared.iter().map(|name| name.span).collect()
}

fn title(statement: &Statement) -> Result<Option<String>, TextError> {
    let mut cursor = Cursor::new(&statement[2..]);
    let title = match cursor.peek() {
        Some(Token {
            kind: Kind::Quoted(text),
            ..
        }) => {
            cursor.take();
            Some(text.clone())
        }
        _ => None,
    };
    cursor.expect_end("a title in double quotes or the end of the line")?;
    Ok(title)
}

/// A value with the line that gave it.
type Given = Option<(u8, usize)>;

/// The values given so far.
struct Values<'a> {
    states: Vec<String>,
    shared: Shared<'a>,
    initial: Vec<Given>,
    propositions: Vec<Given>,
    transitions: Vec<Given>,
}

impl<'a> Values<'a> {
    fn new(states: Vec<String>, shared: Shared<'a>) -> Values<'a> {
        let (n, k) = (states.len(), shared.propositions.len());
        Values {
            states,
            shared,
            initial: vec![None; n],
            propositions: vec![None; n * k],
            transitions: vec![None; n * n],
        }
    }

    fn line(&mut self, statement: &Statement) -> Result<(), TextError> {
        let mut cursor = Cursor::new(statement);
        if cursor.take_word("initial") {
            return self.initial_line(&mut cursor);
        }
        if cursor.peek_word().is_none() {
            return Err(cursor.unexpected("`states`, `initial`, a state or the next part"));
        }
        let states = numbers(&mut cursor, &self.states, "state")
            .map_err(|error| perhaps_keyword(statement, error))?;
        if cursor.take_sign("->") {
            self.transition_line(&states, &mut cursor)
        } else if cursor.take_sign(":") {
            self.proposition_line(&states, &mut cursor)
        } else {
            Err(cursor.unexpected("`->` and a state, or `:` and propositions"))
        }
    }

    /// `initial a, b: value`.
    fn initial_line(&mut self, cursor: &mut Cursor) -> Result<(), TextError> {
        loop {
            let states = numbers(cursor, &self.states, "state")?;
            let value = self.value_after(":", cursor)?;
            for (state, span) in states {
                give(
                    &mut self.initial[usize::from(state)],
                    value,
                    span,
                    "initial value",
                )?;
            }
            if cursor.at_end() {
                return Ok(());
            }
            cursor.expect_sign(",")?;
        }
    }

    /// What follows `q:`, that is `p = value, r`.
    fn proposition_line(
        &mut self,
        states: &[(u8, Span)],
        cursor: &mut Cursor,
    ) -> Result<(), TextError> {
        let k = self.shared.propositions.len();
        loop {
            let propositions = numbers(cursor, self.shared.propositions, "proposition")?;
            let value = self.value_after("=", cursor)?;
            for (state, _) in states {
                for (p, span) in &propositions {
                    let place = usize::from(*state) * k + usize::from(*p);
                    give(
                        &mut self.propositions[place],
                        value,
                        *span,
                        "value of this proposition",
                    )?;
                }
            }
            if cursor.at_end() {
                return Ok(());
            }
            cursor.expect_sign(",")?;
        }
    }

    /// What follows `q ->`, that is `r: value`.
    fn transition_line(
        &mut self,
        from: &[(u8, Span)],
        cursor: &mut Cursor,
    ) -> Result<(), TextError> {
        let to = numbers(cursor, &self.states, "state")?;
        let value = self.value_after(":", cursor)?;
        cursor.expect_end("the end of the line")?;
        for (q, span) in from {
            for (r, end) in &to {
                let place = usize::from(*q) * self.states.len() + usize::from(*r);
                give(
                    &mut self.transitions[place],
                    value,
                    span.to(*end),
                    "transition",
                )?;
            }
        }
        Ok(())
    }

    /// The value behind a sign, or top where the sign does not follow.
    fn value_after(&self, sign: &str, cursor: &mut Cursor) -> Result<u8, TextError> {
        if cursor.take_sign(sign) {
            return element(cursor, self.shared.lattice);
        }
        match self.shared.lattice.top() {
            Some(top) => Ok(top as u8),
            None => Err(cursor.unexpected(&format!(
                "`{sign}` and a value, since this order has no top"
            ))),
        }
    }

    fn model(self, title: Option<String>) -> Model {
        let left_out = self.shared.lattice.left_out();
        let values = |given: Vec<Given>| {
            given
                .into_iter()
                .map(|g| g.map_or(left_out, |(v, _)| v))
                .collect()
        };
        Model {
            title,
            states: self.states,
            initial: values(self.initial),
            propositions: values(self.propositions),
            transitions: values(self.transitions),
        }
    }
}

/// An error in a line that begins with no state: perhaps a word of the text form was meant.
fn perhaps_keyword(statement: &Statement, error: TextError) -> TextError {
    let Kind::Word(word) = &statement[0].kind else {
        return error;
    };
    let keywords = ["states", "initial"].into_iter().chain(PARTS);
    match nearest(word, keywords) {
        Some(near) if error.help.is_none() && error.span == statement[0].span => {
            error.with_help(format!("did you mean `{near}`?"))
        }
        _ => error,
    }
}

/// Gives a value once.
fn give(place: &mut Given, value: u8, span: Span, what: &str) -> Result<(), TextError> {
    match *place {
        None => {
            *place = Some((value, span.line));
            Ok(())
        }
        Some((_, line)) => Err(TextError::new(
            span,
            format!("the {what} is given twice"),
            format!("expected it once: {OTHER_LINE} gives it too"),
        )
        .with_other(line)),
    }
}

/// A model as its statements.
pub fn print(model: &Model, number: usize, shared: Shared) -> String {
    let title = model
        .title
        .as_ref()
        .map_or(String::new(), |t| format!(" \"{t}\""));
    let mut text = format!(
        "model {number}{title}\n  states {}\n",
        names::written(&model.states)
    );
    for (state, value) in model.states.iter().zip(&model.initial) {
        if let Some(value) = shared.given(*value) {
            text.push_str(&format!("  initial {state}: {value}\n"));
        }
    }
    for q in 0..model.size() {
        text.push_str(&print_propositions(model, q, shared));
    }
    for q in 0..model.size() {
        text.push_str(&print_transitions(model, q, shared));
    }
    text
}

impl Shared<'_> {
    /// The name of a value that has to be given.
    fn given(&self, value: u8) -> Option<String> {
        (value != self.lattice.left_out()).then(|| self.lattice.name(usize::from(value)))
    }
}

fn print_propositions(model: &Model, q: usize, shared: Shared) -> String {
    let k = shared.propositions.len();
    let values = shared
        .propositions
        .iter()
        .zip(&model.propositions[q * k..(q + 1) * k]);
    let given = values.filter_map(|(p, v)| shared.given(*v).map(|v| format!("{p} = {v}")));
    let given: Vec<String> = given.collect();
    match given.is_empty() {
        true => String::new(),
        false => format!("  {}: {}\n", model.states[q], given.join(", ")),
    }
}

fn print_transitions(model: &Model, q: usize, shared: Shared) -> String {
    let line = |r: usize| {
        let value = shared.given(model.transition(q, r))?;
        Some(format!(
            "  {} -> {}: {value}\n",
            model.states[q], model.states[r]
        ))
    };
    (0..model.size()).filter_map(line).collect()
}
