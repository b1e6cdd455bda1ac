//! A text as a case: its statements are put to the parts of the case, and each part is read.

use crate::case::{Case, NamedFormula};
use crate::decode::decode;
use crate::encode::encode;
use crate::errors::{Source, Span, TextError};
use crate::formula_text::{self, name_allowed};
use crate::lattice::Lattice;
use crate::lattice_text;
use crate::lexer::{lex, Cursor, Kind, Lexed, Statement, Token};
use crate::model::Model;
use crate::model_text::{self, Shared};
use crate::names::{self, Name};
use crate::sections::Sections;

/// A text that could be read.
#[derive(Clone, Debug)]
pub struct Text {
    /// The text.
    pub source: Source,
    /// Its case with names. A text of `bytes` has one if its bytes have the form of a case.
    pub case: Option<Case>,
    /// The bytes of the case.
    pub bytes: Vec<u8>,
    /// Where what has a name stands in a text with names.
    pub places: Places,
    /// Where each byte stands in a text of `bytes`; none in a text with names.
    pub byte_places: Vec<Span>,
    /// Whether the text has no model 1, so that model 2 stands for both.
    pub course_alone: bool,
}

/// Where parts, states and propositions stand; nothing where a text has no names.
#[derive(Clone, Debug, Default)]
pub struct Places {
    /// The lattice, both models and the formulas.
    pub parts: Vec<Span>,
    /// The states of each model.
    pub states: [Vec<Span>; 2],
    /// The propositions.
    pub propositions: Vec<Span>,
}

/// Reads a text.
pub fn parse(source: Source) -> Result<Text, Vec<TextError>> {
    read(source, false)
}

/// Reads a text that may be a course's alone: where only model 1 is missing, model 2 stands in its place too.
pub fn parse_course(source: Source) -> Result<Text, Vec<TextError>> {
    read(source, true)
}

fn read(source: Source, course: bool) -> Result<Text, Vec<TextError>> {
    let lexed = lex(&source).map_err(|e| vec![e])?;
    match lexed.statements.first() {
        Some(first) if names::is_word(&first[0], "bytes") => bytes_text(source, &lexed),
        _ => case_text(source, lexed, course),
    }
}

/// The names of the propositions.
fn propositions(statements: &[Statement]) -> Result<Vec<Name>, TextError> {
    let declared = names::declared(statements, "proposition")?;
    match declared.iter().find(|n| !name_allowed(&n.text)) {
        None => Ok(declared),
        Some(name) => {
            let message = format!("`{}` cannot name a proposition", name.text);
            let expected = "expected a name that begins with a letter and is no word of formulas";
            Err(TextError::new(name.span, message, expected))
        }
    }
}

/// A text with a lattice, two models and formulas.
fn case_text(source: Source, lexed: Lexed, course: bool) -> Result<Text, Vec<TextError>> {
    let end = Span {
        line: source.lines.len().saturating_sub(1),
        ..Span::default()
    };
    let mut sections = Sections::sort(lexed.statements)?;
    let course_alone = course && sections.models[0].is_empty();
    if course_alone {
        sections.models[0] = sections.models[1].clone();
    }
    sections.missing(end).map_err(|e| vec![e])?;
    let lattice = lattice_text::parse(&sections.lattice)?;
    let declared = propositions(&sections.propositions).map_err(|e| vec![e])?;
    let mut places = places(&sections);
    places.propositions = declared.iter().map(|name| name.span).collect();
    let propositions = names::texts(declared);
    let (models, formulas) = models_and_formulas(&sections, &lattice, &propositions)?;
    let case = Case {
        head: lexed.head,
        title: sections.title,
        lattice,
        propositions,
        models,
        formulas,
    };
    let bytes = encode(&case).map_err(|error| vec![too_long(&places, error.part, end)])?;
    Ok(Text {
        source,
        case: Some(case),
        bytes,
        places,
        byte_places: Vec::new(),
        course_alone,
    })
}

/// The error that a part does not start or end where the directory can say it.
fn too_long(places: &Places, part: usize, end: Span) -> TextError {
    let span = places.parts.get(part).or(places.parts.last());
    let message = "the case is too long to be written";
    let expected = "expected this part to start and end below byte 65,536 (the desk takes cases of at most 32,768 bytes)";
    TextError::new(span.copied().unwrap_or(end), message, expected)
}

/// Both models and all formulas; the errors of all of them together.
fn models_and_formulas(
    sections: &Sections,
    lattice: &Lattice,
    propositions: &[String],
) -> Result<([Model; 2], Vec<NamedFormula>), Vec<TextError>> {
    let shared = Shared {
        lattice,
        propositions,
    };
    let first = model_text::parse(&sections.models[0], shared);
    let second = model_text::parse(&sections.models[1], shared);
    let formulas = formulas(&sections.formulas, propositions);
    match (first, second, formulas) {
        (Ok(first), Ok(second), Ok(formulas)) => Ok(([first, second], formulas)),
        (first, second, formulas) => {
            let mut errors: Vec<TextError> = [first.err(), second.err()]
                .into_iter()
                .flatten()
                .flatten()
                .collect();
            errors.extend(formulas.err().into_iter().flatten());
            errors.sort_by_key(|e| (e.span.line, e.span.start));
            errors.dedup();
            Err(errors)
        }
    }
}

fn formulas(
    statements: &[Statement],
    propositions: &[String],
) -> Result<Vec<NamedFormula>, Vec<TextError>> {
    let mut errors = Vec::new();
    let mut list: Vec<NamedFormula> = Vec::new();
    for statement in statements {
        match formula(statement, propositions) {
            Err(error) => errors.push(error),
            Ok((named, span)) if list.iter().any(|f| f.name == named.name) => {
                let message = format!("the formula `{}` is named twice", named.name);
                errors.push(TextError::new(span, message, "expected another name"));
            }
            Ok((named, _)) => list.push(named),
        }
    }
    match errors.is_empty() {
        true => Ok(list),
        false => Err(errors),
    }
}

/// `formula NAME: text`.
fn formula(
    statement: &Statement,
    propositions: &[String],
) -> Result<(NamedFormula, Span), TextError> {
    let mut cursor = Cursor::new(statement);
    cursor.take();
    let (name, span) = cursor.expect_word("the formula's name")?;
    cursor.expect_sign(":")?;
    let formula = formula_text::parse(&mut cursor, propositions)?;
    Ok((
        NamedFormula {
            name: name.to_string(),
            formula,
        },
        span,
    ))
}

/// Where the parts and the states stand; propositions are put to it by the caller.
fn places(sections: &Sections) -> Places {
    let firsts = [
        &sections.lattice[0],
        &sections.models[0][0],
        &sections.models[1][0],
    ];
    let parts = firsts.into_iter().chain(&sections.formulas);
    Places {
        parts: parts.map(|s| names::whole(s)).collect(),
        states: [0, 1].map(|m| model_text::state_places(&sections.models[m])),
        propositions: Vec::new(),
    }
}

/// A text `bytes` with the numbers of the bytes, in parentheses where they go over several lines.
fn bytes_text(source: Source, lexed: &Lexed) -> Result<Text, Vec<TextError>> {
    let mut bytes = Vec::new();
    let mut spans = Vec::new();
    let statement = &lexed.statements[0];
    if let Some(next) = lexed.statements.get(1) {
        return Err(vec![Cursor::new(next).unexpected(
            "nothing after the bytes: put them in parentheses to go over several lines",
        )]);
    }
    for token in &statement[1..] {
        match &token.kind {
            Kind::Word(word) => match word.parse::<u8>() {
                Ok(byte) => {
                    bytes.push(byte);
                    spans.push(token.span);
                }
                Err(_) => return Err(vec![no_byte(token)]),
            },
            Kind::Sign("(" | ")" | ",") => {}
            _ => return Err(vec![no_byte(token)]),
        }
    }
    let mut case = decode(&bytes);
    if let Some(case) = &mut case {
        case.head = lexed.head.clone();
    }
    Ok(Text {
        source,
        case,
        bytes,
        places: Places::default(),
        byte_places: spans,
        course_alone: false,
    })
}

fn no_byte(token: &Token) -> TextError {
    let message = format!("{} is no byte", token.kind.said());
    TextError::new(token.span, message, "expected a number from 0 to 255")
}

impl Text {
    /// Where in the text stands what a refusal with this number and part speaks of.
    pub fn place(&self, number: u8, part: u8) -> Option<Span> {
        let part = usize::from(part);
        if self.byte_places.is_empty() {
            return match number {
                2 => self.places.parts.get(11).copied(),
                _ => self.places.parts.get(part).copied(),
            };
        }
        let pair = 1 + 4 * part;
        let byte = match number {
            1 | 2 => 0,
            3 => pair,
            _ => {
                let offset = self.bytes.get(pair..pair + 2)?;
                usize::from(u16::from_le_bytes([offset[0], offset[1]]))
            }
        };
        let first = self.byte_places.get(byte).copied()?;
        match number {
            3 => Some(
                self.byte_places
                    .get(pair + 3)
                    .map_or(first, |last| first.to(*last)),
            ),
            _ => Some(first),
        }
    }
}
