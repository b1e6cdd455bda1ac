//! The statements of a text, sorted by the part of the case that they belong to.

use crate::errors::{nearest, with_nearest, Span, TextError, OTHER_LINE};
use crate::lexer::{Cursor, Kind, Statement, Token};
use crate::names;

/// The words that begin a part of the case.
pub const PARTS: [&str; 5] = ["title", "lattice", "propositions", "model", "formula"];

/// The statements of each part.
#[derive(Default)]
pub struct Sections {
    /// The title.
    pub title: Option<String>,
    /// `lattice` and what follows it.
    pub lattice: Vec<Statement>,
    /// Each `propositions`.
    pub propositions: Vec<Statement>,
    /// `model 1` and `model 2`, and what follows each.
    pub models: [Vec<Statement>; 2],
    /// Each `formula`.
    pub formulas: Vec<Statement>,
}

/// Which part the statements that follow belong to; after a wrong beginning they are passed over.
#[derive(Clone, Copy)]
enum Current {
    Nothing,
    Lattice,
    Model(usize),
    Wrong,
}

impl Sections {
    /// Sorts statements.
    pub fn sort(statements: Vec<Statement>) -> Result<Sections, Vec<TextError>> {
        if let Some(error) = no_case(&statements) {
            return Err(vec![error]);
        }
        let mut sections = Sections::default();
        let mut current = Current::Nothing;
        let mut errors = Vec::new();
        for statement in statements {
            if let Err(error) = sections.add(statement, &mut current) {
                errors.push(error);
            }
        }
        match errors.is_empty() {
            true => Ok(sections),
            false => Err(errors),
        }
    }

    fn add(&mut self, statement: Statement, current: &mut Current) -> Result<(), TextError> {
        let word = match &statement[0].kind {
            Kind::Word(word) if PARTS.contains(&word.as_str()) => word.clone(),
            _ => return self.go_on(statement, *current),
        };
        *current = Current::Wrong;
        *current = self.begin(statement, &word)?;
        Ok(())
    }

    fn begin(&mut self, statement: Statement, word: &str) -> Result<Current, TextError> {
        match word {
            "title" if self.title.is_some() => {
                return Err(TextError::new(
                    names::whole(&statement),
                    "the title is given twice",
                    "expected it once",
                ))
            }
            "lattice" if !self.lattice.is_empty() => {
                return Err(twice(&statement, "the lattice", &self.lattice[0]))
            }
            "title" => self.title = Some(title(&statement)?),
            "lattice" => {
                self.lattice.push(statement);
                return Ok(Current::Lattice);
            }
            "model" => return self.model(statement).map(Current::Model),
            "propositions" => self.propositions.push(statement),
            _ => self.formulas.push(statement),
        }
        Ok(Current::Nothing)
    }

    /// A statement that does not begin a part belongs to the one before.
    fn go_on(&mut self, statement: Statement, current: Current) -> Result<(), TextError> {
        match current {
            Current::Lattice => self.lattice.push(statement),
            Current::Model(m) => self.models[m].push(statement),
            Current::Nothing => return Err(no_part(&statement)),
            Current::Wrong => {}
        }
        Ok(())
    }

    fn model(&mut self, statement: Statement) -> Result<usize, TextError> {
        let mut cursor = Cursor::new(&statement);
        cursor.take();
        let model = match cursor.peek_word() {
            Some("1") => 0,
            Some("2") => 1,
            _ => return Err(cursor.unexpected("`1` (the student's model) or `2` (the course's)")),
        };
        if let Some(first) = self.models[model].first() {
            return Err(twice(&statement, &format!("model {}", model + 1), first));
        }
        self.models[model].push(statement);
        Ok(model)
    }

    /// Says which of the parts that a case must have is not there.
    pub fn missing(&self, end: Span) -> Result<(), TextError> {
        let there = [&self.lattice, &self.models[0], &self.models[1]].map(|p| !p.is_empty());
        let (part, help) = match there {
            [true, true, true] => return Ok(()),
            [true, false, true] => ("model 1", Some(COURSE_ALONE)),
            [false, true, false] => ("lattice", Some(STUDENT_ALONE)),
            [false, ..] => ("lattice", None),
            [_, false, _] => ("model 1", None),
            _ => ("model 2", None),
        };
        if let Some(statement) = self.meant(part.split(' ').next().unwrap_or(part)) {
            return Err(no_part(statement));
        }
        let expected = format!("expected a line `{part}` before the end of the text");
        let error = TextError::new(end, format!("`{part}` is missing"), expected);
        Err(match help {
            Some(help) => error.with_help(help),
            None => error,
        })
    }
}

impl Sections {
    /// A statement that begins with almost this word, and so was taken for one of the part before.
    fn meant(&self, word: &str) -> Option<&Statement> {
        let near = |statement: &&Statement| match &statement[0].kind {
            Kind::Word(first) => first != word && nearest(first, [word]).is_some(),
            _ => false,
        };
        let mut all = self.lattice.iter().chain(self.models.iter().flatten());
        all.find(near)
    }
}

const COURSE_ALONE: &str =
    "a course's file without model 1 is checked by `koelchair check` or `mark`, and marks students' files by `mark`";
const STUDENT_ALONE: &str =
    "for a student's file with model 1 alone: `koelchair mark COURSE FILE`, or a line `include \"COURSE\"` in it";

/// The error that a statement begins no part.
pub fn no_part(statement: &Statement) -> TextError {
    let error = Cursor::new(statement)
        .unexpected("`title`, `lattice`, `propositions`, `model 1`, `model 2` or `formula`");
    match &statement[0].kind {
        Kind::Word(word) => with_nearest(error, word, PARTS.into_iter().chain(["include"])),
        _ => error,
    }
}

/// The error that a text is no case but a table or a listing, for all its lines at once: it has a row, and neither a lattice nor a model.
fn no_case(statements: &[Statement]) -> Option<TextError> {
    let any = |word: &str| statements.iter().any(|s| names::is_word(&s[0], word));
    if !any("row") || any("lattice") || any("model") {
        return None;
    }
    let expected = "expected a case, with `lattice`, `model 1` and `model 2`";
    let error = TextError::new(statements[0][0].span, "this is no case", expected);
    Some(error.with_help("a table comes after its case: `koelchair judge CASE TABLE`"))
}

fn twice(statement: &Statement, what: &str, first: &Statement) -> TextError {
    let message = format!("{what} is given twice");
    let expected = format!("expected it once: {OTHER_LINE} begins it too");
    TextError::new(names::whole(statement), message, expected).with_other(first[0].span.line)
}

fn title(statement: &Statement) -> Result<String, TextError> {
    let mut cursor = Cursor::new(statement);
    cursor.take();
    match &statement[1..] {
        [Token {
            kind: Kind::Quoted(text),
            ..
        }] => Ok(text.clone()),
        _ => Err(cursor.unexpected("a title in double quotes")),
    }
}
