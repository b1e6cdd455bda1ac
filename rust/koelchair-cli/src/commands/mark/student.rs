//! One student's drawing, marked.

use super::{begins, Course, Marks};
use crate::commands::input::{read_letters, shown_name, together};
use crate::commands::why::{self, Answer};
use crate::commands::{open, Failure, Opened};
use crate::errors::{Source, TextError};
use crate::include::Loader;
use crate::lexer::lex;
use crate::names;
use crate::parse::parse;
use crate::warnings::{self, warnings, Warning, NO_INITIAL};
use koelchair::Desk;
use std::io::Read;
use std::path::Path;

/// A student's drawing.
pub struct Student {
    /// The name: the file's without folder and extension, told apart from others.
    pub name: String,
    /// The file.
    pub file: String,
    /// What it gets, or why it gets nothing.
    pub result: Result<Marked, Failure>,
}

/// A drawing that the desk accepts.
pub struct Marked {
    /// The case on its desk, which is settled.
    pub opened: Opened,
    /// What the library says of it.
    pub marks: Marks,
    /// T.
    pub rounds: u32,
    /// Why the score is not higher, in a sentence for each view.
    pub why: Vec<String>,
    /// The warnings about the drawing.
    pub warnings: Vec<Warning>,
}

impl Student {
    /// Marks a file against a course.
    pub fn mark(course: &Course, file: &str, input: &mut dyn Read) -> Student {
        let stem = Path::new(file).file_stem().map(|s| s.to_string_lossy());
        Student {
            name: stem.map_or(file.to_string(), |s| s.into_owned()),
            file: shown_name(file).to_string(),
            result: Marked::of(course, file, input),
        }
    }

    /// The file of the student's page: the name, with `_` for signs that an address cannot have.
    pub fn page(&self) -> String {
        let safe = |c: char| match c.is_alphanumeric() || "-_.".contains(c) {
            true => c,
            false => '_',
        };
        self.name.chars().map(safe).chain(".html".chars()).collect()
    }

    /// The warnings about the drawing.
    pub fn warnings(&self) -> &[Warning] {
        self.result.as_ref().map_or(&[], |m| &m.warnings)
    }

    /// The warnings or the errors in words.
    pub fn told(&self) -> String {
        match &self.result {
            Ok(marked) => warnings::render_all(&marked.opened.text, &marked.warnings),
            Err(failure) => failure.words(&[]),
        }
    }

    /// `marked`, `refused` or `error`.
    pub fn status(&self) -> &'static str {
        match &self.result {
            Ok(_) => "marked",
            Err(Failure::Refused(..)) => "refused",
            Err(_) => "error",
        }
    }
}

impl Marked {
    fn of(course: &Course, file: &str, input: &mut dyn Read) -> Result<Marked, Failure> {
        let (name, letters) = (shown_name(file), read_letters(file, input)?);
        model_1_alone(name, &letters)?;
        let mut loader = Loader::new(name);
        loader.add(&course.file, &course.letters);
        loader.add(name, &letters);
        let mut opened = open(together(loader, parse)?)?;
        let formulas = opened.case.formulas.len();
        let answer = Answer::of(&mut opened, None)?;
        let marks = Marks::of(&opened.desk, formulas, course.shared)?;
        // The formulas are the course's, and are warned of there.
        let all = warnings(&opened.text, &opened.case, &[]);
        Ok(Marked {
            marks,
            rounds: answer.rounds,
            why: why::in_short(&opened.case, &answer),
            warnings: all.into_iter().filter(|w| w.model == Some(0)).collect(),
            opened,
        })
    }

    /// Where the score stands to the ceiling; a score that compares nothing stands nowhere.
    pub fn stands(&self, course: &Course) -> &'static str {
        match self.warnings.iter().any(|w| w.kind == NO_INITIAL) {
            true => "nothing compared",
            false => course.stands(self.marks.score),
        }
    }

    /// A desk of the same case at round 0, for the rounds on the student's page.
    pub fn again(&self) -> Result<Opened, Failure> {
        let text = self.opened.text.clone();
        let desk = Desk::open(&text.bytes).map_err(|r| Failure::Other(r.to_string()))?;
        let case = self.opened.case.clone();
        Ok(Opened { text, case, desk })
    }
}

/// Says where a student's file has something else than model 1.
fn model_1_alone(name: &str, letters: &str) -> Result<(), Failure> {
    let source = Source::new(name, letters);
    let lexed = match lex(&source) {
        Ok(lexed) => lexed,
        Err(error) => return Err(Failure::Text(source, vec![error])),
    };
    let model = |statement: &crate::lexer::Statement, number: &str| {
        begins(statement, &["model"]) && statement.get(1).is_some_and(|t| names::is_word(t, number))
    };
    let strange = lexed.statements.iter().filter(|s| {
        begins(s, &["title", "lattice", "propositions", "formula", "bytes"]) || model(s, "2")
    });
    let mut errors: Vec<TextError> = strange
        .map(|s| {
            let expected = "expected `model 1` alone: the rest is the course's";
            TextError::new(
                names::whole(s),
                "a student's file has model 1 alone",
                expected,
            )
        })
        .collect();
    if errors.is_empty() && !lexed.statements.iter().any(|s| model(s, "1")) {
        let expected = "expected a line `model 1` in a student's file";
        errors.push(TextError::new(
            Default::default(),
            "`model 1` is missing",
            expected,
        ));
    }
    match errors.is_empty() {
        true => Ok(()),
        false => Err(Failure::Text(source, errors)),
    }
}

/// Tells students apart whose files have the same name in different folders, or whose pages would have; `index` is the class page's.
pub fn tell_apart(students: &mut [Student]) {
    let mut taken = vec!["index.html".to_string()];
    for student in students {
        let first = student.name.clone();
        let mut count = 1;
        while taken.contains(&student.page()) {
            count += 1;
            student.name = format!("{first}-{count}");
        }
        taken.push(student.page());
    }
}
