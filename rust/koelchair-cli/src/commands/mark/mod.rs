//! `mark`: every student's drawing against the course's model, a row for each.

mod csv;
mod json;
mod pages;
mod student;
mod terminal;

use super::input::{read_letters, shown_name, together};
use super::report::element;
use super::{document, open, Arguments, Failure, Opened, Outcome, Printed, REFUSED, WRONG};
use crate::errors::TextError;
use crate::include::Loader;
use crate::names;
use crate::parse::{parse_course, Text};
use crate::progress::Progress;
use crate::rounds::settle;
use crate::warnings::{self, warnings, Warning};
use koelchair::{Desk, Element};
use std::io::Read;
use student::Student;

/// Runs `mark`.
pub fn mark(arguments: &[String], input: &mut dyn Read) -> Outcome {
    let flags = ["--csv", "--json", "--deny-warnings"];
    let arguments = Arguments::read(arguments, &flags, &["--page", "--share"])?;
    if arguments.has("--csv") && arguments.has("--json") {
        let message = "expected one of `--csv` and `--json`, got both";
        return Err(Failure::Usage(message.to_string()));
    }
    let Some((file, files)) = arguments.plain.split_first() else {
        let message = "expected COURSE and the students' files, got 0 arguments";
        return Err(Failure::Usage(message.to_string()));
    };
    let course = Course::read(file, &arguments, input)?;
    let mut students = Vec::new();
    let mut progress = Progress::new("drawing");
    for file in files {
        students.push(Student::mark(&course, file, input));
        progress.at(students.len());
    }
    student::tell_apart(&mut students);
    let class = Class { course, students };
    for folder in arguments.values("--page") {
        pages::write(&class, folder)?;
    }
    Ok(class.printed(&arguments))
}

/// The course with what its model scores against itself.
pub struct Course {
    /// The file.
    pub file: String,
    /// Its text.
    letters: String,
    /// The course's model against itself; the desk is settled.
    pub opened: Opened,
    /// The element whose share of the entries is given.
    pub shared: u8,
    /// What the course's model gets against itself: the ceiling.
    pub ceiling: Marks,
    /// The warnings about the course.
    pub warnings: Vec<Warning>,
}

/// What the library says of a settled desk, in numbers of elements.
pub struct Marks {
    /// The score.
    pub score: u8,
    /// Each formula's value on model 1.
    pub formulas: Vec<u8>,
    /// The per cent of entries at or above the shared element.
    pub share: u8,
}

impl Marks {
    /// Of a settled desk with so many formulas.
    fn of(desk: &Desk, formulas: usize, shared: u8) -> Result<Marks, Failure> {
        let refused = |refusal: koelchair::Refusal| Failure::Other(refusal.to_string());
        let whole = |f: usize| {
            let whole = desk.whole(f as u8, 1).map_err(refused)?;
            Ok(whole.element.0)
        };
        Ok(Marks {
            score: desk.score().0,
            formulas: (0..formulas).map(whole).collect::<Result<_, _>>()?,
            share: desk.share(Element(shared)).map_err(refused)?,
        })
    }
}

impl Course {
    fn read(file: &str, arguments: &Arguments, input: &mut dyn Read) -> Result<Course, Failure> {
        let letters = read_letters(file, input)?;
        let mut loader = Loader::new(shown_name(file));
        loader.add(shown_name(file), &letters);
        let text = without_model_1(together(loader, parse_course)?)?;
        let mut opened = open(text)?;
        settle(&mut opened.desk);
        let shared = match arguments.values("--share").last() {
            Some(written) => element(&opened, written)?,
            None => opened.desk.score().0,
        };
        Ok(Course {
            file: shown_name(file).to_string(),
            letters,
            shared,
            ceiling: Marks::of(&opened.desk, opened.case.formulas.len(), shared)?,
            warnings: warnings(&opened.text, &opened.case, &opened.facts()?),
            opened,
        })
    }

    /// Where a score stands: `reached` is the ceiling itself, `above` is higher, and `below` all else.
    pub fn stands(&self, score: u8) -> &'static str {
        let (ceiling, score) = (usize::from(self.ceiling.score), usize::from(score));
        match self.opened.case.lattice.at_most(ceiling, score) {
            true if ceiling == score => "reached",
            true => "above",
            false => "below",
        }
    }
}

/// A course's text, or the error that it has a model 1.
fn without_model_1(text: Text) -> Result<Text, Failure> {
    if text.course_alone {
        return Ok(text);
    }
    let span = text.places.parts.get(1).copied().unwrap_or_default();
    let expected = "expected model 1 in the students' files alone";
    let error = TextError::new(span, "a course's file has no model 1", expected);
    Err(Failure::Text(text.source, vec![error]))
}

/// The course and all students.
pub struct Class {
    /// The course.
    pub course: Course,
    /// The students, in the order of the command line.
    pub students: Vec<Student>,
}

impl Class {
    fn printed(&self, arguments: &Arguments) -> Printed {
        let out = match (arguments.has("--json"), arguments.has("--csv")) {
            (true, _) => document("mark", json::fields(self)),
            (false, true) => csv::text(self),
            (false, false) => {
                let pages = arguments.values("--page");
                let said = pages.map(|folder| format!("Class page: {folder}/index.html\n"));
                terminal::text(self) + &said.collect::<String>()
            }
        };
        let mut printed = Printed::new(out);
        printed.told = self.told();
        printed.status = self.status();
        let count = self
            .students
            .iter()
            .map(|s| s.warnings().len())
            .sum::<usize>();
        printed.deny(count + self.course.warnings.len(), arguments);
        printed
    }

    /// All warnings and errors in words.
    fn told(&self) -> String {
        let course = warnings::render_all(&self.course.opened.text, &self.course.warnings);
        let students = self.students.iter().map(Student::told);
        let all: Vec<String> = [course]
            .into_iter()
            .chain(students)
            .filter(|t| !t.is_empty())
            .collect();
        match all.is_empty() {
            true => String::new(),
            false => all.join("\n") + "\n",
        }
    }

    /// The worst that happened to a drawing.
    fn status(&self) -> u8 {
        let status = |student: &Student| match &student.result {
            Ok(_) => 0,
            Err(Failure::Refused(..)) => REFUSED,
            Err(_) => WRONG,
        };
        self.students.iter().map(status).max().unwrap_or(0)
    }
}

/// Whether a statement begins with one of these words.
fn begins(statement: &crate::lexer::Statement, words: &[&str]) -> bool {
    words.iter().any(|w| names::is_word(&statement[0], w))
}
