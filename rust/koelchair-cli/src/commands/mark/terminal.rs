//! The class as a table for the terminal.

use super::{Class, Marks, Student};
use crate::commands::table;
use std::fmt::Write;

/// A row for the course's model against itself, and one for each student.
pub fn text(class: &Class) -> String {
    let case = &class.course.opened.case;
    let shared = case.element(class.course.shared);
    let mut head = vec!["student".to_string(), "score".to_string()];
    head.extend(case.formulas.iter().map(|named| named.name.clone()));
    head.extend([format!("share {shared}"), "ceiling".into(), "note".into()]);
    let mut rows = vec![head];
    let mut course = vec!["(the course's own)".to_string()];
    course.extend(marks(class, &class.course.ceiling));
    course.push("the ceiling".to_string());
    rows.push(course);
    rows.extend(class.students.iter().map(|s| row(class, s)));
    table::aligned(&rows, "") + &summary(class)
}

fn marks(class: &Class, marks: &Marks) -> Vec<String> {
    let case = &class.course.opened.case;
    let formulas = marks.formulas.iter().map(|e| case.element(*e));
    let mut cells = vec![case.element(marks.score)];
    cells.extend(formulas);
    cells.push(format!("{} %", marks.share));
    cells
}

fn row(class: &Class, student: &Student) -> Vec<String> {
    let mut cells = vec![student.name.clone()];
    match &student.result {
        Ok(marked) => {
            cells.extend(marks(class, &marked.marks));
            cells.push(marked.stands(&class.course).to_string());
            let notes: Vec<&str> = marked.warnings.iter().map(|w| w.short.as_str()).collect();
            if !notes.is_empty() {
                cells.push(format!("warning: {}", notes.join("; ")));
            }
        }
        Err(failure) => {
            let empty = class.course.ceiling.formulas.len() + 3;
            cells.extend(vec!["-".to_string(); empty]);
            let status = match student.status() {
                "error" => "error: ",
                _ => "",
            };
            cells.push(format!("{status}{}", failure.short(&student.file)));
        }
    }
    cells
}

/// How many drawings stand where, and how many have warnings or could not be marked.
fn summary(class: &Class) -> String {
    let ceiling = class.course.opened.case.element(class.course.ceiling.score);
    let mut text =
        format!("\nThe ceiling is {ceiling}: what the course's model scores against itself.\n");
    let stands = |student: &Student| match &student.result {
        Ok(marked) => marked.stands(&class.course),
        Err(_) => "not marked",
    };
    let count = |wanted: &str| {
        class
            .students
            .iter()
            .filter(|s| stands(s) == wanted)
            .count()
    };
    let kinds = [
        "above",
        "reached",
        "below",
        "nothing compared",
        "not marked",
    ];
    let there = kinds.iter().filter(|kind| count(kind) > 0);
    let counts: Vec<String> = there
        .map(|kind| format!("{kind} {}", count(kind)))
        .collect();
    if !counts.is_empty() {
        let warned = class
            .students
            .iter()
            .filter(|s| !s.warnings().is_empty())
            .count();
        let (all, counts) = (class.students.len(), counts.join(", "));
        let _ = writeln!(text, "Drawings: {all}. {counts}; with warnings: {warned}.");
    }
    text
}
