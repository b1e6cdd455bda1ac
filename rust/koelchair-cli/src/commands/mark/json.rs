//! The class as JSON.

use super::{Class, Course, Marks, Student};
use crate::json::{array, object, string, strings};
use crate::warnings;

/// The fields of the class.
pub fn fields(class: &Class) -> Vec<(&'static str, String)> {
    let course = &class.course;
    let said = course
        .warnings
        .iter()
        .map(|w| warnings::json(&course.opened.text, w));
    let mut own = vec![("file", string(&course.file))];
    own.extend(marks(course, &course.ceiling));
    own.push(("warnings", array(said)));
    vec![
        ("accepted", "true".to_string()),
        ("course", object(&own)),
        (
            "students",
            array(class.students.iter().map(|s| student(course, s))),
        ),
    ]
}

/// Score, formulas and share.
fn marks(course: &Course, marks: &Marks) -> Vec<(&'static str, String)> {
    let case = &course.opened.case;
    let name = |e: u8| string(&case.element(e));
    let formulas = case.formulas.iter().zip(&marks.formulas);
    let formulas =
        formulas.map(|(named, e)| object(&[("name", string(&named.name)), ("value", name(*e))]));
    let share = [
        ("element", name(course.shared)),
        ("percent", marks.share.to_string()),
    ];
    vec![
        ("score", name(marks.score)),
        ("formulas", array(formulas)),
        ("share", object(&share)),
    ]
}

fn student(course: &Course, student: &Student) -> String {
    let mut fields = vec![
        ("name", string(&student.name)),
        ("file", string(&student.file)),
        ("status", string(student.status())),
    ];
    match &student.result {
        Ok(marked) => {
            let text = &marked.opened.text;
            let said = marked.warnings.iter().map(|w| warnings::json(text, w));
            fields.push(("ceiling", string(marked.stands(course))));
            fields.extend(marks(course, &marked.marks));
            fields.push(("rounds", marked.rounds.to_string()));
            fields.push(("why", strings(&marked.why)));
            fields.push(("warnings", array(said)));
        }
        Err(failure) => fields.extend(failure.fields().into_iter().skip(1)),
    }
    object(&fields)
}
