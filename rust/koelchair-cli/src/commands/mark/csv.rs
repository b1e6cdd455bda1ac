//! The class as comma-separated values.

use super::{Class, Marks, Student};

/// A line of headings, a line for the course's model against itself, and one for each student.
pub fn text(class: &Class) -> String {
    let case = &class.course.opened.case;
    let shared = case.element(class.course.shared);
    let mut head = ["student", "file", "status", "score", "ceiling"]
        .map(str::to_string)
        .to_vec();
    head.extend(
        case.formulas
            .iter()
            .map(|named| format!("formula {}", named.name)),
    );
    head.extend([format!("share {shared}"), "warnings".into(), "why".into()]);
    let course = &class.course;
    let mut own = vec!["(course)".to_string(), course.file.clone(), "course".into()];
    own.extend(marks(class, &course.ceiling, "the ceiling"));
    own.extend([
        joined(course.warnings.iter().map(|w| &w.short)),
        String::new(),
    ]);
    let students = class.students.iter().map(|s| line(&row(class, s)));
    [line(&head), line(&own)]
        .into_iter()
        .chain(students)
        .collect()
}

/// Score, where it stands to the ceiling, formulas and share.
fn marks(class: &Class, marks: &Marks, stands: &str) -> Vec<String> {
    let case = &class.course.opened.case;
    let mut cells = vec![case.element(marks.score), stands.to_string()];
    cells.extend(marks.formulas.iter().map(|e| case.element(*e)));
    cells.push(marks.share.to_string());
    cells
}

fn row(class: &Class, student: &Student) -> Vec<String> {
    let mut cells = vec![
        student.name.clone(),
        student.file.clone(),
        student.status().into(),
    ];
    match &student.result {
        Ok(marked) => {
            cells.extend(marks(class, &marked.marks, marked.stands(&class.course)));
            cells.push(joined(marked.warnings.iter().map(|w| &w.short)));
            cells.push(joined(&marked.why));
        }
        Err(failure) => {
            cells.extend(vec![String::new(); class.course.ceiling.formulas.len() + 4]);
            cells.push(failure.short(&student.file));
        }
    }
    cells
}

fn joined<'a>(list: impl IntoIterator<Item = &'a String>) -> String {
    let list: Vec<&str> = list.into_iter().map(String::as_str).collect();
    list.join("; ")
}

/// Cells with commas between; one with a comma, a quote or a line break in it stands in quotes.
fn line(cells: &[String]) -> String {
    let quoted = |cell: &String| match cell.contains(['"', ',', '\n', '\r']) {
        true => format!("\"{}\"", cell.replace('"', "\"\"")),
        false => cell.clone(),
    };
    let cells: Vec<String> = cells.iter().map(quoted).collect();
    cells.join(",") + "\n"
}

#[cfg(test)]
mod tests {
    use super::line;

    #[test]
    fn cells_with_commas_or_quotes_are_quoted() {
        let cells = ["plain", "a, b", "says \"no\"", ""].map(str::to_string);
        assert_eq!(line(&cells), "plain,\"a, b\",\"says \"\"no\"\"\",\n");
    }
}
