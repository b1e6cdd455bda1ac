//! The class page, and a page for each student that it links to.

use super::student::Marked;
use super::{Class, Marks, Student};
use crate::commands::Failure;
use crate::json::{text, text_with_code};
use crate::page;
use crate::warnings::Warning;
use std::path::Path;

/// Writes `index.html` and a page for each marked student into a folder, which is made if it is not there.
pub fn write(class: &Class, folder: &str) -> Result<(), Failure> {
    let cannot =
        |path: &Path, e: std::io::Error| Failure::Other(format!("{}: {e}", path.display()));
    let folder = Path::new(folder);
    std::fs::create_dir_all(folder).map_err(|e| cannot(folder, e))?;
    let put = |name: &str, html: String| {
        let path = folder.join(name);
        std::fs::write(&path, html).map_err(|e| cannot(&path, e))
    };
    for student in &class.students {
        if let Ok(marked) = &student.result {
            let surroundings = page::Surroundings {
                class: true,
                student: Some(&student.name),
                warnings: &marked.warnings,
            };
            let html = page::html(&marked.again()?, &surroundings)?;
            put(&student.page(), html)?;
        }
    }
    put("index.html", index(class))
}

fn index(class: &Class) -> String {
    let case = &class.course.opened.case;
    let title = case.title.as_deref().unwrap_or("The class");
    let ceiling = text(&case.element(class.course.ceiling.score));
    let shared = text(&case.element(class.course.shared));
    let formulas: String = case
        .formulas
        .iter()
        .map(|named| format!("<th scope=\"col\">{}</th>", text(&named.name)))
        .collect();
    let rows: String = class.students.iter().map(|s| row(class, s)).collect();
    let own = format!(
        "<tr class=\"course\"><th scope=\"row\">The course's own</th>{}<td></td></tr>\n",
        cells(class, &class.course.ceiling, "<td>the ceiling</td>")
    );
    let body = format!(
        "<header><h1>{}</h1></header>\n<main class=\"class\">\n\
         <p class=\"note\">The ceiling is <strong>{ceiling}</strong>: what the course's model scores against itself. A drawing that \
         reaches it is as good as the course's own; one above it has left out what the course is unsure of. A name leads to the student's page.</p>\n{}\
         <div class=\"scroll\" tabindex=\"0\" role=\"region\" aria-label=\"Marks\"><table>\n\
         <thead><tr><th scope=\"col\">Student</th><th scope=\"col\">Score</th><th scope=\"col\">Ceiling</th>{formulas}\
         <th scope=\"col\">Share {shared}</th><th scope=\"col\">Warnings, and why it is not higher</th></tr></thead>\n\
         <tbody>\n{own}{rows}</tbody>\n</table></div>\n</main>\n\
         <footer><p>Scores, formulas' values and shares are the proved library's; the reasons and the warnings are worked out by the tool.</p></footer>\n",
        text(title),
        page::warning_list(&class.course.warnings),
    );
    page::document(title, &body)
}

/// Score, ceiling, formulas and share.
fn cells(class: &Class, marks: &Marks, ceiling: &str) -> String {
    let case = &class.course.opened.case;
    let cell = |e: &u8| format!("<td>{}</td>", text(&case.element(*e)));
    let formulas: String = marks.formulas.iter().map(cell).collect();
    let score = text(&case.element(marks.score));
    let share = marks.share;
    format!("<td><strong>{score}</strong></td>{ceiling}{formulas}<td>{share} %</td>")
}

fn row(class: &Class, student: &Student) -> String {
    let name = text(&student.name);
    let marked = match &student.result {
        Ok(marked) => marked,
        Err(failure) => {
            let empty = "<td>-</td>".repeat(class.course.ceiling.formulas.len() + 1);
            let short = text_with_code(&capital(&failure.short(&student.file)));
            let said = text(&failure.words(&[]));
            let full = format!("<details><summary>In full</summary><pre>{said}</pre></details>");
            return format!(
                "<tr class=\"broken\"><th scope=\"row\">{name}</th><td>-</td><td>not marked</td>{empty}<td><p>{short}.</p>{full}</td></tr>\n"
            );
        }
    };
    let stands = marked.stands(&class.course);
    let good = matches!(stands, "reached" | "above");
    let ceiling = match stands == "reached" && marked.warnings.is_empty() {
        true => format!("<td class=\"reached\">{stands}</td>"),
        false => format!("<td>{stands}</td>"),
    };
    format!(
        "<tr><th scope=\"row\"><a href=\"{}\">{name}</a></th>{}<td>{}</td></tr>\n",
        href(&student.page()),
        cells(class, &marked.marks, &ceiling),
        remarks(marked, good)
    )
}

/// Warnings, and why the score is not higher; folded where the drawing is good.
fn remarks(marked: &Marked, good: bool) -> String {
    let warning = |w: &Warning| {
        let said = text_with_code(&w.message);
        format!("<p class=\"warning\">Warning: {said}.</p>")
    };
    let warnings: String = marked.warnings.iter().map(warning).collect();
    let sentence = |w: &String| format!("<p>{}</p>", text_with_code(&capital(w)));
    let why: String = marked.why.iter().map(sentence).collect();
    match why.is_empty() || !good {
        true => format!("{warnings}{why}"),
        false => format!("{warnings}<details><summary>Why it is not top</summary>{why}</details>"),
    }
}

/// A sentence that begins with a capital letter.
fn capital(sentence: &str) -> String {
    let mut letters = sentence.chars();
    let first = letters.next().map(char::to_uppercase);
    first.into_iter().flatten().chain(letters).collect()
}

/// A file's name as an address.
fn href(name: &str) -> String {
    let coded = |b: u8| match b {
        b'A'..=b'Z' | b'a'..=b'z' | b'0'..=b'9' | b'-' | b'_' | b'.' => char::from(b).to_string(),
        b => format!("%{b:02X}"),
    };
    name.bytes().map(coded).collect()
}
