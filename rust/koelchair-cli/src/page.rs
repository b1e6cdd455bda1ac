//! `page`: one file of HTML about a case, to be shown to a class. It needs no network: style and script stand in it, and what
//! they show stands in it as JSON (`data`). The script looks values up and draws; it works out no entry and no value.

mod data;
mod why;

use crate::case::Case;
use crate::commands::why::OWNERS;
use crate::commands::{open, read_text, Arguments, Failure, Opened, Outcome, Printed};
use crate::encode::encode;
use crate::json;
use crate::warnings::{warnings, Warning};
use std::io::Read;

/// Colours and sizes.
const STYLE: &str = include_str!("page/style.css");
/// What stands on the page before the script has run.
const BODY: &str = include_str!("page/body.html");
/// The script, in the order in which its parts rest on each other.
const SCRIPT: [&str; 11] = [
    include_str!("page/base.js"),
    include_str!("page/colours.js"),
    include_str!("page/table.js"),
    include_str!("page/lowerings.js"),
    include_str!("page/bounds.js"),
    include_str!("page/pair.js"),
    include_str!("page/layout.js"),
    include_str!("page/graph.js"),
    include_str!("page/hasse.js"),
    include_str!("page/formulas.js"),
    include_str!("page/main.js"),
];
/// Tells the browser to load nothing from anywhere.
const POLICY: &str = "default-src 'none'; style-src 'unsafe-inline'; script-src 'unsafe-inline'";

/// Up to so many states a page also has the case exchanged.
const MOST_STATES: usize = 24;

/// Runs `page`.
pub fn page(arguments: &[String], input: &mut dyn Read) -> Outcome {
    let flags = ["--bytes", "--deny-warnings"];
    let arguments = Arguments::read(arguments, &flags, &["--course"])?;
    let [file] = arguments.exactly(["FILE"])?;
    let opened = open(read_text(file, &arguments, input)?)?;
    let list = warnings(&opened.text, &opened.case, &opened.facts()?);
    let surroundings = Surroundings {
        warnings: &list,
        ..Surroundings::default()
    };
    let html = html(&opened, &surroundings)?;
    Ok(Printed::new(html).with_warnings(&opened.text, &list, &arguments))
}

/// What stands on a page besides its case.
#[derive(Default)]
pub struct Surroundings<'a> {
    /// Whether there is a class page, `index.html`, beside it.
    pub class: bool,
    /// The student.
    pub student: Option<&'a str>,
    /// The warnings about the case.
    pub warnings: &'a [Warning],
}

/// The page of an opened case.
pub fn html(opened: &Opened, surroundings: &Surroundings) -> Result<String, Failure> {
    let data = data::of(&opened.case, &opened.text.bytes, OWNERS)?;
    let exchanged = exchanged(&opened.case)?;
    let title = match &opened.case.title {
        Some(title) => format!("{title} - koelchair"),
        None => "koelchair".to_string(),
    };
    let title = match surroundings.student {
        Some(student) => format!("{student} - {title}"),
        None => title,
    };
    let script = SCRIPT.concat();
    let student = surroundings.student.map(json::text).unwrap_or_default();
    let class = match surroundings.class {
        true => format!("<p><a href=\"index.html\">The class</a> / {student}</p>\n      "),
        false => String::new(),
    };
    let warnings = folded_warnings(surroundings.warnings);
    let body = BODY.replacen("<div id=\"warnings\"></div>", &warnings, 1);
    let body = body.replacen("<h1 ", &format!("{class}<h1 "), 1);
    let body = format!(
        "{body}<script type=\"application/json\" id=\"case\">{data}</script>\n\
         <script type=\"application/json\" id=\"exchanged\">{exchanged}</script>\n\
         <script>\n\"use strict\";\n(() => {{\n{script}}})();\n</script>\n"
    );
    Ok(document(&title, &body))
}

/// The data of the case with its models exchanged, worked by the library; `null` for a case whose page would be too long.
fn exchanged(case: &Case) -> Result<String, Failure> {
    let other = data::exchanged(case);
    match encode(&other) {
        Ok(bytes) if case.models.iter().all(|m| m.size() <= MOST_STATES) => {
            data::of(&other, &bytes, [OWNERS[1], OWNERS[0]])
        }
        _ => Ok("null".to_string()),
    }
}

/// How many warnings there are, beside the score, unfolded to the list; nothing where there is none.
fn folded_warnings(list: &[Warning]) -> String {
    let summary = match list.len() {
        0 => return String::new(),
        1 => "1 warning".to_string(),
        n => format!("{n} warnings"),
    };
    let list = warning_list(list);
    format!("<details id=\"warnings\"><summary>{summary}</summary>\n{list}</details>\n")
}

/// Warnings as a list; nothing where there is none.
pub fn warning_list(list: &[Warning]) -> String {
    let item = |w: &Warning| format!("<li>Warning: {}.</li>\n", json::text_with_code(&w.message));
    match list.is_empty() {
        true => String::new(),
        false => format!(
            "<ul class=\"warnings\">\n{}</ul>\n",
            list.iter().map(item).collect::<String>()
        ),
    }
}

/// A document with the page's style around a body.
pub fn document(title: &str, body: &str) -> String {
    let title = json::text(title);
    format!(
        "<!doctype html>\n<html lang=\"en\">\n<head>\n<meta charset=\"utf-8\">\n\
         <meta http-equiv=\"Content-Security-Policy\" content=\"{POLICY}\">\n\
         <meta name=\"viewport\" content=\"width=device-width, initial-scale=1\">\n\
         <title>{title}</title>\n<style>\n{STYLE}</style>\n</head>\n<body>\n{body}</body>\n</html>\n"
    )
}
