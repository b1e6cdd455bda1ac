//! `draw`: one file of HTML in which a model is drawn. It needs no network: style and script stand in it, and so does a text, which the
//! page's script reads as it reads what is opened there. Of a course's file that text has the lattice and the propositions; the
//! course's model, the formulas and the comment at the head only with `--with-course`.

use super::{open, read_course, Arguments, Opened, Outcome, Printed};
use crate::json::{self, object, string};
use crate::print;
use std::io::Read;

/// Colours and sizes.
const STYLE: &str = include_str!("../draw/style.css");
/// What stands on the page before the script has run.
const BODY: &str = include_str!("../draw/body.html");
/// The script, in the order in which its parts rest on each other. The first four need no browser.
const SCRIPT: [&str; 10] = [
    include_str!("../draw/words.js"),
    include_str!("../draw/lattices.js"),
    include_str!("../draw/cases.js"),
    include_str!("../draw/warnings.js"),
    include_str!("../draw/base.js"),
    include_str!("../draw/edits.js"),
    include_str!("../draw/graph.js"),
    include_str!("../draw/side.js"),
    include_str!("../draw/hand.js"),
    include_str!("../draw/main.js"),
];
/// Tells the browser to load nothing from anywhere.
const POLICY: &str = "default-src 'none'; style-src 'unsafe-inline'; script-src 'unsafe-inline'";
/// What a page without a file begins with.
const PLAIN: &str = "lattice chain no unsure yes\n";

/// Runs `draw`.
pub fn draw(arguments: &[String], input: &mut dyn Read) -> Outcome {
    let flags = ["--bytes", "--with-course"];
    let arguments = Arguments::read(arguments, &flags, &["--course"])?;
    if arguments.plain.is_empty() && arguments.values("--course").next().is_none() {
        return Ok(Printed::new(html("koelchair", PLAIN, false)));
    }
    let [file] = arguments.exactly(["FILE"])?;
    let opened = open(read_course(file, &arguments, input)?)?;
    let title = match &opened.case.title {
        Some(title) => format!("{title} - koelchair"),
        None => "koelchair".to_string(),
    };
    let text = given(&opened, arguments.has("--with-course"));
    Ok(Printed::new(html(&title, &text, true)))
}

/// What the page has of a case: the student's model if there is one, and what else is the course's only if asked for.
fn given(opened: &Opened, with_course: bool) -> String {
    let case = &opened.case;
    let mut text = print::shared(case);
    if !opened.text.course_alone {
        text.push_str(&placed(opened, 0));
    }
    match with_course {
        true => print::head(case) + &text + &placed(opened, 1) + &print::formulas(case),
        false => text,
    }
}

/// A model with the places of its states, which the text has as comments `# at` behind its first line.
fn placed(opened: &Opened, m: usize) -> String {
    let (lines, parts) = (&opened.text.source.lines, &opened.text.places.parts);
    let begin = parts.get(m + 1).map_or(lines.len(), |part| part.line);
    let next = parts.iter().map(|part| part.line).filter(|l| *l > begin);
    let end = next.min().unwrap_or(lines.len());
    let places: String = lines[begin..end]
        .iter()
        .filter(|line| line.trim_start().starts_with("# at "))
        .map(|line| format!("  {}\n", line.trim()))
        .collect();
    format!("\n{}{places}", print::model(&opened.case, m))
}

/// The page that begins with a text; `fixed` if lattice and propositions are a course's.
fn html(title: &str, text: &str, fixed: bool) -> String {
    let (title, script) = (json::text(title), SCRIPT.concat());
    let data = object(&[("text", string(text)), ("fixed", fixed.to_string())]);
    format!(
        "<!doctype html>\n<html lang=\"en\">\n<head>\n<meta charset=\"utf-8\">\n\
         <meta http-equiv=\"Content-Security-Policy\" content=\"{POLICY}\">\n\
         <meta name=\"viewport\" content=\"width=device-width, initial-scale=1\">\n\
         <title>{title}</title>\n<style>\n{STYLE}</style>\n</head>\n<body>\n{BODY}\
         <script type=\"application/json\" id=\"case\">{data}</script>\n\
         <script>\n\"use strict\";\n(() => {{\n{script}}})();\n</script>\n</body>\n</html>\n"
    )
}
