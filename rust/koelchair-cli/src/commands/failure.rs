//! Why a command did not do its work, in words and as JSON.

use super::{help, note};
use crate::errors::{marked_line, render_all, Source, TextError};
use crate::json::{array, object, string};
use crate::parse::Text;
use koelchair::Refusal;

/// Why a command did not do its work.
#[derive(Debug)]
pub enum Failure {
    /// The command line is wrong.
    Usage(String),
    /// The text is wrong.
    Text(Source, Vec<TextError>),
    /// The desk refuses the case; what was printed before.
    Refused(Box<Text>, Refusal, String),
    /// A file cannot be read, or the like.
    Other(String),
}

impl Failure {
    /// The failure in words; a wrong command line with how the command is called.
    pub fn words(&self, arguments: &[String]) -> String {
        match self {
            Failure::Usage(message) => usage_text(arguments, message),
            Failure::Text(source, errors) => render_all(source, errors),
            Failure::Refused(text, refusal, _) => refusal_text(text, *refusal),
            Failure::Other(message) => format!("error: {message}\n"),
        }
    }

    /// In one line, said of this file.
    pub fn short(&self, of: &str) -> String {
        match self {
            Failure::Usage(message) | Failure::Other(message) => message.clone(),
            Failure::Text(source, errors) => {
                let more = match errors.len() {
                    0 | 1 => String::new(),
                    n => format!(", and {} more", n - 1),
                };
                let first = errors.first().map_or(String::new(), |e| {
                    let (file, line) = source.place(e.span.line);
                    match file == of {
                        true => format!("line {line}: {}", e.message),
                        false => format!("{file}, line {line}: {}", e.message),
                    }
                });
                first + &more
            }
            Failure::Refused(_, refusal, _) => {
                let (number, part) = (refusal.number(), refusal.part());
                format!("refused {number} {part}: {}", refusal.words())
            }
        }
    }

    /// The fields of JSON that say the failure: `accepted`, `refusal` and `errors`.
    pub fn fields(&self) -> Vec<(&'static str, String)> {
        let message = |text: &str| object(&[("message", string(text))]);
        let (refusal, errors) = match self {
            Failure::Usage(said) | Failure::Other(said) => ("null".into(), vec![message(said)]),
            Failure::Text(source, errors) => {
                let errors = errors.iter().map(|e| error_json(source, e)).collect();
                ("null".to_string(), errors)
            }
            Failure::Refused(_, refusal, _) => (refusal_json(*refusal), Vec::new()),
        };
        vec![
            ("accepted", "false".to_string()),
            ("refusal", refusal),
            ("errors", array(errors)),
        ]
    }
}

fn error_json(source: &Source, error: &TextError) -> String {
    let (file, line) = source.place(error.span.line);
    let help = error
        .help
        .as_ref()
        .map_or("null".to_string(), |h| string(h));
    object(&[
        ("message", string(&error.message)),
        ("expected", string(&error.expected(source))),
        ("help", help),
        ("file", string(file)),
        ("line", line.to_string()),
        ("column", (error.span.start + 1).to_string()),
    ])
}

fn refusal_json(refusal: Refusal) -> String {
    object(&[
        ("number", refusal.number().to_string()),
        ("part", refusal.part().to_string()),
        ("message", string(refusal.words())),
    ])
}

fn usage_text(arguments: &[String], message: &str) -> String {
    let command = arguments
        .first()
        .map(String::as_str)
        .filter(|c| help::known(c));
    let more = command.map_or(String::new(), |c| format!(" {c}"));
    format!(
        "error: {message}\n{}\nmore: koelchair{more} --help\n",
        help::usage(command)
    )
}

/// A refusal in words, with its number, its part, and where in the text that part stands.
pub fn refusal_text(text: &Text, refusal: Refusal) -> String {
    let (number, part) = (refusal.number(), refusal.part());
    let mut said = format!("refused {number} {part}: {}\n", refusal.words());
    if let Some(span) = text.place(number, part) {
        let note = match number {
            1 | 2 if !text.byte_places.is_empty() => "the bytes begin here".to_string(),
            2 => "a ninth formula; a case has at most 8".to_string(),
            3 => format!("the offset and length of part {part}, {}", part_name(part)),
            _ => format!("part {part}, {}, stands here", part_name(part)),
        };
        said.push_str(&marked_line(&text.source, span, &note));
    }
    let why = text
        .case
        .as_ref()
        .map(|c| note::note(c, &text.bytes, refusal));
    if let Some(why) = why.flatten() {
        said.push_str(&format!(
            "  = note, found by this tool and not by the library: {why}\n"
        ));
    }
    if text.source.lines.is_empty() && letters(&text.bytes) {
        said.push_str("  = help: this file is text: leave out `--bytes`\n");
    }
    said
}

/// Whether bytes are the letters of a text.
pub fn letters(bytes: &[u8]) -> bool {
    let text = std::str::from_utf8(bytes).unwrap_or_default();
    text.contains('\n')
        && text
            .chars()
            .all(|c| !c.is_control() || "\t\r\n".contains(c))
}

fn part_name(part: u8) -> String {
    match part {
        0 => "the lattice".to_string(),
        1 => "model 1".to_string(),
        2 => "model 2".to_string(),
        n => format!("formula {}", n - 3),
    }
}
