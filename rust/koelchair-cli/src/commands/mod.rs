//! The sub-commands. Each gets its arguments and gives what it prints; `run` turns that into output and exit status.

mod arguments;
mod check;
mod decode;
mod dot;
mod draw;
mod encode;
mod explain;
mod failure;
mod help;
mod input;
mod judge;
mod mark;
mod note;
mod report;
mod step;
mod table;
pub mod why;

pub use arguments::{count, Arguments};
pub use failure::{refusal_text, Failure};
pub use input::{open, read_bytes, read_course, read_text, Opened};

use crate::errors::did_you_mean;
use crate::json::{object, string};
use crate::warnings::{self, Warning};
use std::io::{ErrorKind, Read, Write};

/// Exit status: all went well.
pub const OK: u8 = 0;
/// Exit status: the desk refuses the case.
pub const REFUSED: u8 = 1;
/// Exit status: the text is wrong, or the command was.
pub const WRONG: u8 = 2;

/// What a command prints.
#[derive(Debug, Default)]
pub struct Printed {
    /// To standard output.
    pub out: Vec<u8>,
    /// To standard error: warnings.
    pub told: String,
    /// The exit status.
    pub status: u8,
}

impl Printed {
    /// Output alone.
    pub fn new(out: impl Into<Vec<u8>>) -> Printed {
        Printed {
            out: out.into(),
            ..Printed::default()
        }
    }

    /// The same with warnings; an error if there are some and `--deny-warnings` was given.
    pub fn with_warnings(
        mut self,
        text: &crate::parse::Text,
        list: &[Warning],
        arguments: &Arguments,
    ) -> Printed {
        self.told = warnings::render_all(text, list);
        self.deny(list.len(), arguments);
        self
    }

    /// Makes warnings an error if `--deny-warnings` was given.
    pub fn deny(&mut self, count: usize, arguments: &Arguments) {
        if count > 0 && arguments.has("--deny-warnings") {
            self.told += &format!("error: warnings: {count}, and `--deny-warnings` is given\n");
            self.status = self.status.max(WRONG);
        }
    }
}

/// What a command prints, or why it did not do its work.
pub type Outcome = Result<Printed, Failure>;

/// Does what the arguments (without the program's name) ask, and gives the exit status.
pub fn run(
    arguments: &[String],
    input: &mut dyn Read,
    out: &mut dyn Write,
    err: &mut dyn Write,
) -> u8 {
    let printed = match dispatch(arguments, input) {
        Ok(printed) => printed,
        Err(failure) => failed(arguments, failure),
    };
    let told = err.write_all(printed.told.as_bytes());
    match out.write_all(&printed.out).and_then(|()| out.flush()) {
        Ok(()) if told.is_ok() => printed.status,
        Ok(()) => WRONG,
        Err(error) if error.kind() == ErrorKind::BrokenPipe => OK,
        Err(error) => {
            let _ = writeln!(err, "error: standard output cannot be written: {error}");
            WRONG
        }
    }
}

/// A failure as output: in words to standard error, and with `--json` to standard output too.
fn failed(arguments: &[String], failure: Failure) -> Printed {
    let told = failure.words(arguments);
    let json = arguments.iter().any(|a| a == "--json");
    let command = arguments.first().map_or("", String::as_str);
    let mut out = match json {
        true => document(command, failure.fields()),
        false => String::new(),
    };
    let status = match failure {
        Failure::Refused(_, _, printed) => {
            out.push_str(if json { "" } else { &printed });
            REFUSED
        }
        _ => WRONG,
    };
    Printed {
        out: out.into_bytes(),
        told,
        status,
    }
}

/// What a command says as JSON: one object on one line. `format` is the form that docs/TEXT-FORM.md gives.
pub fn document(command: &str, fields: Vec<(&'static str, String)>) -> String {
    let mut all = vec![("format", "1".to_string()), ("command", string(command))];
    all.extend(fields);
    object(&all) + "\n"
}

fn dispatch(arguments: &[String], input: &mut dyn Read) -> Outcome {
    let Some((command, rest)) = arguments.split_first() else {
        return Err(Failure::Usage("expected a sub-command".to_string()));
    };
    match command.as_str() {
        "--version" | "-V" => {
            let version = env!("CARGO_PKG_VERSION");
            return Ok(Printed::new(format!("koelchair {version}\n")));
        }
        "--help" | "-h" | "help" => {
            return Ok(Printed::new(help::of(rest.first().map(String::as_str))))
        }
        _ => {}
    }
    if rest.iter().any(|a| a == "--help" || a == "-h") && help::known(command) {
        return Ok(Printed::new(help::of(Some(command))));
    }
    match command.as_str() {
        "check" => check::check(rest, input),
        "report" => report::report(rest, input),
        "mark" => mark::mark(rest, input),
        "why" => why::why(rest, input),
        "step" => step::step(rest, input),
        "judge" => judge::judge(rest, input),
        "explain" => explain::explain(rest, input),
        "page" => crate::page::page(rest, input),
        "dot" => dot::dot(rest, input),
        "draw" => draw::draw(rest, input),
        "encode" => encode::encode(rest, input),
        "decode" => decode::decode(rest, input),
        other => Err(Failure::Usage(format!(
            "`{other}` is no sub-command{}",
            did_you_mean(other, help::names())
        ))),
    }
}
