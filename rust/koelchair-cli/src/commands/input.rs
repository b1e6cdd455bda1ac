//! Reading files, and opening a text's case on a desk.

use super::{Arguments, Failure};
use crate::case::Case;
use crate::decode::decode;
use crate::encoding;
use crate::errors::{Source, TextError};
use crate::include::Loader;
use crate::parse::{parse, parse_course, Places, Text};
use koelchair::{Desk, FormulaFacts};
use std::io::{ErrorKind, Read};

/// An accepted case on a desk.
pub struct Opened {
    /// The text that it came from.
    pub text: Text,
    /// The case with its names.
    pub case: Case,
    /// The desk, at round 0.
    pub desk: Desk,
}

impl Opened {
    /// The library's facts of each formula. They are the same on both models, and model 1 is there in a course's file alone too, since
    /// its model 2 stands for both.
    pub fn facts(&self) -> Result<Vec<FormulaFacts>, Failure> {
        let formulas = 0..self.case.formulas.len();
        let facts = |f: usize| match self.desk.whole(f as u8, 1) {
            Ok(whole) => Ok(whole.facts),
            Err(refusal) => Err(Failure::Other(refusal.to_string())),
        };
        formulas.map(facts).collect()
    }
}

/// All bytes of a file, or of standard input for `-`.
pub fn read_bytes(file: &str, input: &mut dyn Read) -> Result<Vec<u8>, Failure> {
    if file == "-" {
        let mut bytes = Vec::new();
        return match input.read_to_end(&mut bytes) {
            Ok(_) => Ok(bytes),
            Err(error) => Err(Failure::Other(format!("standard input: {error}"))),
        };
    }
    std::fs::read(file).map_err(|error| {
        Failure::Other(match error.kind() {
            ErrorKind::IsADirectory => {
                let folder = file.trim_end_matches('/');
                format!("{file}: this is a folder; name the files in it, as {folder}/*.case")
            }
            _ => format!("{file}: {error}"),
        })
    })
}

/// The name by which errors speak of a file.
pub fn shown_name(file: &str) -> &str {
    match file {
        "-" => "<stdin>",
        _ => file,
    }
}

/// The letters in a file.
pub fn read_letters(file: &str, input: &mut dyn Read) -> Result<String, Failure> {
    let bytes = read_bytes(file, input)?;
    encoding::text(bytes).map_err(|said| Failure::Other(format!("{}: {said}", shown_name(file))))
}

/// The case in a file, with that of `--course` before it, or what the bytes in a file say (with `--bytes`).
pub fn read_text(file: &str, arguments: &Arguments, input: &mut dyn Read) -> Result<Text, Failure> {
    read_with(file, arguments, input, parse)
}

/// The same, where model 1 may be missing.
pub fn read_course(
    file: &str,
    arguments: &Arguments,
    input: &mut dyn Read,
) -> Result<Text, Failure> {
    read_with(file, arguments, input, parse_course)
}

/// How a text is read.
type Parse = fn(Source) -> Result<Text, Vec<TextError>>;

fn read_with(
    file: &str,
    arguments: &Arguments,
    input: &mut dyn Read,
    parse: Parse,
) -> Result<Text, Failure> {
    let name = shown_name(file);
    if arguments.has("--bytes") {
        let bytes = read_bytes(file, input)?;
        return Ok(Text {
            source: Source::new(name, ""),
            case: decode(&bytes),
            bytes,
            places: Places::default(),
            byte_places: Vec::new(),
            course_alone: false,
        });
    }
    let mut loader = Loader::new(name);
    for course in arguments.values("--course") {
        loader.add(shown_name(course), &read_letters(course, input)?);
    }
    let letters = read_letters(file, input)?;
    loader.add(name, &letters);
    together(loader, parse)
}

/// The case in texts that were put together.
pub fn together(loader: Loader, parse: Parse) -> Result<Text, Failure> {
    let source = loader
        .finish()
        .map_err(|(source, errors)| Failure::Text(source, errors))?;
    parse(source.clone()).map_err(|errors| Failure::Text(source, errors))
}

/// Opens a text's case on a desk.
pub fn open(text: Text) -> Result<Opened, Failure> {
    let desk = match Desk::open(&text.bytes) {
        Ok(desk) => desk,
        Err(refusal) => return Err(Failure::Refused(Box::new(text), refusal, String::new())),
    };
    match text.case.clone() {
        Some(case) => Ok(Opened { text, case, desk }),
        None => Err(Failure::Other(
            "the library accepts these bytes, and this tool cannot read them".to_string(),
        )),
    }
}
