//! `encode`: from text to bytes.

use super::{read_text, Arguments, Outcome, Printed};
use crate::print::numbers;
use std::io::Read;

/// Runs `encode`.
pub fn encode(arguments: &[String], input: &mut dyn Read) -> Outcome {
    let arguments = Arguments::read(arguments, &["--numbers"], &["--course"])?;
    let [file] = arguments.exactly(["FILE"])?;
    let bytes = read_text(file, &arguments, input)?.bytes;
    match arguments.has("--numbers") {
        true => Ok(Printed::new(numbers(&bytes) + "\n")),
        false => Ok(Printed::new(bytes)),
    }
}
