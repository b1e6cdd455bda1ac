//! `decode`: from bytes to text.

use super::failure::letters;
use super::{read_bytes, Arguments, Outcome, Printed};
use crate::print::print_bytes;
use std::io::Read;

/// Runs `decode`.
pub fn decode(arguments: &[String], input: &mut dyn Read) -> Outcome {
    let arguments = Arguments::read(arguments, &[], &[])?;
    let [file] = arguments.exactly(["FILE"])?;
    let bytes = read_bytes(file, input)?;
    let mut printed = Printed::new(print_bytes(&bytes));
    if letters(&bytes) {
        printed.told =
            "help: this file is text already; `koelchair encode` gives its bytes\n".into();
    }
    Ok(printed)
}
