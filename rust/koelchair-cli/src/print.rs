//! A case as text, and bytes as text where no case can be read in them.

use crate::case::Case;
use crate::decode::decode;
use crate::formula_text;
use crate::lattice_text;
use crate::model_text::{self, Shared};
use crate::names;

/// A case as text.
pub fn print(case: &Case) -> String {
    let mut text = head(case) + &shared(case);
    for m in 0..2 {
        text.push('\n');
        text.push_str(&model(case, m));
    }
    text + &formulas(case)
}

/// The comment at the head.
pub fn head(case: &Case) -> String {
    case.head
        .iter()
        .map(|line| format!("# {line}").trim_end().to_string() + "\n")
        .collect()
}

/// What both models share: the title, the lattice and the propositions.
pub fn shared(case: &Case) -> String {
    let title = case
        .title
        .iter()
        .map(|title| format!("title \"{title}\"\n"));
    let mut text: String = title.collect();
    text.push_str(&lattice_text::print(&case.lattice));
    if !case.propositions.is_empty() {
        text.push_str(&format!(
            "propositions {}\n",
            names::written(&case.propositions)
        ));
    }
    text
}

/// A model, 0 the student's and 1 the course's.
pub fn model(case: &Case, m: usize) -> String {
    let shared = Shared {
        lattice: &case.lattice,
        propositions: &case.propositions,
    };
    model_text::print(&case.models[m], m + 1, shared)
}

/// The formulas, after an empty line where there are some.
pub fn formulas(case: &Case) -> String {
    let mut text = String::from(if case.formulas.is_empty() { "" } else { "\n" });
    for named in &case.formulas {
        let formula = formula_text::print(&named.formula, &case.propositions);
        text.push_str(&format!("formula {}: {formula}\n", named.name));
    }
    text
}

/// Bytes as text: the case in them, or the numbers of the bytes if they have no form of a case.
pub fn print_bytes(bytes: &[u8]) -> String {
    match decode(bytes) {
        Some(case) => print(&case),
        None => {
            let lines: Vec<String> = bytes
                .chunks(16)
                .map(|line| format!("  {}\n", numbers(line)))
                .collect();
            format!(
                "# These bytes have not the form of a case.\nbytes (\n{})\n",
                lines.concat()
            )
        }
    }
}

/// Bytes as numbers with blanks between.
pub fn numbers(bytes: &[u8]) -> String {
    bytes
        .iter()
        .map(u8::to_string)
        .collect::<Vec<_>>()
        .join(" ")
}
