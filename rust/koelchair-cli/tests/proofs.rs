//! Names and files that the tables of docs/PROOFS.md, STORE.md and STYLE.md give are there: a name is defined in one of the files of
//! its row, a name such as `lattice::check` by the code of that crate, and the names of a row without a file by some crate.

mod common;

use common::{folder, text};
use std::path::Path;

/// Words that stand before a defined name. After the last five the name is one whatever follows; else a `:` follows it.
const BEFORE: [&str; 10] = [
    "pub",
    "pub(crate)",
    "abbrev",
    "unfoldable",
    "extern \"C\"",
    "data",
    "record",
    "struct",
    "enum",
    "fn",
];

/// Whether a character may stand inside a name.
fn inside(c: char) -> bool {
    c.is_alphanumeric() || "-_'′·+".contains(c)
}

/// Whether a word is a name, and not a term or a path.
fn is_name(word: &str) -> bool {
    word.starts_with(char::is_alphabetic) && word.chars().all(inside)
}

/// Whether a line of a file in Rattle or antt defines a name or passes it on.
fn line_defines(line: &str, name: &str) -> bool {
    let mut rest = line.trim_start();
    if let Some(passed_on) = rest.strip_prefix("pub use ") {
        return passed_on.split(|c| !inside(c)).any(|word| word == name);
    }
    let mut is_item = false;
    while let Some(at) = BEFORE.iter().position(|word| {
        rest.strip_prefix(word)
            .is_some_and(|after| after.starts_with(' '))
    }) {
        rest = rest[BEFORE[at].len()..].trim_start();
        is_item |= at >= 5;
    }
    match rest.strip_prefix(name) {
        Some(after) if after.starts_with(inside) => false,
        Some(after) => is_item || after.trim_start().starts_with(':'),
        None => false,
    }
}

/// Whether a text in Rattle or antt defines a name or passes it on.
fn defines(text: &str, name: &str) -> bool {
    text.lines().any(|line| line_defines(line, name))
}

/// What a row of a table names.
struct Row<'a> {
    /// Words in backquotes.
    names: Vec<&'a str>,
    /// Words such as `theory/Rounds`: a crate, and a module of its specs, of its proofs, or of both.
    files: Vec<(&'a str, &'a str)>,
}

/// Crate and module of a word such as `theory/Rounds`.
fn file(word: &str) -> Option<(&str, &str)> {
    let (of, module) = word.split_once('/')?;
    let is_crate = !of.is_empty() && of.chars().all(|c| c.is_ascii_lowercase() || c == '_');
    let is_module = module.starts_with(|c: char| c.is_ascii_uppercase());
    (is_crate && is_module && module.chars().all(char::is_alphanumeric)).then_some((of, module))
}

/// The row of a line.
fn row(line: &str) -> Row<'_> {
    let words = line.split(|c: char| !(c.is_alphanumeric() || "/_".contains(c)));
    Row {
        names: line.split('`').skip(1).step_by(2).collect(),
        files: words.filter_map(file).collect(),
    }
}

/// The texts of a folder's files, without those in folders below it.
fn texts(folder: &Path) -> String {
    let files = std::fs::read_dir(folder).into_iter().flatten().flatten();
    files
        .map(|file| file.path())
        .filter(|path| path.is_file())
        .map(|path| text(&path) + "\n")
        .collect()
}

/// What is wrong with a row.
fn wrong(crates: &Path, row: &Row) -> Vec<String> {
    let mut said = Vec::new();
    let mut beside = String::new();
    for (of, module) in &row.files {
        let parts = ["specs", "proofs"].map(|part| crates.join(of).join(part));
        let files = parts.map(|part| part.join(format!("{module}.antt")));
        let held: String = files
            .iter()
            .filter(|file| file.is_file())
            .map(|file| text(file))
            .collect();
        if held.is_empty() {
            said.push(format!("there is no file {of}/{module}"));
        }
        beside += &held;
    }
    for word in &row.names {
        let found = match word.rsplit_once("::") {
            Some((path, name)) => {
                let of = path.split("::").next().unwrap_or(path);
                defines(&texts(&crates.join(of).join("src")), name)
            }
            None if !is_name(word) || crates.join(word).is_dir() => true,
            None if !row.files.is_empty() => defines(&beside, word),
            None => anywhere(crates, word),
        };
        if !found {
            said.push(format!("{word} is not defined there"));
        }
    }
    said
}

/// Whether some crate defines a name.
fn anywhere(crates: &Path, name: &str) -> bool {
    let folders = std::fs::read_dir(crates).into_iter().flatten().flatten();
    let mut sources =
        folders.flat_map(|f| ["src", "specs", "proofs"].map(|part| f.path().join(part)));
    sources.any(|source| defines(&texts(&source), name))
}

#[test]
fn names_are_in_the_files_of_their_row() {
    let crates = folder("../../crates");
    // Each document with fewer rows and names than it has.
    for (document, few_rows, few_names) in [
        ("PROOFS.md", 100, 300),
        ("STORE.md", 10, 8),
        ("STYLE.md", 15, 40),
    ] {
        let (mut said, mut rows, mut names) = (String::new(), 0, 0);
        for (at, line) in text(&folder("../../docs").join(document))
            .lines()
            .enumerate()
        {
            if line.starts_with('|') {
                let row = row(line);
                for what in wrong(&crates, &row) {
                    said += &format!("docs/{document}:{}: {what}\n", at + 1);
                }
                rows += 1;
                names += row.names.len();
            }
        }
        assert!(said.is_empty(), "{said}");
        assert!(
            rows > few_rows && names > few_names,
            "docs/{document}: {rows} rows, {names} names"
        );
    }
}

#[test]
fn a_name_or_a_file_that_is_not_there_is_said() {
    let crates = folder("../../crates");
    let said = |line: &str| wrong(&crates, &row(line));
    assert_eq!(
        said("| T | `T_unique`, `F` | theory/Rounds; theory/Simulation |").len(),
        0
    );
    assert_eq!(said("| T | `T_unique` | theory/Simulation |").len(), 1);
    assert_eq!(
        said("| T | `T_unique`, `T_uniqu` | theory/Rounds |").len(),
        1
    );
    assert_eq!(
        said("| T | `T_unique` | theory/Rounds; theory/Round |").len(),
        1
    );
    assert_eq!(said("| `lattice::check` |").len(), 0);
    assert_eq!(said("| `lattice::checks` |").len(), 1);
    assert_eq!(said("| `bounded_at_Z` |").len(), 1);
}
