//! What the tool says by itself: warnings, marks of a class, reasons, judged tables, lowerings, JSON, and what happens where something goes wrong.

#[path = "../common/mod.rs"]
mod common;
#[path = "../page/json.rs"]
mod json;

mod faults;
mod formulas;
mod includes;
mod judged;
mod lowered;
mod marks;
mod reasons;
mod said;
mod slow;
mod warned;

use common::folder;
use std::path::PathBuf;

/// A text with two states for the student and one for the course, in which nothing is to be warned of.
const CLEAN: &str = "lattice chain no unsure yes\npropositions p\nmodel 1\n  states a b\n  initial a\n  a b: p\n  a -> b\n  b -> a\n\
                     model 2\n  states c\n  initial c\n  c: p\n  c -> c\nformula f: AG p\n";

/// The text without the lines that have these words, and with others in place of words.
fn altered(without: &[&str], replaced: &[(&str, &str)]) -> String {
    let lines = CLEAN
        .lines()
        .filter(|l| !without.iter().any(|w| l.trim() == *w));
    let text: String = lines.map(|l| format!("{l}\n")).collect();
    replaced.iter().fold(text, |text, (old, new)| {
        assert!(text.contains(old), "{old}");
        text.replace(old, new)
    })
}

/// A folder of its own for a test's files.
fn scratch(name: &str) -> PathBuf {
    let path = PathBuf::from(env!("CARGO_TARGET_TMPDIR")).join(name);
    std::fs::create_dir_all(&path).expect("a folder");
    path
}

/// A file in a folder, by its name.
fn put(folder: &std::path::Path, name: &str, text: &str) -> String {
    let path = folder.join(name);
    std::fs::write(&path, text).expect("the file can be written");
    path.display().to_string()
}

/// An example, by its name as the tool is given it.
fn example(name: &str) -> String {
    folder("../../examples").join(name).display().to_string()
}
