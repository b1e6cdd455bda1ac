//! The manual page koelchair.1 names every sub-command and option that the tool's help names, and no other, and has its version.

mod common;

use common::{folder, run, text};
use std::collections::BTreeSet;

/// The page, its dashes as they are printed.
fn page() -> String {
    text(&folder("koelchair.1")).replace("\\-", "-")
}

/// What the tool prints for these arguments.
fn said(arguments: &[&str]) -> String {
    let ran = run(arguments, &[]);
    assert_eq!((ran.status, ran.err.as_str()), (0, ""), "{arguments:?}");
    ran.text()
}

/// The sub-commands that the tool's help lists.
fn commands() -> BTreeSet<String> {
    said(&["--help"])
        .lines()
        .filter_map(|line| line.strip_prefix("  koelchair "))
        .filter_map(|usage| usage.split_whitespace().next())
        .map(str::to_string)
        .collect()
}

/// The options with two dashes that stand in a text.
fn options(text: &str) -> BTreeSet<String> {
    let in_option = |letter: char| letter.is_ascii_lowercase() || letter == '-';
    text.split(|letter| !in_option(letter))
        .filter(|word| word.starts_with("--") && word.len() > 2)
        .map(str::to_string)
        .collect()
}

#[test]
fn the_page_has_the_commands() {
    let page = page();
    let begin = page.find(".SH COMMANDS").expect("the commands");
    let end = page.find(".SH OPTIONS").expect("the options");
    let named: BTreeSet<String> = page[begin..end]
        .lines()
        .filter_map(|line| line.strip_prefix(".B "))
        .filter(|word| !word.starts_with('-'))
        .map(str::to_string)
        .collect();
    assert_eq!(named, commands());
    for command in commands() {
        let usage = format!(".SY koelchair\n{command}\n");
        assert!(page.contains(&usage), "no synopsis of {command}");
    }
}

#[test]
fn the_page_has_the_options() {
    let helps = commands().iter().fold(said(&["--help"]), |all, command| {
        all + &said(&[command, "--help"])
    });
    let mut expected = options(&helps);
    expected.insert("--help".to_string());
    assert_eq!(options(&page()), expected);
}

#[test]
fn a_help_has_the_options_of_its_command() {
    for command in commands() {
        let help = options(&said(&[&command, "--help"]));
        for option in ["--course", "--bytes", "--json", "--deny-warnings"] {
            let refused = format!("the option `{option}` is not known here");
            let known = !run(&[&command, option], &[]).err.contains(&refused);
            assert_eq!(help.contains(option), known, "{command} {option}");
        }
    }
}

#[test]
fn the_page_and_the_help_say_what_step_counts() {
    let on_one_line = |text: String| text.split_whitespace().collect::<Vec<_>>().join(" ");
    for text in [page(), said(&["step", "--help"])].map(on_one_line) {
        let counted = "how many entries the round lowered, and the score that it would give; \
                       at the end the lowerings of all these rounds.";
        assert!(text.contains(counted), "{text}");
    }
}

#[test]
fn the_page_has_the_version() {
    let version = said(&["--version"]);
    assert!(page().contains(&format!("\"{}\"", version.trim_end())));
}
