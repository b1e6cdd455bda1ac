//! Warnings: each sort at its line and column, and what `--deny-warnings` does.

use crate::common::{run, Ran};
use crate::{altered, CLEAN};

fn checked(text: &str) -> Ran {
    let ran = run(&["check", "-"], text.as_bytes());
    assert_eq!(ran.status, 0, "{}", ran.err);
    ran
}

/// The first lines of the warnings, each with its place.
fn warnings(text: &str) -> Vec<(String, String)> {
    let err = checked(text).err;
    let heads = err.lines().filter(|l| l.starts_with("warning: "));
    let places = err
        .lines()
        .filter_map(|l| l.trim().strip_prefix("--> <stdin>:"));
    heads
        .zip(places)
        .map(|(h, p)| (h["warning: ".len()..].to_string(), p.to_string()))
        .collect()
}

fn one(text: &str, message: &str, place: &str) {
    assert_eq!(
        warnings(text),
        [(message.to_string(), place.to_string())],
        "{text}"
    );
}

#[test]
fn a_clean_drawing_gets_none() {
    assert_eq!(checked(CLEAN).err, "");
}

#[test]
fn no_initial_state() {
    one(
        &altered(&["initial a"], &[]),
        "the student's model has no initial state, so the score compares nothing and is top, whatever is drawn",
        "3:1",
    );
    one(
        &altered(&["initial c"], &[]),
        "the course's model has no initial state, so nothing can follow a student's initial state",
        "9:1",
    );
    one(
        &altered(&[], &[("initial a", "initial a: no")]),
        "the student's model has no initial state, so the score compares nothing and is top, whatever is drawn",
        "3:1",
    );
}

#[test]
fn no_transition() {
    let text = altered(
        &["b -> a"],
        &[
            ("states a b", "states a"),
            ("a b: p", "a: p"),
            ("a -> b", "a -> a: no"),
        ],
    );
    one(
        &text,
        "the student's model has no transition, so nothing is said of what it does next",
        "3:1",
    );
}

#[test]
fn a_state_that_leads_nowhere() {
    let text = altered(&["b -> a"], &[]);
    one(
        &text,
        "the student's state `b` leads nowhere, so everything is true of all its next states",
        "4:12",
    );
    // Where the course ends at such a state, so may the student.
    let ends = text
        .replace("states c\n", "states c d\n")
        .replace("c: p", "c d: p")
        .replace("c -> c", "c -> c d");
    assert_eq!(checked(&ends).err, "");
    assert!(checked(&ends)
        .text()
        .contains("model 2, states: 2; leads nowhere: d\n"));
    // But not where it ends at a state with other propositions.
    let other = ends.replace("c d: p", "c: p");
    assert_eq!(warnings(&other).len(), 1, "{other}");
}

#[test]
fn an_unreachable_state() {
    let text = altered(&[], &[("a -> b", "a -> a")]);
    one(&text, "the student's state `b` cannot be reached", "4:12");
    let course = altered(
        &[],
        &[("states c\n", "states c d\n"), ("c -> c", "c d -> c")],
    );
    one(&course, "the course's state `d` cannot be reached", "10:12");
}

#[test]
fn a_proposition_that_is_never_set() {
    let text = altered(&["a b: p"], &[]);
    one(
        &text,
        "the proposition `p` is never set in the student's model",
        "3:1",
    );
    let both = altered(&[], &[("propositions p", "propositions p q")]);
    one(
        &both,
        "the proposition `q` is never set in either model",
        "2:16",
    );
}

#[test]
fn a_formula_that_no_round_covers() {
    for formula in ["EX p", "EF p", "p & AX EG p", "mu z. p | EX z"] {
        let text = altered(&[], &[("AG p", formula)]);
        let said = "no round covers the formula `f`, since it says that something is possible (EX, EF or EG)";
        one(&text, said, "14:1");
    }
}

#[test]
fn a_lattice_of_one_element_is_not_warned_of() {
    let ran = run(
        &["check", &crate::example("example-6-one-element.case")],
        &[],
    );
    assert_eq!((ran.status, ran.err.as_str()), (0, ""));
}

#[test]
fn check_report_and_page_warn_and_deny() {
    let text = altered(&["initial a"], &[]);
    for command in [
        &["check", "-"][..],
        &["report", "-"],
        &["report", "--names", "-"],
        &["page", "-"],
    ] {
        let warned = run(command, text.as_bytes());
        assert!(
            warned
                .err
                .starts_with("warning: the student's model has no initial state"),
            "{command:?}"
        );
        assert_eq!(warned.status, 0, "{command:?}");
        let denied = run(&[command, &["--deny-warnings"]].concat(), text.as_bytes());
        assert_eq!(denied.status, 2, "{command:?}");
        assert_eq!(denied.out, warned.out, "{command:?}");
        assert!(denied
            .err
            .ends_with("error: warnings: 1, and `--deny-warnings` is given\n"));
        let clean = run(&[command, &["--deny-warnings"]].concat(), CLEAN.as_bytes());
        assert_eq!((clean.status, clean.err.as_str()), (0, ""), "{command:?}");
    }
}

#[test]
fn the_page_shows_warnings() {
    let text = altered(&["initial a"], &[]);
    let page = run(&["page", "-"], text.as_bytes()).text();
    assert!(page.contains("<li>Warning: the student's model has no initial state"));
    assert!(!run(&["page", "-"], CLEAN.as_bytes())
        .text()
        .contains("<li>Warning"));
}

#[test]
fn bytes_are_warned_of_without_a_place() {
    let text = altered(&["initial a"], &[]);
    let bytes = run(&["encode", "-"], text.as_bytes()).out;
    let ran = run(&["check", "--bytes", "-"], &bytes);
    assert_eq!(
        ran.err,
        "warning: the student's model has no initial state, so the score compares nothing and is top, whatever is drawn\n"
    );
}
