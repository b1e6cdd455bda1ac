//! `AG`, `EF`, `AF` and `EG`: the fixpoints that they are short for, and that they are printed as they were written.

use crate::common::run;
use crate::CLEAN;
use koelchair_cli::errors::Source;
use koelchair_cli::parse::{parse, Text};
use koelchair_cli::print::print;

fn with(formula: &str) -> Text {
    let text = CLEAN.replace("AG p", formula);
    parse(Source::new("text", &text)).unwrap_or_else(|errors| panic!("{formula}: {errors:?}"))
}

#[test]
fn they_are_the_fixpoints_they_are_short_for() {
    for (short, long) in [
        ("AG p", "nu z. p & AX z"),
        ("EF p", "mu z. p | EX z"),
        ("AF p", "mu z. p | AX z"),
        ("EG p", "nu z. p & EX z"),
        ("AG (!p | AF p)", "nu z. (!p | (mu y. p | AX y)) & AX z"),
        ("nu x. AG (p & AX x)", "nu x. nu z. (p & AX x) & AX z"),
        (
            "mu x. p | EF (EX x & p)",
            "mu x. p | (mu z. (EX x & p) | EX z)",
        ),
        ("AX AG EX p & p", "(AX (nu z. EX p & AX z)) & p"),
    ] {
        assert_eq!(with(short).bytes, with(long).bytes, "{short}");
    }
}

#[test]
fn they_are_printed_as_written() {
    for formula in [
        "AG p",
        "EF !p",
        "AF (p | !p)",
        "EG AX p",
        "nu x. AG (p & AX x)",
        "AG EF p & p",
        "AG mu z. p | AF z",
    ] {
        let read = with(formula);
        let case = read.case.expect("names");
        let printed = print(&case);
        assert!(
            printed.ends_with(&format!("formula f: {formula}\n")),
            "{printed}"
        );
        assert_eq!(
            parse(Source::new("again", &printed)).expect("a text").bytes,
            read.bytes
        );
        let checked = run(&["check", "-"], printed.as_bytes()).text();
        assert!(
            checked.contains(&format!("formula f: {formula}\n")),
            "{checked}"
        );
    }
}

#[test]
fn they_count_as_the_fixpoints_for_what_covers_them() {
    for (formula, said) in [
        (
            "AG p",
            "1 nested AX, a fixpoint, no EX: entries and score bound it once settled",
        ),
        (
            "AF AX p",
            "1 nested AX, a fixpoint, no EX: entries and score bound it once settled",
        ),
        (
            "AX AF AX p",
            "2 nested AX, a fixpoint, no EX: entries and score bound it once settled",
        ),
        (
            "EF p",
            "no AX, a fixpoint, EX: neither entries nor score bound it",
        ),
        (
            "AG EG p",
            "1 nested AX, a fixpoint, EX: neither entries nor score bound it",
        ),
    ] {
        let text = CLEAN.replace("AG p", formula);
        let checked = run(&["check", "-"], text.as_bytes()).text();
        assert!(
            checked.ends_with(&format!("formula f: {formula}\n  {said}\n")),
            "{checked}"
        );
    }
    let four = CLEAN.replace("AG p", "AG AF AG AF p");
    assert!(run(&["check", "-"], four.as_bytes())
        .err
        .starts_with("refused 10 3: "));
}
