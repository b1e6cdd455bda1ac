//! The case that settles at T = 4,033: its listing, and names without a round being stepped.

use crate::common::{run, text};
use crate::example;
use std::path::Path;

#[test]
fn names_come_from_the_listing() {
    let file = example("slow/4033-rounds.case");
    let listing = text(&Path::new(&file).with_extension("listing"));
    assert!(listing.starts_with("rounds 4033\n"));
    assert_eq!(run(&["report", &file], &[]).text(), listing);
    let named = run(&["report", "--names", "--values", &file], &[]).text();
    let words = ["no", "unsure", "yes"];
    let rows = listing.lines().filter(|l| l.starts_with("row "));
    let named_rows = named.lines().filter(|l| l.starts_with("row "));
    let mut count = 0;
    for (row, named) in rows.zip(named_rows) {
        let (number, entries) = row["row ".len()..].split_once(": ").expect("a row");
        let entries = entries
            .split(' ')
            .map(|e| words[e.parse::<usize>().expect("a number")]);
        let expected: Vec<String> = [format!("q{number}:")]
            .into_iter()
            .chain(entries.map(str::to_string))
            .collect();
        let found: Vec<&str> = named["row ".len()..].split_whitespace().collect();
        assert_eq!(found, expected);
        count += 1;
    }
    assert_eq!(count, 64);
    assert!(named.contains("score no\nformula never-flashing: student no, course unsure\n"));
}

/// Each round is one call of the library, so that commands that work every round take about a second too.
#[test]
fn the_way_goes_through_4032_rounds() {
    let file = example("slow/4033-rounds.case");
    let said = run(&["why", &file], &[]).text();
    let first = "\n1. student q1, course c1: unsure in round 4031, no in round 4032\n";
    assert!(
        said.starts_with("The score is no (settled at round 4033).\n") && said.contains(first),
        "{said}"
    );
    assert!(
        said.contains("\n   ... 4024 more steps (all with --all) ...\n"),
        "{said}"
    );
    let cause =
        "In short: the student can go q1 -> ... -> q0 in 4031 steps; there (the course at c0) \
                 `flashing` is yes for the student and no for the course.\n";
    assert!(said.ends_with(cause), "{said}");
    let shared = run(
        &["report", "--share", "unsure", "--share", "no", &file],
        &[],
    )
    .text();
    assert!(shared.ends_with("share unsure: 0 %\nshare no: 100 %\n"));
}
