//! Every example's listing, and the other outputs that stand beside it.

mod common;

use common::{examples, files, folder, listing_by_calls, run, text};
use koelchair_cli::errors::Source;
use koelchair_cli::parse::parse;
use std::path::Path;

fn bytes(file: &Path) -> Vec<u8> {
    let name = file.display().to_string();
    match parse(Source::new(&name, &text(file))) {
        Ok(read) => read.bytes,
        Err(errors) => panic!("{name}: {errors:?}"),
    }
}

#[test]
fn every_example_begins_with_what_it_shows() {
    for file in examples() {
        let text = text(&file);
        let first = text.lines().next().unwrap_or_default();
        assert!(
            first.starts_with("# ") && first.len() > 40,
            "{}: no comment at its head",
            file.display()
        );
    }
}

#[test]
fn every_example_gets_its_listing_from_the_calls() {
    for file in examples() {
        let expected = text(&file.with_extension("listing"));
        assert_eq!(
            listing_by_calls(&bytes(&file)),
            expected,
            "{}",
            file.display()
        );
    }
}

#[test]
fn every_example_gets_its_listing_from_the_second_implementation() {
    for file in examples() {
        let expected = text(&file.with_extension("listing"));
        assert_eq!(
            second::report(&bytes(&file)),
            expected,
            "{}",
            file.display()
        );
    }
}

#[test]
fn every_example_gets_its_listing_from_report() {
    for file in examples() {
        let expected = text(&file.with_extension("listing"));
        let ran = run(&["report", &file.display().to_string()], &[]);
        assert_eq!(ran.text(), expected, "{}", file.display());
        assert_eq!(
            ran.status == 1,
            expected.starts_with("refused "),
            "{}",
            file.display()
        );
    }
}

/// Other commands whose output stands beside an example.
const OTHERS: [(&str, &[&str], &[&str]); 26] = [
    (
        "label-one-field-after-the-other.names",
        &["report", "--names", "--values"],
        &[],
    ),
    ("label-one-field-after-the-other.step", &["step"], &[]),
    (
        "label-one-field-after-the-other.explain",
        &["explain"],
        &["old", "old"],
    ),
    (
        "panel-of-three.names",
        &["report", "--names", "--values"],
        &[],
    ),
    (
        "panel-of-three.explain",
        &["explain", "--all"],
        &["old", "old"],
    ),
    (
        "form-product.names",
        &["report", "--names", "--values"],
        &[],
    ),
    ("form-order.explain", &["explain"], &["old", "old"]),
    ("covered-from.names", &["report", "--names"], &[]),
    ("score-bound.names", &["report", "--names"], &[]),
    ("score-bound.step", &["step"], &[]),
    ("error-half-worked-table.check", &["check"], &[]),
    ("error-half-worked-table.step", &["step"], &[]),
    ("example-4-round-1.step", &["step"], &[]),
    ("example-4-round-1.stopped", &["step", "--rounds", "1"], &[]),
    ("example-5-subsets.explain", &["explain"], &["q1", "q2"]),
    (
        "example-6-share.shares",
        &["report", "--share", "yes", "--share", "unsure"],
        &[],
    ),
    ("label-one-field-after-the-other.why", &["why"], &[]),
    ("label-one-field-after-the-other.dot", &["dot"], &[]),
    ("panel-of-three.why", &["why"], &[]),
    ("panel-of-three.why-json", &["why", "--json"], &[]),
    ("error-half-worked-table.why", &["why"], &[]),
    ("error-compared-with-itself.why", &["why"], &[]),
    ("form-order.why", &["why"], &["old", "old"]),
    ("form-product.why", &["why"], &[]),
    ("instead-rows-in-the-shown-table.step", &["step"], &[]),
    ("instead-settled-by-last-row.step", &["step"], &[]),
];

#[test]
fn other_outputs_are_those_stored() {
    for (stored, before, after) in OTHERS {
        let stored = folder("../../examples").join(stored);
        let case = stored.with_extension("case").display().to_string();
        let arguments: Vec<&str> = before
            .iter()
            .chain(&[case.as_str()])
            .chain(after)
            .copied()
            .collect();
        let ran = run(&arguments, &[]);
        let only_warned = ran.err.is_empty() || ran.err.starts_with("warning: ");
        assert!(ran.status == 0 && only_warned, "{}", stored.display());
        assert_eq!(ran.text(), text(&stored), "{}", stored.display());
    }
}

/// A table NAME.KIND.table is handed in for NAME.case, and NAME.KIND.judge is what is said of it.
#[test]
fn tables_are_judged_as_stored() {
    let tables = files(&folder("../../examples"), "table");
    assert!(tables.len() > 5, "the tables are there");
    for table in tables {
        let case = table.with_extension("").with_extension("case");
        let [case, file] = [&case, &table].map(|f| f.display().to_string());
        let ran = run(&["judge", &case, &file], &[]);
        assert_eq!((ran.status, ran.err.as_str()), (0, ""), "{file}");
        assert_eq!(ran.text(), text(&table.with_extension("judge")), "{file}");
        let comment = text(&table);
        assert!(comment.starts_with("# "), "{file}: no comment at its head");
    }
}

#[test]
fn example_1_has_the_bytes_and_the_listing_of_document_01() {
    let expected = [
        4, 17, 0, 13, 0, 30, 0, 5, 0, 35, 0, 5, 0, 40, 0, 2, 0, 3, 2, 1, 0, 1, 1, 1, 0, 1, 1, 0, 0,
        1, 1, 1, 2, 1, 0, 1, 1, 2, 1, 0, 2, 0,
    ];
    let file = folder("../../examples/example-1-unsure.case");
    assert_eq!(bytes(&file), expected);
    let listing = "rounds 2\nrow 0: 1\nscore 1\nformula 0: 1 1\n";
    assert_eq!(text(&file.with_extension("listing")), listing);
}

#[test]
fn the_greatest_example_has_the_greatest_sizes() {
    let bytes = bytes(&folder("../../examples/greatest-sizes.case"));
    assert_eq!(bytes[0], 11);
    let part = |i: usize| usize::from(u16::from_le_bytes([bytes[1 + 4 * i], bytes[2 + 4 * i]]));
    assert_eq!(bytes[part(0)], 64);
    assert_eq!(&bytes[part(1)..part(1) + 2], &[64, 16]);
    assert_eq!(&bytes[part(2)..part(2) + 2], &[64, 16]);
}
