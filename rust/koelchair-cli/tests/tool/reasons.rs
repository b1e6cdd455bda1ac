//! `why`: on random cases every way goes down in rounds to a cause, and what it says of each pair is the library's.

use crate::common::{run, Random};
use crate::json::{read, Json};
use crate::{altered, CLEAN};
use koelchair::Desk;
use koelchair_cli::case::Case;
use koelchair_cli::encode::encode;
use koelchair_cli::print::print;
use koelchair_cli::reasons::{Cause, Reasoning, Step};
use koelchair_cli::rounds::History;
use koelchair_cli::tables::Operations;
use koelchair_cli::views::views;

fn entries(case: &Case) -> Vec<Vec<u8>> {
    let mut desk = Desk::open(&encode(case).expect("bytes")).expect("accepted");
    let mut tables = vec![desk.show().to_vec()];
    while !desk.standing().settled {
        for _ in 0..case.models[0].size() {
            desk.step();
        }
        tables.push(desk.show().to_vec());
    }
    tables
}

/// Every step's entry fell in its round, the next one fell before, and the last is a cause.
fn goes_down(case: &Case, tables: &[Vec<u8>], way: &[Step], at_most: impl Fn(u8) -> bool) {
    let columns = case.models[1].size();
    for (i, step) in way.iter().enumerate() {
        let place = step.pair.0 * columns + step.pair.1;
        let round = step.round as usize;
        assert_eq!(
            step.entries,
            (tables[round - 1][place], tables[round][place])
        );
        assert!(
            at_most(step.entries.0) && !at_most(step.entries.1),
            "it fell in this round"
        );
        match way.get(i + 1) {
            Some(next) => {
                assert!(next.round < step.round, "never in a circle");
                assert_eq!(step.next(), Some(next.pair));
                assert_ne!(
                    case.models[0].transition(step.pair.0, next.pair.0),
                    case.lattice.left_out()
                );
                assert_ne!(
                    case.models[1].transition(step.pair.1, next.pair.1),
                    case.lattice.left_out()
                );
            }
            None => match &step.cause {
                Cause::Propositions(list) => assert!(!list.is_empty()),
                Cause::Transition { answers, .. } => {
                    assert!(answers.iter().all(|t| t.low || t.fell.is_some()));
                    assert!(answers.first().is_none_or(|best| best.low));
                }
            },
        }
    }
}

#[test]
fn every_way_goes_down_to_a_cause() {
    let mut random = Random(0x3317);
    let (mut ways, mut longest) = (0, 0);
    for _ in 0..150 {
        let case = random.case();
        let tables = entries(&case);
        let operations = Operations::of(&case.lattice).expect("a lattice");
        let mut desk = Desk::open(&encode(&case).expect("bytes")).expect("accepted");
        let history = History::of(&mut desk);
        assert_eq!(history.rounds as usize + 1, tables.len());
        let reasoning = Reasoning {
            case: &case,
            operations: &operations,
            history: &history,
        };
        let columns = case.models[1].size();
        for (place, entry) in tables[tables.len() - 1].iter().enumerate() {
            let pair = (place / columns, place % columns);
            assert_eq!(reasoning.settled(pair), *entry);
            let views = views(&case.lattice, *entry);
            assert_eq!(
                views.is_empty(),
                *entry == operations.top,
                "{}",
                print(&case)
            );
            for view in views {
                let way = reasoning
                    .way(pair, view.asked)
                    .expect("the parts meet to the entries");
                assert!(!way.is_empty(), "{}", print(&case));
                goes_down(&case, &tables, &way, |e| operations.at_most(view.asked, e));
                ways += 1;
                longest = longest.max(way.len());
            }
        }
    }
    assert!(
        ways > 1000 && longest > 2,
        "{ways} ways, the longest of {longest}"
    );
}

/// Each view asks about an element that lies under a join only where it lies under a part of it.
#[test]
fn views_ask_one_thing_each() {
    let mut random = Random(0x3318);
    for _ in 0..60 {
        let lattice = random.lattice();
        let (n, operations) = (
            lattice.size() as u8,
            Operations::of(&lattice).expect("a lattice"),
        );
        for element in 0..n {
            for view in views(&lattice, element) {
                let above = |e: u8| operations.at_most(view.asked, e);
                assert!(!above(element) && above(operations.top), "{lattice:?}");
                for (a, b) in (0..n).flat_map(|a| (0..n).map(move |b| (a, b))) {
                    assert_eq!(
                        above(operations.join(a, b)),
                        above(a) || above(b),
                        "{lattice:?}"
                    );
                }
            }
        }
    }
}

fn why(text: &str) -> String {
    let ran = run(&["why", "-"], text.as_bytes());
    assert_eq!(ran.status, 0, "{}", ran.err);
    ran.text()
}

#[test]
fn the_score_is_followed_to_its_cause() {
    assert!(why(CLEAN).ends_with("The score is top in every round: nothing holds it down.\n"));
    let differs = altered(&[], &[("a b: p", "a: p")]);
    let said = "In short: the student can go a -> b; there (the course at c) `p` is no for the student and yes for the course.\n";
    assert!(why(&differs).ends_with(said), "{}", why(&differs));
    let unanswered = altered(&["c -> c"], &[]);
    let said = "In short: the student can go a -> b, and the course at c does not go on.\n";
    assert!(why(&unanswered).ends_with(said), "{}", why(&unanswered));
    let unsure = altered(&[], &[("a b: p", "a: p"), ("a -> b", "a -> b: unsure")]);
    let said = "In short: the student can go a -> b (unsure); there (the course at c) `p` is no for the student and yes for the course.\n";
    assert!(why(&unsure).ends_with(said), "{}", why(&unsure));
    let weak = altered(&[], &[("c -> c", "c -> c: unsure")]);
    let said =
        "In short: the student can go a -> b, and the course at c goes on to c only with unsure.\n";
    assert!(why(&weak).ends_with(said), "{}", why(&weak));
    let nowhere = altered(&["initial c"], &[]);
    assert!(
        why(&nowhere).contains("The course has no initial state.\n"),
        "{}",
        why(&nowhere)
    );
    let nothing = altered(&["initial a"], &[]);
    let said = "But the student's model has no initial state, so that nothing was compared.\n";
    assert!(why(&nothing).ends_with(said), "{}", why(&nothing));
}

#[test]
fn each_instructor_gets_a_reason() {
    let panel = "lattice panel\npropositions p q\nmodel 1\n  states a b\n  initial a\n  a b: p\n  b: q = ny?\n  a -> b: yyn\n\
                 model 2\n  states c\n  initial c\n  c: p\n  c -> c: ?yy\n";
    let said = read(
        run(&["why", "--json", "-"], panel.as_bytes())
            .text()
            .trim_end(),
    );
    let views: Vec<Vec<&str>> = said
        .get("reasons")
        .items()
        .iter()
        .map(|r| r.get("views").items().iter().map(Json::text).collect())
        .collect();
    assert_eq!(said.get("element").text(), "?ny");
    assert_eq!(views, [["instructor 1"], ["instructor 2"]]);
    let text = why(panel);
    assert!(text.contains("For instructor 1: unsure\n"), "{text}");
    assert!(text.contains("For instructor 2: no\n"), "{text}");
}

#[test]
fn each_member_gets_a_reason() {
    let power =
        "lattice power a b\npropositions p\nmodel 1\n  states s\n  initial s\n  s: p = {a}\n\
                 model 2\n  states c\n  initial c\n  c: p\n";
    let text = why(power);
    assert!(text.contains("For b, which {a} lacks\n"), "{text}");
}

#[test]
fn a_score_above_the_ceiling_is_said() {
    let above = altered(&["a -> b", "b -> a"], &[("c -> c", "c -> c: unsure")]);
    let said =
        "The ceiling, the course's model against itself, is unsure; the score is above it.\n";
    assert!(why(&above).contains(said), "{}", why(&above));
}

#[test]
fn a_wrong_pair_is_said() {
    let ran = run(&["why", "-", "aa", "c"], CLEAN.as_bytes());
    assert_eq!(ran.status, 2);
    assert!(
        ran.err
            .starts_with("error: `aa` is no state of model 1; a similar name is `a`\n"),
        "{}",
        ran.err
    );
    let one = run(&["why", "-", "a"], CLEAN.as_bytes());
    assert!(one
        .err
        .starts_with("error: expected FILE, or FILE STATE1 STATE2, got 2 arguments\n"));
}

/// A way of 20 steps is cut in the middle unless all of it is wanted.
#[test]
fn a_long_way_is_cut() {
    let arrows: String = (0..19).map(|i| format!("  q{i} -> q{}\n", i + 1)).collect();
    let text = format!(
        "lattice chain no yes\npropositions p\nmodel 1\n  states q0..q19\n  initial q0\n  q19: p\n{arrows}\
         model 2\n  states c\n  initial c\n  c -> c\n"
    );
    let cut = why(&text);
    assert!(
        cut.contains("\n   ... 12 more steps (all with --all) ...\n17. student q16"),
        "{cut}"
    );
    let path = "In short: the student can go q0 -> ... -> q19 in 19 steps; there (the course at c) `p` is yes";
    assert!(cut.contains(path), "{cut}");
    let all = run(&["why", "--all", "-"], text.as_bytes()).text();
    assert!(
        (1..=20).all(|i| all.contains(&format!("\n{i}. student q{}, course c: ", i - 1))),
        "{all}"
    );
    assert!(!all.contains("more steps"));
}
