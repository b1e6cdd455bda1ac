//! The lowerings on the page are the library's counts, and those of the entries that the page marks as lower.

use super::json::Json;
use super::{bytes, embedded, examples, page, tables, Example};
use koelchair::{Desk, StepAnswer};
use std::collections::BTreeSet;
use std::path::PathBuf;

/// The count of lowerings after each round, by steps; each row of a round carries that of the round before.
fn counted(text: &str) -> Vec<usize> {
    let mut desk = Desk::open(&bytes(text)).expect("accepted");
    let mut counts = vec![0];
    loop {
        match desk.step() {
            StepAnswer::Row { lowerings } => {
                assert_eq!(counts.last(), Some(&(lowerings as usize)));
            }
            StepAnswer::Round { lowerings, .. } => counts.push(lowerings as usize),
            StepAnswer::Settled { lowerings, .. } => {
                counts.push(lowerings as usize);
                return counts;
            }
        }
    }
}

/// The text with its models exchanged.
fn exchanged(text: &str) -> String {
    let numbers = [("1", "3"), ("2", "1"), ("3", "2")];
    numbers.iter().fold(text.to_string(), |text, (old, new)| {
        text.replace(&format!("model {old}"), &format!("model {new}"))
    })
}

#[test]
fn lowerings_are_the_librarys() {
    let mut ways = 0;
    for Example {
        name, text, html, ..
    } in examples()
    {
        for (id, text) in [("case", text), ("exchanged", &exchanged(text))] {
            let data = embedded(html, id);
            if data != Json::Null {
                let lowerings = data.get("lowerings").numbers();
                assert_eq!(lowerings, counted(text), "{name}: {id}");
                ways += 1;
            }
        }
    }
    assert!(ways > 40, "{ways} cases and exchanged ones");
}

/// N1·N2·(h − 1): an element's level is how many lie below it in a longest chain.
fn most(data: &Json) -> usize {
    let states = |m: usize| data.get("models").items()[m].get("states").items().len();
    let levels = data.get("lattice").get("height").numbers();
    states(0) * states(1) * levels.iter().max().expect("an element")
}

#[test]
fn lowerings_are_those_of_the_tables_and_within_their_limit() {
    let (mut reached, mut twice) = (0, 0);
    for Example { name, data, .. } in examples() {
        let (tables, lowerings) = (tables(data), data.get("lowerings").numbers());
        let mut sum = 0;
        for (round, (_, table)) in tables.iter().enumerate() {
            let before = &tables[round.saturating_sub(1)].1;
            sum += before.iter().zip(table).filter(|(b, a)| b != a).count();
            assert_eq!(lowerings[round], sum, "{name}: round {round}");
        }
        assert!(sum <= most(data), "{name}: {sum}");
        reached += usize::from(sum == most(data) && sum > 0);
        twice += usize::from(sum > tables[0].1.len());
    }
    assert!(reached > 1, "{reached} cases with as many as can be");
    assert!(twice > 0, "{twice} cases with more than entries");
}

/// The chains of the lattices that docs/GUIDE.md names: no and yes, no, unsure and yes, and a panel.
#[test]
fn the_limit_goes_by_the_longest_chain() {
    for (name, states, longest, lowerings) in [
        ("example-4-round-1", 4, 2, 4),
        ("score-bound", 6, 3, 5),
        ("panel-of-three", 6, 7, 4),
    ] {
        let named = |e: &&Example| e.name.ends_with(&format!("/{name}.case"));
        let data = &examples().iter().find(named).expect(name).data;
        assert_eq!(most(data), states * (longest - 1), "{name}");
        assert_eq!(data.get("lowerings").numbers().last(), Some(&lowerings));
    }
}

#[test]
fn a_page_of_thousands_of_rounds_has_their_counts() {
    let folder = PathBuf::from(env!("CARGO_MANIFEST_DIR")).join("../../examples/slow");
    let text = std::fs::read_to_string(folder.join("4033-rounds.case")).expect("text");
    let lowerings = page(&text).1.get("lowerings").numbers();
    let expected: Vec<usize> = [0].into_iter().chain(4032..=8063).chain([8063]).collect();
    assert_eq!(lowerings, expected);
}

/// What stands between two texts, wherever the first is found.
fn between<'a>(text: &'a str, start: &'a str, end: &'a str) -> impl Iterator<Item = &'a str> {
    let parts = text.split(start).skip(1);
    parts.filter_map(move |rest| rest.split_once(end).map(|(inside, _)| inside))
}

/// An identifier that the script asks for and nothing has would break the page in the browser alone.
#[test]
fn what_the_script_asks_for_is_on_the_page() {
    let html = &examples()[0].html;
    let (body, script) = html.split_once("\"use strict\";").expect("the script");
    let made = between(script, "id: \"", "\"").chain(between(script, ".id = \"", "\""));
    let there: BTreeSet<&str> = between(body, " id=\"", "\"").chain(made).collect();
    let asked: BTreeSet<&str> = between(script, "at(\"", "\")").collect();
    let missing: Vec<_> = asked.difference(&there).collect();
    assert_eq!(missing, Vec::<&&str>::new());
    for own in ["lowered", "lowered-words", "lowered-bars", "lowered-ends"] {
        assert!(asked.contains(own), "{own} is never filled");
        assert_eq!(body.matches(&format!(" id=\"{own}\"")).count(), 1, "{own}");
    }
}
