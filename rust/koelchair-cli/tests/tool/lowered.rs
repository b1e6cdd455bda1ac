//! `step` says how many entries each round lowered, and the lowerings of all rounds: the library's counts, held against the tables
//! that it prints.

use crate::common::{examples, run};
use crate::example;
use crate::json::{read, Json};

/// What `step` says as JSON; nothing for a refused case.
fn stepped(arguments: &[&str]) -> Option<Json> {
    let all: Vec<&str> = ["step", "--json"]
        .iter()
        .chain(arguments)
        .copied()
        .collect();
    let ran = run(&all, &[]);
    (ran.status == 0).then(|| read(ran.text().trim_end()))
}

/// In how many places two tables differ.
fn differing(before: &Json, after: &Json) -> usize {
    let rows = before.items().iter().zip(after.items());
    let places = rows.flat_map(|(b, a)| b.items().iter().zip(a.items()));
    places.filter(|(b, a)| b != a).count()
}

/// The rounds' `lowered`, one after another.
fn lowered(said: &Json) -> Vec<usize> {
    let rounds = said.get("rounds").items().iter();
    rounds.map(|r| r.get("lowered").number()).collect()
}

#[test]
fn the_counts_are_those_of_the_tables() {
    let (mut none, mut one, mut several) = (0, 0, 0);
    for file in examples() {
        let file = file.display().to_string();
        let Some(said) = stepped(&[&file]) else {
            continue;
        };
        let (rounds, mut sum) = (said.get("rounds").items(), 0);
        for (i, round) in rounds.iter().enumerate() {
            let before = &rounds[i.saturating_sub(1)];
            let expected = differing(before.get("table"), round.get("table"));
            sum += expected;
            assert_eq!(round.get("lowered").number(), expected, "{file}: {i}");
            assert_eq!(round.get("lowerings").number(), sum, "{file}: {i}");
            match expected {
                0 => none += 1,
                1 => one += 1,
                _ => several += 1,
            }
        }
        assert_eq!(said.get("lowerings").number(), sum, "{file}");
    }
    assert!(
        none > 20 && one > 10 && several > 10,
        "{none} {one} {several}"
    );
}

/// The lines of `step` that speak of the lowerings.
fn lines(arguments: &[&str]) -> Vec<String> {
    let all: Vec<&str> = ["step"].iter().chain(arguments).copied().collect();
    let text = run(&all, &[]).text();
    let of_them = text.lines().filter(|line| line.contains("lower"));
    of_them.map(str::to_string).collect()
}

#[test]
fn the_words_have_the_numbers() {
    for file in examples() {
        let file = file.display().to_string();
        let Some(said) = stepped(&[&file]) else {
            continue;
        };
        let entries = |number: &usize| match number {
            1 => "  lowered: 1 entry".to_string(),
            n => format!("  lowered: {n} entries"),
        };
        let mut expected: Vec<String> = lowered(&said)[1..].iter().map(entries).collect();
        let sum = said.get("lowerings").number();
        expected.push(format!("lowerings in all: {sum}"));
        assert_eq!(lines(&[&file]), expected, "{file}");
    }
}

#[test]
fn each_round_has_its_line_between_table_and_score() {
    let said = run(&["step", &example("example-4-round-1.case")], &[]).text();
    let round_2 = "round 2: not a result\n      c0  c1\n  s0  no  no\n  s1  no  no\n\
                   \x20 lowered: 1 entry\n  score of this table: no\n";
    assert!(said.contains(round_2), "{said}");
    let end = "  s1  no  no\n  lowered: 0 entries\nscore no\nlowerings in all: 4\n";
    assert!(said.ends_with(end), "{said}");
}

#[test]
fn a_stopped_calculation_says_what_is_lowered_so_far() {
    let file = example("error-half-worked-table.case");
    for rounds in 0..6 {
        let number = rounds.to_string();
        let said = stepped(&["--rounds", &number, &file]).expect("accepted");
        assert_eq!(said.get("lowerings").number(), rounds);
        let mut expected = vec!["  lowered: 1 entry".to_string(); rounds];
        expected.push(format!("lowerings so far: {rounds}"));
        assert_eq!(lines(&["--rounds", &number, &file]), expected);
    }
    // One round further the table is settled, however many rounds are asked for.
    for rounds in ["6", "7"] {
        let last = lines(&["--rounds", rounds, &file]).pop();
        assert_eq!(last.as_deref(), Some("lowerings in all: 5"));
    }
}

#[test]
fn an_entry_that_two_rounds_lower_counts_twice() {
    let course = example("class/course.case");
    let said = stepped(&["--course", &course, &example("class/students/paula.case")]);
    let said = said.expect("accepted");
    assert_eq!(lowered(&said), [0, 7, 2, 2, 1, 0]);
    let pairs = said.get("rows").items().len() * said.get("columns").items().len();
    assert_eq!((pairs, said.get("lowerings").number()), (9, 12));
}

#[test]
fn a_round_can_lower_thousands() {
    let file = example("slow/4033-rounds.case");
    let said = stepped(&["--rounds", "3", &file]).expect("accepted");
    assert_eq!(lowered(&said), [0, 4032, 1, 1]);
    let last = lines(&["--rounds", "3", &file]).pop();
    assert_eq!(last.as_deref(), Some("lowerings so far: 4034"));
}

#[test]
fn a_table_for_judge_says_nothing_of_it() {
    let file = example("example-4-round-1.case");
    let said = run(&["step", "--table", "--rounds", "2", &file], &[]).text();
    assert_eq!(
        said,
        "columns:  c0  c1\nrow s0:   no  no\nrow s1:   no  no\n"
    );
}
