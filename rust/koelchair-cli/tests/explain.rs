//! What `explain` shows agrees with the library on random cases, and the errors of document 01's 'What students write
//! instead' do give something else on the examples that show them.

mod common;

use common::{folder, run, text, Random};
use koelchair::{Desk, State, StepAnswer};
use koelchair_cli::case::Case;
use koelchair_cli::encode::encode;
use koelchair_cli::errors::Source;
use koelchair_cli::parse::parse;
use koelchair_cli::print::print;
use koelchair_cli::tables::{parts, Operations};

fn operations(case: &Case) -> Operations {
    Operations::of(&case.lattice).expect("an accepted lattice has meets and joins")
}

fn entry(case: &Case, operations: &Operations, table: &[u8], q1: usize, q2: usize) -> u8 {
    let parts = parts(case, operations, table, q1, q2);
    parts.iter().fold(operations.top, |meet, part| {
        operations.meet(meet, part.gives())
    })
}

/// The parts of every entry of every round meet to the library's entry.
#[test]
fn parts_meet_to_the_library_s_entries() {
    let mut random = Random(0xe47);
    for _ in 0..200 {
        let case = random.case();
        let operations = operations(&case);
        let mut desk = Desk::open(&encode(&case).expect("the case can be written"))
            .expect("the case is accepted");
        let columns = case.models[1].size();
        loop {
            let before = desk.show().to_vec();
            let answer = (0..case.models[0].size()).map(|_| desk.step()).last();
            for (place, found) in desk.show().iter().enumerate() {
                let worked = entry(
                    &case,
                    &operations,
                    &before,
                    place / columns,
                    place % columns,
                );
                assert_eq!(worked, *found, "entry {place}\n{}", print(&case));
            }
            if matches!(answer, Some(StepAnswer::Settled { .. })) {
                break;
            }
        }
    }
}

#[test]
fn explain_runs_on_random_cases() {
    let mut random = Random(0xe48);
    for _ in 0..100 {
        let case = random.case();
        let pair = [
            random.one_of(&case.models[0].states),
            random.one_of(&case.models[1].states),
        ];
        let ran = run(
            &["explain", "-", &pair[0], &pair[1]],
            print(&case).as_bytes(),
        );
        assert_eq!((ran.status, ran.err.as_str()), (0, ""));
        assert!(
            !ran.text().contains("ERROR") && ran.text().contains("(settled)"),
            "{}",
            ran.text()
        );
    }
}

/// An example with its desk, settled, and T.
fn settled(name: &str) -> (Case, Desk, u32) {
    let read = parse(Source::new(
        name,
        &text(&folder("../../examples").join(name)),
    ))
    .expect("the example can be read");
    let mut desk = Desk::open(&read.bytes).expect("the example is accepted");
    let rounds = desk.settle();
    (read.case.expect("the example has names"), desk, rounds)
}

fn step_times(desk: &mut Desk, times: usize) {
    for _ in 0..times {
        desk.step();
    }
}

/// One round worked in the table itself.
fn in_place(case: &Case, table: &mut [u8]) {
    let columns = case.models[1].size();
    for place in 0..table.len() {
        table[place] = entry(
            case,
            &operations(case),
            table,
            place / columns,
            place % columns,
        );
    }
}

#[test]
fn rows_worked_in_the_shown_table_give_another_round_1() {
    let (case, settled, rounds) = settled("instead-rows-in-the-shown-table.case");
    let mut table = vec![operations(&case).top; 3];
    in_place(&case, &mut table);
    assert_eq!(table, settled.show(), "all no after one round");
    let mut desk = Desk::open(&encode(&case).expect("bytes")).expect("accepted");
    step_times(&mut desk, 3);
    assert_eq!(desk.standing().round, 1);
    assert_ne!(desk.show(), table, "round 1 is another table");
    assert_eq!(rounds, 4);
}

#[test]
fn value_in_1_to_value_in_2_is_no_bound() {
    for name in [
        "instead-value-1-to-value-2.case",
        "error-read-backwards.case",
    ] {
        let (case, desk, _) = settled(name);
        let operations = operations(&case);
        let [first, second] =
            [1, 2].map(|model| desk.value(0, model, State(0)).expect("a value").element.0);
        let entry = desk.show()[0];
        assert!(
            operations.at_most(entry, operations.implies(second, first)),
            "{name}: the bound holds"
        );
        assert!(
            !operations.at_most(entry, operations.implies(first, second)),
            "{name}: read backwards it does not"
        );
    }
}

#[test]
fn propositions_compared_one_way_lose_negated_ones() {
    let (case, desk, _) = settled("instead-propositions-one-way.case");
    let operations = operations(&case);
    let [first, second] = [0, 1].map(|m| case.models[m].proposition(0, 1, 0));
    let one_way = operations.implies(second, first);
    assert_ne!(one_way, desk.show()[0]);
    let [negated1, negated2] =
        [1, 2].map(|model| desk.value(1, model, State(0)).expect("a value").element.0);
    assert!(
        !operations.at_most(one_way, operations.implies(negated2, negated1)),
        "!flashing is not bounded by it"
    );
}

#[test]
fn ax_without_middle_transitions_is_another_value() {
    let (case, desk, _) = settled("instead-skipping-transitions.case");
    let (operations, student) = (operations(&case), &case.models[0]);
    let value = |skip: bool| {
        let seen = (0..3).filter(|q| !skip || student.transition(0, *q) == operations.top);
        seen.fold(operations.top, |meet, q| {
            operations.meet(
                meet,
                operations.implies(student.transition(0, q), student.proposition(q, 1, 0)),
            )
        })
    };
    let library = desk.value(0, 1, State(0)).expect("a value").element.0;
    assert_eq!(value(false), library);
    assert_ne!(value(true), library);
}

#[test]
fn a_round_with_an_unchanged_last_row_is_not_settled() {
    let (case, _, rounds) = settled("instead-settled-by-last-row.case");
    let mut desk = Desk::open(&encode(&case).expect("bytes")).expect("accepted");
    let mut by_last_row = None;
    while by_last_row.is_none() {
        let before = desk.show()[2];
        step_times(&mut desk, 3);
        by_last_row = (desk.show()[2] == before).then_some(desk.standing().round);
    }
    assert_eq!((by_last_row, rounds), (Some(1), 3));
}

#[test]
fn the_half_worked_table_scores_other_than_the_settled_one() {
    let (case, settled, _) = settled("error-half-worked-table.case");
    let mut desk = Desk::open(&encode(&case).expect("bytes")).expect("accepted");
    while desk.standing().round < 3 {
        desk.step();
    }
    assert_eq!(case.element(desk.score().0), "yes");
    assert_eq!(case.element(settled.score().0), "no");
}

#[test]
fn a_model_compared_with_itself_need_not_score_top() {
    let (case, desk, _) = settled("error-compared-with-itself.case");
    let mut same = case.models[1].clone();
    same.title.clone_from(&case.models[0].title);
    assert_eq!(case.models[0], same);
    assert_eq!(case.element(desk.score().0), "unsure");
}
