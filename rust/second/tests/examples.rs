//! Document 01's worked examples, the shares of request 101 and the facts of request 102, by running the calls.

mod common;

use common::{case, chain, formula_value, lattice, round, row, settled};
use common::{Desk, L2, L3, LOOP, STILL};
use second::{report, Reply, Standing};

/// The bytes of the report example.
const REPORT_EXAMPLE: [u8; 42] = [
    4, 17, 0, 13, 0, 30, 0, 5, 0, 35, 0, 5, 0, 40, 0, 2, 0, // directory
    3, 2, 1, 0, 1, 1, 1, 0, 1, 1, 0, 0, 1, // lattice
    1, 1, 2, 1, 0, // model 1
    1, 1, 2, 1, 0, // model 2
    2, 0, // formula
];

fn refused(number: u8, part: u8) -> Reply {
    Reply::Refused { number, part }
}

#[test]
fn example_1_one_state_with_a_middle_proposition() {
    let model: &[u8] = &[1, 1, 2, 1, 0];
    let mut desk = Desk::opened(&[L3, model, model]);
    assert_eq!(desk.show(), [2]);
    assert_eq!(desk.step(), round(1, 1));
    assert_eq!(desk.show(), [1]);
    assert_eq!(desk.step(), settled(2, 1));
    assert_eq!(desk.show(), [1]);
    let before = desk.clone();
    assert_eq!(desk.step(), settled(2, 1));
    assert_eq!(desk, before);
}

#[test]
fn example_2_a_loop_and_no_transition() {
    let mut desk = Desk::opened(&[L2, LOOP, STILL]);
    assert_eq!(desk.step(), round(1, 1));
    assert_eq!(desk.step(), settled(2, 1));
    assert_eq!(desk.show(), [0]);
    let mut exchanged = Desk::opened(&[L2, STILL, LOOP]);
    assert_eq!(exchanged.step(), settled(1, 0));
    assert_eq!(exchanged.show(), [1]);
}

#[test]
fn example_3_a_middle_loop() {
    let desk = Desk::settled(&[L3, LOOP, STILL]);
    assert_eq!(desk.show(), [1]);
    assert_eq!(desk.standing.round, 2);
}

#[test]
fn example_4_three_rounds() {
    let model1: &[u8] = &[2, 1, 1, 0, 0, 1, 0, 1, 0, 0];
    let model2: &[u8] = &[2, 1, 1, 0, 0, 0, 0, 1, 0, 0];
    let mut desk = Desk::opened(&[L2, model1, model2, &[7, 3, 0]]);
    assert_eq!(desk.step(), row(0));
    // The rows worked so far are not shown.
    assert_eq!(desk.show(), [1, 1, 1, 1]);
    let half = Standing {
        states1: 2,
        states2: 2,
        row: 1,
        changed: true,
        ..Standing::default()
    };
    assert_eq!(desk.standing, half);
    assert_eq!(desk.step(), round(1, 3));
    assert_eq!(desk.show(), [1, 0, 0, 0]);
    let one_ax = (1, false, false);
    assert_eq!(desk.value(0, 2, 0), formula_value(1, one_ax));
    assert_eq!(desk.value(0, 1, 0), formula_value(0, one_ax));
    assert_eq!(desk.step(), row(3));
    assert_eq!(desk.step(), round(2, 4));
    assert_eq!(desk.show(), [0, 0, 0, 0]);
    assert_eq!(desk.step(), row(4));
    assert_eq!(desk.step(), settled(3, 4));
    assert_eq!(desk.show(), [0, 0, 0, 0]);
}

#[test]
fn example_5_subsets_of_three() {
    // {a} is 1, {b} is 2, {c} is 4.
    let subsets = lattice(8, |e| 7 - e, |i, j| i & j == i);
    let model: &[u8] = &[3, 1, 7, 0, 0, 0, 2, 6, 0, 6, 6, 0, 0, 0, 0, 0, 0];
    let desk = Desk::opened(&[&subsets, model, model, &[7, 2, 0], &[8, 2, 0]]);
    assert_eq!(desk.value(0, 1, 0), formula_value(3, (1, false, false)));
    assert_eq!(desk.value(1, 1, 0), formula_value(6, (0, false, true)));
    assert_eq!(desk.whole(0, 2), formula_value(3, (1, false, false)));
}

#[test]
fn example_6_one_element() {
    let mut desk = Desk::opened(&[&[1, 0, 1], &[1, 0, 0, 0], &[1, 0, 0, 0]]);
    assert_eq!(desk.step(), settled(1, 0));
    assert_eq!(desk.show(), [0]);
    assert_eq!(desk.share(0), Reply::PerCent(100));
}

/// The share of 1 where `ones` of states1 * states2 entries are 1; `ones` is at most states2.
fn share_of(ones: usize, states1: usize, states2: usize) -> Reply {
    // Model 1: its first state alone has p, the others have r; model 2: `ones` of its states have p. No transitions.
    let model = |states: usize| vec![0; 2 + states + 2 * states + states * states];
    let (mut model1, mut model2) = (model(states1), model(states2));
    model1[..2].copy_from_slice(&[states1 as u8, 2]);
    model2[..2].copy_from_slice(&[states2 as u8, 2]);
    for q in 0..states1 {
        model1[2 + states1 + 2 * q + usize::from(q > 0)] = 1;
    }
    for q in 0..ones {
        model2[2 + states2 + 2 * q] = 1;
    }
    let desk = Desk::settled(&[L2, &model1, &model2]);
    assert_eq!(desk.share(0), Reply::PerCent(100));
    desk.share(1)
}

#[test]
fn example_6_shares_of_eight() {
    for (ones, per_cent) in [0, 12, 25, 38, 50, 62, 75, 88, 100].into_iter().enumerate() {
        let share = share_of(ones, 1, 8);
        assert_eq!(share, Reply::PerCent(per_cent), "{ones} in 8");
    }
}

#[test]
fn an_exact_half_per_cent_goes_to_the_even_neighbour() {
    // 1, 3, 5 and 7 in 200 are exact halves, 2, 4 and 6 whole per cents; thirds are neither.
    for (ones, per_cent) in [0, 0, 1, 2, 2, 2, 3, 4].into_iter().enumerate() {
        let share = share_of(ones, 5, 40);
        assert_eq!(share, Reply::PerCent(per_cent), "{ones} in 200");
    }
    for (ones, per_cent) in [0, 33, 67, 100].into_iter().enumerate() {
        let share = share_of(ones, 1, 3);
        assert_eq!(share, Reply::PerCent(per_cent), "{ones} in 3");
    }
}

#[test]
fn example_7_limits() {
    let open = |parts: &[&[u8]]| Desk::any().open(&case(parts));
    let diamond = lattice(5, |e| 4 - e, |i, j| i == j || i == 0 || j == 4);
    assert_eq!(open(&[&diamond, STILL, STILL]), refused(7, 0));
    assert_eq!(open(&[&chain(64), STILL, STILL]), Reply::Opened);
    assert_eq!(open(&[&chain(65), STILL, STILL]), refused(4, 0));
    let mut long = vec![7; 254];
    long.push(1);
    assert_eq!(open(&[L2, STILL, STILL, &long]), Reply::Opened);
    long.insert(0, 7);
    assert_eq!(open(&[L2, STILL, STILL, &long]), refused(10, 3));
    assert_eq!(open(&[L2, STILL, STILL, &[9, 10, 9, 4, 2]]), Reply::Opened);
    assert_eq!(
        open(&[L2, STILL, STILL, &[9, 10, 9, 9, 4, 2]]),
        refused(10, 3)
    );
    assert_eq!(open(&[L2, STILL, STILL]), Reply::Opened);
    assert_eq!(open(&[L2, STILL]), refused(2, 255));
}

#[test]
fn report_example() {
    let text = "rounds 2\nrow 0: 1\nscore 1\nformula 0: 1 1\n";
    assert_eq!(report(&REPORT_EXAMPLE), text);
    assert_eq!(report(&[]), "refused 1 255\n");
    assert_eq!(report(&[0; 32_769]), "refused 1 255\n");
    assert_eq!(report(&REPORT_EXAMPLE[..41]), "refused 3 3\n");
}

#[test]
fn report_of_several_states_and_formulas() {
    let model1: &[u8] = &[2, 1, 1, 0, 0, 1, 0, 1, 0, 0];
    let model2: &[u8] = &[2, 1, 1, 0, 0, 0, 0, 1, 0, 0];
    let text = "rounds 3\nrow 0: 0 0\nrow 1: 0 0\nscore 0\nformula 0: 0 1\nformula 1: 1 1\n";
    assert_eq!(
        report(&case(&[L2, model1, model2, &[7, 3, 0], &[3, 0]])),
        text
    );
}

#[test]
fn open_writes_the_gapless_case_and_the_two_tables_alone() {
    let any = Desk::any();
    let mut desk = any.clone();
    // The report example with two bytes before part 0, one after part 1, and one at the end.
    let spread: [&[u8]; 6] = [
        &[
            4, 19, 0, 13, 0, 32, 0, 5, 0, 38, 0, 5, 0, 43, 0, 2, 0, 77, 78,
        ],
        &REPORT_EXAMPLE[17..30],
        &REPORT_EXAMPLE[30..35],
        &[79],
        &REPORT_EXAMPLE[35..42],
        &[80],
    ];
    assert_eq!(desk.open(&spread.concat()), Reply::Opened);
    assert_eq!(desk.store[..42], REPORT_EXAMPLE);
    assert_eq!(desk.store[42..], any.store[42..]);
    assert_eq!((desk.first[0], desk.second[0]), (2, 2));
    assert_eq!(desk.first[1..], any.first[1..]);
    assert_eq!(desk.second[1..], any.second[1..]);
    let standing = Standing {
        states1: 1,
        states2: 1,
        ..Standing::default()
    };
    assert_eq!(desk.standing, standing);
}

#[test]
fn step_writes_one_row_of_the_table_that_is_not_whole() {
    let model1: &[u8] = &[2, 1, 1, 0, 0, 1, 0, 1, 0, 0];
    let model2: &[u8] = &[2, 1, 1, 0, 0, 0, 0, 1, 0, 0];
    let mut desk = Desk::opened(&[L2, model1, model2]);
    loop {
        let before = desk.clone();
        let row = 2 * usize::from(before.standing.row);
        let answer = desk.accepted_step();
        assert_eq!(desk.store, before.store);
        let (kept, worked) = match before.standing.second_whole {
            true => ((&desk.second, &before.second), (&desk.first, &before.first)),
            false => ((&desk.first, &before.first), (&desk.second, &before.second)),
        };
        assert_eq!(kept.0, kept.1);
        assert_eq!(worked.0[..row], worked.1[..row]);
        assert_eq!(worked.0[row + 2..], worked.1[row + 2..]);
        if desk.standing.settled {
            assert_eq!(answer, settled(3, 4));
            break;
        }
    }
    assert!(desk.standing.second_whole);
}

#[test]
fn a_round_with_an_early_change_does_not_settle_by_its_last_row() {
    // State 0 of model 1 differs from model 2's state, state 1 does not.
    let model1: &[u8] = &[2, 1, 1, 1, 1, 0, 0, 0, 0, 0];
    let model2: &[u8] = &[1, 1, 1, 0, 0];
    let mut desk = Desk::opened(&[L2, model1, model2]);
    assert_eq!(desk.step(), row(0));
    assert!(desk.standing.changed);
    assert_eq!(desk.step(), round(1, 1));
    assert_eq!(desk.step(), row(1));
    assert!(!desk.standing.changed);
    assert_eq!(desk.step(), settled(2, 1));
    assert_eq!(desk.show(), [0, 1]);
}

/// Score of one start against two: the best start of model 2 counts, as far as it is a start.
#[test]
fn score_joins_over_the_starts_of_model_2() {
    let model1: &[u8] = &[1, 1, 2, 2, 0];
    let mut model2 = vec![3, 1, 1, 2, 0, 2, 1, 2];
    model2.extend([0; 9]);
    let desk = Desk::settled(&[L3, model1, &model2]);
    assert_eq!(desk.show(), [2, 1, 2]);
    // The join of 1, 1 and 0.
    assert_eq!(desk.score(), Reply::Element(1));
    let middle: &[u8] = &[1, 1, 1, 2, 0];
    let apart: &[u8] = &[1, 1, 2, 0, 0];
    assert_eq!(
        Desk::settled(&[L3, middle, apart]).score(),
        Reply::Element(1)
    );
    assert_eq!(
        Desk::settled(&[L3, model1, apart]).score(),
        Reply::Element(0)
    );
}

/// Fixpoints with known values: 0 and 1 lead to each other with p at 1; 2 loops; 3 leads to 4, which loops, with p at 4.
#[test]
fn fixpoints_of_known_value() {
    let mut model = vec![5, 1, 1, 1, 1, 1, 1, 0, 1, 0, 0, 1];
    for (from, to) in [(0, 1), (1, 0), (2, 2), (3, 4), (4, 4)] {
        model.resize(12 + 5 * from, 0);
        model.extend((0..5).map(|state| u8::from(state == to)));
    }
    // Each with its nested AX, and whether it has EX.
    let formulas: [(&[u8], [u8; 5], u8, bool); 8] = [
        // On some path, p again and again; on some path, p always from some state on.
        (
            &[10, 9, 5, 6, 2, 0, 8, 4, 1, 8, 4, 0],
            [1, 1, 0, 1, 1],
            0,
            true,
        ),
        (
            &[9, 10, 5, 6, 2, 0, 8, 4, 0, 8, 4, 1],
            [0, 0, 0, 1, 1],
            0,
            true,
        ),
        // p on all paths some time; p on all paths always.
        (&[9, 5, 2, 0, 7, 4, 0], [1, 1, 0, 1, 1], 1, false),
        (&[10, 6, 2, 0, 7, 4, 0], [0, 0, 0, 0, 1], 1, false),
        (&[9, 7, 4, 0], [0; 5], 1, false),
        (&[10, 7, 4, 0], [1; 5], 1, false),
        (&[9, 10, 4, 1], [0; 5], 0, false),
        (&[9, 10, 4, 0], [1; 5], 0, false),
    ];
    let mut parts = vec![L2, &model, &model];
    parts.extend(formulas.iter().map(|(formula, ..)| *formula));
    let desk = Desk::opened(&parts);
    for (number, (_, values, nesting, ex)) in (0..).zip(formulas) {
        for (state, value) in (0..).zip(values) {
            let answer = desk.value(number, 2, state);
            let expected = formula_value(value, (nesting, true, ex));
            assert_eq!(answer, expected, "formula {number}, state {state}");
        }
    }
}

/// Propositions are compared both ways, and a transition below top counts in AX.
#[test]
fn what_students_write_instead() {
    let without: &[u8] = &[1, 1, 2, 0, 0];
    let with: &[u8] = &[1, 1, 2, 2, 0];
    assert_eq!(Desk::settled(&[L3, without, with]).show(), [0]);
    assert_eq!(Desk::settled(&[L3, with, without]).show(), [0]);
    let middle: &[u8] = &[1, 1, 2, 0, 1];
    let desk = Desk::opened(&[L3, middle, middle, &[7, 2, 0]]);
    assert_eq!(desk.value(0, 1, 0), formula_value(1, (1, false, false)));
}
