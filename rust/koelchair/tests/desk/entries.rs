//! How an entry is worked: how many pairs are looked at, counted here by hand, and that the next round has these entries.

use crate::cases::{self, case, Lent, L1, L2, L3};
use koelchair::{Desk, Element, State, StepAnswer, WorkedEntry};

fn worked(value: u8, pairs: u32) -> WorkedEntry {
    WorkedEntry {
        value: Element(value),
        pairs,
    }
}

/// All entries as the desk works them, in the order of the table. The same desk, lent, must give the same.
fn entries(desk: &Desk) -> Vec<WorkedEntry> {
    let sizes = desk.sizes();
    let pairs = (0..sizes.states1).flat_map(|q1| (0..sizes.states2).map(move |q2| (q1, q2)));
    let entry = |(q1, q2)| {
        let entry = desk.entry(State(q1), State(q2));
        assert_eq!(desk.lent().entry(State(q1), State(q2)), entry);
        entry.expect("two states of the models")
    };
    pairs.map(entry).collect()
}

/// Propositions that differ end an entry before any pair. A join that is top at its last pair ends no earlier than one that never is.
#[test]
fn example_4() {
    let mut desk = Desk::open(&cases::example_4()).unwrap();
    let round_0 = [worked(1, 4), worked(0, 4), worked(0, 0), worked(0, 0)];
    assert_eq!(entries(&desk), round_0);
    desk.finish_round();
    let round_1 = [worked(0, 4), worked(0, 4), worked(0, 0), worked(0, 0)];
    assert_eq!(entries(&desk), round_1);
}

/// L3. In model 1 state 0 leads to state 1 with 2, and to no other; in model 2 state 0 leads to all states, with 2 to the second, and
/// the other states lead nowhere.
fn three_states() -> Vec<u8> {
    let model_1 = [3, 0, 0, 0, 0, 0, 2, 0, 0, 0, 0, 0, 0, 0];
    let model_2 = [3, 0, 0, 0, 0, 1, 2, 1, 0, 0, 0, 0, 0, 0];
    case(&[&L3, &model_1, &model_2])
}

#[test]
fn early_ends() {
    let desk = Desk::open(&three_states()).unwrap();
    let entry = |q1, q2| desk.entry(State(q1), State(q2)).unwrap();
    // Each of the three joins is top after its second pair. The transitions to states 0 and 2 of model 1 are bottom; their pairs count.
    assert_eq!(entry(0, 0), worked(2, 6));
    // The meet is bottom after state 1 of model 1, and state 2 is not looked at.
    assert_eq!(entry(0, 1), worked(0, 6));
    // No join is top, and no meet bottom.
    assert_eq!(entry(1, 1), worked(2, 9));
}

#[test]
fn no_pair_over_one_element() {
    let model = [2, 1, 0, 0, 0, 0, 0, 0, 0, 0];
    let desk = Desk::open(&case(&[&L1, &model, &model])).unwrap();
    assert_eq!(entries(&desk), [worked(0, 0); 4]);
}

/// All 64 states of both models lead nowhere and are alike.
#[test]
fn every_pair_of_the_greatest_models() {
    let mut model = vec![64, 0];
    model.resize(2 + 64 + 64 * 64, 0);
    let desk = Desk::open(&case(&[&L2, &model, &model])).unwrap();
    let last = desk.entry(State(63), State(63));
    assert_eq!(last, Ok(worked(1, 64 * 64)));
}

/// Also where rows of the next round are worked already in the other table.
#[test]
fn the_next_round_has_the_entries() {
    for case in [
        cases::example_1(),
        cases::example_2(),
        cases::example_4(),
        cases::eighths(3),
        three_states(),
    ] {
        let mut desk = Desk::open(&case).unwrap();
        loop {
            let before = entries(&desk);
            if let StepAnswer::Row { .. } = desk.step() {
                assert_eq!(entries(&desk), before);
            }
            // A round of one row has ended with the step.
            if desk.standing().row > 0 {
                desk.finish_round();
            }
            let expected: Vec<u8> = before.iter().map(|entry| entry.value.0).collect();
            assert_eq!(desk.show(), expected);
            if desk.standing().settled {
                break;
            }
        }
    }
}

#[test]
fn a_desk_altered_within_the_rules() {
    let mut desk = Lent::opened(&three_states());
    desk.standing.second_whole = true;
    desk.second[..9].copy_from_slice(&[0, 1, 0, 0, 2, 0, 1, 1, 1]);
    let before = desk.clone();
    // The joins are 1, 2 and 1: that of state 1 is top after its second pair, the others never.
    let entry = desk.lent().entry(State(0), State(0));
    assert_eq!(entry, Ok(worked(2, 8)));
    assert_eq!(desk, before);
}
