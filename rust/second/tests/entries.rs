//! Request 103: which pairs are looked at, each case small enough to be counted by hand from the request's words.

mod common;

use common::{round, row, Desk, L2, L3};
use second::Reply;

fn worked(element: u8, pairs: u32) -> Reply {
    Reply::WorkedEntry { element, pairs }
}

/// A model without propositions, with these transitions, a row for each state.
fn model<const N: usize>(transitions: [[u8; N]; N]) -> Vec<u8> {
    let mut part = vec![N as u8, 0];
    part.extend([0; N]);
    part.extend(transitions.as_flattened());
    part
}

#[test]
fn propositions_come_first() {
    let model1: &[u8] = &[2, 1, 1, 0, 0, 1, 0, 1, 0, 0];
    let model2: &[u8] = &[2, 1, 1, 0, 0, 0, 0, 1, 0, 0];
    let mut desk = Desk::opened(&[L2, model1, model2]);
    assert_eq!(desk.entry(0, 0), worked(1, 4));
    assert_eq!(desk.entry(0, 1), worked(0, 4));
    // The proposition differs.
    assert_eq!(desk.entry(1, 0), worked(0, 0));
    assert_eq!(desk.entry(1, 1), worked(0, 0));
    // A row of the next round alters nothing of that, the last row does.
    assert_eq!(desk.step(), row(0));
    assert_eq!(desk.entry(0, 0), worked(1, 4));
    assert_eq!(desk.step(), round(1, 3));
    assert_eq!(desk.show(), [1, 0, 0, 0]);
    assert_eq!(desk.entry(0, 0), worked(0, 4));
}

/// The join is top at the first pair, at the second, at the last, and never.
#[test]
fn a_join_ends_at_top() {
    let still = model([[0; 3]; 3]);
    for (row, pairs) in [
        ([2, 0, 0], 3),
        ([2, 2, 2], 3),
        ([1, 2, 0], 6),
        ([0, 1, 2], 9),
        ([1, 1, 1], 9),
        ([0, 0, 0], 9),
    ] {
        let model2 = model([row, [0; 3], [0; 3]]);
        let desk = Desk::opened(&[L3, &still, &model2]);
        assert_eq!(desk.entry(0, 0), worked(2, pairs), "{row:?}");
    }
}

/// A state of model 1 is looked at until the meet is bottom, also one to which the transition is bottom.
#[test]
fn a_meet_ends_at_bottom() {
    let still = model([[0; 3]; 3]);
    for (row, element, pairs) in [
        ([2, 2, 2], 0, 3),
        ([0, 2, 0], 0, 6),
        ([1, 0, 2], 0, 9),
        ([1, 1, 1], 1, 9),
        ([0, 0, 0], 2, 9),
    ] {
        let model1 = model([row, [0; 3], [0; 3]]);
        let desk = Desk::opened(&[L3, &model1, &still]);
        assert_eq!(desk.entry(0, 0), worked(element, pairs), "{row:?}");
    }
}

/// In the subsets of two things a meet can be bottom, and a join top, of two elements that are neither.
#[test]
fn meets_and_joins_of_elements_between() {
    let subsets = common::lattice(4, |e| 3 - e, |i, j| i & j == i);
    let three = |row| model([row, [0; 3], [0; 3]]);
    // After state 0 of model 1 the meet is {1}, after state 1 it is bottom.
    let desk = Desk::opened(&[&subsets, &three([1, 2, 3]), &three([0, 0, 0])]);
    assert_eq!(desk.entry(0, 0), worked(0, 6));
    // {0} and {1} together are top, and nothing has to be followed.
    let desk = Desk::opened(&[&subsets, &three([0, 0, 0]), &three([1, 2, 3])]);
    assert_eq!(desk.entry(0, 0), worked(3, 6));
}

/// Top is bottom, so that the meet over nothing is bottom.
#[test]
fn no_pair_over_one_element() {
    let one: &[u8] = &[1, 0, 1];
    let desk = Desk::opened(&[one, &model([[0; 2]; 2]), &model([[0; 3]; 3])]);
    assert_eq!(desk.entry(1, 2), worked(0, 0));
}
