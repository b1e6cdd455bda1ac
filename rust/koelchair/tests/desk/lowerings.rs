//! The count of lowerings (request 107): what the answers and the standing say of it, on desks that nothing but their calls wrote and on
//! altered ones.

use crate::cases::{self, case, Lent, L1, L2, L3};
use koelchair::{Desk, Refusal, Standing, StepAnswer};

/// The count that an answer carries.
fn carried(answer: StepAnswer) -> u32 {
    match answer {
        StepAnswer::Row { lowerings }
        | StepAnswer::Round { lowerings, .. }
        | StepAnswer::Settled { lowerings, .. } => lowerings,
    }
}

/// How many bytes of two tables differ.
fn differing(table: &[u8], other: &[u8]) -> u32 {
    let both = table.iter().zip(other);
    both.filter(|(byte, other)| byte != other).count() as u32
}

/// The standing keeps this layout, by which other languages call the archive.
#[test]
fn where_the_count_stands() {
    assert_eq!(std::mem::offset_of!(Standing, lowerings), 12);
    assert_eq!(std::mem::size_of::<Standing>(), 16);
}

/// Step by step: the count is that of the whole rounds so far, and each answer carries it.
#[test]
fn the_whole_rounds_are_counted() {
    for (case, all) in [
        (cases::example_1(), 1),
        (cases::example_2(), 1),
        (cases::example_2_exchanged(), 0),
        (cases::example_4(), 4),
        (cases::eighths(3), 5),
        (case(&[&L1, &[1, 0, 0, 0], &[1, 0, 0, 0]]), 0),
    ] {
        let mut desk = Desk::open(&case).unwrap();
        let (mut shown, mut counted) = (desk.show().to_vec(), 0);
        assert_eq!(desk.standing().lowerings, 0);
        while !desk.standing().settled {
            let answer = desk.step();
            counted += differing(desk.show(), &shown);
            shown = desk.show().to_vec();
            assert_eq!(carried(answer), counted);
            assert_eq!(desk.standing().lowerings, counted);
        }
        assert_eq!(counted, all);
        assert_eq!(carried(desk.step()), all);
        assert_eq!(carried(desk.finish_round()), all);
        desk.replace(&case).unwrap();
        assert_eq!(desk.standing().lowerings, 0);
    }
}

/// An entry counts in each round that lowers it. Over L3 three states in a line against three in a line; p is 2 in all of model 1, and
/// 2, 1, 0 in model 2. So the entry of the two front states falls to 1 in round 2 and to 0 in round 3.
#[test]
fn an_entry_lowered_in_several_rounds() {
    let line = |labels: [u8; 3]| {
        let transitions = [0, 2, 0, 0, 0, 2, 0, 0, 0];
        [&[3, 1, 2, 0, 0][..], &labels, &transitions].concat()
    };
    let mut desk = Desk::open(&case(&[&L3, &line([2, 2, 2]), &line([2, 1, 0])])).unwrap();
    let (mut front, mut counts) = (vec![desk.show()[0]], vec![0]);
    while !desk.standing().settled {
        counts.push(carried(desk.finish_round()));
        front.push(desk.show()[0]);
    }
    assert_eq!(front, [2, 2, 1, 0, 0]);
    // More than the nine entries, and at most 9 times 2.
    assert_eq!(counts, [0, 6, 10, 11, 11]);
}

/// A desk of one entry over L2 without transitions, which stays at 1; the count's limit is 1.
fn still() -> Lent {
    Lent::opened(&case(&[&L2, &[1, 0, 1, 0], &[1, 0, 1, 0]]))
}

/// The tables decide and not the standing's flag. Row 0 is skipped, and holds 0 where the whole table has 1; row 1 is worked and does not
/// change.
#[test]
fn settled_with_a_risen_count() {
    let two = [2, 0, 1, 1, 0, 0, 0, 0];
    let mut desk = Lent::opened(&case(&[&L2, &two, &[1, 0, 1, 0]]));
    desk.second[..2].fill(0);
    desk.standing.row = 1;
    let answered = StepAnswer::Settled {
        round: 1,
        lowerings: 1,
    };
    assert_eq!(desk.lent_mut().step(), Ok(answered));
    assert_eq!(
        (desk.first[..2].to_vec(), desk.second[..2].to_vec()),
        (vec![1, 1], vec![0, 1])
    );
    assert_eq!(desk.standing.lowerings, 1);
}

/// The count is at its limit; the round that is ended differs from the whole table, which was lowered from outside.
#[test]
fn over_the_limit_and_then_refused() {
    let mut desk = still();
    desk.standing.lowerings = 1;
    desk.first[0] = 0;
    let answered = StepAnswer::Round {
        round: 1,
        lowerings: 2,
    };
    assert_eq!(desk.lent_mut().step(), Ok(answered));
    let before = desk.clone();
    assert_eq!(desk.lent_mut().step(), Err(Refusal::SpoiledDesk));
    assert_eq!(desk.lent_mut().finish_round(), Err(Refusal::SpoiledDesk));
    assert_eq!(desk.lent().score(), Err(Refusal::SpoiledDesk));
    assert_eq!(desk.lent_mut().open(&[]), Err(Refusal::CaseSize));
    assert_eq!(desk, before);
}

/// The count has no rule beside its limit: at round 0, in mid-round and settled any number up to it passes.
#[test]
fn any_count_up_to_the_limit() {
    let mut desk = Lent::opened(&cases::example_4());
    for lowerings in 0..=4 {
        desk.standing.lowerings = lowerings;
        assert_eq!(desk.lent().show(), [1; 4]);
    }
    let row = StepAnswer::Row { lowerings: 4 };
    assert_eq!(desk.lent_mut().step(), Ok(row));
    desk.standing.lowerings = 5;
    assert_eq!(desk.lent_mut().step(), Err(Refusal::SpoiledDesk));
    let mut settled = still();
    settled.standing.settled = true;
    settled.standing.round = 2;
    settled.standing.lowerings = 1;
    let answered = StepAnswer::Settled {
        round: 2,
        lowerings: 1,
    };
    assert_eq!(settled.lent_mut().step(), Ok(answered));
    settled.standing.lowerings = 2;
    assert_eq!(settled.lent_mut().step(), Err(Refusal::SpoiledDesk));
}
