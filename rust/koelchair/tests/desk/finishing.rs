//! The rest of a round in one call, against as many steps.

use crate::cases::{self, case, Lent, L2};
use koelchair::{Refusal, Standing, StepAnswer, TABLE_LENGTH};

/// Finishes the round of one desk and steps another to the same end; they must answer and be the same.
fn assert_steps(desk: &mut Lent) -> Result<StepAnswer, Refusal> {
    let mut stepped = desk.clone();
    let mut last = stepped.lent_mut().step();
    while matches!(last, Ok(StepAnswer::Row { .. })) {
        last = stepped.lent_mut().step();
    }
    assert_eq!(desk.lent_mut().finish_round(), last);
    assert_eq!(desk, &stepped);
    last
}

/// L2, 40 states in a line against 33 in a line, p in the last alone: many rounds, by codes.
fn lines() -> Vec<u8> {
    let line = |states: usize| {
        let mut model = vec![states as u8, 1];
        model.extend(vec![1; states]);
        model.extend((0..states).map(|q| u8::from(q + 1 == states)));
        model.extend((0..states * states).map(|i| u8::from(i % states == i / states + 1)));
        model
    };
    case(&[&L2, &line(40), &line(33)])
}

#[test]
fn rounds_from_the_opening_on() {
    for case in [
        cases::example_1(),
        cases::example_2(),
        cases::example_4(),
        cases::eighths(3),
        lines(),
    ] {
        let mut desk = Lent::of(0xA5, 3);
        desk.lent_mut().open(&case).unwrap();
        while !desk.standing.settled {
            assert!(assert_steps(&mut desk).is_ok());
        }
        let settled = desk.clone();
        let Standing {
            round, lowerings, ..
        } = desk.standing;
        let answered = StepAnswer::Settled { round, lowerings };
        assert_eq!(assert_steps(&mut desk), Ok(answered));
        assert_eq!(desk, settled);
    }
}

#[test]
fn a_half_worked_round() {
    for (case, rows) in [
        (cases::example_4(), 2),
        (cases::eighths(5), 8),
        (lines(), 40),
    ] {
        for worked in 1..rows {
            let mut desk = Lent::opened(&case);
            desk.lent_mut().finish_round().unwrap();
            for _ in 0..worked {
                desk.lent_mut().step().unwrap();
            }
            assert!(assert_steps(&mut desk).is_ok());
        }
    }
}

#[test]
fn a_desk_altered_within_the_rules() {
    let mut desk = Lent::opened(&lines());
    desk.standing.row = 7;
    desk.standing.changed = true;
    desk.standing.second_whole = true;
    for i in 0..40 * 33 {
        desk.first[i] = (i % 2) as u8;
        desk.second[i] = (i % 3 % 2) as u8;
    }
    let answered = assert_steps(&mut desk);
    let entries = desk.first.iter().zip(&desk.second).take(40 * 33);
    let lowerings = entries.filter(|(new, old)| new != old).count() as u32;
    assert_eq!(
        answered,
        Ok(StepAnswer::Round {
            round: 1,
            lowerings
        })
    );
}

#[test]
fn a_refused_desk() {
    let mut short = Lent::opened(&cases::example_4());
    short.second.truncate(TABLE_LENGTH - 1);
    assert_eq!(assert_steps(&mut short), Err(Refusal::ShortDesk));
    let mut spoiled = Lent::opened(&cases::example_4());
    spoiled.standing.row = 2;
    assert_eq!(assert_steps(&mut spoiled), Err(Refusal::SpoiledDesk));
}
