//! What is refused, and that a refusal alters nothing.

use crate::cases::{self, case, Lent, L2, L3};
use koelchair::{Desk, Element, Refusal, State, STORE_LENGTH, TABLE_LENGTH, WRITTEN_MOST};

/// A case for each refusal of open, with its number and part.
fn refused_cases() -> Vec<(Vec<u8>, Refusal)> {
    let model: &[u8] = &[1, 0, 1, 0];
    let lattice = |bytes: &[u8]| case(&[bytes, model, model]);
    // Bottom, three elements of which no two are in order, top.
    let diamond = [
        5, 4, 1, 2, 3, 0, //
        1, 1, 1, 1, 1, 0, 1, 0, 0, 1, 0, 0, 1, 0, 1, 0, 0, 0, 1, 1, 0, 0, 0, 0, 1,
    ];
    let mut late = case(&[&L2, model, model]);
    late[5] = 0;
    vec![
        (vec![], Refusal::CaseSize),
        (vec![3; 32_769], Refusal::CaseSize),
        (case(&[&L2, model]), Refusal::Directory),
        (vec![3, 0, 0], Refusal::Directory),
        (late, Refusal::PartPlace(1)),
        (case(&[&L2, model, model, &[]]), Refusal::PartPlace(3)),
        (lattice(&[2, 1, 2, 1, 1, 0, 1]), Refusal::LatticeForm),
        (lattice(&[2, 1, 0, 1, 1, 1, 1]), Refusal::NoPartialOrder),
        (lattice(&[2, 1, 0, 1, 0, 0, 1]), Refusal::NoMeetOrJoin),
        (lattice(&diamond), Refusal::NotDistributive),
        (lattice(&[2, 0, 1, 1, 1, 0, 1]), Refusal::BadComplement),
        (case(&[&L2, &[1, 0, 2, 0], model]), Refusal::BadModel(1)),
        (case(&[&L2, model, &[1, 1, 1, 1, 0]]), Refusal::BadModel(2)),
        (
            case(&[&L2, model, model, &[1], &[11]]),
            Refusal::BadFormula(4),
        ),
    ]
}

#[test]
fn a_refused_case_alters_nothing() {
    for (bytes, refusal) in refused_cases() {
        assert_eq!(Desk::open(&bytes).unwrap_err(), refusal);
        let mut lent = Lent::opened(&cases::example_4());
        lent.lent_mut().finish_round().unwrap();
        lent.lent_mut().step().unwrap();
        let before = lent.clone();
        assert_eq!(lent.lent_mut().open(&bytes), Err(refusal));
        assert_eq!(lent, before, "{refusal}");
    }
}

#[test]
fn a_refused_case_leaves_the_former_desk() {
    let mut desk = Desk::open(&cases::example_4()).unwrap();
    desk.settle();
    let standing = desk.standing();
    assert_eq!(desk.replace(&[]), Err(Refusal::CaseSize));
    assert_eq!(desk.standing(), standing);
    assert_eq!(desk.show(), [0; 4]);
    assert_eq!(desk.replace(&cases::example_1()), Ok(()));
    assert_eq!(desk.settle(), 2);
}

/// All calls but open are refused thus, show is empty, and nothing is altered.
fn assert_refused(desk: &Lent, refusal: Refusal) {
    let mut stepped = desk.clone();
    assert_eq!(stepped.lent_mut().step(), Err(refusal));
    assert_eq!(&stepped, desk);
    let desk = desk.lent();
    assert!(desk.show().is_empty());
    assert_eq!(desk.value(0, 1, State(0)), Err(refusal));
    assert_eq!(desk.whole(0, 1), Err(refusal));
    assert_eq!(desk.score(), Err(refusal));
    assert_eq!(desk.share(Element(0)), Err(refusal));
    assert_eq!(desk.judge(&[0; 4]), Err(refusal));
    assert_eq!(desk.sizes(), Err(refusal));
    assert_eq!(desk.entry(State(0), State(0)), Err(refusal));
    assert_eq!(desk.entry(State(255), State(255)), Err(refusal));
    assert_eq!(desk.write(), Err(refusal));
    let mut out = [0xA5; WRITTEN_MOST];
    assert_eq!(desk.write_into(&mut out), Err(refusal));
    assert_eq!(desk.write_into(&mut []), Err(refusal));
    assert_eq!(out, [0xA5; WRITTEN_MOST]);
}

#[test]
fn a_short_desk() {
    let example = cases::example_4();
    let mut whole = Lent::opened(&example);
    whole.lent_mut().finish_round().unwrap();
    let shorter = |cut: fn(&mut Lent)| {
        let mut desk = whole.clone();
        cut(&mut desk);
        assert_refused(&desk, Refusal::ShortDesk);
        let before = desk.clone();
        assert_eq!(desk.lent_mut().open(&example), Err(Refusal::ShortDesk));
        assert_eq!(desk.lent_mut().open(&[]), Err(Refusal::ShortDesk));
        assert_eq!(desk, before);
    };
    shorter(|desk| desk.store.truncate(STORE_LENGTH - 1));
    shorter(|desk| desk.first.truncate(TABLE_LENGTH - 1));
    shorter(|desk| desk.second.truncate(TABLE_LENGTH - 1));
    shorter(|desk| desk.store.clear());
    shorter(|desk| {
        desk.first.clear();
        desk.second.clear();
    });
}

#[test]
fn a_spoiled_desk() {
    assert_refused(&Lent::of(0, 0), Refusal::SpoiledDesk);
    assert_refused(&Lent::of(255, 7), Refusal::SpoiledDesk);
    let whole = Lent::opened(&cases::example_4());
    let altered = |alter: fn(&mut Lent)| {
        let mut desk = whole.clone();
        alter(&mut desk);
        assert_refused(&desk, Refusal::SpoiledDesk);
    };
    altered(|desk| desk.standing.states1 = 1);
    altered(|desk| desk.standing.states2 = 3);
    altered(|desk| desk.standing.row = 2);
    altered(|desk| desk.standing.changed = true);
    altered(|desk| desk.standing.round = 5);
    altered(|desk| desk.standing.settled = true);
    altered(|desk| desk.standing.lowerings = 5);
    altered(|desk| desk.standing.lowerings = u32::MAX);
    altered(|desk| desk.store[0] = 2);
    altered(|desk| desk.first[3] = 2);
    altered(|desk| desk.second[3] = 2);
    let mut within = whole.clone();
    within.standing.round = 4;
    within.standing.lowerings = 4;
    within.first[4] = 2;
    assert_eq!(within.lent().show(), [1; 4]);
}

#[test]
fn arguments_out_of_range() {
    let mut desk = Desk::open(&cases::example_4()).unwrap();
    desk.step();
    let standing = desk.standing();
    let shown = desk.show().to_vec();
    let refused = Err(Refusal::OutOfRange);
    assert_eq!(desk.value(1, 1, State(0)), refused);
    assert_eq!(desk.value(0, 0, State(0)), refused);
    assert_eq!(desk.value(0, 3, State(0)), refused);
    assert_eq!(desk.value(0, 2, State(2)), refused);
    assert_eq!(desk.whole(255, 1), refused);
    assert_eq!(desk.whole(0, 255), refused);
    assert_eq!(desk.share(Element(2)), Err(Refusal::OutOfRange));
    assert_eq!(desk.judge(&[0; 3]), Err(Refusal::OutOfRange));
    assert_eq!(desk.judge(&[0; 5]), Err(Refusal::OutOfRange));
    assert_eq!(desk.judge(&[]), Err(Refusal::OutOfRange));
    assert_eq!(desk.judge(&[0, 0, 0, 2]), Err(Refusal::OutOfRange));
    for (q1, q2) in [(2, 0), (0, 2), (2, 2), (255, 0), (0, 255)] {
        let entry = desk.entry(State(q1), State(q2));
        assert_eq!(entry, Err(Refusal::OutOfRange), "{q1}, {q2}");
    }
    assert_eq!(desk.standing(), standing);
    assert_eq!(desk.show(), shown);
}

#[test]
fn what_a_refusal_says() {
    let refusal = Desk::open(&case(&[&L3, &[1, 0, 3, 0], &[1, 0, 0, 0]])).unwrap_err();
    assert_eq!((refusal.number(), refusal.part()), (9, 1));
    assert_eq!(refusal.name(), "BadModel");
    assert_eq!(
        refusal.words(),
        "the model has a wrong length, size, value or count of propositions"
    );
    assert_eq!(
        refusal.to_string(),
        format!("{} (part 1 of the case)", refusal.words())
    );
    let short = Lent::of(0, 0).lent().score().unwrap_err();
    assert_eq!(short.to_string(), "the desk breaks a rule");
}
