//! Refusals of each number, and that a refusal alters no buffer and no standing.

mod common;

use common::{case, formula_value, lattice, round, settled, spread, Desk, L2, L3, LOOP, STILL};
use second::{Reply, STORE_LENGTH, TABLE_LENGTH};

/// The number and part with which open refuses a case, every byte and field kept.
fn refusal(case: &[u8]) -> (u8, u8) {
    let mut desk = Desk::any();
    let answer = desk.open(case);
    match answer {
        Reply::Refused { number, part } => {
            assert_eq!(desk, Desk::any());
            (number, part)
        }
        other => panic!("not refused: {other:?}"),
    }
}

/// The same for the case of some parts.
fn refusal_of(parts: &[&[u8]]) -> (u8, u8) {
    refusal(&case(parts))
}

fn refused(number: u8) -> Reply {
    Reply::Refused { number, part: 255 }
}

#[test]
fn number_1_no_case_or_too_long() {
    assert_eq!(refusal(&[]), (1, 255));
    let mut long = case(&[L2, STILL, STILL]);
    long.resize(32_768, 9);
    assert_eq!(Desk::any().open(&long), Reply::Opened);
    long.push(9);
    assert_eq!(refusal(&long), (1, 255));
}

#[test]
fn number_2_count_or_directory() {
    for count in [0, 1, 2, 12, 255] {
        let mut bytes = vec![0; 2_000];
        bytes[0] = count;
        assert_eq!(refusal(&bytes), (2, 255));
    }
    assert_eq!(refusal(&[3; 12]), (2, 255));
    assert_eq!(refusal(&[11; 44]), (2, 255));
    assert_eq!(refusal(&[3; 13]), (3, 0));
}

#[test]
fn number_3_the_first_pair_that_breaks_the_rule() {
    let good = case(&[L2, STILL, STILL, &[1]]);
    let with = |changes: &[(usize, u8)]| {
        let mut bytes = good.clone();
        for &(at, byte) in changes {
            bytes[at] = byte;
        }
        bytes
    };
    assert_eq!(Desk::any().open(&good), Reply::Opened);
    // Part 0 has no bytes; starts within the directory; ends within part 1, so that part 1 starts too early.
    assert_eq!(refusal(&with(&[(3, 0)])), (3, 0));
    assert_eq!(refusal(&with(&[(1, 16)])), (3, 0));
    assert_eq!(refusal(&with(&[(3, 8)])), (3, 1));
    // Part 3 ends one past the case; no bytes; a start that only fits when the sum wraps at 16 bits.
    assert_eq!(refusal(&with(&[(15, 2)])), (3, 3));
    assert_eq!(refusal(&with(&[(15, 0)])), (3, 3));
    assert_eq!(refusal(&with(&[(14, 255), (15, 33), (16, 255)])), (3, 3));
    assert_eq!(refusal(&with(&[(15, 255), (16, 255)])), (3, 3));
    // All pairs come before the lattice.
    assert_eq!(refusal(&with(&[(17, 65), (15, 0)])), (3, 3));
    assert_eq!(refusal(&with(&[(17, 65)])), (4, 0));
}

#[test]
fn number_4_form_of_the_lattice() {
    let open = |part: &[u8]| refusal_of(&[part, STILL, STILL]);
    assert_eq!(open(&[0, 0]), (4, 0));
    assert_eq!(open(&[0; 730]), (4, 0));
    assert_eq!(open(&[1, 0]), (4, 0));
    assert_eq!(open(&[1, 0, 1, 1]), (4, 0));
    assert_eq!(open(&[1, 1, 1]), (4, 0));
    assert_eq!(open(&[1, 0, 2]), (4, 0));
    assert_eq!(open(&[2, 1, 0, 1, 1, 0, 255]), (4, 0));
    let panel = Desk::any().open(&case(&[&[0], &[1, 0, 26, 26], STILL]));
    assert_eq!(panel, Reply::Opened);
    assert_eq!(refusal_of(&[&[0], &[1, 0, 27, 0], STILL]), (9, 1));
}

#[test]
fn number_5_no_partial_order() {
    let open = |part: &[u8]| refusal_of(&[part, &[1, 0, 0, 0], STILL]);
    assert_eq!(open(&[1, 0, 0]), (5, 0));
    assert_eq!(open(&[2, 1, 0, 1, 1, 1, 1]), (5, 0));
    // 0 below 1 below 2, but not 0 below 2.
    assert_eq!(open(&[3, 2, 1, 0, 1, 1, 0, 0, 1, 1, 0, 0, 1]), (5, 0));
}

#[test]
fn number_6_a_meet_or_join_is_missing() {
    let open = |part: &[u8]| refusal_of(&[part, STILL, STILL]);
    assert_eq!(open(&[2, 1, 0, 1, 0, 0, 1]), (6, 0));
    // Only the join is missing, then only the meet.
    let fork = lattice(3, |e| e, |i, j| i == j || i == 0);
    let turned = lattice(3, |e| e, |i, j| i == j || j == 2);
    assert_eq!((open(&fork), open(&turned)), ((6, 0), (6, 0)));
    // Two elements with two upper bounds, neither below the other.
    let six = lattice(6, |e| 5 - e, |i, j| i == j || i.div_ceil(2) < j.div_ceil(2));
    assert_eq!(open(&six), (6, 0));
}

#[test]
fn number_7_not_distributive() {
    // 0 below 1 below 2 below 4, and 0 below 3 below 4; complements that break the rule of number 8 as well.
    let pentagon = lattice(
        5,
        |_| 0,
        |i, j| i == j || i == 0 || j == 4 || (i, j) == (1, 2),
    );
    assert_eq!(refusal_of(&[&pentagon, STILL, STILL]), (7, 0));
}

#[test]
fn number_8_complement_rules() {
    let open = |part: &[u8]| refusal_of(&[part, STILL, STILL]);
    // The order is not turned over; the complement of the complement is another element.
    assert_eq!(open(&[2, 0, 1, 1, 1, 0, 1]), (8, 0));
    assert_eq!(open(&[2, 0, 0, 1, 1, 0, 1]), (8, 0));
    assert_eq!(open(&[3, 2, 2, 0, 1, 1, 1, 0, 1, 1, 0, 0, 1]), (8, 0));
    // Subsets of two: a complement that keeps the middle elements is accepted.
    let kept = lattice(4, |e| [3, 1, 2, 0][usize::from(e)], |i, j| i & j == i);
    assert_eq!(
        Desk::any().open(&case(&[&kept, STILL, STILL])),
        Reply::Opened
    );
}

#[test]
fn number_9_models() {
    let first = |part: &[u8]| refusal_of(&[L2, part, &[0], &[99]]);
    let second = |part: &[u8]| refusal_of(&[L2, STILL, part, &[99]]);
    for part in [
        &[1][..],
        &[1, 0],
        &[1, 0, 1],
        &[1, 0, 1, 0, 0],
        &[0, 0],
        &[65, 0],
    ] {
        assert_eq!((first(part), second(part)), ((9, 1), (9, 2)));
    }
    for part in [&[1, 0, 2, 0][..], &[1, 0, 0, 255]] {
        assert_eq!((first(part), second(part)), ((9, 1), (9, 2)));
    }
    // k 16 is accepted and 17 is not; k differs.
    let wide = |k: u8| [&[1, k, 0][..], &vec![0; usize::from(k) + 1]].concat();
    let (most, over) = (wide(16), wide(17));
    assert_eq!(Desk::any().open(&case(&[L2, &most, &most])), Reply::Opened);
    assert_eq!(refusal_of(&[L2, &over, &over]), (9, 1));
    assert_eq!(second(&[1, 1, 0, 0, 0]), (9, 2));
    // 64 states are accepted and 65 are not.
    let large = |n: usize| [&[n as u8, 0][..], &vec![0; n + n * n]].concat();
    let (most, over) = (large(64), large(65));
    assert_eq!(Desk::any().open(&case(&[L2, &most, STILL])), Reply::Opened);
    assert_eq!(refusal_of(&[L2, STILL, &over]), (9, 2));
}

#[test]
fn number_10_formulas() {
    let model: &[u8] = &[1, 2, 1, 0, 1, 0];
    let open = |formula: &[u8]| refusal_of(&[L2, model, model, &[3, 1], formula, &[99]]);
    let broken: [&[u8]; 18] = [
        &[11],
        &[255],
        &[2],
        &[3],
        &[4],
        &[2, 2],
        &[3, 255],
        &[4, 0],
        &[9, 4, 1],
        &[5, 9, 4, 0, 4, 0],
        &[5, 1],
        &[6, 1],
        &[7],
        &[8],
        &[9],
        &[10],
        &[1, 1],
        &[9, 10, 7, 9, 5, 4, 0, 10, 0],
    ];
    for formula in broken {
        assert_eq!(open(formula), (10, 4), "{formula:?}");
    }
    // Binders beside one another are not nested, and operands are no codes.
    let right: [&[u8]; 3] = [
        &[5, 9, 10, 9, 4, 2, 6, 9, 9, 9, 4, 0, 10, 10, 10, 4, 1],
        &[8, 2, 1],
        &[9, 10, 5, 4, 0, 4, 1],
    ];
    for formula in right {
        let parts = [L2, model, model, formula];
        assert_eq!(Desk::any().open(&case(&parts)), Reply::Opened);
    }
}

/// All calls other than open, and the work on an entry, are refused with a number, show with an empty part, and nothing is altered.
fn assert_all_refused(desk: &Desk, number: u8) {
    let mut after = desk.clone();
    assert_eq!(after.step(), refused(number));
    assert_eq!(&after, desk);
    assert!(desk.show().is_empty());
    assert_eq!(desk.value(0, 1, 0), refused(number));
    assert_eq!(desk.whole(0, 1), refused(number));
    assert_eq!(desk.score(), refused(number));
    assert_eq!(desk.share(0), refused(number));
    assert_eq!(desk.judge(&[0]), refused(number));
    assert_eq!(desk.f_of(&[0]), None);
    // Also where 14 would apply.
    for length in [0, 1, 16_618] {
        let mut out = vec![174; length];
        assert_eq!(desk.write(&mut out), refused(number));
        assert_eq!(out, vec![174; length]);
    }
    assert_eq!(desk.entry(0, 0), refused(number));
    assert_eq!(desk.entry(255, 255), refused(number));
}

#[test]
fn number_11_short_buffers() {
    let good = Desk::opened(&[L2, STILL, STILL, &[1]]);
    let shorten: [fn(&mut Desk); 6] = [
        |desk| desk.store.truncate(STORE_LENGTH - 1),
        |desk| desk.first.truncate(TABLE_LENGTH - 1),
        |desk| desk.second.truncate(TABLE_LENGTH - 1),
        |desk| desk.store.clear(),
        |desk| desk.first.clear(),
        |desk| desk.second.clear(),
    ];
    for change in shorten {
        let mut desk = good.clone();
        // Number 12 would apply too.
        desk.standing.row = 9;
        desk.standing.lowerings = 7;
        change(&mut desk);
        assert_all_refused(&desk, 11);
        let before = desk.clone();
        assert_eq!(desk.open(&[]), refused(11));
        assert_eq!(desk.open(&case(&[L2, STILL, STILL])), refused(11));
        assert_eq!(desk, before);
    }
    let mut exact = good.clone();
    exact.store.truncate(STORE_LENGTH);
    exact.first.truncate(TABLE_LENGTH);
    assert_eq!(exact.step(), settled(1, 0));
}

#[test]
fn number_12_every_rule_of_the_desk() {
    // N1 = 2, N2 = 1, n = 3: unsettled the round is at most 4, settled at most 5; the lowerings are at most 4.
    let two: &[u8] = &[2, 0, 1, 0, 0, 1, 0, 0];
    let good = Desk::opened(&[L3, two, STILL, &[1]]);
    let breaks: [fn(&mut Desk); 17] = [
        |desk| desk.standing.states1 = 1,
        |desk| desk.standing.states2 = 2,
        |desk| (desk.standing.states1, desk.standing.states2) = (1, 2),
        |desk| desk.standing.row = 2,
        |desk| desk.standing.changed = true,
        |desk| desk.standing.round = 5,
        |desk| desk.standing.settled = true,
        |desk| (desk.standing.settled, desk.standing.round) = (true, 6),
        |desk| {
            (
                desk.standing.settled,
                desk.standing.round,
                desk.standing.row,
            ) = (true, 1, 1);
        },
        |desk| desk.first[1] = 3,
        |desk| desk.second[0] = 255,
        |desk| desk.store[0] = 2,
        |desk| desk.store.fill(0),
        |desk| desk.standing.round = u32::MAX,
        |desk| desk.standing.lowerings = 5,
        |desk| desk.standing.lowerings = u32::MAX,
        // The formula stands past the store's 24,576 bytes.
        |desk| {
            desk.store[13..15].copy_from_slice(&(STORE_LENGTH as u16).to_le_bytes());
            desk.store[STORE_LENGTH] = 1;
        },
    ];
    for change in breaks {
        let mut desk = good.clone();
        change(&mut desk);
        assert_all_refused(&desk, 12);
        assert_eq!(desk.open(&case(&[L2, LOOP, STILL])), Reply::Opened);
    }
    let keeps: [fn(&mut Desk); 9] = [
        |desk| (desk.standing.row, desk.standing.changed) = (1, true),
        |desk| desk.standing.round = 4,
        |desk| (desk.standing.settled, desk.standing.round) = (true, 1),
        |desk| (desk.standing.settled, desk.standing.round) = (true, 5),
        |desk| desk.standing.second_whole = true,
        |desk| desk.standing.lowerings = 4,
        |desk| desk.first[2] = 255,
        |desk| desk.store[STORE_LENGTH - 1] = 0,
        |desk| desk.store.resize(40_000, 7),
    ];
    for change in keeps {
        let mut desk = good.clone();
        change(&mut desk);
        assert_eq!(desk.show(), [2, 2]);
        assert!(!matches!(desk.step(), Reply::Refused { .. }));
    }
}

#[test]
fn number_12_a_desk_of_zeros() {
    let mut desk = Desk::any();
    desk.standing = second::Standing::default();
    desk.store.fill(0);
    desk.first.fill(0);
    desk.second.fill(0);
    assert_all_refused(&desk, 12);
}

/// A desk altered from outside that stands unsettled at the greatest round goes one round further, and is then refused.
#[test]
fn number_12_after_the_greatest_round() {
    let mut desk = Desk::opened(&[L2, LOOP, STILL, &[1]]);
    desk.standing.round = 1;
    assert_eq!(desk.step(), round(2, 1));
    assert_all_refused(&desk, 12);
}

#[test]
fn number_13_arguments_out_of_range() {
    let two: &[u8] = &[2, 0, 1, 0, 0, 1, 0, 0];
    let desk = Desk::opened(&[L3, two, STILL, &[1], &[0]]);
    let constant = (0, false, false);
    assert_eq!(desk.value(1, 1, 1), formula_value(0, constant));
    assert_eq!(desk.value(0, 2, 0), formula_value(2, constant));
    for (formula, model, state) in [
        (2, 1, 0),
        (255, 1, 0),
        (0, 0, 0),
        (0, 3, 0),
        (0, 1, 2),
        (0, 2, 1),
    ] {
        assert_eq!(desk.value(formula, model, state), refused(13));
    }
    for (formula, model) in [(2, 1), (0, 0), (0, 3), (255, 255)] {
        assert_eq!(desk.whole(formula, model), refused(13));
    }
    assert_eq!(desk.share(2), Reply::PerCent(100));
    assert_eq!((desk.share(3), desk.share(255)), (refused(13), refused(13)));
    assert_eq!(desk.judge(&[1, 2]), Reply::Says(true));
    assert_eq!(desk.judge(&[2, 2]), Reply::Says(false));
    assert_eq!(desk.f_of(&[2, 2]), Some(vec![1, 2]));
    for table in [&[][..], &[1], &[1, 2, 2], &[1, 3], &[255, 2]] {
        assert_eq!(desk.judge(table), refused(13));
        assert_eq!(desk.f_of(table), None);
    }
    assert!(matches!(desk.entry(1, 0), Reply::WorkedEntry { .. }));
    for (q1, q2) in [(2, 0), (0, 1), (2, 1), (255, 0), (0, 255)] {
        assert_eq!(desk.entry(q1, q2), refused(13));
    }
    let none = Desk::opened(&[L3, two, STILL]);
    assert_eq!(
        (none.value(0, 1, 0), none.whole(0, 1)),
        (refused(13), refused(13))
    );
}

/// "when the buffer is too short", of this case and not of the longest, nor as it stood when it was opened.
#[test]
fn number_14_a_short_buffer() {
    let parts: [&[u8]; 4] = [L2, STILL, STILL, &[1]];
    let mut desk = Desk::any();
    assert_eq!(desk.open(&spread(&parts, &[5, 0, 2, 9])), Reply::Opened);
    // 1 + 4 · 4 bytes of the directory, 7 of the lattice, 4 of each model, 1 of the formula.
    for length in [0, 1, 17, 32] {
        let mut out = vec![174; length];
        assert_eq!(desk.write(&mut out), refused(14));
        assert_eq!(out, vec![174; length]);
    }
    assert_eq!(desk.write(&mut [174; 33]), Reply::Length(33));
    // The low 16 bits of the length say 0.
    assert_eq!(desk.write(&mut vec![174; 65_536]), Reply::Length(33));
}
