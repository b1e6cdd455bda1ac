//! Request 107: "The standing gains a 32-bit count of lowerings: the entries that differ from the round before, summed over the whole rounds
//! shown. Rows of an unfinished round don't count: at a round's last row the two tables are compared." By hand, on desks that only their
//! calls wrote and on altered ones, and the rule of refusal 12. Random cases are in `lowerings_by_bits`.

mod common;

use common::{case, chain, lattice, round, row, settled, Desk, L2, L3, LOOP, STILL};
use second::Reply;

const SPOILED: Reply = Reply::Refused {
    number: 12,
    part: 255,
};

/// Two states without propositions and transitions.
const TWO: &[u8] = &[2, 0, 1, 1, 0, 0, 0, 0];

/// Four elements, of which a chain has three.
fn subsets_of_two() -> Vec<u8> {
    lattice(4, |e| 3 - e, |i, j| i & j == i)
}

/// Three states in a line, the transitions having this value.
fn line(transition: u8, labels: [u8; 3]) -> Vec<u8> {
    let t = transition;
    [&[3, 1, t, 0, 0][..], &labels, &[0, t, 0, 0, 0, t, 0, 0, 0]].concat()
}

/// The answers of the steps up to the settling one.
fn answers(desk: &mut Desk) -> Vec<Reply> {
    let mut answers = Vec::new();
    while !desk.standing.settled {
        answers.push(desk.accepted_step());
    }
    answers
}

/// p is 2 in all states of model 1, and 2, 1, 0 in those of model 2. Of nine entries three are lowered in two rounds.
#[test]
fn an_entry_counts_in_each_round_that_lowers_it() {
    let mut desk = Desk::opened(&[L3, &line(2, [2; 3]), &line(2, [2, 1, 0])]);
    let mut tables = vec![desk.show()];
    let mut seen = Vec::new();
    while !desk.standing.settled {
        seen.push(desk.accepted_step());
        if desk.standing.row == 0 {
            tables.push(desk.show());
        }
    }
    let rounds = [
        [2, 2, 2, 2, 2, 2, 2, 2, 2],
        [2, 1, 0, 2, 1, 0, 2, 1, 0],
        [1, 0, 0, 1, 0, 0, 2, 1, 0],
        [0, 0, 0, 1, 0, 0, 2, 1, 0],
        [0, 0, 0, 1, 0, 0, 2, 1, 0],
    ];
    assert_eq!(tables, rounds);
    let expected = [
        [row(0), row(0), round(1, 6)],
        [row(6), row(6), round(2, 10)],
        [row(10), row(10), round(3, 11)],
        [row(11), row(11), settled(4, 11)],
    ];
    assert_eq!(seen, expected.as_flattened());
    assert_eq!(desk.step(), settled(4, 11));
}

/// "It is at most N1·N2·(h − 1)", and may be as many: over L2 every entry falls, over the subsets of two things each in two rounds. Where no
/// entry falls the count stays 0.
#[test]
fn from_none_to_the_most() {
    let mut all = Desk::opened(&[L2, &line(1, [0; 3]), &line(1, [1; 3])]);
    assert_eq!(answers(&mut all).last(), Some(&settled(2, 9)));
    // Two states that lead to each other, p being {a}, which is 1, in the one and {b}, which is 2, in the other, against one with p everywhere.
    let model1: &[u8] = &[2, 1, 3, 0, 1, 2, 0, 3, 3, 0];
    let mut twice = Desk::opened(&[&subsets_of_two(), model1, &[1, 1, 3, 3, 3]]);
    let expected = [
        row(0),
        round(1, 2),
        row(2),
        round(2, 4),
        row(4),
        settled(3, 4),
    ];
    assert_eq!(answers(&mut twice), expected);
    let mut none = Desk::opened(&[L2, TWO, TWO]);
    assert_eq!(answers(&mut none), [row(0), settled(1, 0)]);
}

/// "Open sets 0", whatever the standing had; a refused opening keeps the count.
#[test]
fn openings() {
    let mut desk = Desk::settled(&[L3, &line(2, [2; 3]), &line(2, [2, 1, 0])]);
    for refused in [
        vec![],
        case(&[L2, STILL]),
        case(&[L2, STILL, &[1, 0, 2, 0]]),
    ] {
        let before = desk.clone();
        assert!(matches!(desk.open(&refused), Reply::Refused { .. }));
        assert_eq!(desk, before);
        assert_eq!(desk.step(), settled(4, 11));
    }
    assert_eq!(desk.open(&case(&[L2, LOOP, STILL])), Reply::Opened);
    assert_eq!(desk.standing.lowerings, 0);
    assert_eq!(desk.step(), round(1, 1));
    let mut any = Desk::any();
    assert_eq!(
        any.open(&[]),
        Reply::Refused {
            number: 1,
            part: 255
        }
    );
    assert_eq!(any, Desk::any());
}

/// Every call but open is refused with 12 where the count is this, and answered where it is one less.
fn assert_limit(desk: &Desk, least_refused: u32) {
    let mut within = desk.clone();
    within.standing.lowerings = least_refused - 1;
    assert!(!within.show().is_empty());
    assert!(matches!(within.score(), Reply::Element(_)));
    assert!(!matches!(within.clone().step(), Reply::Refused { .. }));
    for lowerings in [least_refused, least_refused + 1, 1 << 16, u32::MAX] {
        let mut beyond = within.clone();
        beyond.standing.lowerings = lowerings;
        let before = beyond.clone();
        assert_eq!(beyond.step(), SPOILED);
        assert!(beyond.show().is_empty());
        let asked = [
            beyond.score(),
            beyond.share(0),
            beyond.judge(&[]),
            beyond.entry(0, 0),
        ];
        assert_eq!(asked, [(); 4].map(|()| SPOILED));
        assert_eq!(beyond.write(&mut []), SPOILED);
        assert_eq!(beyond, before);
    }
}

/// "The standing's limits in refusal 12 include this bound with h replaced by n": N1·N2·(n − 1), at any round, settled or not.
#[test]
fn number_12_by_the_elements_of_the_lattice() {
    let of = |lattice: &[u8]| Desk::opened(&[lattice, TWO, STILL]);
    for (desk, most) in [
        (of(L2), 2),
        (of(L3), 4),
        // Of its four elements three are in a chain: by h it would be 4.
        (of(&subsets_of_two()), 6),
        (of(&[0]), 52),
        (of(&chain(64)), 126),
        // One element: only 0.
        (
            Desk::opened(&[&[1, 0, 1], &[2, 0, 0, 0, 0, 0, 0, 0], &[1, 0, 0, 0]]),
            0,
        ),
    ] {
        assert_limit(&desk, most + 1);
        let mut half = desk.clone();
        half.standing.row = 1;
        half.standing.changed = true;
        assert_limit(&half, most + 1);
        for round in [1, most + 1] {
            let mut settled = desk.clone();
            settled.standing.settled = true;
            settled.standing.round = round;
            assert_limit(&settled, most + 1);
        }
        let mut late = desk.clone();
        late.standing.round = most;
        assert_limit(&late, most + 1);
    }
}

/// 11 comes before it.
#[test]
fn number_11_comes_first() {
    let mut desk = Desk::opened(&[L2, STILL, STILL]);
    desk.standing.lowerings = 2;
    desk.second.clear();
    let short = Reply::Refused {
        number: 11,
        part: 255,
    };
    assert_eq!(desk.step(), short);
}

/// A count that no rounds give is carried on: the rule of 12 asks for nothing but the limit.
#[test]
fn a_count_altered_within_the_limit() {
    let mut desk = Desk::opened(&[L2, &line(1, [1; 3]), &line(1, [1, 1, 0])]);
    desk.standing.lowerings = 3;
    // Round 1 lowers the last column, where p differs.
    assert_eq!(
        [desk.step(), desk.step(), desk.step()],
        [row(3), row(3), round(1, 6)]
    );
}

/// "the two tables are compared": rows that were skipped, the next row being altered, count by what they hold. So the desk may settle, as
/// no worked row has changed, with a risen count.
#[test]
fn settled_with_a_risen_count() {
    let mut desk = Desk::opened(&[L2, TWO, TWO]);
    desk.second[..4].copy_from_slice(&[0, 0, 0, 0]);
    desk.standing.row = 1;
    assert_eq!(desk.step(), settled(1, 2));
    assert_eq!(desk.show(), [0, 0, 1, 1]);
    assert_eq!(desk.first[..4], [1; 4]);
    assert_eq!(desk.step(), settled(1, 2));
}

/// The other way round: by the standing something has changed, and the tables are equal.
#[test]
fn a_round_without_a_lowering() {
    let mut desk = Desk::opened(&[L2, TWO, TWO]);
    desk.standing.row = 1;
    desk.standing.changed = true;
    assert_eq!(desk.step(), round(1, 0));
    assert_eq!([desk.step(), desk.step()], [row(0), settled(2, 0)]);
}

/// Entries that rise count too: they differ from the round before.
#[test]
fn entries_that_rise() {
    let mut desk = Desk::opened(&[L2, TWO, TWO]);
    desk.first[..4].copy_from_slice(&[0, 1, 1, 0]);
    assert_eq!([desk.step(), desk.step()], [row(0), round(1, 2)]);
    assert_eq!(desk.show(), [1; 4]);
}

/// A step from the limit goes over it, is accepted, and carries the new count; the next call is refused with 12. Also where it settles.
#[test]
fn over_the_limit() {
    for changed in [true, false] {
        let mut desk = Desk::opened(&[L2, TWO, TWO]);
        desk.standing.lowerings = 4;
        desk.standing.row = 1;
        desk.standing.changed = changed;
        desk.second[..2].copy_from_slice(&[0, 0]);
        let answer = if changed { round(1, 6) } else { settled(1, 6) };
        assert_eq!(desk.step(), answer);
        assert_eq!(desk.standing.lowerings, 6);
        let before = desk.clone();
        assert_eq!(desk.step(), SPOILED);
        assert_eq!(desk.write(&mut []), SPOILED);
        assert_eq!(desk, before);
        assert_eq!(desk.open(&case(&[L2, TWO, TWO])), Reply::Opened);
    }
}

/// The greatest count that a step answers, 4,096 · 63 and 4,096 more. p is 0 in model 1 and 63 in model 2, so that every entry is 0 from
/// round 1 on.
#[test]
fn the_greatest_count() {
    let model = |label: u8| [&[64, 1][..], &[0; 64], &[label; 64], &[0; 4_096]].concat();
    let mut desk = Desk::opened(&[&chain(64), &model(0), &model(63)]);
    desk.standing.lowerings = 258_049;
    assert_eq!(desk.step(), SPOILED);
    desk.standing.lowerings = 258_048;
    assert_eq!(desk.clone().step(), row(258_048));
    desk.second[..4_096].fill(0);
    desk.standing.row = 63;
    assert_eq!(desk.step(), round(1, 262_144));
    assert_eq!(desk.step(), SPOILED);
}
