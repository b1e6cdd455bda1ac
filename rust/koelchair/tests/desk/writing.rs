//! A desk's case written back into a lent buffer: which bytes and how many, what is kept and what is refused, and what opening them
//! gives.

use crate::cases::{self, case, with_gaps, Lent, L1, PARTS_4};
use crate::sizes::{chain, formula, model};
use koelchair::{Desk, Refusal, Standing, STORE_LENGTH, TABLE_LENGTH, WRITTEN_MOST};

/// The byte that stands everywhere in a buffer before it is written into.
const BEFORE: u8 = 0xA5;

/// What write answers with a buffer of so many bytes, and the buffer after it. Bytes after the buffer, and the desk, must stay as they
/// were.
fn into(desk: &Lent, length: usize) -> (Result<usize, Refusal>, Vec<u8>) {
    let unaltered = desk.clone();
    let mut out = vec![BEFORE; length + 8];
    let answer = desk.lent().write_into(&mut out[..length]);
    assert_eq!(out.split_off(length), [BEFORE; 8]);
    assert_eq!(desk, &unaltered);
    (answer, out)
}

/// What the desk writes: the same by itself, into a buffer of just that length, and at the front of longer ones, of which the rest must
/// stay. Shorter ones must be refused with 14, and none of their bytes written.
fn written(desk: &Lent) -> Vec<u8> {
    let bytes = desk.lent().write().expect("a desk that obeys the rules");
    let length = bytes.len();
    assert_eq!(into(desk, length), (Ok(length), bytes.clone()));
    for more in [1, 3, WRITTEN_MOST] {
        let (answer, mut out) = into(desk, length + more);
        assert_eq!(answer, Ok(length));
        assert_eq!(out.split_off(length), vec![BEFORE; more]);
        assert_eq!(out, bytes);
    }
    for short in [0, 1, length / 2, length - 1] {
        let refused = (Err(Refusal::ShortBuffer), vec![BEFORE; short]);
        assert_eq!(into(desk, short), refused, "{short} of {length} bytes");
    }
    bytes
}

/// The case of the greatest sizes: 64 elements, 64 states, 16 propositions and eight formulas of 255 bytes.
fn greatest() -> Vec<u8> {
    let (lattice, model, formula) = (chain(64), model(64, 16), formula(255));
    let mut parts: Vec<&[u8]> = vec![&lattice, &model, &model];
    parts.resize(11, &formula);
    case(&parts)
}

/// Cases without gaps: of 3 parts and of 11, and with each sort of lattice.
fn gapless_cases() -> Vec<Vec<u8>> {
    vec![
        cases::example_1(),
        cases::example_2(),
        cases::example_4(),
        cases::eighths(3),
        case(&[&L1, &[1, 0, 0, 0], &[1, 0, 0, 0]]),
        case(&[&[0], &[1, 0, 26, 5], &[1, 0, 26, 13], &[1]]),
        greatest(),
    ]
}

#[test]
fn a_case_without_gaps_is_written_as_it_was() {
    for case in gapless_cases() {
        assert_eq!(written(&Lent::opened(&case)), case);
        let desk = Desk::open(&case).unwrap();
        assert_eq!(desk.write(), case);
    }
    assert_eq!(greatest().len(), WRITTEN_MOST);
}

#[test]
fn a_desk_of_its_own_writes_into_a_buffer() {
    let case = cases::example_4();
    let desk = Desk::open(&case).unwrap();
    let mut out = vec![BEFORE; case.len() + 2];
    let short = desk.write_into(&mut out[..case.len() - 1]);
    assert_eq!(short, Err(Refusal::ShortBuffer));
    assert_eq!(out, vec![BEFORE; case.len() + 2]);
    assert_eq!(desk.write_into(&mut out), Ok(case.len()));
    assert_eq!(out, [&case[..], &[BEFORE; 2]].concat());
}

/// In the middle of a round, between two rounds and settled.
#[test]
fn rounds_do_not_show() {
    for case in [cases::example_4(), cases::eighths(5)] {
        let mut desk = Lent::opened(&case);
        while !desk.standing.settled {
            desk.lent_mut().step().unwrap();
            assert_eq!(written(&desk), case);
        }
    }
}

/// Other tables, rounds and flags, and other bytes after the case and past the entries.
#[test]
fn a_desk_altered_within_the_rules() {
    let mut desk = Lent::of(0x5A, 3);
    desk.lent_mut().open(&cases::example_4()).unwrap();
    desk.first[..4].copy_from_slice(&[0, 1, 0, 1]);
    desk.second[..4].copy_from_slice(&[1, 0, 0, 1]);
    desk.standing.round = 4;
    desk.standing.row = 1;
    desk.standing.changed = true;
    desk.standing.second_whole = true;
    assert_eq!(written(&desk), cases::example_4());
}

/// A case with gaps is opened, and another time put into the store of a desk by hand.
#[test]
fn gaps_are_left_out() {
    for gap in [&[9][..], &[0; 300]] {
        let gapped = with_gaps(&PARTS_4, gap);
        assert_eq!(written(&Lent::opened(&gapped)), cases::example_4());
        let mut desk = Lent::opened(&cases::example_4());
        desk.store[..gapped.len()].copy_from_slice(&gapped);
        assert_eq!(written(&desk), cases::example_4());
    }
}

/// The last part ends with the store's last byte that is read.
#[test]
fn a_part_at_the_end_of_the_store() {
    let mut desk = Lent::opened(&cases::example_4());
    let formula = PARTS_4[3];
    let start = STORE_LENGTH - formula.len();
    desk.store[start..].copy_from_slice(formula);
    desk.store[13..15].copy_from_slice(&(start as u16).to_le_bytes());
    assert_eq!(written(&desk), cases::example_4());
}

/// The length is that of the case in the store, be it shorter or longer than the one that was opened.
#[test]
fn another_case_in_the_store() {
    let [lattice, model_1, model_2, formula] = PARTS_4;
    for other in [
        case(&[lattice, model_1, model_2]),
        case(&[lattice, model_1, model_2, formula, &[1], formula]),
    ] {
        let mut desk = Lent::opened(&cases::example_4());
        desk.store[..other.len()].copy_from_slice(&other);
        assert_eq!(written(&desk), other);
    }
}

/// The panel lattice is the same by its one byte and by its complements and order, and each is written in its own form.
#[test]
fn the_form_of_the_lattice_is_kept() {
    let (model_1, model_2) = ([1, 1, 26, 14, 5], [1, 1, 26, 22, 13]);
    let ordered = cases::panel_by_order();
    assert_eq!(ordered.len(), 757);
    let [by_byte, by_order] = [&[0][..], &ordered].map(|lattice| {
        let case = case(&[lattice, &model_1, &model_2]);
        let mut desk = Lent::opened(&case);
        assert_eq!(written(&desk), case);
        while !desk.standing.settled {
            desk.lent_mut().step().unwrap();
        }
        assert_eq!(written(&desk), case);
        desk
    });
    assert_eq!(by_byte.lent().show(), by_order.lent().show());
    assert_eq!(by_byte.lent().score(), by_order.lent().score());
}

/// What was written of a settled desk is opened: the desk is that of the case before its first step, and writes the same again.
#[test]
fn opening_what_was_written() {
    let mut cases = gapless_cases();
    cases.push(with_gaps(&PARTS_4, &[9, 9]));
    for case in cases {
        let mut desk = Lent::of(BEFORE, 3);
        desk.lent_mut().open(&case).unwrap();
        let before = desk.clone();
        while !desk.standing.settled {
            desk.lent_mut().finish_round().unwrap();
        }
        let bytes = written(&desk);
        let mut opened = Lent::of(BEFORE, 3);
        opened.lent_mut().open(&bytes).unwrap();
        assert_eq!(opened, before);
        assert_eq!(opened.store[..bytes.len()], bytes);
        assert_eq!(written(&opened), bytes);
    }
}

/// Round 0, next row 0, and top, here element 1, at the pairs of both tables.
#[test]
fn a_desk_of_what_was_written_begins_anew() {
    let mut desk = Lent::opened(&cases::example_4());
    for _ in 0..3 {
        desk.lent_mut().step().unwrap();
    }
    let bytes = written(&desk);
    desk.lent_mut().open(&bytes).unwrap();
    let begun = Standing {
        states1: 2,
        states2: 2,
        ..Standing::default()
    };
    assert_eq!(desk.standing, begun);
    assert_eq!(
        (&desk.first[..4], &desk.second[..4]),
        (&[1; 4][..], &[1; 4][..])
    );
}

/// 11 comes before 12, and both before 14.
#[test]
fn the_order_of_refusals() {
    let mut desk = Lent::opened(&cases::example_4());
    let refused = |desk: &Lent, refusal| {
        for length in [0, 1, 20] {
            assert_eq!(into(desk, length), (Err(refusal), vec![BEFORE; length]));
        }
    };
    refused(&desk, Refusal::ShortBuffer);
    desk.standing.row = 2;
    refused(&desk, Refusal::SpoiledDesk);
    desk.second.truncate(TABLE_LENGTH - 1);
    refused(&desk, Refusal::ShortDesk);
}
