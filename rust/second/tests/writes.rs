//! Request 105: what write puts into its buffer, on cases small enough to be written down by hand, on both forms of the panel lattice, on
//! stores with gaps, and at the greatest sizes.

mod common;

use common::{case, chain, lattice, spread, Desk, Numbers, L2, L3, LOOP, STILL};
use second::{Reply, Standing, STORE_LENGTH};

const SHORT: Reply = Reply::Refused {
    number: 14,
    part: 255,
};

/// "Opening what was written gives the same store reading, at round 0 with both tables top."
fn assert_opens(written: &[u8], top: u8) {
    let mut desk = Desk::any();
    assert_eq!(desk.open(written), Reply::Opened);
    let Standing {
        states1, states2, ..
    } = desk.standing;
    let opened = Standing {
        states1,
        states2,
        ..Standing::default()
    };
    assert_eq!(desk.standing, opened);
    let entries = usize::from(states1) * usize::from(states2);
    assert_eq!(desk.first[..entries], vec![top; entries]);
    assert_eq!(desk.second[..entries], vec![top; entries]);
    assert_eq!(desk.store[..written.len()], *written);
    assert_eq!(desk.written(), written);
}

#[test]
fn parts_without_gaps_after_the_directory() {
    let spread = [
        3, 15, 0, 7, 0, 22, 0, 4, 0, 29, 0, 4, 0, // directory
        90, 91, 2, 1, 0, 1, 1, 0, 1, // two bytes, and the lattice
        1, 0, 1, 1, // model 1
        92, 93, 94, 1, 0, 1, 0,  // three bytes, and model 2
        95, // a byte at the end
    ];
    let written = [
        3, 13, 0, 7, 0, 20, 0, 4, 0, 24, 0, 4, 0, // directory
        2, 1, 0, 1, 1, 0, 1, // lattice
        1, 0, 1, 1, // model 1
        1, 0, 1, 0, // model 2
    ];
    let mut desk = Desk::any();
    assert_eq!(desk.open(&spread), Reply::Opened);
    let mut out = [5; 31];
    assert_eq!(desk.write(&mut out), Reply::Length(28));
    assert_eq!((&out[..28], &out[28..]), (&written[..], &[5, 5, 5][..]));
    let mut exact = [5; 28];
    assert_eq!(desk.write(&mut exact), Reply::Length(28));
    assert_eq!(exact, written);
    assert_opens(&written, 1);
}

/// A part's place and length take two bytes each, low byte first.
#[test]
fn places_above_255() {
    // n = 16: 1 + 16 + 256 bytes.
    let subsets = lattice(16, |e| 15 - e, |i, j| i & j == i);
    let formula = [vec![7; 254], vec![1]].concat();
    let written = case(&[&subsets, STILL, LOOP, &formula, &[0]]);
    let directory = [
        5, 21, 0, 17, 1, 38, 1, 4, 0, 42, 1, 4, 0, 46, 1, 255, 0, 45, 2, 1, 0,
    ];
    assert_eq!(written[..21], directory);
    let gaps = [300, 1, 0, 256, 2];
    let mut desk = Desk::any();
    let bytes = spread(&[&subsets, STILL, LOOP, &formula, &[0]], &gaps);
    assert_eq!(desk.open(&bytes), Reply::Opened);
    assert_eq!(desk.written(), written);
    assert_opens(&written, 15);
}

#[test]
fn neither_round_nor_entries_are_seen() {
    let model1: &[u8] = &[2, 1, 1, 0, 0, 1, 0, 1, 0, 0];
    let model2: &[u8] = &[2, 1, 1, 0, 0, 0, 0, 1, 0, 0];
    let parts = [L2, model1, model2, &[7, 3, 0]];
    let mut desk = Desk::opened(&parts);
    // Six steps settle the desk at round 3; on the way every next row is met.
    for _ in 0..8 {
        assert_eq!(desk.written(), case(&parts));
        desk.step();
    }
    assert!(desk.standing.settled);
    desk.first.fill(0);
    desk.second.fill(1);
    desk.standing.second_whole ^= true;
    assert_eq!(desk.written(), case(&parts));
    assert_opens(&desk.written(), 1);
}

/// "the panel lattice as its one byte if it was loaded so": by its complements and order if these were
/// loaded, though the two desks answer alike.
#[test]
fn both_forms_of_the_panel_lattice() {
    let places = |e: u8| [e / 9, e / 3 % 3, e % 3];
    let below = |i, j| places(i).iter().zip(places(j)).all(|(&x, y)| x <= y);
    let ordered = lattice(27, |e| 26 - e, below);
    assert_eq!(ordered.len(), 757);
    let (model1, model2): (&[u8], &[u8]) = (&[1, 1, 26, 14, 9], &[1, 1, 26, 13, 0]);
    let with = |lattice| [lattice, model1, model2, &[8, 2, 0]];
    let (by_byte, by_order) = (with(&[0]), with(&ordered));
    let (byte, explicit) = (Desk::settled(&by_byte), Desk::settled(&by_order));
    assert_eq!(byte.show(), explicit.show());
    assert_eq!(byte.score(), explicit.score());
    for (desk, parts, length) in [(byte, by_byte, 31), (explicit, by_order, 787)] {
        let written = desk.written();
        assert_eq!(written.len(), length);
        assert_eq!(written, case(&parts));
        assert_opens(&written, 26);
    }
}

/// "Two desks with the same reading, the form of the lattice included, give the same bytes": the store is altered from outside, and gaps,
/// the bytes in them and the bytes after the parts cannot be seen in what is written.
#[test]
fn stores_with_gaps() {
    let parts: [&[u8]; 5] = [L3, LOOP, STILL, &[10, 7, 4, 0], &[1]];
    let written = case(&parts);
    let most = STORE_LENGTH - written.len();
    let gaps: [[usize; 5]; 8] = [
        [0, 0, 0, 0, 0],
        [1, 0, 0, 0, 0],
        [0, 1, 0, 0, 0],
        [0, 0, 0, 0, 1],
        [3, 1, 4, 1, 5],
        [most, 0, 0, 0, 0],
        [0, 0, most, 0, 0],
        [0, 0, 0, 0, most],
    ];
    for gaps in gaps {
        let mut desk = Desk::opened(&parts);
        desk.step();
        let bytes = spread(&parts, &gaps);
        desk.store.fill(99);
        desk.store[..bytes.len()].copy_from_slice(&bytes);
        assert_eq!(desk.written(), written, "{gaps:?}");
        let mut exact = vec![174; written.len()];
        assert_eq!(desk.write(&mut exact), Reply::Length(written.len()));
        assert_eq!(desk.write(&mut exact[1..]), SHORT, "{gaps:?}");
        assert_eq!(exact, written);
    }
    assert_opens(&written, 2);
}

/// "at most 16,618 bytes" (docs/STORE.md): 64 elements, two models of 64 states and 16 propositions, eight formulas of 255 bytes.
#[test]
fn the_greatest_sizes() {
    let numbers = &mut Numbers(1_234_567_890_123_456_789);
    let (model1, model2) = (numbers.model(64, 16, 64), numbers.model(64, 16, 64));
    let formula = [[7, 8].repeat(127), vec![1]].concat();
    let mut parts = vec![chain(64), model1, model2];
    parts.resize(11, formula);
    let parts: Vec<&[u8]> = parts.iter().map(Vec::as_slice).collect();
    let desk = Desk::opened(&parts);
    let mut out = vec![174; 16_619];
    assert_eq!(desk.write(&mut out[..16_617]), SHORT);
    assert_eq!(out, vec![174; 16_619]);
    assert_eq!(desk.write(&mut out), Reply::Length(16_618));
    assert_eq!((&out[..16_618], out[16_618]), (&case(&parts)[..], 174));
    assert_opens(&out[..16_618], 63);
}

/// All codes of a formula, and both kinds of number after them.
#[test]
fn every_code_of_a_formula() {
    let model: &[u8] = &[1, 2, 1, 1, 0, 0];
    let codes: &[u8] = &[
        5, 6, 0, 1, 9, 10, 6, 5, 2, 1, 3, 0, 9, 5, 4, 2, 6, 7, 4, 1, 8, 4, 0,
    ];
    let parts = [L2, model, model, codes, &[3, 1], &[0], &[2, 0]];
    assert_eq!(Desk::opened(&parts).written(), case(&parts));
}
