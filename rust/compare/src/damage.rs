//! Damaged cases, each aimed at one of the refusals 1 to 10. What a case is refused with is not assumed: both implementations have to
//! agree, and the counts show that every number is met. Rests on generator, lattices, non_lattices, models, formulas and cases.

use crate::cases::{self, Draft, CASE_MOST};
use crate::formulas;
use crate::generator::Random;
use crate::lattices;
use crate::models;
use crate::non_lattices;

/// A case with damage aimed at a refusal, and perhaps with more damage that comes later in the order of the refusals.
pub fn damaged(random: &mut Random, number: u8) -> Vec<u8> {
    let scale = cases::scale(random);
    let mut draft = cases::draft(random, scale);
    if random.one_in(3) {
        let later = random.between(number as usize, 10) as u8;
        spoil_part(random, &mut draft, later);
    }
    spoil_part(random, &mut draft, number);
    match number {
        1 => wrong_size(random, &draft),
        2 => wrong_count(random, &draft),
        3 => wrong_place(random, &draft),
        _ => draft.bytes(random),
    }
}

/// Damage to a part, for 4 to 10; nothing for the others.
fn spoil_part(random: &mut Random, draft: &mut Draft, number: u8) {
    match number {
        4 => draft.parts[0] = lattice_of_wrong_form(random),
        5 => draft.parts[0] = unordered(random),
        6 => draft.parts[0] = non_lattices::no_meet_or_join(random).part(),
        7 => draft.parts[0] = non_lattices::not_distributive(random).part(),
        8 => draft.parts[0] = non_lattices::wrong_complement(random).part(),
        9 => spoil_model(random, draft),
        10 => spoil_formula(random, draft),
        _ => {}
    }
}

/// Aimed at 1: empty, or of more than 32,768 bytes, or just of that many.
fn wrong_size(random: &mut Random, draft: &Draft) -> Vec<u8> {
    match random.below(4) {
        0 => Vec::new(),
        1 => draft.bytes_up_to(random, CASE_MOST),
        2 => draft.bytes_up_to(random, CASE_MOST + 1),
        _ => {
            let length = random.between(CASE_MOST + 1, CASE_MOST + 40_000);
            let last = draft.parts.len();
            draft.bytes_with_gap(random, length, last)
        }
    }
}

/// Aimed at 2: a count of parts out of range or at its ends, or a directory that does not fit; now and then with a broken pair too.
fn wrong_count(random: &mut Random, draft: &Draft) -> Vec<u8> {
    let mut bytes = draft.bytes(random);
    let directory_end = 1 + 4 * draft.parts.len();
    if random.one_in(3) {
        spoil_pair(random, &mut bytes, 0);
    }
    match random.below(3) {
        0 => return with_count_of_parts(random, draft),
        1 => bytes[0] = random.pick(&[0, 1, 2, 3, 11, 12, 64, 255]),
        _ => {
            let lengths = [1, 2, directory_end - 1, directory_end, directory_end + 1];
            bytes.truncate(random.pick(&lengths));
        }
    }
    bytes
}

/// A case that has as many parts as it says.
fn with_count_of_parts(random: &mut Random, draft: &Draft) -> Vec<u8> {
    let mut parts = draft.parts.clone();
    let count = random.pick(&[1, 2, 3, 11, 12, 13, 20]);
    parts.resize(count, vec![1]);
    let gaps = vec![0; count + 1];
    cases::laid(random, &parts, &gaps)
}

/// Aimed at 3: one or two pairs of the directory altered by little, or the case cut.
fn wrong_place(random: &mut Random, draft: &Draft) -> Vec<u8> {
    let mut bytes = draft.bytes(random);
    let count = draft.parts.len();
    if random.one_in(6) {
        bytes.pop();
    }
    for _ in 0..random.between(1, 2) {
        let pair = random.below(count);
        spoil_pair(random, &mut bytes, pair);
    }
    bytes
}

fn spoil_pair(random: &mut Random, bytes: &mut [u8], pair: usize) {
    let (start, length) = (word(bytes, 1 + 4 * pair), word(bytes, 3 + 4 * pair));
    let end = bytes.len() as u16;
    match random.below(8) {
        0 => set_word(bytes, 3 + 4 * pair, 0),
        1 => set_word(bytes, 1 + 4 * pair, start.wrapping_sub(1)),
        2 => set_word(bytes, 1 + 4 * pair, start.wrapping_add(1)),
        3 => set_word(bytes, 3 + 4 * pair, length.wrapping_add(1)),
        4 => set_word(
            bytes,
            3 + 4 * pair,
            end.wrapping_sub(start).wrapping_add(random.below(2) as u16),
        ),
        // The sum of offset and length, without its 17th bit, lies within the case.
        5 => set_word(
            bytes,
            3 + 4 * pair,
            0u16.wrapping_sub(start)
                .wrapping_add(random.below(60) as u16),
        ),
        6 => set_word(
            bytes,
            1 + 4 * pair,
            random.pick(&[0, end, end.wrapping_add(1), 65_535]),
        ),
        _ => exchange_pairs(bytes, pair),
    }
}

/// Exchanges a pair with the one before it, or the first two.
fn exchange_pairs(bytes: &mut [u8], pair: usize) {
    let at = 1 + 4 * pair.max(1);
    for i in 0..4 {
        bytes.swap(at + i, at - 4 + i);
    }
}

pub fn word(bytes: &[u8], at: usize) -> u16 {
    u16::from_le_bytes([bytes[at], bytes[at + 1]])
}

fn set_word(bytes: &mut [u8], at: usize, to: u16) {
    bytes[at..at + 2].copy_from_slice(&to.to_le_bytes());
}

/// Aimed at 4: n, the length, a complement or an order byte is wrong, or n is just 64.
fn lattice_of_wrong_form(random: &mut Random) -> Vec<u8> {
    let lattice = lattices::random(random, 8);
    let (n, mut part) = (lattice.size, lattice.part());
    match random.below(8) {
        0 => return lattices::chain(random.pick(&[64, 65, 66])).part(),
        1 => part.push(random.below(2) as u8),
        2 => drop(part.pop()),
        3 => part[1 + random.below(n)] = random.pick(&[n, n + 1, 255]) as u8,
        4 => part[1 + n + random.below(n * n)] = random.pick(&[2, 3, 255]),
        5 => part[0] = 0,
        6 => part = vec![random.pick(&[0, 1, 2, 65, 255]), 0],
        _ => part[0] = random.pick(&[n + 1, n - 1, 65, 255]) as u8,
    }
    part
}

/// Aimed at 5.
fn unordered(random: &mut Random) -> Vec<u8> {
    if random.one_in(4) {
        non_lattices::any_relation(random).part()
    } else {
        non_lattices::no_partial_order(random).part()
    }
}

/// Aimed at 9: a byte or the length of a model is wrong, or its sizes are others.
fn spoil_model(random: &mut Random, draft: &mut Draft) {
    let which = random.between(1, 2);
    if random.one_in(3) {
        exchange_model(random, draft, which);
    } else if draft.parts[which].len() > 2 {
        spoil_model_bytes(random, draft, which);
    }
}

fn spoil_model_bytes(random: &mut Random, draft: &mut Draft, which: usize) {
    let (k, n) = (draft.propositions, draft.shape.elements);
    let states = draft.shape.states[which - 1];
    let part = &mut draft.parts[which];
    let last = part.len() - 1;
    match random.below(7) {
        0 => part.push(0),
        1 => drop(part.pop()),
        2 => part.truncate(random.pick(&[1, 2])),
        3 => part[0] = random.pick(&[0, states + 1, 65, 255]) as u8,
        4 => part[1] = random.pick(&[k + 1, 17, 255]) as u8,
        5 => part[random.between(2, last)] = random.pick(&[n, n + 1, 255]) as u8,
        _ => part[random.pick(&[2, last])] = n as u8,
    }
}

/// A well-formed model of other sizes, at the end of their range or beyond it; k may be other for one model or for both.
fn exchange_model(random: &mut Random, draft: &mut Draft, which: usize) {
    let (states, k) = (draft.shape.states, draft.propositions);
    let lattice = &draft.lattice;
    match random.below(3) {
        0 => {
            let k = random.pick(&[0, 1, 2, 16, 17]);
            draft.parts[which] = models::random(random, lattice, states[which - 1], k).part();
        }
        1 => {
            let states = random.pick(&[64, 65]);
            draft.parts[which] = models::random(random, lattice, states, k).part();
        }
        _ => {
            let k = random.pick(&[16, 17]);
            draft.parts[1] = models::random(random, lattice, states[0], k).part();
            draft.parts[2] = models::random(random, lattice, states[1], k).part();
        }
    }
}

/// Aimed at 10: one formula among others, or several.
fn spoil_formula(random: &mut Random, draft: &mut Draft) {
    let k = draft.propositions;
    for _ in 0..random.between(1, 2) {
        let formula = formulas::damaged(random, k);
        if draft.parts.len() == 11 || (draft.parts.len() > 3 && random.one_in(2)) {
            let place = random.between(3, draft.parts.len() - 1);
            draft.parts[place] = formula;
        } else {
            draft.parts.push(formula);
        }
    }
}
