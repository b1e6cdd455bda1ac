//! Desks altered from outside: within the rules of refusal 12, and with one of them broken by little. Rests on generator, cases and desks.

use crate::cases::{self, Draft, Scale, Shape};
use crate::desks::{Desk, STORE_LENGTH};
use crate::generator::Random;
use koelchair::Standing;

/// Writes a case into the store, with its gaps, and a standing and tables that keep the rules of 12. A case of more bytes than a store has
/// is written as far as there is room.
pub fn lay(random: &mut Random, desk: &mut Desk, draft: &Draft) {
    let length = random.pick(&[0, STORE_LENGTH, STORE_LENGTH + 1]);
    let bytes = if random.one_in(2) {
        draft.bytes(random)
    } else {
        draft.bytes_up_to(random, length)
    };
    let written = bytes.len().min(desk.store.len());
    desk.store[..written].copy_from_slice(&bytes[..written]);
    desk.standing.states1 = draft.shape.states[0] as u8;
    desk.standing.states2 = draft.shape.states[1] as u8;
    any_place(random, desk, draft.shape);
}

/// Any tables and any round, next row, flags and lowerings within the rules.
pub fn any_place(random: &mut Random, desk: &mut Desk, shape: Shape) {
    set_tables(random, desk, shape);
    set_place(random, desk, shape);
}

/// Another case with the same states in the store, the standing kept. With another n the tables, the round or the lowerings may break a
/// rule.
pub fn exchange_store(random: &mut Random, desk: &mut Desk, scale: Scale, shape: Shape) {
    let bytes = cases::draft_of_states(random, scale, shape.states).bytes(random);
    let written = bytes.len().min(STORE_LENGTH);
    desk.store[..written].copy_from_slice(&bytes[..written]);
}

/// Alters a desk within the rules.
pub fn within(random: &mut Random, desk: &mut Desk, shape: Shape) {
    match random.below(9) {
        0 => set_tables(random, desk, shape),
        1 => set_place(random, desk, shape),
        2 => desk.standing.second_whole = !desk.standing.second_whole,
        3 => unread(random, desk, shape),
        4 => {
            let element = random.pick(&[shape.bottom, shape.top]);
            desk.first[..shape.entries()].fill(element);
            desk.second[..shape.entries()].fill(element);
        }
        5 => spread(random, desk),
        6 => desk.standing.lowerings = lowerings(random, shape),
        7 => skip_rows(random, &mut desk.standing),
        _ => {
            let place = random.below(shape.entries());
            let second = random.one_in(2);
            desk.table(second)[place] = random.below(shape.elements) as u8;
        }
    }
}

fn set_tables(random: &mut Random, desk: &mut Desk, shape: Shape) {
    for place in 0..shape.entries() {
        desk.first[place] = random.below(shape.elements) as u8;
        desk.second[place] = random.below(shape.elements) as u8;
    }
}

/// A count of lowerings within the rules, often at its limit.
fn lowerings(random: &mut Random, shape: Shape) -> u32 {
    let limit = shape.round_limit();
    let any = random.below(limit as usize + 1) as u32;
    random.pick(&[limit, limit, any, any, 0])
}

/// A next row that is further on in the same round, so that the rows between stay as they are.
fn skip_rows(random: &mut Random, standing: &mut Standing) {
    if !standing.settled && standing.row < standing.states1 {
        let last = usize::from(standing.states1) - 1;
        standing.row = random.between(standing.row.into(), last) as u8;
    }
}

/// A round, a next row, flags and lowerings within the rules, often at their ends.
fn set_place(random: &mut Random, desk: &mut Desk, shape: Shape) {
    let limit = shape.round_limit();
    let standing = &mut desk.standing;
    standing.second_whole = random.one_in(2);
    standing.lowerings = lowerings(random, shape);
    if random.one_in(2) {
        settle(standing, 0, random.pick(&[1, limit + 1, 1 + limit / 2]));
    } else {
        standing.settled = false;
        standing.round = random.pick(&[0, limit, limit / 2]);
        standing.row = random.pick(&[0, shape.states[0] - 1, shape.states[0] / 2]) as u8;
        standing.changed = standing.row > 0 && random.one_in(2);
    }
}

/// Bytes that no call reads: those after the entries of a table, and the last ones of the store.
fn unread(random: &mut Random, desk: &mut Desk, shape: Shape) {
    let second = random.one_in(2);
    let byte = random.byte();
    let from = shape.entries();
    let table = desk.table(second);
    if from < table.len() {
        let place = random.between(from, (from + 3).min(table.len() - 1));
        table[place] = byte;
    }
    if let Some(last) = desk.store.last_mut() {
        *last = byte;
    }
}

/// The case in the store with gaps between its parts; nothing is altered where there are no parts.
pub fn spread(random: &mut Random, desk: &mut Desk) {
    let parts = desk.parts();
    let spread = parts.and_then(|parts| cases::spread(random, &parts, STORE_LENGTH));
    if let Some(bytes) = spread {
        desk.store[..bytes.len()].copy_from_slice(&bytes);
    }
}

/// Breaks one rule of 12 by little, or alters a byte of what the store holds.
pub fn beyond(random: &mut Random, desk: &mut Desk, shape: Shape) {
    match random.below(3) {
        0 => break_standing(random, &mut desk.standing, shape),
        1 => break_table(random, desk, shape),
        _ => break_store(random, desk),
    }
}

fn break_standing(random: &mut Random, standing: &mut Standing, shape: Shape) {
    let limit = shape.round_limit();
    match random.below(11) {
        0 => standing.states1 = standing.states1.wrapping_add(random.pick(&[1, 255])),
        1 => standing.states2 = standing.states2.wrapping_add(random.pick(&[1, 255])),
        2 => std::mem::swap(&mut standing.states1, &mut standing.states2),
        3 => standing.row = shape.states[0] as u8,
        4 => (standing.row, standing.changed) = (0, true),
        5 => (standing.settled, standing.round) = (false, limit + 1),
        6 => settle(standing, 0, limit + 2),
        7 => settle(standing, 0, 0),
        8 => standing.lowerings = limit + 1,
        9 => standing.lowerings = random.pick(&[limit + 2, 1 << 20, u32::MAX]),
        _ => settle(standing, (shape.states[0] - 1) as u8, 1),
    }
}

fn settle(standing: &mut Standing, row: u8, round: u32) {
    standing.settled = true;
    standing.row = row;
    standing.changed = false;
    standing.round = round;
}

/// A table byte that is n or more, among the entries or just after them.
fn break_table(random: &mut Random, desk: &mut Desk, shape: Shape) {
    let last = shape.entries() - 1;
    let place = random.pick(&[0, last, last, last + 1]);
    let second = random.one_in(2);
    let byte = random.pick(&[shape.elements, shape.elements, 255]) as u8;
    if let Some(entry) = desk.table(second).get_mut(place) {
        *entry = byte;
    }
}

/// A byte near the front of the store, where the directory and the parts stand.
fn break_store(random: &mut Random, desk: &mut Desk) {
    let reach = random.pick(&[1, 20, 60, 200]);
    let place = random.below(reach).min(desk.store.len() - 1);
    desk.store[place] = match random.below(3) {
        0 => desk.store[place].wrapping_add(1),
        1 => desk.store[place].wrapping_sub(1),
        _ => random.byte(),
    };
}
