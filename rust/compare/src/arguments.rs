//! Arguments of the calls, mostly within their range and now and then at its end or beyond it. Rests on generator, calls, cases,
//! desks, judged and buffers.

use crate::buffers::Buffer;
use crate::calls::Call;
use crate::cases::Shape;
use crate::desks::Desk;
use crate::generator::Random;
use crate::judged::{Judged, Rounds, ORIGINS};

/// What is asked of a desk.
pub enum Question {
    Call(Call),
    /// That a table be judged of which it is known how it was made.
    Judge(Judged),
    /// That the case be written into a buffer.
    Write(Buffer),
}

/// One of the calls that do not alter the desk, or the work on an entry.
pub fn question(random: &mut Random, shape: &Shape, desk: &Desk) -> Question {
    let call = match random.weighted(&[2, 4, 3, 2, 3, 4, 4, 4]) {
        0 => Call::Show,
        1 => Call::Value {
            formula: formula(random, shape),
            model: model(random),
            state: state(random, shape),
        },
        2 => Call::Whole {
            formula: formula(random, shape),
            model: model(random),
        },
        3 => Call::Score,
        4 => Call::Share(element(random, shape)),
        5 => return judge(random, shape, desk),
        6 => return Question::Write(Buffer::random(random, desk)),
        _ => Call::Entry {
            q1: state_below(random, shape, shape.states[0]),
            q2: state_below(random, shape, shape.states[1]),
        },
    };
    Question::Call(call)
}

fn formula(random: &mut Random, shape: &Shape) -> u8 {
    let formulas = shape.formulas;
    match random.below(10) {
        0 => random.pick(&[formulas, formulas + 1, 8, 248, 253, 255]) as u8,
        _ => random.below(formulas.max(1)) as u8,
    }
}

fn model(random: &mut Random) -> u8 {
    match random.below(12) {
        0 => random.pick(&[0, 3, 4, 255]),
        _ => random.between(1, 2) as u8,
    }
}

fn state(random: &mut Random, shape: &Shape) -> u8 {
    let [first, second] = shape.states;
    match random.below(8) {
        0 => random.pick(&[first, second, 64, 255]) as u8,
        _ => random.below(first.max(second)) as u8,
    }
}

/// A state of a model of so many, now and then one of the other model alone, or of none.
fn state_below(random: &mut Random, shape: &Shape, states: usize) -> u8 {
    match random.below(12) {
        0 => state(random, shape),
        _ => random.below(states) as u8,
    }
}

fn element(random: &mut Random, shape: &Shape) -> u8 {
    match random.below(8) {
        0 => random.pick(&[shape.elements, shape.elements, 64, 255]) as u8,
        1 => shape.top,
        _ => random.below(shape.elements) as u8,
    }
}

/// What is asked of judge: mostly a table made from the rounds of the case, else the table shown, or one that is refused.
fn judge(random: &mut Random, shape: &Shape, desk: &Desk) -> Question {
    let table = match random.below(10) {
        0 => desk.whole().iter().copied().take(shape.entries()).collect(),
        1 => {
            let entries = shape.entries();
            vec![shape.top; random.pick(&[entries - 1, entries + 1, 0])]
        }
        2 => with_no_element(random, shape),
        _ => match made(random, desk) {
            Some(judged) => return Question::Judge(judged),
            None => vec![shape.top; shape.entries()],
        },
    };
    Question::Call(Call::Judge(table))
}

/// A table made from the rounds of the case that the desk holds; nothing where the desk breaks a rule.
fn made(random: &mut Random, desk: &Desk) -> Option<Judged> {
    let rounds = Rounds::of(desk)?;
    loop {
        let origin = random.pick(&ORIGINS);
        if let Some(table) = rounds.table(random, origin) {
            return Some(Judged {
                rounds,
                origin,
                table,
            });
        }
    }
}

fn with_no_element(random: &mut Random, shape: &Shape) -> Vec<u8> {
    let mut table = vec![shape.bottom; shape.entries()];
    let place = random.pick(&[0, table.len() - 1]);
    table[place] = random.pick(&[shape.elements, 64, 255]) as u8;
    table
}
