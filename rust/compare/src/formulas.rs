//! Random formula parts, within the rules and with one rule broken. Rests on generator.

use crate::generator::Random;

const PROPOSITION: u8 = 2;
const VARIABLE: u8 = 4;
const AX: u8 = 7;
const EX: u8 = 8;
const MOST_BINDERS: usize = 3;

/// A formula of exactly `length` bytes over k propositions, inside `binders` binders, with at most `more` binders nested in it.
pub fn exact(random: &mut Random, length: usize, k: usize, binders: usize, more: usize) -> Vec<u8> {
    match length {
        1 => vec![random.below(2) as u8],
        2 => pair(random, k, binders, more),
        _ if random.one_in(2) => one_operand(random, length, k, binders, more),
        _ => {
            let left = random.between(1, length - 2);
            let mut formula = vec![random.between(5, 6) as u8];
            formula.extend(exact(random, left, k, binders, more));
            formula.extend(exact(random, length - 1 - left, k, binders, more));
            formula
        }
    }
}

/// A proposition, a negated one or a variable, where there are any.
fn pair(random: &mut Random, k: usize, binders: usize, more: usize) -> Vec<u8> {
    if binders > 0 && (k == 0 || random.one_in(2)) {
        vec![VARIABLE, random.below(binders) as u8]
    } else if k > 0 {
        vec![PROPOSITION + random.below(2) as u8, random.below(k) as u8]
    } else {
        one_operand(random, 2, k, binders, more)
    }
}

/// AX, EX or a fixpoint of a formula.
fn one_operand(
    random: &mut Random,
    length: usize,
    k: usize,
    binders: usize,
    more: usize,
) -> Vec<u8> {
    let code = if more > 0 {
        random.between(7, 10)
    } else {
        random.between(7, 8)
    };
    let bound = usize::from(code >= 9);
    let mut formula = vec![code as u8];
    formula.extend(exact(random, length - 1, k, binders + bound, more - bound));
    formula
}

/// A fixpoint whose variables mostly stand below AX or EX, inside `binders` binders: a short formula, and what goes on from it.
fn fixpoint(random: &mut Random, k: usize, binders: usize) -> Vec<u8> {
    let mut formula = vec![random.between(9, 10) as u8];
    if binders + 1 < MOST_BINDERS && random.one_in(2) {
        formula.extend(fixpoint(random, k, binders + 1));
        return formula;
    }
    formula.push(random.between(5, 6) as u8);
    let length = random.between(1, 4);
    formula.extend(exact(random, length, k, binders + 1, 0));
    formula.extend(goes_on(random, k, binders + 1));
    formula
}

/// What stands in such a fixpoint: AX or EX of a variable, two such, one with a proposition, or a fixpoint again.
fn goes_on(random: &mut Random, k: usize, binders: usize) -> Vec<u8> {
    match random.below(6) {
        0 if binders < MOST_BINDERS => fixpoint(random, k, binders),
        1..=2 => {
            let mut formula = vec![random.between(5, 6) as u8];
            formula.extend(goes_on(random, k, binders));
            formula.extend(goes_on(random, k, binders));
            formula
        }
        3 => {
            let mut formula = vec![random.between(5, 6) as u8];
            formula.extend(exact(random, 2, k, binders, 0));
            formula.extend(next_of_variable(random, binders));
            formula
        }
        _ => next_of_variable(random, binders),
    }
}

fn next_of_variable(random: &mut Random, binders: usize) -> Vec<u8> {
    let next = random.between(7, 8) as u8;
    vec![next, VARIABLE, random.below(binders) as u8]
}

/// A least fixpoint in a greatest one or the other way round, which are valued wrongly if the inner one is not begun anew each time.
fn alternating(random: &mut Random, k: usize) -> Vec<u8> {
    let (outer, inner) = random.pick(&[(9, 10), (10, 9)]);
    let (combine, within) = random.pick(&[(5, 6), (6, 5)]);
    let mut formula = vec![outer, inner, combine, within];
    formula.extend(exact(random, 2, k, 0, 0));
    formula.extend([random.between(7, 8) as u8, VARIABLE, 1]);
    formula.extend([random.between(7, 8) as u8, VARIABLE, 0]);
    formula
}

/// A formula of `length` bytes in which many AX stand one within another, with EX, fixpoints and short sides of or and and between them.
fn nested(random: &mut Random, length: usize, k: usize, binders: usize) -> Vec<u8> {
    if length < 6 {
        return exact(random, length, k, binders, 0);
    }
    match random.below(10) {
        0 => [vec![EX], nested(random, length - 1, k, binders)].concat(),
        1 if binders < MOST_BINDERS => {
            let fixpoint = vec![random.between(9, 10) as u8];
            [fixpoint, nested(random, length - 1, k, binders + 1)].concat()
        }
        2..=3 => {
            let length_beside = random.between(1, 3);
            let beside = exact(random, length_beside, k, binders, 0);
            let deep = nested(random, length - 1 - length_beside, k, binders);
            let either = vec![random.between(5, 6) as u8];
            match random.one_in(2) {
                true => [either, beside, deep].concat(),
                false => [either, deep, beside].concat(),
            }
        }
        _ => [vec![AX], nested(random, length - 1, k, binders)].concat(),
    }
}

/// Such a formula of at most `longest` bytes, or as many AX as these allow.
fn nested_up_to(random: &mut Random, k: usize, longest: usize) -> Vec<u8> {
    match random.below(3) {
        0 => [vec![AX; longest - 1], vec![random.below(2) as u8]].concat(),
        1 => nested(random, longest, k, 0),
        _ => {
            let length = random.between(6, longest);
            nested(random, length, k, 0)
        }
    }
}

/// A closed formula of at most `longest` bytes, 20 or more.
pub fn random(random: &mut Random, k: usize, longest: usize) -> Vec<u8> {
    if random.one_in(8) {
        return alternating(random, k);
    }
    if random.one_in(12) {
        return nested_up_to(random, k, longest);
    }
    if random.one_in(2) {
        let formula = fixpoint(random, k, 0);
        if formula.len() <= longest {
            return formula;
        }
    }
    let length = match random.below(4) {
        0 => random.between(1, longest),
        _ => random.between(1, 14),
    };
    let more = random.between(0, MOST_BINDERS);
    exact(random, length, k, 0, more)
}

/// A formula with a rule broken by little, or just kept: whether it is refused is not assumed.
pub fn damaged(random: &mut Random, k: usize) -> Vec<u8> {
    match random.below(10) {
        0 => exact(random, 256, k, 0, 1),
        1 => exact(random, 255, k, 0, 1),
        2 => nested_binders(random, k),
        3 => unbound(random),
        4 => vec![
            7,
            PROPOSITION + random.below(2) as u8,
            random.pick(&[k, k + 1, 255]) as u8,
        ],
        5 => with_code_over_ten(random, k),
        6 => too_long(random, k),
        7 => cut(random, k),
        8 => any_codes(random),
        _ => with_changed_byte(random, k),
    }
}

/// Three or four binders nested, or more, perhaps with AX between them.
fn nested_binders(random: &mut Random, k: usize) -> Vec<u8> {
    let binders = random.pick(&[3, 4, 4, 5]);
    let mut formula = Vec::new();
    for _ in 0..binders {
        formula.push(random.between(9, 10) as u8);
        if random.one_in(3) {
            formula.push(7);
        }
    }
    let length = random.between(1, 4);
    formula.extend(exact(random, length, k, binders, 0));
    formula
}

/// A variable for the binder just outside of all, or further out; or for the last one there is.
fn unbound(random: &mut Random) -> Vec<u8> {
    let binders = random.below(MOST_BINDERS + 1);
    let mut formula = vec![random.between(9, 10) as u8; binders];
    formula.extend([
        VARIABLE,
        random.pick(&[binders, binders, binders.max(1) - 1, 3, 255]) as u8,
    ]);
    if random.one_in(3) {
        // The variable stands beside the binders and not within them.
        formula = [vec![5, 9, VARIABLE, 0], formula].concat();
    }
    formula
}

fn with_code_over_ten(random: &mut Random, k: usize) -> Vec<u8> {
    let mut formula = random_short(random, k);
    let code = random.pick(&[11, 11, 12, 128, 255]);
    let place = random.below(formula.len());
    formula[place] = code;
    formula
}

fn too_long(random: &mut Random, k: usize) -> Vec<u8> {
    let mut formula = random_short(random, k);
    formula.push(random.below(11) as u8);
    formula
}

fn cut(random: &mut Random, k: usize) -> Vec<u8> {
    let mut formula = random_short(random, k);
    if formula.len() > 1 {
        formula.pop();
    } else {
        formula[0] = random.between(2, 10) as u8;
    }
    formula
}

fn with_changed_byte(random: &mut Random, k: usize) -> Vec<u8> {
    let mut formula = random_short(random, k);
    let place = random.below(formula.len());
    formula[place] = random.below(13) as u8;
    formula
}

fn random_short(random: &mut Random, k: usize) -> Vec<u8> {
    self::random(random, k, 20)
}

/// A few codes in any order.
fn any_codes(random: &mut Random) -> Vec<u8> {
    let length = random.between(1, 8);
    (0..length).map(|_| random.below(11) as u8).collect()
}
