//! What a case holds at most: with just so many it is accepted, with one more refused.

use crate::cases::{case, L2};
use koelchair::{Desk, Refusal};

/// A chain of so many elements.
pub fn chain(n: usize) -> Vec<u8> {
    let mut part = vec![n as u8];
    part.extend((0..n).rev().map(|e| e as u8));
    part.extend((0..n * n).map(|i| u8::from(i / n <= i % n)));
    part
}

/// A model of so many states and propositions, all of whose values are 0.
pub fn model(states: usize, propositions: usize) -> Vec<u8> {
    let mut part = vec![states as u8, propositions as u8];
    part.resize(2 + states * (1 + propositions + states), 0);
    part
}

/// The formula `bytes` long that is top under so many AX.
pub fn formula(bytes: usize) -> Vec<u8> {
    let mut part = vec![7; bytes - 1];
    part.push(1);
    part
}

/// Top under so many least fixpoints.
fn binders(count: usize) -> Vec<u8> {
    let mut part = vec![9; count];
    part.push(1);
    part
}

/// What a case made with a size is refused with, at the most of that size and with one more.
fn at_and_beyond(most: usize, made: impl Fn(usize) -> Vec<u8>, beyond: Refusal) {
    let opened = |size| Desk::open(&made(size)).map(drop);
    assert_eq!(opened(most), Ok(()), "{beyond:?}");
    assert_eq!(opened(most + 1), Err(beyond));
}

#[test]
fn at_most_so_many() {
    let small = model(1, 0);
    let elements = |n| case(&[&chain(n), &small, &small]);
    at_and_beyond(koelchair::ELEMENTS_MOST, elements, Refusal::LatticeForm);
    let states = |n| case(&[&L2, &model(n, 0), &small]);
    at_and_beyond(koelchair::STATES_MOST, states, Refusal::BadModel(1));
    let propositions = |k| case(&[&L2, &model(1, k), &model(1, k)]);
    at_and_beyond(
        koelchair::PROPOSITIONS_MOST,
        propositions,
        Refusal::BadModel(1),
    );
    let formulas = |count| {
        let mut parts: Vec<&[u8]> = vec![&L2, &small, &small];
        parts.resize(3 + count, &[1]);
        case(&parts)
    };
    at_and_beyond(koelchair::FORMULAS_MOST, formulas, Refusal::Directory);
    let length = |bytes| case(&[&L2, &small, &small, &formula(bytes)]);
    at_and_beyond(koelchair::FORMULA_MOST, length, Refusal::BadFormula(3));
    let nested = |count| case(&[&L2, &small, &small, &binders(count)]);
    at_and_beyond(koelchair::BINDERS_MOST, nested, Refusal::BadFormula(3));
    let long = |bytes| {
        let mut bytes_of = case(&[&L2, &small, &small]);
        bytes_of.resize(bytes, 0);
        bytes_of
    };
    at_and_beyond(koelchair::CASE_MOST, long, Refusal::CaseSize);
}
