//! Calls on desks and cases with bytes and fields altered at random: none panics, and a refusal alters nothing.

mod common;

use common::{case, spread, Desk, Numbers, L2, L3};
use second::Reply;

/// A number near the places where rules change, or any byte.
fn odd(numbers: &mut Numbers) -> u8 {
    let near = [0, 1, 2, 3, 4, 16, 17, 27, 63, 64, 65, 254, 255];
    match numbers.below(3) {
        0 => numbers.byte(256),
        _ => near[numbers.below(near.len() as u64) as usize],
    }
}

/// Small parts of a case.
fn small(numbers: &mut Numbers) -> Vec<Vec<u8>> {
    let (lattice, n) = [(L2, 2), (L3, 3), (&[0][..], 27)][numbers.below(3) as usize];
    let (size1, size2) = (1 + numbers.byte(3), 1 + numbers.byte(3));
    let (model1, model2) = (numbers.model(size1, 1, n), numbers.model(size2, 1, n));
    let formulas: [&[u8]; 2] = [&[9, 5, 2, 0, 7, 4, 0], &[10, 9, 6, 8, 4, 1, 5, 3, 0, 4, 0]];
    let [formula1, formula2] = formulas.map(<[u8]>::to_vec);
    vec![lattice.to_vec(), model1, model2, formula1, formula2]
}

/// The parts as `case` and `spread` take them.
fn lent(parts: &[Vec<u8>]) -> Vec<&[u8]> {
    parts.iter().map(Vec::as_slice).collect()
}

/// Lays the case of the parts into the store, with gaps between them.
fn lay(desk: &mut Desk, parts: &[Vec<u8>], numbers: &mut Numbers) {
    let gaps = [0; 5].map(|_: usize| numbers.below(4) as usize);
    let bytes = spread(&lent(parts), &gaps);
    desk.store[..bytes.len()].copy_from_slice(&bytes);
}

/// Alters a byte of the case's part of the store, of a table, or a field of the standing.
fn alter(desk: &mut Desk, length: usize, numbers: &mut Numbers) {
    let byte = odd(numbers);
    let entry = numbers.below(10) as usize;
    match numbers.below(11) {
        0..=3 => desk.store[numbers.below(length as u64) as usize] = byte,
        4 => desk.first[entry] = byte,
        5 => desk.second[entry] = byte,
        6 => desk.standing.row = byte % 4,
        7 => desk.standing.round = numbers.below(1 << 32) as u32 >> numbers.below(32),
        8 => desk.standing.settled ^= true,
        9 => desk.standing.lowerings = numbers.below(1 << 32) as u32 >> numbers.below(32),
        _ => desk.standing.changed ^= true,
    }
}

fn refused(number: u8) -> Reply {
    Reply::Refused { number, part: 255 }
}

/// Writes the desk's case into a buffer of any length and content. A refusal writes nothing; what is written opens, and is written again
/// by the desk so opened.
fn write(desk: &Desk, numbers: &mut Numbers) -> Reply {
    let before: Vec<u8> = (0..numbers.below(140)).map(|_| numbers.byte(256)).collect();
    let mut out = before.clone();
    let answer = desk.write(&mut out);
    if let Reply::Length(length) = answer {
        assert_eq!(out[length..], before[length..]);
        let mut opened = Desk::any();
        assert_eq!(opened.open(&out[..length]), Reply::Opened);
        assert_eq!(opened.written(), out[..length]);
    } else {
        assert_eq!(out, before);
    }
    answer
}

/// The calls that do not alter the desk and the work on an entry, with any arguments. Gives what write answers.
fn ask(desk: &Desk, numbers: &mut Numbers) -> Reply {
    let (a, b, c) = (odd(numbers), odd(numbers) % 4, odd(numbers));
    let formula = a % 4;
    let table: Vec<u8> = (0..numbers.below(12)).map(|_| odd(numbers) % 4).collect();
    let shown = !desk.show().is_empty();
    let written = write(desk, numbers);
    for answer in [
        desk.value(formula, b, c % 4),
        desk.value(a, b, c),
        desk.whole(formula, b),
        desk.score(),
        desk.share(c),
        desk.judge(&table),
        written.clone(),
        desk.entry(b, c % 4),
        desk.entry(a, c),
    ] {
        assert_eq!(answer == refused(12), !shown);
    }
    let judged = matches!(desk.judge(&table), Reply::Says(_));
    assert_eq!(desk.f_of(&table).is_some(), judged);
    written
}

#[test]
fn altered_desks() {
    let mut numbers = Numbers(6_148_914_691_236_517_205);
    let (mut accepted, mut broken, mut written, mut short) = (0, 0, 0, 0);
    for _ in 0..1_500 {
        let parts = small(&mut numbers);
        let bytes = case(&lent(&parts));
        let mut desk = Desk::any();
        assert_eq!(desk.open(&bytes), Reply::Opened);
        for _ in 0..numbers.below(4) {
            desk.step();
        }
        if numbers.below(2) == 0 {
            lay(&mut desk, &parts, &mut numbers);
            assert_eq!(desk.written(), bytes);
        }
        for _ in 0..numbers.below(3) {
            alter(&mut desk, bytes.len(), &mut numbers);
        }
        let answer = ask(&desk, &mut numbers);
        written += u32::from(matches!(answer, Reply::Length(_)));
        short += u32::from(answer == refused(14));
        let before = desk.clone();
        if matches!(desk.step(), Reply::Refused { .. }) {
            assert_eq!(desk, before);
            broken += 1;
        } else {
            ask(&desk, &mut numbers);
            accepted += 1;
        }
    }
    assert!(accepted > 250 && broken > 250 && written > 250 && short > 250);
}

#[test]
fn altered_cases() {
    let mut numbers = Numbers(1_311_768_467_463_790_320);
    let mut seen = [0; 11];
    for _ in 0..8_000 {
        let mut bytes = case(&lent(&small(&mut numbers)));
        for _ in 0..1 + numbers.below(2) {
            let at = numbers.below(bytes.len() as u64) as usize;
            bytes[at] = odd(&mut numbers);
        }
        if numbers.below(8) == 0 {
            bytes.truncate(numbers.below(1 + bytes.len() as u64) as usize);
        }
        let mut desk = Desk::any();
        match desk.open(&bytes) {
            Reply::Refused { number, .. } => {
                assert_eq!(desk, Desk::any());
                seen[usize::from(number)] += 1;
            }
            _ => seen[0] += 1,
        }
    }
    // Number 7 needs five elements; every other outcome comes up.
    for (number, times) in seen.iter().enumerate() {
        assert_eq!(*times > 0, number != 7, "number {number}: {times}");
    }
}
