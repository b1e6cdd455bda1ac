//! Orders and complements that are no distributive De Morgan lattices, each aimed at one of the refusals 5 to 8. What they are refused
//! with is not assumed: both implementations have to agree. Rests on generator and lattices.

use crate::generator::Random;
use crate::lattices::{chain, close, random as random_lattice, subsets, Lattice};

/// Aimed at 5: a pair is dropped from the order of a lattice, or added to it.
pub fn no_partial_order(random: &mut Random) -> Lattice {
    let mut lattice = random_lattice(random, 12);
    for _ in 0..random.between(1, 2) {
        let (i, j) = ordered_pair(random, &lattice);
        match random.below(4) {
            0 => lattice.set(i, i, false),
            1 => lattice.set(j, i, true),
            2 => lattice.set(i, j, false),
            _ => lattice.set(random.below(lattice.size), j, true),
        }
    }
    lattice
}

/// Two elements, the first below the second where such a pair is soon found.
fn ordered_pair(random: &mut Random, lattice: &Lattice) -> (usize, usize) {
    let n = lattice.size;
    let mut pair = (random.below(n), random.below(n));
    for _ in 0..20 {
        if pair.0 != pair.1 && lattice.at_most(pair.0, pair.1) {
            break;
        }
        pair = (random.below(n), random.below(n));
    }
    pair
}

/// Aimed at 5 and what follows it: any relation at all.
pub fn any_relation(random: &mut Random) -> Lattice {
    let n = random.between(1, 5);
    let order = (0..n * n).map(|_| random.one_in(2)).collect();
    let complement = (0..n).map(|_| random.below(n)).collect();
    Lattice {
        size: n,
        complement,
        order,
    }
}

/// Aimed at 6: a poset in which some two elements have no meet or no join.
pub fn no_meet_or_join(random: &mut Random) -> Lattice {
    let poset = match random.below(4) {
        0 => antichain(random.between(2, 4)),
        1 => two_over_two(),
        2 => without_an_end(random),
        _ => random_poset(random),
    };
    poset.renumbered(random)
}

fn antichain(size: usize) -> Lattice {
    Lattice::new(size, |i, j| i == j, |i| size - 1 - i)
}

/// Two elements, both below two others, with a least and a greatest one; the complement reverses this order.
fn two_over_two() -> Lattice {
    Lattice::new(4, |i, j| i == j || (i < 2 && j >= 2), |i| 3 - i).bounded()
}

/// The subsets of two or three things without the whole set, or without the empty one.
fn without_an_end(random: &mut Random) -> Lattice {
    let n = (1 << random.between(2, 3)) - 1;
    let from = random.below(2);
    Lattice::new(n, |i, j| (i + from) & !(j + from) == 0, |i| n - 1 - i)
}

fn random_poset(random: &mut Random) -> Lattice {
    let n = random.between(2, 9);
    let mut below: Vec<usize> = (0..n)
        .map(|j| random.word() as usize & ((1 << j) - 1))
        .collect();
    close(&mut below);
    Lattice::new(n, |i, j| i == j || below[j] >> i & 1 == 1, |i| n - 1 - i)
}

/// Aimed at 7: a lattice that is not distributive. Its complement mostly keeps the rules.
pub fn not_distributive(random: &mut Random) -> Lattice {
    let mut lattice = if random.one_in(2) {
        unordered_between(random)
    } else {
        pentagon()
    };
    if random.one_in(3) {
        lattice = lattice.times(&chain(random.between(2, 3)));
    }
    if random.one_in(4) {
        lattice = lattice.bounded();
    }
    if random.one_in(4) {
        lattice.complement = random.permutation(lattice.size);
    }
    lattice.renumbered(random)
}

/// Bottom, three or more unordered elements and top.
fn unordered_between(random: &mut Random) -> Lattice {
    let between = random.between(3, 5);
    let to = random.involution(between);
    Lattice::new(between, |i, j| i == j, |i| to[i]).bounded()
}

/// 0 below 1 on one side, 2 on the other, with a least and a greatest element.
fn pentagon() -> Lattice {
    Lattice::new(3, |i, j| i == j || (i == 0 && j == 1), |i| [1, 0, 2][i]).bounded()
}

/// Aimed at 8: the complement of a lattice is altered.
pub fn wrong_complement(random: &mut Random) -> Lattice {
    if random.one_in(4) {
        return turned_subsets(random);
    }
    let mut lattice = random_lattice(random, 12);
    let n = lattice.size;
    match random.below(5) {
        0 => lattice.complement[random.below(n)] = random.below(n),
        1 => lattice.complement.swap(random.below(n), random.below(n)),
        2 => lattice.complement = vec![random.below(n); n],
        3 => lattice.complement = random.involution(n),
        _ => lattice.complement = (0..n).collect(),
    }
    lattice
}

/// Sets whose complement is taken after a turn of three things: it reverses the order, and is not its own inverse.
fn turned_subsets(random: &mut Random) -> Lattice {
    subsets(3, &[1, 2, 0]).renumbered(random)
}
