//! Random distributive De Morgan lattices: products of chains, power sets, down-sets of a poset with an order-reversing involution, and
//! the panel, with their elements renumbered. Rests on generator.

use crate::generator::Random;

/// An order on the numbers below `size`, and a complement. The functions of this file that are named after lattices make real ones.
#[derive(Clone, Debug)]
pub struct Lattice {
    pub size: usize,
    pub complement: Vec<usize>,
    /// Place i * size + j says whether i is at or below j.
    pub order: Vec<bool>,
}

impl Lattice {
    pub fn new(
        size: usize,
        at_most: impl Fn(usize, usize) -> bool,
        complement: impl Fn(usize) -> usize,
    ) -> Lattice {
        Lattice {
            size,
            complement: (0..size).map(complement).collect(),
            order: (0..size * size)
                .map(|place| at_most(place / size, place % size))
                .collect(),
        }
    }

    pub fn at_most(&self, i: usize, j: usize) -> bool {
        self.order[i * self.size + j]
    }

    /// Whether i is at or below j and another element.
    pub fn below(&self, i: usize, j: usize) -> bool {
        i != j && self.at_most(i, j)
    }

    pub fn meet(&self, i: usize, j: usize) -> usize {
        greatest(self.size, |a, b| self.at_most(a, b), i, j)
    }

    pub fn join(&self, i: usize, j: usize) -> usize {
        greatest(self.size, |a, b| self.at_most(b, a), i, j)
    }

    pub fn set(&mut self, i: usize, j: usize, to: bool) {
        self.order[i * self.size + j] = to;
    }

    /// The greatest element, or 0 where there is none.
    pub fn top(&self) -> u8 {
        (0..self.size)
            .find(|&e| (0..self.size).all(|x| self.at_most(x, e)))
            .unwrap_or(0) as u8
    }

    /// The least element, or 0 where there is none.
    pub fn bottom(&self) -> u8 {
        (0..self.size)
            .find(|&e| (0..self.size).all(|x| self.at_most(e, x)))
            .unwrap_or(0) as u8
    }

    /// h, the elements of the longest chain.
    pub fn height(&self) -> usize {
        let below = |e| (0..self.size).filter(move |&other| self.below(other, e));
        let mut rising: Vec<usize> = (0..self.size).collect();
        rising.sort_by_key(|&e| below(e).count());
        let mut longest = vec![1; self.size];
        for e in rising {
            longest[e] = 1 + below(e).map(|other| longest[other]).max().unwrap_or(0);
        }
        longest.into_iter().max().expect("an element")
    }

    /// The same with other numbers.
    pub fn renumbered(&self, random: &mut Random) -> Lattice {
        let old = random.permutation(self.size);
        let mut new = vec![0; self.size];
        for (place, &element) in old.iter().enumerate() {
            new[element] = place;
        }
        Lattice::new(
            self.size,
            |i, j| self.at_most(old[i], old[j]),
            |i| new[self.complement[old[i]]],
        )
    }

    /// The pairs of this and another, in the order of both places.
    pub fn times(&self, other: &Lattice) -> Lattice {
        let n = other.size;
        Lattice::new(
            self.size * n,
            |i, j| self.at_most(i / n, j / n) && other.at_most(i % n, j % n),
            |i| self.complement[i / n] * n + other.complement[i % n],
        )
    }

    /// This with a new least and a new greatest element, which are each other's complements.
    pub fn bounded(&self) -> Lattice {
        let n = self.size;
        Lattice::new(
            n + 2,
            |i, j| i == n || j == n + 1 || (i < n && j < n && self.at_most(i, j)),
            |i| {
                if i == n {
                    n + 1
                } else if i == n + 1 {
                    n
                } else {
                    self.complement[i]
                }
            },
        )
    }

    /// The bytes of a lattice part.
    pub fn part(&self) -> Vec<u8> {
        let mut part = vec![self.size as u8];
        part.extend(self.complement.iter().map(|&e| e as u8));
        part.extend(self.order.iter().map(|&b| b as u8));
        part
    }
}

/// The lattice of a part that a case within the rules has.
pub fn of_part(part: &[u8]) -> Lattice {
    let n = usize::from(part[0]);
    if n == 0 {
        return panel();
    }
    let (complement, order) = part[1..].split_at(n);
    Lattice::new(
        n,
        |i, j| order[i * n + j] == 1,
        |i| usize::from(complement[i]),
    )
}

/// The greatest element that is at or below both i and j, in the order of a lattice or in that order reversed.
pub fn greatest(size: usize, at_most: impl Fn(usize, usize) -> bool, i: usize, j: usize) -> usize {
    let below_both = (0..size).filter(|&e| at_most(e, i) && at_most(e, j));
    let greater = |a, b| if at_most(a, b) { b } else { a };
    below_both.reduce(greater).expect("a lattice")
}

/// 0 below 1 below 2 and so on; the complement reverses it.
pub fn chain(size: usize) -> Lattice {
    Lattice::new(size, |i, j| i <= j, |i| size - 1 - i)
}

/// The panel: element 9a + 3b + c, and not-e is 26 - e.
pub fn panel() -> Lattice {
    chain(3).times(&chain(3)).times(&chain(3))
}

/// A product of chains. Where two of them are equal, the complement may exchange their places as well.
fn product_of_chains(random: &mut Random, most: usize) -> Lattice {
    let mut lattice = chain(random.between(1, most.min(4)));
    while lattice.size * 2 <= most && !random.one_in(3) {
        let size = random.between(2, (most / lattice.size).min(5));
        lattice = lattice.times(&chain(size));
        if lattice.size * size <= most && random.one_in(2) {
            lattice = lattice.times(&chain(size));
            exchange_last_two(&mut lattice, size);
        }
    }
    lattice
}

/// Makes the complement exchange the last two places, both of a chain of that size.
fn exchange_last_two(lattice: &mut Lattice, size: usize) {
    for e in &mut lattice.complement {
        let (before, x, y) = (*e / (size * size), *e / size % size, *e % size);
        *e = (before * size + y) * size + x;
    }
}

/// The subsets of `things` things; the complement is that of sets, after a permutation of the things that is its own inverse.
fn power_set(random: &mut Random, things: usize) -> Lattice {
    let to = random.involution(things);
    subsets(things, &to)
}

/// The subsets of `things` things; the complement is that of sets, after the permutation `to` of the things.
pub fn subsets(things: usize, to: &[usize]) -> Lattice {
    let all = (1usize << things) - 1;
    Lattice::new(1 << things, |i, j| i & !j == 0, |i| all & !image(i, to))
}

fn image(set: usize, to: &[usize]) -> usize {
    to.iter()
        .enumerate()
        .filter(|(thing, _)| set >> thing & 1 == 1)
        .map(|(_, &target)| 1 << target)
        .sum()
}

/// The down-sets of a random poset with an order-reversing involution g. The complement of D is the complement of g(D).
fn down_sets(random: &mut Random, most: usize) -> Lattice {
    loop {
        let points = random.between(1, 7);
        let to = random.involution(points);
        let below = symmetric_order(random, &to);
        let closed = |set: usize| (0..points).all(|j| set >> j & 1 == 0 || below[j] & !set == 0);
        let sets: Vec<usize> = (0..1 << points).filter(|&set| closed(set)).collect();
        if sets.len() <= most {
            let all = (1 << points) - 1;
            let number = |set: usize| sets.iter().position(|&s| s == set).expect("a down-set");
            return Lattice::new(
                sets.len(),
                |i, j| sets[i] & !sets[j] == 0,
                |i| number(all & !image(sets[i], &to)),
            );
        }
    }
}

/// For every point the set of the points below it, in an order that `to` reverses. Points have ranks, which `to` reverses too, and only a
/// point of lower rank stands below another.
fn symmetric_order(random: &mut Random, to: &[usize]) -> Vec<usize> {
    let points = to.len();
    let mut rank = vec![0isize; points];
    for i in 0..points {
        if i < to[i] {
            rank[i] = random.between(0, 4) as isize - 2;
            rank[to[i]] = -rank[i];
        }
    }
    let mut below = vec![0usize; points];
    for i in 0..points {
        for j in 0..points {
            if rank[i] < rank[j] && random.one_in(3) {
                below[j] |= 1 << i;
                below[to[i]] |= 1 << to[j];
            }
        }
    }
    close(&mut below);
    below
}

/// Adds to every point's set what stands below its members.
pub fn close(below: &mut [usize]) {
    let points = below.len();
    for middle in 0..points {
        for upper in 0..points {
            if below[upper] >> middle & 1 == 1 {
                below[upper] |= below[middle];
            }
        }
    }
}

/// A lattice of 64 elements.
pub fn of_64(random: &mut Random) -> Lattice {
    let lattice = match random.below(4) {
        0 => chain(64),
        1 => chain(4).times(&chain(4)).times(&chain(4)),
        2 => chain(8).times(&chain(8)),
        _ => power_set(random, 6),
    };
    lattice.renumbered(random)
}

/// A lattice of at most `most` elements (1 to 64).
pub fn random(random: &mut Random, most: usize) -> Lattice {
    let lattice = match random.weighted(&[2, 4, 3, 4, 1]) {
        0 => chain(random.between(1, most)),
        1 => product_of_chains(random, most),
        2 => {
            let things = random.between(0, most.ilog2() as usize);
            power_set(random, things)
        }
        3 => down_sets(random, most),
        _ if most >= 27 => panel(),
        _ => chain(random.between(1, most.min(3))),
    };
    if random.one_in(5) {
        lattice
    } else {
        lattice.renumbered(random)
    }
}

/// How many sorts [`of_sort`] has.
pub const SORTS: usize = 9;

/// Each sort of lattice in turn, and now and then its elements renumbered.
pub fn of_sort(random: &mut Random, number: usize) -> Lattice {
    let lattice = match number % SORTS {
        0 => chain(1),
        1 => chain(2),
        2 => chain(3),
        3 => chain(5),
        4 => panel(),
        5 => subsets(2, &[0, 1]),
        6 => subsets(3, &[2, 1, 0]),
        7 => subsets(4, &[0, 1, 2, 3]),
        _ => self::random(random, 12),
    };
    if random.one_in(2) {
        lattice.renumbered(random)
    } else {
        lattice
    }
}

#[cfg(test)]
mod tests {
    use super::*;

    #[test]
    fn longest_chains() {
        assert_eq!([1, 2, 64].map(|size| chain(size).height()), [1, 2, 64]);
        assert_eq!(subsets(3, &[2, 1, 0]).height(), 4);
        let random = &mut Random::new(1);
        assert_eq!(panel().renumbered(random).height(), 7);
    }
}
