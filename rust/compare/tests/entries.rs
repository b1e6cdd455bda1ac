//! The work on single entries: their elements and how many pairs were looked at, by both implementations and by `compare::work`, for all
//! pairs of numbers of states at which the proved code may take another way, for few transitions and many, over several lattices, at
//! round 0, some rounds later, and for tables of any content.

use compare::calls::Call;
use compare::comparison::Pair;
use compare::counts::Counts;
use compare::densities::{Drawn, DENSITIES};
use compare::desks::{self, Desk, STORE_LENGTH, TABLE_LENGTH};
use compare::generator::Random;
use compare::lattices::{self, Lattice};
use compare::models;
use compare::work::{Worker, KINDS};
use second::Reply;
use std::collections::BTreeMap;
use std::io::Write;

/// Numbers of states: the ends of blocks of 16 words, numbers beside them, small ones, and the greatest.
const STATES: [usize; 14] = [1, 2, 3, 4, 5, 8, 15, 16, 17, 18, 31, 33, 63, 64];

/// Numbers of states over a lattice of 64 elements, for which the second implementation takes milliseconds an entry.
const FEW_STATES: [usize; 4] = [1, 3, 4, 5];

/// Of a table with more entries some are taken.
const ALL_ENTRIES: usize = 150;
const SOME_ENTRIES: usize = 20;

/// N1 up to which models are counted as small: a step of the proved code then keeps the table's codes in less room.
const SMALL: usize = 16;

/// How often each kind was met, for models 1 that are small and for others.
#[derive(Default)]
struct Met {
    entries: u64,
    kinds: BTreeMap<(&'static str, bool), u64>,
}

impl Met {
    fn add(&mut self, states1: usize, kinds: &[&'static str]) {
        self.entries += 1;
        for &kind in kinds {
            *self.kinds.entry((kind, states1 <= SMALL)).or_default() += 1;
        }
    }

    /// How often a kind was met with small models 1 and with others.
    fn times(&self, kind: &'static str) -> [u64; 2] {
        [true, false].map(|small| self.kinds.get(&(kind, small)).copied().unwrap_or(0))
    }

    /// A line for each kind.
    fn lines(&self) -> String {
        let line = |&kind: &&'static str| {
            let [small, large] = self.times(kind);
            format!("{kind}: {small} with N1 at most {SMALL}, {large} above\n")
        };
        KINDS.iter().map(line).collect()
    }
}

/// Two states of each entry that is compared: all entries, or the corners of the table and some others.
fn entries(random: &mut Random, [states1, states2]: [usize; 2]) -> Vec<(usize, usize)> {
    let all = (0..states1).flat_map(|q1| (0..states2).map(move |q2| (q1, q2)));
    if states1 * states2 <= ALL_ENTRIES {
        return all.collect();
    }
    let (last1, last2) = (states1 - 1, states2 - 1);
    let corners = [(0, 0), (0, last2), (last1, 0), (last1, last2)];
    let others = (0..SOME_ENTRIES).map(|_| (random.below(states1), random.below(states2)));
    corners.into_iter().chain(others).collect()
}

/// Compares entries of the desk's table; none may alter the desk.
fn compare_entries(random: &mut Random, pair: &mut Pair, case: &Drawn, met: &mut Met) {
    let worker = Worker::new(case);
    let states = case.models.each_ref().map(|model| model.states);
    let desk = pair.desk().clone();
    let table = &desk.whole()[..states[0] * states[1]];
    for (q1, q2) in entries(random, states) {
        let work = worker.work(table, q1, q2);
        let call = Call::Entry {
            q1: q1 as u8,
            q2: q2 as u8,
        };
        let expected = Reply::WorkedEntry {
            element: work.element,
            pairs: work.pairs as u32,
        };
        let reply = pair.call(call);
        assert_eq!(reply, Ok(expected), "({q1}, {q2}) of {states:?}: {work:?}");
        met.add(states[0], &work.met);
    }
    assert!(pair.desk() == &desk, "the desk is altered");
}

/// The desk some rounds later, with some rows of the next round worked.
fn later(random: &mut Random, desk: &Desk) -> Desk {
    let mut desk = desk.clone();
    for _ in 0..random.between(1, 3) {
        desk.lent_mut().finish_round().expect("a desk as opened");
    }
    for _ in 0..random.below(usize::from(desk.standing.states1)) {
        desk.lent_mut().step().expect("a desk as opened");
    }
    desk
}

/// The desk with any elements in both tables.
fn any_tables(random: &mut Random, desk: &Desk, lattice: &Lattice) -> Desk {
    let mut desk = desk.clone();
    for second in [false, true] {
        for entry in desk.table(second) {
            *entry = models::element(random, lattice);
        }
    }
    desk
}

/// Compares entries at round 0, some rounds later, and with any tables.
fn compare_case(random: &mut Random, pair: &mut Pair, case: &Drawn, met: &mut Met) {
    let opened = pair.call(Call::Open(case.bytes()));
    assert_eq!(opened, Ok(Reply::Opened));
    compare_entries(random, pair, case, met);
    let later = later(random, pair.desk());
    pair.put(later);
    compare_entries(random, pair, case, met);
    let any = any_tables(random, pair.desk(), &case.lattice);
    pair.put(any);
    compare_entries(random, pair, case, met);
}

#[test]
fn entries_agree() {
    let (mut counts, mut met) = (Counts::default(), Met::default());
    let mut pair = Pair::new(desks::zeroed(), &mut counts, false);
    let mut number = 0;
    for states in STATES
        .map(|first| STATES.map(|second| [first, second]))
        .concat()
    {
        for density in DENSITIES {
            let random = &mut Random::new(number as u64);
            let lattice = lattices::of_sort(random, number);
            let case = Drawn::new(random, lattice, density, states);
            compare_case(random, &mut pair, &case, &mut met);
            number += 1;
        }
    }
    for states in FEW_STATES
        .map(|first| FEW_STATES.map(|second| [first, second]))
        .concat()
    {
        let random = &mut Random::new(number as u64);
        let lattice = lattices::of_64(random);
        let case = Drawn::new(random, lattice, DENSITIES[number % 4], states);
        compare_case(random, &mut pair, &case, &mut met);
        number += 1;
    }
    let text = format!("\nentries compared: {}\n{}", met.entries, met.lines());
    std::io::stdout()
        .write_all(text.as_bytes())
        .expect("standard output");
    let missing: Vec<_> = KINDS
        .iter()
        .filter(|kind| met.times(kind).contains(&0))
        .collect();
    assert!(missing.is_empty(), "never met: {missing:?}");
}

/// Both implementations refuse an entry so, and the desk is unchanged.
fn assert_refused(pair: &mut Pair, (q1, q2): (u8, u8), number: u8) {
    let before = pair.desk().clone();
    let reply = pair.call(Call::Entry { q1, q2 });
    let part = 255;
    assert_eq!(reply, Ok(Reply::Refused { number, part }), "({q1}, {q2})");
    assert!(pair.desk() == &before, "the desk is altered");
}

#[test]
fn refused_entries_agree_and_alter_nothing() {
    let mut counts = Counts::default();
    let random = &mut Random::new(0);
    let mut pair = Pair::new(desks::zeroed(), &mut counts, false);
    // A desk of zeros.
    assert_refused(&mut pair, (0, 0), 12);
    for states in [[1, 1], [3, 5], [5, 3], [16, 17], [17, 16], [64, 64]] {
        let case = Drawn::new(random, lattices::chain(3), DENSITIES[1], states);
        assert_eq!(pair.call(Call::Open(case.bytes())), Ok(Reply::Opened));
        let desk = later(random, pair.desk());
        pair.put(desk.clone());
        let [states1, states2] = states.map(|states| states as u8);
        for q in [0, states2 - 1, states2, 255] {
            assert_refused(&mut pair, (states1, q), 13);
            assert_refused(&mut pair, (255, q), 13);
        }
        for q in [0, states1 - 1] {
            assert_refused(&mut pair, (q, states2), 13);
            assert_refused(&mut pair, (q, 255), 13);
        }
        let mut refused = |alter: fn(&mut Desk), number| {
            let mut altered = desk.clone();
            alter(&mut altered);
            pair.put(altered);
            // Also where 13 would apply.
            assert_refused(&mut pair, (0, 0), number);
            assert_refused(&mut pair, (255, 255), number);
        };
        refused(|desk| desk.store.truncate(STORE_LENGTH - 1), 11);
        refused(|desk| desk.first.truncate(TABLE_LENGTH - 1), 11);
        refused(|desk| desk.second.truncate(TABLE_LENGTH - 1), 11);
        refused(|desk| desk.standing.states1 += 1, 12);
        refused(|desk| desk.standing.row = desk.standing.states1, 12);
        refused(|desk| desk.standing.round = u32::MAX, 12);
        refused(|desk| desk.first[0] = 3, 12);
        refused(|desk| desk.second[0] = 3, 12);
        refused(|desk| desk.store[0] = 2, 12);
        pair.put(desk.clone());
    }
}
