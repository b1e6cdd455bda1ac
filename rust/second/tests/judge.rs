//! Request 104: judge says yes of exactly the sound tables. Every table of two models of two states, over small lattices whose order is or
//! is not that of the numbers, and what follows for those that pass: they lie at or below the settled table and keep the bound.

mod common;

use common::sets::{Sets, LATTICES};
use common::{element, lattice, Desk, Numbers, L3, LOOP, STILL};
use second::Reply;

/// Formulas without EX: p, not-p, AX p, AX (p or AX not-p), p always, and not-p some time.
const UNIVERSAL: [&[u8]; 6] = [
    &[2, 0],
    &[3, 0],
    &[7, 2, 0],
    &[7, 5, 2, 0, 7, 3, 0],
    &[10, 6, 2, 0, 7, 4, 0],
    &[9, 5, 3, 0, 7, 4, 0],
];

impl Sets {
    fn all_at_most(&self, table: &[u8], other: &[u8]) -> bool {
        table.iter().zip(other).all(|(&a, &b)| self.at_most(a, b))
    }

    /// A desk of two random models of two states, with the universal formulas.
    fn desk(&self, numbers: &mut Numbers) -> Desk {
        let n = u64::from(self.size());
        let (lattice, model1, model2) =
            (self.part(), numbers.model(2, 1, n), numbers.model(2, 1, n));
        let mut parts = vec![&lattice[..], &model1, &model2];
        parts.extend(UNIVERSAL);
        Desk::opened(&parts)
    }

    /// All tables of four entries.
    fn tables(&self) -> impl Iterator<Item = [u8; 4]> {
        let n = u32::from(self.size());
        (0..n.pow(4)).map(move |number| [0, 1, 2, 3].map(|entry| (number / n.pow(entry) % n) as u8))
    }

    /// The greatest table that keeps the bound for a formula: 'not the value in model 2, joined with the value in model 1'.
    fn bound(&self, desk: &Desk, formula: u8) -> [u8; 4] {
        let value = |model, state| element(desk.value(formula, model, state));
        [(0, 0), (0, 1), (1, 0), (1, 1)].map(|(q1, q2)| self.implies(value(2, q2), value(1, q1)))
    }
}

/// Whether judge says yes.
fn passes(desk: &Desk, table: &[u8]) -> bool {
    match desk.judge(table) {
        Reply::Says(yes) => yes,
        other => panic!("judge answered {other:?}"),
    }
}

/// The tables of rounds 0 to T; the desk is then settled.
fn rounds(desk: &mut Desk) -> Vec<Vec<u8>> {
    let mut tables = vec![desk.show()];
    while !desk.standing.settled {
        if !matches!(desk.accepted_step(), Reply::Row { .. }) {
            tables.push(desk.show());
        }
    }
    tables
}

#[test]
fn what_passes_on_worked_examples() {
    let model: &[u8] = &[1, 1, 2, 1, 0];
    let one = Desk::opened(&[L3, model, model]);
    assert_eq!([0, 1, 2].map(|e| passes(&one, &[e])), [true, true, false]);
    // Example 3: the greatest entry is 1.
    let three = Desk::opened(&[L3, LOOP, STILL]);
    assert_eq!([0, 1, 2].map(|e| passes(&three, &[e])), [true, true, false]);
    // A loop against a loop of the same value: F sends every table to itself.
    let whole: &[u8] = &[1, 0, 2, 2];
    let loops = Desk::opened(&[L3, whole, whole]);
    assert_eq!([0, 1, 2].map(|e| passes(&loops, &[e])), [true; 3]);
}

/// With p = {0} in both models F is {0} whatever the table, since the complement keeps {0} and {1}; {1} is not in order with it.
#[test]
fn elements_not_in_order_do_not_pass() {
    let complement = |e: u8| [3, 1, 2, 0][usize::from(e)];
    let subsets = lattice(4, complement, |i, j| i & !j == 0);
    let model: &[u8] = &[1, 1, 3, 1, 0];
    let desk = Desk::opened(&[&subsets, model, model]);
    assert_eq!(desk.f_of(&[3]), Some(vec![1]));
    let passing = [true, true, false, false];
    assert_eq!([0, 1, 2, 3].map(|e| passes(&desk, &[e])), passing);
    // The order the other way round: F is 2, and 1, whose number is smaller, is not in order with it.
    let reversed = lattice(4, complement, |i, j| j & !i == 0);
    let model: &[u8] = &[1, 1, 0, 2, 0];
    let desk = Desk::opened(&[&reversed, model, model]);
    assert_eq!(desk.f_of(&[0]), Some(vec![2]));
    let passing = [false, false, true, true];
    assert_eq!([0, 1, 2, 3].map(|e| passes(&desk, &[e])), passing);
}

/// What was met among the tables of a lattice.
#[derive(Default)]
struct Met {
    tight: u32,
    /// Sound and not tight.
    not_tight: u32,
    /// With an entry that is too high.
    unsound: u32,
}

impl Met {
    /// Judges every table of a desk.
    fn all_tables(&mut self, sets: &Sets, desk: &Desk, greatest: &[u8]) {
        let bounds: Vec<[u8; 4]> = (0..UNIVERSAL.len() as u8)
            .map(|formula| sets.bound(desk, formula))
            .collect();
        for table in sets.tables() {
            let f = desk.f_of(&table).expect("a table of elements");
            let sound = sets.all_at_most(&table, &f);
            assert_eq!(passes(desk, &table), sound, "{table:?}, F of it {f:?}");
            let met = match sound {
                false => &mut self.unsound,
                true if f == table => &mut self.tight,
                true => &mut self.not_tight,
            };
            *met += 1;
            if sound {
                assert!(
                    sets.all_at_most(&table, greatest),
                    "{table:?}, {greatest:?}"
                );
                for (bound, formula) in bounds.iter().zip(UNIVERSAL) {
                    assert!(sets.all_at_most(&table, bound), "{table:?}, {formula:?}");
                }
            }
        }
    }
}

#[test]
fn every_small_table() {
    for (number, sets) in LATTICES.iter().enumerate() {
        let mut numbers = Numbers(88_172_645_463_325_252 + number as u64);
        let mut met = Met::default();
        for _ in 0..40 {
            let mut desk = sets.desk(&mut numbers);
            let rounds = rounds(&mut desk);
            met.all_tables(sets, &desk, &rounds[rounds.len() - 1]);
        }
        let Met {
            tight,
            not_tight,
            unsound,
        } = met;
        assert!(tight > 40 && not_tight > 100 && unsound > 100, "{number}");
    }
}

/// Round r passes exactly when r is at least T - 1; the settled table also met with any one element; the table that is all bottom always.
#[test]
fn rounds_and_meets_of_the_settled_table() {
    for sets in &LATTICES {
        let mut numbers = Numbers(2_463_534_242 + u64::from(sets.size()));
        let mut early = 0;
        for _ in 0..60 {
            let mut desk = sets.desk(&mut numbers);
            let rounds = rounds(&mut desk);
            let last = rounds.len() - 1;
            for (r, table) in rounds.iter().enumerate() {
                assert_eq!(passes(&desk, table), r + 1 >= last, "round {r} of {last}");
                early += u32::from(r + 1 < last);
            }
            for element in 0..sets.size() {
                let met = rounds[last].iter().map(|&e| sets.meet(e, element));
                assert!(passes(&desk, &met.collect::<Vec<u8>>()));
            }
            assert!(passes(&desk, &[sets.bottom(); 4]));
        }
        assert!(early > 20);
    }
}
