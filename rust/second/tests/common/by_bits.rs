//! Cases of two small models whose rounds are worked by bits and not by the second implementation.

use super::sets::Sets;
use super::{Desk, Numbers};

/// How many entries of two tables differ.
pub fn differing(table: &[u8], other: &[u8]) -> u32 {
    let both = table.iter().zip(other);
    both.filter(|(entry, other)| entry != other).count() as u32
}

/// Two models of one proposition.
#[derive(Debug)]
pub struct Case<'a> {
    pub sets: &'a Sets,
    models: [Vec<u8>; 2],
}

impl<'a> Case<'a> {
    pub fn random(sets: &'a Sets, numbers: &mut Numbers) -> Case<'a> {
        let models = [(); 2].map(|()| sets.random_model(numbers));
        Case { sets, models }
    }

    pub fn desk(&self) -> Desk {
        Desk::opened(&[&self.sets.part(), &self.models[0], &self.models[1]])
    }

    /// N1 and N2.
    pub fn states(&self) -> [usize; 2] {
        [0, 1].map(|model| usize::from(self.models[model][0]))
    }

    pub fn entries(&self) -> usize {
        self.states()[0] * self.states()[1]
    }

    /// The greatest count that refusal 12 lets pass.
    pub fn limit(&self) -> u32 {
        self.entries() as u32 * u32::from(self.sets.size() - 1)
    }

    /// The proposition at a state of model 1 or 2, given by 0 or 1.
    fn label(&self, model: usize, state: usize) -> u8 {
        self.models[model][2 + self.states()[model] + state]
    }

    fn transition(&self, model: usize, from: usize, to: usize) -> u8 {
        let states = self.states()[model];
        self.models[model][2 + 2 * states + from * states + to]
    }

    /// "the meet of p1 ↔ p2 over all propositions and, over all q1', of R1(q1, q1') → the join over q2' of R2(q2, q2') met with S(q1', q2')".
    fn entry(&self, table: &[u8], q1: usize, q2: usize) -> u8 {
        let sets = self.sets;
        let [states1, states2] = self.states();
        let (p1, p2) = (self.label(0, q1), self.label(1, q2));
        let mut meet = sets.meet(sets.implies(p1, p2), sets.implies(p2, p1));
        for to1 in 0..states1 {
            let pairs = (0..states2).map(|to2| {
                let entry = table[to1 * states2 + to2];
                sets.meet(self.transition(1, q2, to2), entry)
            });
            let join = sets.join_over(&pairs.collect::<Vec<u8>>());
            meet = sets.meet(meet, sets.implies(self.transition(0, q1, to1), join));
        }
        meet
    }

    /// Row q1 of F of a table.
    pub fn row(&self, table: &[u8], q1: usize) -> Vec<u8> {
        let columns = 0..self.states()[1];
        columns.map(|q2| self.entry(table, q1, q2)).collect()
    }

    /// The tables of rounds 0 to T.
    pub fn rounds(&self) -> Vec<Vec<u8>> {
        let mut tables = vec![vec![self.sets.top(); self.entries()]];
        loop {
            let last = &tables[tables.len() - 1];
            let rows = (0..self.states()[0]).map(|q1| self.row(last, q1));
            let next = rows.collect::<Vec<_>>().concat();
            let settled = next == *last;
            tables.push(next);
            if settled {
                return tables;
            }
        }
    }
}
