//! Tables for judge (request 104): how each is made from the rounds of a case, what it is beside F of it, and what can come of what. A
//! table is sound when each entry is at or below that of F of it, and tight when it equals F of it; an entry that is not at or below F's is
//! too high. Rests on generator, lattices and desks.

use crate::desks::{Desk, STORE_LENGTH};
use crate::generator::Random;
use crate::lattices::Lattice;
use koelchair::StepAnswer;

/// How a table is made.
#[derive(Clone, Copy, Debug, PartialEq, Eq)]
pub enum Origin {
    AllBottom,
    AllTop,
    /// The table of a round below T - 1.
    EarlyRound,
    /// The greatest simulation.
    Greatest,
    /// The greatest simulation with one entry exchanged for an element below it.
    Lowered,
    /// The greatest simulation, each entry met with one element.
    Met,
    /// The greatest simulation with one entry exchanged for an element above it.
    Raised,
    /// The greatest simulation with one entry exchanged for an element that is not in order with it.
    NotInOrder,
    AnyElements,
}

/// All origins.
pub const ORIGINS: [Origin; 9] = [
    Origin::AllBottom,
    Origin::AllTop,
    Origin::EarlyRound,
    Origin::Greatest,
    Origin::Lowered,
    Origin::Met,
    Origin::Raised,
    Origin::NotInOrder,
    Origin::AnyElements,
];

/// What a table is beside F of it. Judge says yes of the first two.
#[derive(Clone, Copy, Debug, PartialEq, Eq)]
pub enum Soundness {
    Tight,
    SoundNotTight,
    TooHigh,
}

/// What can come of each origin, and as what it is counted.
const OUTCOMES: [(Origin, Soundness, &str); 16] = {
    use Origin::*;
    use Soundness::*;
    [
        (AllBottom, Tight, "judged, all bottom: tight"),
        (
            AllBottom,
            SoundNotTight,
            "judged, all bottom: sound, not tight",
        ),
        (AllTop, Tight, "judged, all top: tight"),
        (AllTop, TooHigh, "judged, all top: too high"),
        (EarlyRound, TooHigh, "judged, a round below T - 1: too high"),
        (Greatest, Tight, "judged, greatest simulation: tight"),
        (
            Lowered,
            Tight,
            "judged, greatest lowered at an entry: tight",
        ),
        (
            Lowered,
            SoundNotTight,
            "judged, greatest lowered at an entry: sound, not tight",
        ),
        (
            Lowered,
            TooHigh,
            "judged, greatest lowered at an entry: too high at others",
        ),
        (Met, Tight, "judged, greatest met with an element: tight"),
        (
            Met,
            SoundNotTight,
            "judged, greatest met with an element: sound, not tight",
        ),
        (
            Raised,
            TooHigh,
            "judged, greatest raised at an entry: too high",
        ),
        (
            NotInOrder,
            TooHigh,
            "judged, greatest out of order at an entry: too high",
        ),
        (AnyElements, Tight, "judged, any elements: tight"),
        (AnyElements, SoundNotTight, ANY_NOT_TIGHT),
        (AnyElements, TooHigh, "judged, any elements: too high"),
    ]
};
/// The one of these that a test asks for by its name.
pub const ANY_NOT_TIGHT: &str = "judged, any elements: sound, not tight";

const ONE_ABOVE: &str = "judged, one entry too high, above F's";
const ONE_OUT_OF_ORDER: &str = "judged, one entry too high, not in order with F's";
const SEVERAL: &str = "judged, several entries too high";
const FIRST_ENTRY: &str = "judged, of several entries the first alone too high";
const LAST_ENTRY: &str = "judged, of several entries the last alone too high";
const FIRST_ROW: &str = "judged, of several rows the first alone too high";
const LAST_ROW: &str = "judged, of several rows the last alone too high";
const NO_GREATER_NUMBER: &str = "judged, too high with no number above F's";
const GREATER_NUMBER: &str = "judged, sound with a number above F's";

/// Where a table is too high, and where numbers do not say what the order says.
const PLACES: [&str; 9] = [
    ONE_ABOVE,
    ONE_OUT_OF_ORDER,
    SEVERAL,
    FIRST_ENTRY,
    LAST_ENTRY,
    FIRST_ROW,
    LAST_ROW,
    NO_GREATER_NUMBER,
    GREATER_NUMBER,
];

/// All that can be counted of a judged table.
pub fn names() -> impl Iterator<Item = &'static str> {
    OUTCOMES.iter().map(|(_, _, name)| *name).chain(PLACES)
}

/// A table, and how it was made from the rounds of which case.
pub struct Judged {
    pub rounds: Rounds,
    pub origin: Origin,
    pub table: Vec<u8>,
}

/// The most rounds that are worked for the greatest simulation.
const MOST_ROUNDS: usize = 40;

/// The rounds of a case, from which tables are made.
#[derive(Clone)]
pub struct Rounds {
    lattice: Lattice,
    columns: usize,
    /// From round 0 on, to round T where it is not beyond the most.
    tables: Vec<Vec<u8>>,
    settled: bool,
}

impl Rounds {
    /// Those of the case in a desk's store, whatever its tables hold; nothing where the desk breaks a rule. The proved library works them.
    pub fn of(desk: &Desk) -> Option<Rounds> {
        if desk.lent().show().is_empty() {
            return None;
        }
        let case = &desk.store[..STORE_LENGTH];
        let mut working = koelchair::Desk::open(case).expect("the case of a desk");
        let mut tables = vec![working.show().to_vec()];
        let mut settled = false;
        while !settled && tables.len() <= MOST_ROUNDS {
            settled = matches!(working.finish_round(), StepAnswer::Settled { .. });
            tables.push(working.show().to_vec());
        }
        Some(Rounds {
            lattice: desk.lattice(),
            columns: usize::from(desk.standing.states2),
            tables,
            settled,
        })
    }

    /// A table of this origin; nothing where the case has none, or its greatest simulation is not at hand.
    pub fn table(&self, random: &mut Random, origin: Origin) -> Option<Vec<u8>> {
        let lattice = &self.lattice;
        let entries = self.tables[0].len();
        match origin {
            Origin::AllBottom => Some(vec![lattice.bottom(); entries]),
            Origin::AllTop => Some(vec![lattice.top(); entries]),
            Origin::EarlyRound => self.early_round(random),
            Origin::Greatest => self.greatest().map(<[u8]>::to_vec),
            Origin::Lowered => self.exchanged(random, |old, new| lattice.below(new, old)),
            Origin::Met => self.met(random),
            Origin::Raised => self.exchanged(random, |old, new| lattice.below(old, new)),
            Origin::NotInOrder => self.exchanged(random, |old, new| {
                !lattice.at_most(old, new) && !lattice.at_most(new, old)
            }),
            Origin::AnyElements => Some(
                (0..entries)
                    .map(|_| random.below(lattice.size) as u8)
                    .collect(),
            ),
        }
    }

    /// The table of round T, where that was worked.
    pub fn greatest(&self) -> Option<&[u8]> {
        let last = self.tables.last()?;
        self.settled.then_some(last)
    }

    /// Of tables of rounds 0 to T the last two are the greatest simulation; where T was not reached the last two are left out all the same.
    fn early_round(&self, random: &mut Random) -> Option<Vec<u8>> {
        let early = self.tables.len() - 2;
        (early > 0).then(|| self.tables[random.below(early)].clone())
    }

    fn met(&self, random: &mut Random) -> Option<Vec<u8>> {
        let element = random.below(self.lattice.size);
        let meet = |&entry: &u8| self.lattice.meet(entry.into(), element) as u8;
        Some(self.greatest()?.iter().map(meet).collect())
    }

    /// The greatest simulation with one entry exchanged for an element that fits it, often at the first entry or the last that has one.
    fn exchanged(
        &self,
        random: &mut Random,
        fits: impl Fn(usize, usize) -> bool,
    ) -> Option<Vec<u8>> {
        let mut table = self.greatest()?.to_vec();
        let entries = table.len();
        let any = random.below(entries);
        let from = random.pick(&[0, entries - 1, any, any]);
        let (place, new) = (from..from + entries).find_map(|place| {
            let old = usize::from(table[place % entries]);
            let fitting: Vec<usize> = (0..self.lattice.size).filter(|&e| fits(old, e)).collect();
            (!fitting.is_empty()).then(|| (place % entries, random.pick(&fitting)))
        })?;
        table[place] = new as u8;
        Some(table)
    }

    /// Whether each entry of a table is at or below that of another.
    pub fn at_most(&self, table: &[u8], other: &[u8]) -> bool {
        let mut entries = table.iter().zip(other);
        entries.all(|(&a, &b)| self.lattice.at_most(a.into(), b.into()))
    }

    /// What a table is beside F of it.
    pub fn soundness(&self, table: &[u8], f: &[u8]) -> Soundness {
        match self.at_most(table, f) {
            false => Soundness::TooHigh,
            true if table == f => Soundness::Tight,
            true => Soundness::SoundNotTight,
        }
    }

    /// Where a table is too high beside F of it, and whether the numbers say so.
    pub fn places(&self, table: &[u8], f: &[u8]) -> Vec<&'static str> {
        let at_most = |a: u8, b: u8| self.lattice.at_most(a.into(), b.into());
        let greater_number = table.iter().zip(f).any(|(entry, of_f)| entry > of_f);
        let last = table.len() - 1;
        let too_high: Vec<usize> = (0..=last)
            .filter(|&place| !at_most(table[place], f[place]))
            .collect();
        let mut met = match too_high[..] {
            [] if greater_number => vec![GREATER_NUMBER],
            [] => vec![],
            [place] if at_most(f[place], table[place]) => vec![ONE_ABOVE],
            [_] => vec![ONE_OUT_OF_ORDER],
            _ => vec![SEVERAL],
        };
        let last_row = last / self.columns;
        let rows = too_high.iter().map(|place| place / self.columns);
        let all_in = |row: usize| !too_high.is_empty() && rows.clone().all(|other| other == row);
        let alone = [
            (too_high == [0] && last > 0, FIRST_ENTRY),
            (too_high == [last] && last > 0, LAST_ENTRY),
            (all_in(0) && last_row > 0, FIRST_ROW),
            (all_in(last_row) && last_row > 0, LAST_ROW),
            (!too_high.is_empty() && !greater_number, NO_GREATER_NUMBER),
        ];
        met.extend(alone.iter().filter(|(is, _)| *is).map(|(_, name)| *name));
        met
    }
}

/// The name of what came of an origin; nothing where it cannot come.
pub fn outcome(origin: Origin, soundness: Soundness) -> Option<&'static str> {
    let named = |&&(from, is, _): &&_| from == origin && is == soundness;
    OUTCOMES.iter().find(named).map(|(_, _, name)| *name)
}

#[cfg(test)]
mod tests {
    use super::*;
    use crate::lattices;

    fn rounds(lattice: Lattice, columns: usize) -> Rounds {
        Rounds {
            lattice,
            columns,
            tables: Vec::new(),
            settled: false,
        }
    }

    #[test]
    fn places_are_found() {
        let subsets = rounds(lattices::subsets(2, &[0, 1]), 2);
        let first = [ONE_OUT_OF_ORDER, FIRST_ENTRY, FIRST_ROW, NO_GREATER_NUMBER];
        assert_eq!(subsets.places(&[1, 0, 0, 0], &[2, 0, 0, 0]), first);
        let last = [ONE_ABOVE, LAST_ENTRY, LAST_ROW];
        assert_eq!(subsets.places(&[0, 0, 0, 3], &[0, 0, 0, 1]), last);
        assert_eq!(subsets.places(&[3, 0, 3, 0], &[0; 4]), [SEVERAL]);
        assert!(subsets.places(&[0, 1, 2, 3], &[3; 4]).is_empty());
        let reversed = rounds(Lattice::new(2, |i, j| i >= j, |i| 1 - i), 1);
        assert_eq!(reversed.places(&[1], &[0]), [GREATER_NUMBER]);
        assert_eq!(reversed.places(&[0], &[1]), [ONE_ABOVE, NO_GREATER_NUMBER]);
    }

    #[test]
    fn soundness_is_by_the_order() {
        let subsets = rounds(lattices::subsets(2, &[0, 1]), 1);
        assert_eq!(subsets.soundness(&[1, 2], &[1, 2]), Soundness::Tight);
        assert_eq!(
            subsets.soundness(&[0, 2], &[1, 3]),
            Soundness::SoundNotTight
        );
        assert_eq!(subsets.soundness(&[1, 2], &[2, 2]), Soundness::TooHigh);
        assert_eq!(outcome(Origin::Greatest, Soundness::TooHigh), None);
        assert_eq!(outcome(Origin::Met, Soundness::TooHigh), None);
    }
}
