//! Working rounds on a desk: round by round, up to the settled one, and what each entry was in every round.

use crate::progress::Progress;
use koelchair::{Desk, StepAnswer};

/// Works the rest of the round, in one call of the library. The one place where this tool moves a desk.
pub fn finish_round(desk: &mut Desk) -> StepAnswer {
    desk.finish_round()
}

/// Works rounds until the desk is settled, and gives T. Before each round and after the last, `seen` gets the desk.
pub fn each_round(desk: &mut Desk, mut seen: impl FnMut(&Desk)) -> u32 {
    let mut progress = Progress::new("round");
    loop {
        seen(desk);
        if let StepAnswer::Settled { round, .. } = finish_round(desk) {
            seen(desk);
            return round;
        }
        progress.at(desk.standing().round);
    }
}

/// Works rounds until the desk is settled, and gives T.
pub fn settle(desk: &mut Desk) -> u32 {
    each_round(desk, |_| {})
}

/// What each entry was in every round, by the rounds in which it changed.
pub struct History {
    changes: Vec<Vec<(u32, u8)>>,
    /// T.
    pub rounds: u32,
}

impl History {
    /// Works the rounds of a desk at round 0 until it is settled.
    pub fn of(desk: &mut Desk) -> History {
        let mut changes: Vec<Vec<(u32, u8)>> = vec![Vec::new(); desk.show().len()];
        let rounds = each_round(desk, |desk| {
            let round = desk.standing().round;
            for (entry, changes) in desk.show().iter().zip(&mut changes) {
                if changes.last().map(|(_, last)| last) != Some(entry) {
                    changes.push((round, *entry));
                }
            }
        });
        History { changes, rounds }
    }

    /// An entry in a round.
    pub fn at(&self, place: usize, round: u32) -> u8 {
        let changes = &self.changes[place];
        let later = changes.partition_point(|(r, _)| *r <= round);
        changes[later - 1].1
    }

    /// The elements that an entry is in one round after another, each once.
    pub fn elements(&self, place: usize) -> impl Iterator<Item = u8> + '_ {
        self.changes[place].iter().map(|(_, e)| *e)
    }

    /// The settled entry.
    pub fn settled(&self, place: usize) -> u8 {
        self.at(place, self.rounds)
    }

    /// The first round in which an entry has some quality.
    pub fn first(&self, place: usize, quality: impl Fn(u8) -> bool) -> Option<u32> {
        let mut changes = self.changes[place].iter();
        changes.find(|(_, e)| quality(*e)).map(|(r, _)| *r)
    }
}
