//! What demand 3 says of a desk that nothing but calls wrote since its last accepted open, worked from its sentences: the round r and its
//! table, the next row, whether the desk is settled, the lowerings (request 107), and what the last accepted step answered. Rests on calls,
//! desks and lattices.

use crate::calls::{self, Call};
use crate::desks::Desk;
use koelchair::Standing;
use second::Reply;

/// What is promised after a list of calls.
#[derive(Clone, Debug)]
pub struct Promised {
    /// N1 and N2.
    states: [u8; 2],
    /// s, the accepted steps since the open, up to T·N1.
    steps: u32,
    /// The table of round r.
    table: Vec<u8>,
    /// r = T.
    settled: bool,
    /// Over rounds 1 to r, the entries that differ from the round before.
    lowerings: u32,
    /// N1·N2·(h − 1), h being the elements of the longest chain.
    most: u32,
}

impl Promised {
    /// Of a desk that has just been opened.
    pub fn opened(desk: &Desk) -> Promised {
        let Standing {
            states1, states2, ..
        } = desk.standing;
        let lattice = desk.lattice();
        let entries = usize::from(states1) * usize::from(states2);
        Promised {
            states: [states1, states2],
            steps: 0,
            table: vec![lattice.top(); entries],
            settled: false,
            lowerings: 0,
            most: (entries * (lattice.height() - 1)) as u32,
        }
    }

    /// The most lowerings that the rounds of the case may have.
    pub fn most(&self) -> u32 {
        self.most
    }

    /// After a call that was answered so, and left the desk so: what is wrong with them, in words.
    pub fn after(&mut self, call: &Call, reply: &Reply, desk: &Desk) -> Result<(), String> {
        let expected = match call {
            Call::Step => Some(self.step(desk)),
            Call::FinishRound => Some(self.finish_round(desk)),
            _ => None,
        };
        let refused = matches!(
            reply,
            Reply::Refused {
                number: 11 | 12,
                ..
            }
        );
        if refused || expected.as_ref().is_some_and(|expected| reply != expected) {
            return Err(format!("answers {reply:?}, by demand 3 {expected:?}"));
        }
        let holds = self.standing(desk) == desk.standing
            && desk.whole().starts_with(&self.table)
            && self.lowerings <= self.most;
        match holds {
            true => Ok(()),
            false => Err(format!("leaves {:?}, by demand 3 {self:?}", desk.standing)),
        }
    }

    /// r: s divided by N1, rounded down.
    fn round(&self) -> u32 {
        self.steps / u32::from(self.states[0])
    }

    /// The standing by the sentences. Whether this round has changed anything yet, and which table is whole, is not promised.
    fn standing(&self, desk: &Desk) -> Standing {
        let [states1, states2] = self.states;
        Standing {
            states1,
            states2,
            round: self.round(),
            row: (self.steps % u32::from(states1)) as u8,
            settled: self.settled,
            lowerings: self.lowerings,
            ..desk.standing
        }
    }

    /// One more accepted step, and its answer.
    fn step(&mut self, desk: &Desk) -> Reply {
        if !self.settled {
            self.steps += 1;
            if self.steps.is_multiple_of(self.states[0].into()) {
                self.next_round(desk);
            }
        }
        let (round, lowerings) = (self.round(), self.lowerings);
        match self.steps % u32::from(self.states[0]) {
            _ if self.settled => Reply::Settled { round, lowerings },
            0 => Reply::Round { round, lowerings },
            _ => Reply::Row { lowerings },
        }
    }

    /// As many steps as the round has rows left, and the answer of the last.
    fn finish_round(&mut self, desk: &Desk) -> Reply {
        loop {
            let reply = self.step(desk);
            if !matches!(reply, Reply::Row { .. }) {
                return reply;
            }
        }
    }

    /// The table of the next round is F of this one, worked afresh and not by rows.
    fn next_round(&mut self, desk: &Desk) {
        let next = calls::f_of(desk, &self.table).expect("a desk within the rules");
        let entries = self.table.iter().zip(&next);
        self.lowerings += entries.filter(|(entry, next)| entry != next).count() as u32;
        self.settled = next == self.table;
        self.table = next;
    }
}

#[cfg(test)]
mod tests {
    use super::*;
    use crate::{cases, desks};

    /// 0 below 1, two states that lead nowhere against one: p differs at the last, which round 1 lowers.
    fn opened() -> Desk {
        let lattice = vec![2, 1, 0, 1, 1, 0, 1];
        let models = [vec![2, 1, 1, 1, 1, 0, 0, 0, 0, 0], vec![1, 1, 1, 1, 0]];
        let [model1, model2] = models;
        let mut desk = desks::zeroed();
        let case = cases::gapless(&[lattice, model1, model2]);
        assert_eq!(calls::proved(&mut desk, &Call::Open(case)), Reply::Opened);
        desk
    }

    fn round(round: u32, lowerings: u32) -> Reply {
        Reply::Round { round, lowerings }
    }

    /// The first round's answer and desk are held against the promise, with the desk altered in one thing.
    fn after_a_round(reply: Reply, alter: fn(&mut Desk)) -> Result<(), String> {
        let mut desk = opened();
        let mut promised = Promised::opened(&desk);
        assert_eq!(calls::proved(&mut desk, &Call::FinishRound), round(1, 1));
        alter(&mut desk);
        promised.after(&Call::FinishRound, &reply, &desk)
    }

    #[test]
    fn what_is_not_as_promised_is_seen() {
        assert_eq!(after_a_round(round(1, 1), |_| ()), Ok(()));
        for reply in [
            round(1, 0),
            round(2, 1),
            Reply::Row { lowerings: 1 },
            Reply::Settled {
                round: 1,
                lowerings: 1,
            },
            Reply::Refused {
                number: 12,
                part: 255,
            },
        ] {
            assert!(after_a_round(reply, |_| ()).is_err());
        }
        let alterations: [fn(&mut Desk); 5] = [
            |desk| desk.standing.lowerings = 2,
            |desk| desk.standing.round = 2,
            |desk| desk.standing.row = 1,
            |desk| desk.standing.settled = true,
            |desk| desk.second[0] = 0,
        ];
        for alter in alterations {
            assert!(after_a_round(round(1, 1), alter).is_err());
        }
    }

    #[test]
    fn up_to_t() {
        let mut desk = opened();
        let mut promised = Promised::opened(&desk);
        for _ in 0..5 {
            let reply = calls::proved(&mut desk, &Call::Step);
            assert_eq!(promised.after(&Call::Step, &reply, &desk), Ok(()));
        }
        assert!(desk.standing.settled);
        let refused = Reply::Refused {
            number: 12,
            part: 255,
        };
        assert!(promised.after(&Call::Score, &refused, &desk).is_err());
    }
}
