//! The count of lowerings (request 107): what is counted of a call that was made with such a count, or led to it. Rests on calls, desks
//! and promised.

use crate::calls::Call;
use crate::desks::Desk;
use crate::promised::Promised;
use koelchair::{DeskRef, Standing};
use second::Reply;

const ROW: &str = "lowerings, Row with a count above 0";
const SETTLED_NONE: &str = "lowerings, settled with a count of 0";
const SETTLED_SOME: &str = "lowerings, settled with a count above 0";
const OVER_ENTRIES: &str = "lowerings, settled with a count above N1·N2";
const MOST: &str = "lowerings, settled with a count of N1·N2·(h − 1)";
const SETTLED_AGAIN: &str = "lowerings, settled desk stepped again with a count above 0";
const OPENED: &str = "lowerings, opened with a count above 0 before";
const OPEN_REFUSED: &str = "lowerings, open refused with a count above 0";
const AT_ROUND_0: &str = "lowerings, accepted at round 0 with a count above 0";
const ABOVE_H: &str = "lowerings, accepted with a count above N1·N2·(h − 1)";
const AT_LIMIT: &str = "lowerings, accepted with a count at its limit";
const SETTLED_AT_LIMIT: &str = "lowerings, accepted on a settled desk with a count at its limit";
const SKIPPED: &str = "lowerings, Round that counts rows which were skipped";
const SETTLED_RISEN: &str = "lowerings, Settled with a risen count";
const ROUND_NOT_RISEN: &str = "lowerings, Round with the count as it was";
const OVER_16_BITS: &str = "lowerings, round ended with a count above 65,535";
const OVER_BY_ROUND: &str = "lowerings, over the limit by Round";
const OVER_BY_SETTLED: &str = "lowerings, over the limit by Settled";
const REFUSED_ONE_OVER: &str = "lowerings, refused with 12 for a count one over its limit";
const REFUSED_FAR_OVER: &str = "lowerings, refused with 12 for a count far over its limit";
const REFUSED_SETTLED: &str = "lowerings, settled desk refused with 12 for its count";
const REFUSED_ONE_ELEMENT: &str = "lowerings, refused with 12 for a count over one element";

/// All that is counted.
pub const NAMES: [&str; 22] = [
    ROW,
    SETTLED_NONE,
    SETTLED_SOME,
    OVER_ENTRIES,
    MOST,
    SETTLED_AGAIN,
    OPENED,
    OPEN_REFUSED,
    AT_ROUND_0,
    ABOVE_H,
    AT_LIMIT,
    SETTLED_AT_LIMIT,
    SKIPPED,
    SETTLED_RISEN,
    ROUND_NOT_RISEN,
    OVER_16_BITS,
    OVER_BY_ROUND,
    OVER_BY_SETTLED,
    REFUSED_ONE_OVER,
    REFUSED_FAR_OVER,
    REFUSED_SETTLED,
    REFUSED_ONE_ELEMENT,
];

/// A call that was made of a desk with a standing, the answer, and the desk after it.
pub struct Made<'a> {
    pub call: &'a Call,
    pub reply: &'a Reply,
    pub before: &'a Standing,
    pub after: &'a Desk,
    /// What demand 3 promises of the desk; nothing where it was altered from outside.
    pub promised: Option<&'a Promised>,
}

impl Made<'_> {
    /// What is counted of it.
    pub fn met(&self) -> Vec<&'static str> {
        let kinds = match self.reply {
            Reply::Opened => vec![(self.before.lowerings > 0, OPENED)],
            Reply::Refused { .. } if matches!(self.call, Call::Open(_)) => {
                vec![(self.before.lowerings > 0, OPEN_REFUSED)]
            }
            Reply::Refused { number: 12, .. } => self.refused(),
            Reply::Shown(bytes) if bytes.is_empty() => self.refused(),
            Reply::Refused { .. } => vec![],
            _ if self.promised.is_some() => self.of_calls(),
            _ => [self.accepted(), self.ended()].concat(),
        };
        let met = kinds.into_iter().filter(|(is, _)| *is);
        met.map(|(_, name)| name).collect()
    }

    fn settles(&self) -> bool {
        self.after.standing.settled && !self.before.settled
    }

    /// On a desk that nothing but calls wrote.
    fn of_calls(&self) -> Vec<(bool, &'static str)> {
        let lowerings = self.after.standing.lowerings;
        let most = self.promised.map_or(0, Promised::most);
        let row = matches!(self.reply, Reply::Row { .. });
        let again = matches!(self.reply, Reply::Settled { .. }) && self.before.settled;
        vec![
            (row && lowerings > 0, ROW),
            (self.settles() && lowerings == 0, SETTLED_NONE),
            (self.settles() && lowerings > 0, SETTLED_SOME),
            (
                self.settles() && lowerings > entries(self.after),
                OVER_ENTRIES,
            ),
            (self.settles() && lowerings > 0 && lowerings == most, MOST),
            (again && lowerings > 0, SETTLED_AGAIN),
        ]
    }

    /// On an altered desk: the count that the call was made with.
    fn accepted(&self) -> Vec<(bool, &'static str)> {
        let Standing {
            lowerings,
            round,
            settled,
            ..
        } = *self.before;
        let at_limit = lowerings > 0 && lowerings == limit(self.after);
        let most = || entries(self.after) * (self.after.lattice().height() - 1) as u32;
        vec![
            (lowerings > 0 && round == 0, AT_ROUND_0),
            (lowerings > 0 && lowerings > most(), ABOVE_H),
            (at_limit && !settled, AT_LIMIT),
            (at_limit && settled, SETTLED_AT_LIMIT),
        ]
    }

    /// On an altered desk whose round the call has ended: how the count has moved. By the standing nothing had changed where `changed` is
    /// not set, so that rows before the next one that differ were not worked in this round.
    fn ended(&self) -> Vec<(bool, &'static str)> {
        let (old, new) = (self.before.lowerings, self.after.standing.lowerings);
        let round = matches!(self.reply, Reply::Round { .. });
        let over = self.before.lowerings <= limit(self.after) && new > limit(self.after);
        let worked = usize::from(self.before.row) * usize::from(self.before.states2);
        let skipped =
            !self.before.changed && self.after.first[..worked] != self.after.second[..worked];
        vec![
            (round && skipped, SKIPPED),
            (self.settles() && new > old, SETTLED_RISEN),
            (round && new == old, ROUND_NOT_RISEN),
            (round && new > 65_535, OVER_16_BITS),
            (round && over, OVER_BY_ROUND),
            (self.settles() && over, OVER_BY_SETTLED),
        ]
    }

    /// On a desk that is refused with 12: whether it is so for its count alone.
    fn refused(&self) -> Vec<(bool, &'static str)> {
        let desk = self.after;
        let without_count = DeskRef {
            standing: Standing {
                lowerings: 0,
                ..desk.standing
            },
            ..desk.lent()
        };
        if desk.standing.lowerings == 0 || without_count.show().is_empty() {
            return vec![];
        }
        let over = desk.standing.lowerings - limit(desk);
        vec![
            (over == 1, REFUSED_ONE_OVER),
            (over > 1, REFUSED_FAR_OVER),
            (desk.standing.settled, REFUSED_SETTLED),
            (limit(desk) == 0, REFUSED_ONE_ELEMENT),
        ]
    }
}

/// N1·N2.
fn entries(desk: &Desk) -> u32 {
    u32::from(desk.standing.states1) * u32::from(desk.standing.states2)
}

/// N1·N2·(n − 1), the greatest count that refusal 12 lets pass.
fn limit(desk: &Desk) -> u32 {
    entries(desk) * (desk.elements() - 1) as u32
}

#[cfg(test)]
mod tests {
    use super::*;
    use crate::{calls, cases, desks, lattices};

    /// The subsets of two things, models of two states and of one that lead nowhere, p top in the one and `labels` in the two. h is 3, and the
    /// limit 2 · (4 − 1).
    fn opened(labels: [u8; 2]) -> Desk {
        let lattice = lattices::subsets(2, &[0, 1]).part();
        let model1 = [&[2, 1, 3, 3][..], &labels, &[0; 4]].concat();
        let mut desk = desks::zeroed();
        let case = cases::gapless(&[lattice, model1, vec![1, 1, 3, 3, 0]]);
        assert_eq!(calls::proved(&mut desk, &Call::Open(case)), Reply::Opened);
        desk
    }

    /// What is counted of a call on an altered desk.
    fn met(desk: &mut Desk, call: Call) -> Vec<&'static str> {
        let before = desk.standing;
        let reply = calls::proved(desk, &call);
        let made = Made {
            call: &call,
            reply: &reply,
            before: &before,
            after: desk,
            promised: None,
        };
        made.met()
    }

    #[test]
    fn what_is_counted_of_altered_desks() {
        let mut skipped = opened([3, 3]);
        skipped.standing.row = 1;
        skipped.second[0] = 0;
        assert_eq!(met(&mut skipped, Call::Step), [SETTLED_RISEN]);
        let mut skipped = opened([3, 0]);
        skipped.standing.row = 1;
        skipped.second[0] = 0;
        assert_eq!(met(&mut skipped, Call::Step), [SKIPPED]);
        let mut equal = opened([3, 3]);
        (equal.standing.row, equal.standing.changed) = (1, true);
        assert_eq!(met(&mut equal, Call::Step), [ROUND_NOT_RISEN]);
        let mut at_limit = opened([0, 0]);
        at_limit.standing.lowerings = 6;
        let accepted = [AT_ROUND_0, ABOVE_H, AT_LIMIT];
        assert_eq!(met(&mut at_limit, Call::Score), accepted);
        let over = [&accepted[..], &[OVER_BY_ROUND]].concat();
        assert_eq!(met(&mut at_limit, Call::FinishRound), over);
        assert_eq!(met(&mut at_limit, Call::Show), [REFUSED_FAR_OVER]);
        at_limit.standing.lowerings = 7;
        assert_eq!(met(&mut at_limit, Call::Score), [REFUSED_ONE_OVER]);
        assert_eq!(met(&mut at_limit, Call::Open(vec![])), [OPEN_REFUSED]);
        at_limit.standing.row = 2;
        assert!(met(&mut at_limit, Call::Score).is_empty());
    }

    #[test]
    fn what_is_counted_after_calls_alone() {
        let mut desk = opened([0, 0]);
        let mut promised = Promised::opened(&desk);
        let mut counted = |call: Call| {
            let before = desk.standing;
            let reply = calls::proved(&mut desk, &call);
            assert_eq!(promised.after(&call, &reply, &desk), Ok(()));
            let made = Made {
                call: &call,
                reply: &reply,
                before: &before,
                after: &desk,
                promised: Some(&promised),
            };
            made.met()
        };
        assert!(counted(Call::Step).is_empty());
        assert!(counted(Call::Step).is_empty());
        assert_eq!(counted(Call::Step), [ROW]);
        assert_eq!(counted(Call::Step), [SETTLED_SOME]);
        assert_eq!(counted(Call::Step), [SETTLED_AGAIN]);
    }
}
