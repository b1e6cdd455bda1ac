//! The standing of a desk, and the limits that number 12 asks of it. Rests on `case` and `rounds` for the sizes.

use crate::case::Content;
use crate::rounds;

/// "a standing (sizes, round, next row, whether this round has changed anything yet, settled, which table is whole)"; request 107: "The
/// standing gains a 32-bit count of lowerings".
#[derive(Clone, Copy, Debug, Default, PartialEq, Eq)]
pub struct Standing {
    /// N1, the states of model 1.
    pub states1: u8,
    /// N2, the states of model 2.
    pub states2: u8,
    /// The round of the whole table.
    pub round: u32,
    /// The next row to work.
    pub row: u8,
    /// Whether the round being worked has changed anything yet.
    pub changed: bool,
    /// Whether the last round equalled the one before.
    pub settled: bool,
    /// Whether the second table is the whole one.
    pub second_whole: bool,
    /// "the entries that differ from the round before, summed over the whole rounds shown".
    pub lowerings: u32,
}

impl Standing {
    /// Whether the rules of number 12 for the row, the round and the lowerings hold.
    pub(crate) fn is_within_limits(&self, content: &Content) -> bool {
        let most = (rounds::entries(content) * (content.lattice.size() - 1)) as u64;
        self.place_holds(most) && self.lowerings_hold(most)
    }

    /// "at next row 0 nothing has changed yet. Unsettled, the round is at most N1·N2·(n − 1); settled, it is 1 to N1·N2·(n − 1) + 1 and
    /// next row is 0."
    fn place_holds(&self, most: u64) -> bool {
        let round = u64::from(self.round);
        if self.row == 0 && self.changed {
            return false;
        }
        if self.settled {
            (1..=most + 1).contains(&round) && self.row == 0
        } else {
            round <= most
        }
    }

    /// "It is at most N1·N2·(h − 1)"; "The standing's limits in refusal 12 include this bound with h replaced by n."
    fn lowerings_hold(&self, most: u64) -> bool {
        u64::from(self.lowerings) <= most
    }
}
